#!/usr/bin/env python3
"""Prints crates/driver/stdin, requests readable and not, or crates/driver/stdout, the lines in answer by a second implementation: the
project's own share of the vectors. Those of the checkers are in tests/cases.py, those of the server's calls in tests/server_cases.py.

    python3 tests/driver_sample.py stdin > crates/driver/stdin
    python3 tests/driver_sample.py stdout > crates/driver/stdout
"""
import hashlib
import sys

sys.dont_write_bytecode = True
import cases
import server_cases
from driver import CALLS, be, call_request, request
from plain_driver import first_difference, history_paths


def sha256_case(data):
    return request(1, [data]), hashlib.sha256(data).hexdigest()


def first_difference_case(a, b):
    return request(2, [a, b]), str(first_difference(a, b))


def history_paths_case(n, epoch):
    return request(3, [be(2, n), be(4, epoch)]), str(history_paths(n, epoch))


def bad(bytes_):
    return bytes_, "bad"


zero = bytes(32)
CASES = [
    sha256_case(b""),
    sha256_case(b"abc"),
    sha256_case(bytes(range(256)) * 17),
    first_difference_case(zero, zero),
    first_difference_case(zero, bytes(31) + b"\x01"),
    first_difference_case(zero, b"\x01" + bytes(31)),
    first_difference_case(zero, b"\x80" + bytes(31)),
    first_difference_case(b"", zero),
    first_difference_case(bytes(7), zero),
    first_difference_case(bytes(64), bytes(63) + b"\x01"),
    history_paths_case(0, 0),
    history_paths_case(0, 2**32 - 1),
    history_paths_case(1, 0),
    history_paths_case(5, 5),
    history_paths_case(1023, 5000),
    history_paths_case(1024, 5000),
    history_paths_case(65535, 2**32 - 1),
    # no call has the number 0, and none 200
    bad(request(0, [])),
    bad(request(200, [b"abc"])),
    # a field too few, a field too many, a field cut short, and a length cut short
    bad(request(1, [])),
    bad(request(2, [zero])),
    bad(request(1, [b"abc", b""])),
    bad(be(4, 8) + be(1, 1) + be(4, 4) + b"abc"),
    bad(be(4, 4) + be(1, 1) + bytes(3)),
    # fields that their buffers can't hold, one with much to skip
    bad(request(2, [bytes(65), zero])),
    bad(request(2, [zero, bytes(10_000)])),
    # numbers of another width
    bad(request(3, [be(1, 5), be(4, 5)])),
    bad(request(3, [be(2, 5), be(5, 5)])),
    # nothing, not even a call's number
    bad(be(4, 0)),
    # a head that its buffer can't hold
    bad(request(4, [bytes(257), b"ada", b""])),
    # what comes after an unreadable request is answered
    sha256_case(b"abc"),
]
CASES += [(call_request(call, values), line) for call, values, line in cases.cases()]
# a field too few, a field too many, and numbers of another width
UNREADABLE = [
    ("tree_root", []),
    ("tree_root", [b"", b""]),
    ("tree_path", [b"", zero]),
    ("tree_path", [b"", zero, be(1, 1)]),
    ("tree_path", [b"", zero, be(4, 1)]),
    ("tree_path", [b"", zero, be(2, 1), b""]),
    ("start", []),
    ("start", [zero, b""]),
    ("publish", [b"", zero + zero, be(4, 0), be(4, 0)]),
    ("publish", [b"", zero + zero, be(2, 0), be(4, 0), b""]),
    ("publish", [b"", zero + zero, be(4, 0), be(8, 0), b""]),
    ("publish", [b"", zero + zero, be(4, 0), be(4, 0), b"", b""]),
    ("write_lookup", [b"", zero, be(4, 0), be(4, 0), b"ada", be(4, 0)]),
    ("write_lookup", [b"", zero, be(4, 0), be(4, 0), b"ada", be(4, 0), be(2, 9)]),
    ("write_lookup", [b"", zero, be(4, 0), be(4, 0), be(4, 0), be(4, 1000)]),
    ("write_history", [b"", zero, be(4, 0), be(4, 0), b"ada", be(8, 0), be(4, 9)]),
    ("write_history", [b"", zero, be(4, 0), be(4, 0), b"ada", be(4, 0), be(4, 9), b""]),
    ("write_audit", [b"", zero, be(4, 0), be(4, 0), be(4, 0)]),
    ("write_audit", [b"", zero, be(4, 0), be(4, 0), b"ada", be(4, 0), be(4, 9)]),
]
CASES += [bad(request(CALLS[call][0], fields)) for call, fields in UNREADABLE]
CASES += [(call_request(call, values), line) for call, values, line in server_cases.cases()]
# the input ends within a request
CASES.append(bad(request(1, [b"abc"])[:-1]))

if sys.argv[1:] == ["stdin"]:
    sys.stdout.buffer.write(b"".join(given for given, _ in CASES))
elif sys.argv[1:] == ["stdout"]:
    print("\n".join(line for _, line in CASES))
else:
    sys.exit(__doc__)

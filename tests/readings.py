#!/usr/bin/env python3
"""Puts requests that are readable and not through the driver, for each call: fields at the length that docs/DRIVER.md gives them and one byte
over, numbers of other widths, requests cut at each place and with bytes behind, lengths that lie, and an input that ends at each place, or
comes in pieces. The lines are held to those of tests/plain_driver.py: no contract can say which bytes the driver reads.
"""
import sys

sys.dont_write_bytecode = True
import driver
import plain_driver
import runs
from driver import BYTES, CALLS, be, request

FINE = request(1, [b"abc"])  # what comes behind an unreadable request is answered


def small(call):
    """A short readable request's fields."""
    return [bytes([97 + i]) * 2 if kind == BYTES else be(kind, 1) for i, kind in enumerate(CALLS[call][1])]


def sized(body):
    return be(4, len(body)) + body


def with_field(call, i, field):
    fields = small(call)
    return request(CALLS[call][0], fields[:i] + [field] + fields[i + 1 :])


def lengths(call):
    """Each field of bytes at its bound and one byte over, empty, and each number of other widths."""
    most = iter(plain_driver.MOST[call])
    for i, kind in enumerate(CALLS[call][1]):
        bound = next(most) if kind == BYTES else kind
        for n in (0, bound, bound + 1) if kind == BYTES else (0, kind - 1, kind + 1, 8):
            yield with_field(call, i, bytes([i + 1]) * n)


def cut(call):
    """A request that ends at each place, and with bytes or fields behind."""
    body = request(CALLS[call][0], small(call))[4:]
    for n in range(len(body)):
        yield sized(body[:n])
    for n in range(1, 10):
        yield sized(body + bytes(n))
    yield sized(body + request(0, [b"ab"])[5:])


def lying(call):
    """Each field's length as one more or one less than it is, and as the largest; and a call's number with another's fields."""
    body, at = request(CALLS[call][0], small(call))[4:], 1
    for field in small(call):
        for n in (len(field) + 1, len(field) - 1, 2**32 - 1):
            yield sized(body[:at] + be(4, n) + body[at + 4 :])
        at += 4 + len(field)
    for number in range(17):
        yield sized(be(1, number) + body[1:])


def streams():
    """Inputs, each for a run of its own."""
    for call in CALLS:
        yield b"".join(x + FINE for group in (lengths, cut, lying) for x in group(call))
    yield b"".join(request(number, []) + FINE for number in range(256))
    for call in CALLS:
        whole = request(CALLS[call][0], small(call))
        for n in range(len(whole)):
            yield FINE + whole[:n]
    for size in (1, 2**31, 2**32 - 1):
        yield FINE + be(4, size)
        yield FINE + be(4, size) + b"\1" + be(4, size - 5 if size > 5 else 0) + b"abc"
    yield b""


def wrong(seen, expected):
    """What is wrong with what is seen of a run that has to write these lines, if anything is."""
    status, out, err = seen
    got = out.decode(errors="replace").split("\n")[:-1]
    if (status, err) != (0, b""):
        return f"status {status}, {err[:80]}"
    if len(got) != len(expected):
        return f"{len(expected)} lines are expected, and there are {len(got)}"
    return next((f"{x[:80]} is expected, and there is {y[:80]}" for x, y in zip(expected, got) if x != y), None)


def main():
    words, given = driver.command(), list(streams())
    seen = [(data, runs.piped(words, data)) for data in given]
    calls = b"".join(request(CALLS[call][0], small(call)) for call in CALLS)
    seen.append((calls, runs.in_pieces(words, [calls[i : i + 3] for i in range(0, len(calls), 3)])))
    lines = [list(plain_driver.lines(data)) for data, _ in seen]
    found = [(data, x) for (data, run), expected in zip(seen, lines) if (x := wrong(run, expected))]
    for data, x in found[:10]:
        print(f"an input of {len(data)} bytes: {x}")
    total, bad = sum(map(len, lines)), sum(x.count("bad") for x in lines)
    print(f"the driver's readings: {len(seen)} inputs with {total} requests, of which {bad} can't be read; {len(found)} inputs answered wrong")
    sys.exit(0 if not found and 0 < bad < total else 1)


main()

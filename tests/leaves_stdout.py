#!/usr/bin/env python3
"""Prints crates/leaves_run/stdout: the lines of leaves_run, from document 01's text, with hashlib and struct.

    python3 tests/leaves_stdout.py > crates/leaves_run/stdout
"""
import hashlib
import struct

NAME = b"!0123456789abcdefghijklmnopqrstuvwxyz@example.org/NOONHAGGLE(x)~"


def show(word, value):
    print(word, value.hex() if isinstance(value, bytes) else value)


def digest(size, *parts):
    """The digest of a string of the size that document 01 gives it."""
    string = b"".join(parts)
    assert len(string) == size
    return hashlib.sha256(string).digest()


def sample(part, n):
    return bytes((37 * part + 11 * n + 7 * i) % 256 for i in range(32))


EPOCHS = [0, 1, 2, 2**8 - 1, 2**8, 2**16 - 1, 2**16, 2**24 - 1, 2**24, 2**31 - 1, 2**31, 2**32 - 1]
for n, e in enumerate(EPOCHS):
    one, two, three = (sample(part, n) for part in (1, 2, 3))
    show("leaf", digest(69, b"\x00", one, two, struct.pack(">I", e)))
    show("head", digest(101, b"\x03", struct.pack(">I", e), one, two, three))
    written = struct.pack(">BIBHB", 0xEE, e, 0xEE, e % 2**16, 0xEE)
    show("written", written)
    for form, at in ((">I", 1), (">I", 4), (">H", 0), (">H", 6)):
        show("read32" if form == ">I" else "read16", struct.unpack_from(form, written, at)[0])

show("nothing", digest(1, b"\x02"))
for n, length in enumerate([0, 1, 7, 8, 127, 128, 254, 255, 256, 257, 2**15, 2**16 - 1]):
    prefix, below, sibling = (sample(part, n) for part in (1, 2, 3))
    node = {bit: digest(99, b"\x01", struct.pack(">H", length), prefix, *sides)
            for bit, sides in ((0, (below, sibling)), (1, (sibling, below)))}
    show("inner", node[0])
    show("below 0", node[0])
    show("below 1", node[1])

VERSION, MARKER = 1, 2
LABELS = [(VERSION, 1, 1), (VERSION, 1, 64), (VERSION, 2, 51), (VERSION, 255, 52), (VERSION, 256, 59), (VERSION, 1023, 60),
          (VERSION, 1023, 64), (MARKER, 0, 1), (MARKER, 0, 64), (MARKER, 1, 2), (MARKER, 9, 63), (MARKER, 9, 64)]
assert len(NAME) == 64 and all(0x21 <= b <= 0x7E for b in NAME)
for kind, number, length in LABELS:
    show("label", digest(4 + length, b"\x04", struct.pack(">BH", kind, number), NAME[:length]))

KEY = sample(4, 1) + sample(5, 1)
for length in [1, 2, 16, 22, 23, 30, 31, 32, 33, 62, 63, 64]:
    show("commitment", digest(33 + length, b"\x05", sample(6, 1), KEY[:length]))

for at, start in [(0, 0), (1, 0), (31, 32), (32, 17)]:
    copy = (b"\xee" * at + sample(7, 1)).ljust(64, b"\xee")
    show("put", copy)
    show("digest_at", copy[start:start + 32])

PAIRS = [(b"", b""), (b"", b"a"), (b"a", b""), (b"a", b"a"), (b"a", b"b"), (b"ab", b"a"), (b"ab", b"aa"), (b"ab", b"bb"),
         (b"\0", b"\0\0"), (b"\0\0", b"\0\1"), (b"\0\1", b"\0\1"), (b"\1\0", b"\0\0")]
for a, b in PAIRS:
    show("same", int(a == b))
    show("all_zero", int(not any(a)))

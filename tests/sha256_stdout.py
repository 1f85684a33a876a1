#!/usr/bin/env python3
"""Prints crates/sha256_run/stdout: the lines of sha256_run, by Python's hashlib, a second SHA-256.

    python3 tests/sha256_stdout.py > crates/sha256_run/stdout

The examples stand with the first digits that NIST published for them, and hashlib is held to those too.
"""
import hashlib

EXAMPLES = [
    (b"abc", "ba7816bf8f01cfea"),
    (b"", "e3b0c44298fc1c14"),
    (b"abcdbcdecdefdefgefghfghighijhijkijkljklmklmnlmnomnopnopq", "248d6a61d20638b8"),
    (b"abcdefghbcdefghicdefghijdefghijkefghijklfghijklmghijklmn"
     b"hijklmnoijklmnopjklmnopqklmnopqrlmnopqrsmnopqrstnopqrstu", "cf5b16a778af8380"),
    (bytes.fromhex("bd"), "68325720aabd7c82"),
    (bytes.fromhex("c98c8e55"), "7abc22c0ae5af26c"),
    (bytes.fromhex("d3"), "28969cdfa74a12c8"),
    (bytes.fromhex("11af"), "5ca7133fa7353260"),
    (bytes.fromhex("b4190e"), "dff2e73091f6c05e"),
    (bytes.fromhex("74ba2521"), "b16aa56be3880d18"),
    (bytes.fromhex("c299209682"), "f0887fe961c9cd3b"),
    (bytes.fromhex("e1dc724d5621"), "eca0a060b4896362"),
    (bytes.fromhex("06e076f5a442d5"), "3fd877e27450e6bb"),
    (bytes.fromhex("5738c929c4f4ccb6"), "963bb88f27f51277"),
    (bytes(55), "02779466cdec1638"),
    (bytes(56), "d4817aa5497628e7"),
    (bytes(57), "65a16cb7861335d5"),
    (bytes(64), "f5a5fd42d16a2030"),
    (bytes(1000), "541b3e9daa09b20b"),
    (b"A" * 1000, "c2e686823489ced2"),
    (b"U" * 1005, "f4d62ddec0f3dd90"),
    (b"a" * 1_000_000, "cdc76e5c9914fb92"),
]

for message, published in EXAMPLES:
    digest = hashlib.sha256(message).hexdigest()
    assert digest.startswith(published), message[:64]
    print(digest)

for n in range(301):
    print(hashlib.sha256(bytes((7 * i + n) % 256 for i in range(n))).hexdigest())

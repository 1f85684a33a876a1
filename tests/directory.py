#!/usr/bin/env python3
"""A directory after document 01, in plain Python over hashlib, written from the document alone.

It publishes, and writes lookup, history and audit proofs. crates/worked_arrow is made with it (tests/worked_promise.py).
"""
import hashlib
from os.path import commonprefix


def sha(b):
    return hashlib.sha256(b).digest()


def be(n, x):
    return x.to_bytes(n, "big")


ZERO = bytes(32)


def is_name(b):
    return 1 <= len(b) <= 64 and all(0x21 <= x <= 0x7E for x in b)


def label(kind, number, name):
    return sha(b"\x04" + be(1, kind) + be(2, number) + name)


def bits(b):
    return "".join(f"{x:08b}" for x in b)


def pack(p):
    return int(p.ljust(256, "0"), 2).to_bytes(32, "big")


class Tree:
    """The tree over leaves (label, commitment, epoch)."""

    def __init__(self, leaves):
        self.root = self.inner("", [(bits(x[0]), x) for x in leaves])

    def inner(self, prefix, leaves):
        n = len(prefix)
        left = self.below([x for x in leaves if x[0][n] == "0"])
        right = self.below([x for x in leaves if x[0][n] == "1"])
        string = b"\x01" + be(2, n) + pack(prefix) + left["digest"] + right["digest"]
        return {"kind": "inner", "prefix": prefix, "left": left, "right": right, "digest": sha(string)}

    def below(self, leaves):
        if not leaves:
            return {"kind": "nothing", "digest": sha(b"\x02")}
        if len(leaves) == 1:
            m, c, e = leaves[0][1]
            return {"kind": "leaf", "leaf": leaves[0][1], "digest": sha(b"\x00" + m + c + be(4, e))}
        return self.inner(commonprefix([b for b, _ in leaves]), leaves)

    def path(self, m):
        steps, node, mine = [], self.root, bits(m)
        while node["kind"] == "inner" and mine.startswith(node["prefix"]):
            n = len(node["prefix"])
            down, aside = ("left", "right") if mine[n] == "0" else ("right", "left")
            steps.append(be(2, n) + node[aside]["digest"])
            node = node[down]
        if node["kind"] == "nothing":
            end = b"\x03"
        elif node["kind"] == "leaf" and node["leaf"][0] == m:
            end = b"\x00" + node["leaf"][1] + be(4, node["leaf"][2])
        elif node["kind"] == "leaf":
            end = b"\x01" + node["leaf"][0] + node["leaf"][1] + be(4, node["leaf"][2])
        else:
            p = node["prefix"]
            end = b"\x02" + be(2, len(p)) + pack(p) + node["left"]["digest"] + node["right"]["digest"]
        return be(2, len(steps)) + b"".join(steps) + end

    def records(self, epoch):
        """The largest subtrees below the root with no leaf of the epoch, and the new leaves."""

        def new(x):
            if x["kind"] == "inner":
                return new(x["left"]) or new(x["right"])
            return x["kind"] == "leaf" and x["leaf"][2] == epoch

        def walk(x):
            if x["kind"] == "nothing":
                return []
            if x["kind"] == "leaf":
                m, c, e = x["leaf"]
                return [be(1, 2 if e == epoch else 0) + be(2, 256) + m + c + be(4, e) + bytes(28)]
            if new(x):
                return walk(x["left"]) + walk(x["right"])
            p = x["prefix"]
            return [b"\x01" + be(2, len(p)) + pack(p) + x["left"]["digest"] + x["right"]["digest"]]

        return walk(self.root["left"]) + walk(self.root["right"])


def leaves_at(t, records):
    """The leaves of *all* and of *old* at epoch t; a record is (name, version, epoch, key, opening)."""
    every, old = [], []
    for name, v, e, key, opening in records:
        if e > t:
            continue
        every.append((label(1, v, name), sha(b"\x05" + opening + key), e))
        if v & (v - 1) == 0:
            every.append((label(2, v.bit_length() - 1, name), ZERO, e))
        if v > 1:
            old.append((label(1, v - 1, name), ZERO, e))
    return every, old


def head_opening(t, previous, every, old):
    """A head's 100 bytes after its 0x03, from both trees."""
    return be(4, t) + previous + every.root["digest"] + old.root["digest"]


class Directory:
    def __init__(self):
        self.records = []  # as leaves_at takes them
        self.heads = [sha(b"\x03" + self.head(0))]

    def publish(self, batch):
        epoch = len(self.heads)
        for name, key, opening in batch:
            version = 1 + sum(r[0] == name for r in self.records)
            self.records.append((name, version, epoch, key, opening))
        self.heads.append(sha(b"\x03" + self.head(epoch)))

    def trees(self, t):
        every, old = leaves_at(t, self.records)
        return Tree(every), Tree(old)

    def head(self, t):
        return head_opening(t, self.heads[t - 1] if t else ZERO, *self.trees(t))

    def own(self, name, t):
        return [r for r in self.records if r[0] == name and r[2] <= t]

    def lookup(self, name, t):
        every, old = self.trees(t)
        own = self.own(name, t)
        out = b"VKD" + be(2, 1) + b"\x01" + self.head(t) + be(2, len(own))
        if not own:
            return out + every.path(label(1, 1, name))
        _, v, _, key, opening = own[-1]
        out += be(1, len(key)) + key + opening
        out += every.path(label(1, v, name)) + old.path(label(1, v, name))
        return out + every.path(label(2, v.bit_length() - 1, name))

    def history(self, name, t):
        every, old = self.trees(t)
        own = self.own(name, t)
        n = len(own)
        out = b"VKD" + be(2, 1) + b"\x02" + self.head(t) + be(2, n)
        for _, _, _, key, opening in own:
            out += be(1, len(key)) + key + opening
        markers = min(9, t.bit_length() - 1) if t else -1
        a = n.bit_length() - 1
        paths = [every.path(label(1, i, name)) for i in range(1, n + 1)]
        paths += [old.path(label(1, i, name)) for i in range(1, n)]
        if n:
            paths.append(old.path(label(1, n, name)))
            paths += [every.path(label(1, i, name)) for i in range(n + 1, 2 ** (a + 1))]
        paths += [every.path(label(2, j, name)) for j in range(0, max(a, markers) + 1)]
        return out + b"".join(paths)

    def audit(self, t):
        every, old = self.trees(t)
        out = b"VKD" + be(2, 1) + b"\x03" + self.head(t - 1) + self.head(t)
        for tree in (every, old):
            records = tree.records(t)
            out += be(4, len(records)) + b"".join(records)
        return out

"""Requests for the checkers: proofs of an honest directory, the same proofs damaged, and proofs of servers that lie and hash their
lies again, so that each gets past head and root to a single rule. The answers are those of tests/checker.py.
"""
import random

import checker
from answer import Refused, line
from directory import ZERO, Directory, Tree, be, bits, label, pack, sha

ANY = random.Random(16)  # the same cases each time
NAME = b"ada"


def some(n):
    return ANY.randbytes(n)


def honest():
    d = Directory()
    names = [NAME, b"bo", b"!", b"~" * 64, b"eve", b"fay"]
    for epoch in range(9):
        batch = [NAME] if epoch < 5 else []
        batch += [n for n in names[1:] if ANY.random() < 0.4]
        d.publish([(n, some(ANY.randint(1, 64)), some(32)) for n in batch])
    return d


class Liar:
    """One epoch with any leaves: a label's leaf is the last that was given for it."""

    def __init__(self, t, every, old=()):
        self.t = t
        self.every, self.old = {x[0]: x for x in every}, {x[0]: x for x in old}
        self.previous = some(32)

    def version(self, i, epoch, key=b"key", opening=ZERO):
        self.every[label(1, i, NAME)] = (label(1, i, NAME), sha(b"\x05" + opening + key), epoch)
        return self

    def marker(self, j, epoch, commitment=ZERO):
        self.every[label(2, j, NAME)] = (label(2, j, NAME), commitment, epoch)
        return self

    def replaced(self, i, epoch, commitment=ZERO):
        self.old[label(1, i, NAME)] = (label(1, i, NAME), commitment, epoch)
        return self

    def without(self, kind, number):
        self.every.pop(label(kind, number, NAME), None)
        return self

    def trees(self):
        return Tree(list(self.every.values())), Tree(list(self.old.values()))

    def head(self):
        every, old = self.trees()
        return be(4, self.t) + self.previous + every.root["digest"] + old.root["digest"]

    def proof(self, kind, number, keys, places):
        every, old = self.trees()
        out = b"VKD" + be(2, 1) + be(1, kind) + self.head() + be(2, number)
        out += b"".join(be(1, len(k)) + k + o for k, o in keys)
        out += b"".join((old if tree == "old" else every).path(label(k, n, NAME)) for tree, k, n in places)
        return sha(b"\x03" + self.head()), NAME, out

    def lookup(self, v, key=b"key", opening=ZERO):
        places = [("all", 1, v), ("old", 1, v), ("all", 2, v.bit_length() - 1)] if v else [("all", 1, 1)]
        return self.proof(1, v, [(key, opening)] if v else [], places)

    def history(self, n, key=b"key", opening=ZERO):
        a = n.bit_length() - 1
        places = [("all", 1, i) for i in range(1, n + 1)] + [("old", 1, i) for i in range(1, n + 1)]
        places += [("all", 1, i) for i in range(n + 1, 2 ** (a + 1))] if n else []
        places += [("all", 2, j) for j in range(max(a, min(9, self.t.bit_length() - 1)) + 1)]
        return self.proof(2, n, [(key, opening)] * n, places)


def crowd(n):
    return [(some(32), some(32), 1) for _ in range(n)]


def current(v, e, t, marked=None):
    """Version v alone, with its marker, among others."""
    j = v.bit_length() - 1
    return Liar(t, crowd(6), crowd(2)).version(v, e).marker(j, e if marked is None else marked)


def lookup_lies():
    for v, e, t, marked in [(1, 1, 1, 1), (5, 5, 9, 4), (5, 4, 9, 4), (5, 9, 9, 9), (5, 10, 9, 4), (5, 6, 9, 3), (5, 6, 9, 7), (5, 6, 9, 6)]:
        yield current(v, e, t, marked).lookup(v)
    yield current(1023, 1023, 1023, 512).lookup(1023)
    yield current(1023, 1023, 1022, 512).lookup(1023)
    yield current(1024, 1024, 2000, 1024).lookup(1024)
    yield current(5, 6, 9).lookup(5, key=b"another")
    yield current(5, 6, 9).lookup(5, opening=b"\x01" + bytes(31))
    yield current(5, 6, 9).replaced(5, 7).lookup(5)
    yield current(5, 6, 9).replaced(4, 6).lookup(5)
    yield current(5, 6, 9).marker(2, 6, commitment=b"\x01" + bytes(31)).lookup(5)
    yield current(5, 6, 9).without(2, 2).lookup(5)
    yield current(5, 6, 9).without(1, 5).lookup(5)
    yield current(1, 1, 3).lookup(0)
    yield current(2, 2, 3).lookup(0)
    for key in (b"", b"k", bytes(64), bytes(65)):
        yield Liar(3, crowd(4)).version(1, 1, key=key).marker(0, 1).lookup(1, key=key)
    for n in range(4):
        yield Liar(3, crowd(n)).lookup(0)
    for name in (b"", b"a", b"z" * 64, b"z" * 65, b"a b", b"a\x7f", b"\x21", b"\x7e"):
        d = Directory()
        d.publish([(b"bo", b"key", ZERO)])
        yield d.heads[1], name, d.lookup(name, 1)


def owned(epochs, t):
    """All versions of one name, at epochs, as the document asks."""
    x = Liar(t, crowd(5), crowd(2))
    for i, e in enumerate(epochs, 1):
        x.version(i, e)
        if i & (i - 1) == 0:
            x.marker(i.bit_length() - 1, e)
        if i > 1:
            x.replaced(i - 1, e)
    return x


def history_lies():
    for epochs, t in [([], 0), ([], 1), ([], 9), ([1], 1), ([1, 2], 2), ([1, 2, 3], 9), ([2, 4, 6, 9], 9), ([1, 2, 3, 4, 5], 5)]:
        yield owned(epochs, t).history(len(epochs))
    for epochs in ([0, 1, 2], [1, 1, 2], [1, 2, 2], [2, 1, 3], [1, 2, 10], [1, 10, 2], [3, 4, 9]):
        yield owned(epochs, 9).history(3)
    yield owned([1, 2, 3], 9).history(2)
    yield owned([1, 2], 9).history(3)
    yield owned([1, 2, 3], 9).history(3, key=b"another")
    yield owned([1, 2, 3], 9).replaced(1, 1).history(3)
    yield owned([1, 2, 3], 9).replaced(2, 2).history(3)
    yield owned([1, 2, 3], 9).replaced(3, 9).history(3)
    yield owned([1, 2, 3], 9).replaced(1, 2, commitment=b"\x01" + bytes(31)).history(3)
    yield owned([1, 2, 3], 9).marker(0, 2).history(3)
    yield owned([1, 2, 3], 9).marker(1, 3).history(3)
    yield owned([1, 2, 3], 9).marker(1, 2, commitment=b"\x01" + bytes(31)).history(3)
    yield owned([1, 2, 3], 9).marker(2, 3).history(3)
    yield owned([1, 2, 3], 9).marker(3, 9).history(3)
    yield owned([1, 2, 3], 9).without(2, 1).history(3)
    yield owned([1, 2, 3, 4, 5], 9).version(6, 9).history(5)
    yield owned([1, 2, 3, 4, 5], 9).version(7, 9).history(5)
    yield owned([1, 2, 3, 4, 5], 9).version(8, 9).history(5)
    yield owned([1, 2, 3], 2).history(3)
    yield owned([], 9).marker(0, 1).history(0)
    yield owned([], 9).marker(3, 1).history(0)


def deep(m):
    """A lookup of version 1 whose first path has m steps, lengths 0 to m - 1; its marker parts from it where their labels do."""
    mine, mark = bits(label(1, 1, NAME)), bits(label(2, 0, NAME))
    parts = next(i for i in range(256) if mine[i] != mark[i])
    leaf = b"\x00" + sha(b"\x05" + ZERO + b"key") + be(4, 1)
    beside = checker.leaf(pack(mark), ZERO, 1)
    steps = [(n, beside if n == parts else some(32)) for n in range(m)]
    digests = [checker.leaf(pack(mine), leaf[1:33], 1)]
    for n, sibling in reversed(steps):
        n = min(n, 255)
        sides = (digests[-1], sibling) if mine[n] == "0" else (sibling, digests[-1])
        digests.append(checker.inner(mine[:n], *sides))
    digests.reverse()
    old = Tree(crowd(3))
    head = be(4, 1) + ZERO + digests[0] + old.root["digest"]
    out = b"VKD" + be(2, 1) + b"\x01" + head + be(2, 1) + b"\x03key" + ZERO
    out += be(2, m) + b"".join(be(2, n) + d for n, d in steps) + leaf + old.path(label(1, 1, NAME))
    other = steps[:parts] + [(parts, digests[parts + 1])]
    out += be(2, parts + 1) + b"".join(be(2, n) + d for n, d in other) + b"\x00" + ZERO + be(4, 1)
    return sha(b"\x03" + head), NAME, out


def crafted(lengths, end, raw=None):
    """A lookup of version 0 with one path of any steps and end, under the root that it gives, or under zeros where it gives none."""
    steps = [(n, some(32)) for n in lengths]
    path = be(2, len(steps)) + b"".join(be(2, n) + d for n, d in steps) + end
    try:
        root = checker.path_root(label(1, 1, NAME), *checker.read_path(checker.Reader(path)))
    except Refused:
        root = ZERO
    head = be(4, 9) + some(32) + root + some(32)
    return sha(b"\x03" + head), NAME, b"VKD" + be(2, 1) + b"\x01" + head + be(2, 0) + path


def path_lies():
    mine = bits(label(1, 1, NAME))

    def off(n):
        """The label with bit n turned, and other bits behind it."""
        return mine[:n] + ("1" if mine[n] == "0" else "0") + bits(some(32))[n + 1 :]

    def leaf(b):
        return b"\x01" + pack(b) + some(32) + be(4, 3)

    def node(n, b):
        return b"\x02" + be(2, n) + pack(b) + some(64)

    yield crafted([0], b"\x03")
    yield crafted([0, 1], b"\x03")
    yield crafted([0], b"\x00" + some(32) + be(4, 3))
    yield crafted([0], b"\x04")
    yield crafted([], b"\x03")
    for lengths in ([1], [0, 0], [0, 5, 5], [0, 5, 4], [0, 256], [0, 255], [0, 3, 7]):
        yield crafted(lengths, leaf(off(min(255, lengths[-1] + 1))))
    yield crafted([0, 5], leaf(mine))
    for n in (0, 5, 6, 7, 255):
        yield crafted([0, 5], leaf(off(n)))
    for n, b in [(0, ""), (6, mine[:6]), (7, mine[:7]), (8, off(7)[:8]), (7, off(6)[:7]), (7, off(5)[:7]), (6, off(5)[:6]), (5, off(4)[:5]), (255, off(254)[:255]), (256, off(254)), (8, off(7)[:9] + "1")]:
        yield crafted([0, 5], node(n, b))


def damaged(given, many):
    """A proof with one byte changed, cut, or longer; and the other arguments changed."""
    d, name, proof = given
    for _ in range(many):
        at = ANY.randrange(len(proof))
        yield d, name, proof[:at] + be(1, proof[at] ^ (1 << ANY.randrange(8))) + proof[at + 1 :]
    for cut in (0, 6, 105, 107, len(proof) // 2, len(proof) - 1):
        yield d, name, proof[:cut]
    yield d, name, proof + b"\x00"
    yield d[:31], name, proof
    yield d + b"\x00", name, proof
    yield be(1, d[0] ^ 1) + d[1:], name, proof
    yield d, NAME if name == b"bo" else b"bo", proof


def record(x):
    kind, p, c, e = x
    return be(1, kind) + be(2, len(p)) + pack(p) + c + (e if kind == 1 else be(4, e) + bytes(28))


def audit(old, new, every, replaced, previous=None, listed=None):
    """An audit step between two epochs whose trees have these records; another list may stand in the proof for *all*."""

    def root(records, kinds):
        return checker.list_root([x for x in records if x[0] in kinds])[0]

    first = be(4, old) + some(32) + root(every, (0, 1)) + root(replaced, (0, 1))
    d = sha(b"\x03" + first)
    second = be(4, new) + (previous or d) + root(every, (0, 1, 2)) + root(replaced, (0, 1, 2))
    out = b"VKD" + be(2, 1) + b"\x03" + first + second
    for part in (every if listed is None else listed, replaced):
        out += be(4, len(part)) + b"".join(record(x) for x in part)
    return d, sha(b"\x03" + second), out


def records(kinds, commitment=None, epochs=None):
    """Records of these kinds in bit order."""
    out = []
    for i, kind in enumerate(kinds):
        p = f"{i:08b}"
        e = (epochs or {0: 3, 2: 8})[kind] if kind != 1 else some(32)
        out.append((kind, p if kind == 1 else p + bits(some(31)), some(32) if commitment is None or kind == 1 else commitment, e))
    return out


def audit_lies():
    fine = [0, 1, 2, 2, 1, 0]
    some_old = records([0, 2], ZERO)
    for kinds in ([], [2], [0], [1], [0, 2], fine, [2] * 9):
        yield audit(7, 8, records(kinds), records(kinds, ZERO))
    for epoch in (0, 1, 7, 8):
        yield audit(7, 8, records(fine, epochs={0: epoch, 2: 8}), some_old)
    for epoch in (0, 7, 9):
        yield audit(7, 8, records(fine, epochs={0: 3, 2: epoch}), some_old)
    for kinds in ([0, 1], [2, 1]):
        yield audit(7, 8, records(fine), records(kinds, b"\x01" + bytes(31)))
        yield audit(7, 8, records(fine), records(kinds))
    yield audit(7, 9, records(fine), some_old)
    yield audit(7, 7, records(fine), some_old)
    yield audit(2**32 - 1, 0, records(fine), some_old)
    yield audit(0, 1, records([1, 2], epochs={0: 3, 2: 1}), [])
    yield audit(7, 8, records(fine), some_old, previous=some(32))
    every = records(fine)
    inside = (0, every[1][1] + bits(some(31)), some(32), 3)
    for listed in (every[1:2] + every[:1] + every[2:], every[:2] + every[1:], [every[1], inside], [inside, every[1]], every[:-1]):
        yield audit(7, 8, every, some_old, listed=listed)
    d, e, proof = audit(7, 8, [], [])
    yield d, e, proof[:206] + be(4, 16385) + bytes(4)


def bent(given, at, byte):
    d, e, proof = given
    return d, e, proof[:at] + be(1, byte) + proof[at + 1 :]


def audit_layouts():
    given = audit(7, 8, records([0, 1, 2]), [])
    for at, byte in [(210, 3), (211, 0), (212, 1), (210 + 98, 1), (210 + 71, 1), (309 + 2, 0), (309 + 2, 7), (309 + 1, 1), (309 + 34, 1)]:
        yield bent(given, at, byte)


def cases():
    """(call, fields, answer) of every case."""
    d = honest()
    lookups = [(d.heads[t], n, d.lookup(n, t)) for n, t in [(NAME, 0), (NAME, 1), (NAME, 5), (b"bo", 9), (b"~" * 64, 9), (b"gil", 7)]]
    histories = [(d.heads[t], n, d.history(n, t)) for n, t in [(NAME, 0), (NAME, 3), (NAME, 9), (b"bo", 9), (b"gil", 7)]]
    audits = [(d.heads[t - 1], d.heads[t], d.audit(t)) for t in (1, 2, 5, 9)]
    groups = {
        "check_lookup": lookups + [x for y in lookups[2:4] for x in damaged(y, 25)] + list(lookup_lies())
        + list(path_lies()) + [deep(255), deep(256), deep(257)],
        "check_history": histories + [x for y in histories[1:2] for x in damaged(y, 25)] + list(history_lies()),
        "check_audit": audits + [x for y in audits[2:3] for x in damaged(y, 25)] + list(audit_lies()) + list(audit_layouts()),
    }
    for call, given in groups.items():
        for fields in given:
            yield call, list(fields), line(getattr(checker, call), *fields)
    for head, name, proof in [*damaged(lookups[3], 9), *lookup_lies()]:
        stdin = head + be(1, len(name)) + name + proof
        yield "program", [stdin], checker.program(stdin)
    for head, name, proof in lookups[:2]:
        for stdin in (head + be(1, len(name)) + name + proof, head, head + b"\x09" + name[:2], head[:9], b""):
            yield "program", [stdin], checker.program(stdin)
    head, name, proof = lookups[2]
    for size in (65536, 65537):
        stdin = (head + be(1, len(name)) + name + proof).ljust(size, b"\0")
        yield "program", [stdin], checker.program(stdin)


def longest():
    """A history of 1,023 versions, and a lookup of the last."""
    x = owned(range(1, 1024), 1500)
    return [(call, list(f), line(getattr(checker, call), *f)) for call, f in (("check_history", x.history(1023)), ("check_lookup", x.lookup(1023)))]

"""The three checkers and the checking program's line after document 01, in plain Python over hashlib, written from the document alone.

Each checker gives the values of an accepted proof, in document 01's order, or raises Refused with the number.
"""
from answer import FORM, HEAD, INPUT, ROOT, RULE, line, need
from directory import ZERO, be, bits, is_name, label, pack, sha


class Reader:
    """Bytes taken from the front; too few are no layout."""

    def __init__(self, b):
        self.b, self.at = b, 0

    def take(self, n):
        need(self.at + n <= len(self.b), FORM)
        self.at += n
        return self.b[self.at - n : self.at]

    def number(self, n, low=0, high=2**32 - 1):
        x = int.from_bytes(self.take(n), "big")
        need(low <= x <= high, FORM)
        return x

    def prefix(self, n):
        p = bits(self.take(32))
        need("1" not in p[n:], FORM)
        return p[:n]

    def end(self):
        need(self.at == len(self.b), FORM)


def leaf(m, c, e):
    return sha(b"\x00" + m + c + be(4, e))


def inner(p, left, right):
    return sha(b"\x01" + be(2, len(p)) + pack(p) + left + right)


def read_header(r, kind):
    need(r.take(6) == b"VKD" + be(2, 1) + be(1, kind), FORM)


def read_head(r):
    return r.number(4), r.take(32), r.take(32), r.take(32)


def head_digest(h):
    return sha(b"\x03" + be(4, h[0]) + h[1] + h[2] + h[3])


def read_path(r):
    steps = []
    for _ in range(r.number(2, 1, 256)):
        low, high = (steps[-1][0] + 1, 255) if steps else (0, 0)
        steps.append((r.number(2, low, high), r.take(32)))
    kind = r.number(1, 0, 3)
    if kind == 0:
        end = (kind, r.take(32), r.number(4))
    elif kind == 1:
        end = (kind, r.take(32), r.take(32), r.number(4))
    elif kind == 2:
        end = (kind, r.prefix(r.number(2, 1, 255)), r.take(32), r.take(32))
    else:
        need(len(steps) == 1, FORM)
        end = (kind,)
    return steps, end


def path_root(mine, steps, end):
    if end[0] == 0:
        digest = leaf(mine, end[1], end[2])
    elif end[0] == 1:
        digest = leaf(*end[1:])
    elif end[0] == 2:
        digest = inner(*end[1:])
    else:
        digest = sha(b"\x02")
    b = bits(mine)
    for length, sibling in reversed(steps):
        sides = (digest, sibling) if b[length] == "0" else (sibling, digest)
        digest = inner(b[:length], *sides)
    return digest


def absent(mine, steps, end):
    b, k = bits(mine), steps[-1][0]
    if end[0] == 1:
        return end[1] != mine and bits(end[1])[: k + 1] == b[: k + 1]
    if end[0] == 2:
        return len(end[1]) > k + 1 and end[1][: k + 1] == b[: k + 1] and not b.startswith(end[1])
    return end[0] == 3


class Shown:
    """A lookup or history proof's paths, taken in order."""

    def __init__(self, head, name, paths, digests):
        self.head, self.name, self.paths, self.digests = head, name, paths, digests

    def take(self, tree, kind, number):
        steps, end = self.paths.pop(0)
        mine = label(kind, number, self.name)
        need(path_root(mine, steps, end) == self.head[2 if tree == "all" else 3], ROOT)
        self.digests += len(steps) + 2
        return mine, steps, end

    def present(self, tree, kind, number, commitment, epochs):
        _, _, end = self.take(tree, kind, number)
        need(end[0] == 0 and end[1] == commitment and end[2] in epochs, RULE)
        return end[2]

    def absent(self, tree, kind, number):
        need(absent(*self.take(tree, kind, number)), RULE)


def start(d, name, proof, kind):
    need(len(d) == 32, INPUT)
    need(is_name(name), INPUT)
    r = Reader(proof)
    read_header(r, kind)
    return r, read_head(r), r.number(2, 0, 1023)


def read_keys(r, n):
    """The commitment of each key, and where the first key lies."""
    commitments, first = [], (0, 0)
    for i in range(n):
        key = r.take(r.number(1, 1, 64))
        first = first if i else (r.at - len(key), r.at)
        commitments.append(sha(b"\x05" + r.take(32) + key))
    return commitments, first


def check_lookup(d, name, proof):
    r, h, v = start(d, name, proof, 1)
    commitments, (low, high) = read_keys(r, 1 if v else 0)
    paths = [read_path(r) for _ in range(3 if v else 1)]
    r.end()
    need(head_digest(h) == d, HEAD)
    s = Shown(h, name, paths, 1 + len(commitments))
    if v == 0:
        s.absent("all", 1, 1)
    else:
        j = v.bit_length() - 1
        e = s.present("all", 1, v, commitments[0], range(v, h[0] + 1))
        s.absent("old", 1, v)
        s.present("all", 2, j, ZERO, range(2**j, e + 1))
    return v, h[0], s.digests, low, high


def check_history(d, name, proof):
    r, h, n = start(d, name, proof, 2)
    commitments, _ = read_keys(r, n)
    a = n.bit_length() - 1
    gap = range(n + 1, 2 ** (a + 1)) if n else range(0)
    last = max(a, min(9, h[0].bit_length() - 1))
    paths = [read_path(r) for _ in range(2 * n + len(gap) + last + 1)]
    r.end()
    need(head_digest(h) == d, HEAD)
    s = Shown(h, name, paths, 1 + n)
    epochs = [0]
    for i in range(1, n + 1):
        epochs.append(s.present("all", 1, i, commitments[i - 1], range(epochs[-1] + 1, h[0] + 1)))
    for i in range(1, n):
        s.present("old", 1, i, ZERO, (epochs[i + 1],))
    if n:
        s.absent("old", 1, n)
    for i in gap:
        s.absent("all", 1, i)
    for j in range(last + 1):
        if j <= a:
            s.present("all", 2, j, ZERO, (epochs[2**j],))
        else:
            s.absent("all", 2, j)
    return n, h[0], s.digests


def read_record(r):
    kind = r.number(1, 0, 2)
    if kind == 1:
        return kind, r.prefix(r.number(2, 1, 255)), r.take(32), r.take(32)
    r.number(2, 256, 256)
    m, c, e = bits(r.take(32)), r.take(32), r.number(4)
    need(r.take(28) == bytes(28), FORM)
    return kind, m, c, e


def list_root(records):
    """The root over what records stand for, and how many strings are hashed for it."""

    def below(part):
        if not part:
            return sha(b"\x02"), 1
        if len(part) == 1:
            kind, p, x, y = part[0]
            return (inner(p, x, y) if kind == 1 else leaf(pack(p), x, y)), 1
        first, last = part[0][1], part[-1][1]
        n = next(i for i in range(256) if first[i] != last[i])
        return fork(first[:n], part)

    def fork(p, part):
        left, m = below([x for x in part if x[1][len(p)] == "0"])
        right, n = below([x for x in part if x[1][len(p)] == "1"])
        return inner(p, left, right), m + n + 1

    return fork("", records)


def check_list(records, tree, old, new):
    for x, y in zip(records, records[1:]):
        need(x[1] < y[1] and not y[1].startswith(x[1]), RULE)
    for kind, _, c, e in records:
        if kind == 1:
            continue
        need(e == new[0] if kind == 2 else 1 <= e <= old[0], RULE)
        need(tree == "all" or c == ZERO, RULE)
    which = 2 if tree == "all" else 3
    before, m = list_root([x for x in records if x[0] != 2])
    need(before == old[which], ROOT)
    after, n = list_root(records)
    need(after == new[which], ROOT)
    return m + n


def check_audit(d, e, proof):
    need(len(d) == 32 and len(e) == 32, INPUT)
    r = Reader(proof)
    read_header(r, 3)
    old, new = read_head(r), read_head(r)
    lists = [[read_record(r) for _ in range(r.number(4, 0, 16384))] for _ in ("all", "old")]
    r.end()
    need(head_digest(old) == d, HEAD)
    need(head_digest(new) == e, HEAD)
    need(new[0] == old[0] + 1 and new[1] == d, RULE)
    digests = 2 + sum(check_list(records, tree, old, new) for records, tree in zip(lists, ("all", "old")))
    return old[0], new[0], digests


def program(stdin):
    """The checking program's line, without its end."""
    cut = 33 + stdin[32] if len(stdin) > 32 else 33
    if len(stdin) > 65536 or len(stdin) < cut:
        return "refused 1"
    answer = line(check_lookup, stdin[:32], stdin[33:cut], stdin[cut:])
    if answer.startswith("refused"):
        return answer
    v, t, digests = answer.split(" ")[:3]
    return f"version {v} epoch {t} digests {digests}"

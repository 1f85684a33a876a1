"""Requests for starting and publishing, as (call, values): tables that start and publishing left, any state, and tables and batches that
break one bound, or several at once. 7 is tried at the tree level.
"""
import itertools
import random

import server
from answer import Refused
from directory import ZERO, be
from server import pasted

ANY = random.Random(18)  # the same cases each time
some = ANY.randbytes
LARGEST = 2**32 - 1


def held(b):
    """A length and 64 bytes."""
    return be(1, len(b)) + b.ljust(64, b"\x00")


def update(name, key=b"key", opening=ZERO):
    return held(name) + held(key) + opening


def record(name, version, epoch, key=b"key", opening=ZERO):
    return held(name) + be(2, version) + be(4, epoch) + held(key) + opening


def key_and_opening():
    return some(ANY.randint(1, 64)), some(32)


def batch(*names):
    return b"".join(update(name, *key_and_opening()) for name in names)


def table(rows, slots):
    """Records (name, version, epoch), and any bytes behind them."""
    return b"".join(record(*row, *key_and_opening()) for row in rows) + some(168 * (slots - len(rows)))


def run(slots, heads, batches):
    """Starting, and publishing each batch over what the steps before left."""
    records, heads, count, epoch = some(168 * slots), some(32 * heads), 0, 0
    yield "start", [heads]
    heads = server.start(heads)[2]
    for b in batches:
        yield "publish", [records, heads, count, epoch, b]
        try:
            count, epoch, records, heads = server.publish(records, heads, count, epoch, b)
        except Refused:
            pass


def examples():
    for n in (0, 31, 33, 64):
        yield "start", [some(n)]
    yield from run(3, 4, [batch(b"ada", b"bo"), batch(b"bo", b"eve"), batch(b"ada"), batch(), batch(b"bo", b"bo"), batch()])
    rows = [(b"ada", 1, 1)]
    yield "publish", [table(rows, 1)[:-1], some(64), 1, 1, b""]
    yield "publish", [b"", b"", 0, 0, b""]
    yield "publish", [b"", some(64), 0, 0, b""]
    yield "publish", [table(rows, 1), some(64), 2, 1, b""]
    yield "publish", [table(rows, 1), some(64), 1, 2, b""]
    yield "publish", [table([(b"ada", 2, 1)], 1), some(96), 1, 1, b""]
    yield "publish", [table(rows, 2), some(96), 1, 1, batch(b"a b")]
    yield "publish", [table(rows, 2), some(96), 1, 1, batch(b"~")]


def runs():
    names = [b"ada", b"bo", b"!", b"~" * 64, b"eve", b"fay"]
    steps = [names[:2], [], names[:1], names[1:4], names[:1] * 2, names[4:], [b"gil"] + names, names[:3], names[:1], [], names[:2], []]
    yield from run(12, 9, [batch(*x) for x in steps])
    yield from run(12, 12, [batch(*(names[4:5] if n % 5 == 4 else []), b"ada") for n in range(11)])
    yield from run(26, 11, [batch(*ANY.sample(names, ANY.randrange(6))) for _ in range(12)])
    long = b"n" * 64
    yield from run(4, 4, [update(long, b"k" * 64, b"\xff" * 32), update(long[1:], b"k") + update(long, bytes(64)), update(long.upper()), b""])
    yield from run(0, 3, [b"", batch(b"ada"), b"", b""])
    yield from run(2, 1, [b"", batch(b"ada")])


def crowds():
    """256 updates, and one more."""
    names = [b"n%d" % i for i in range(256)]
    yield from run(258, 3, [batch(*names), batch(names[255], names[0])])
    for more in (names, names + [b"more"], names[:-1] + names[:1], names[:-1] + [b"a b"]):
        yield "publish", [b"", some(64), 0, 0, batch(*more)]
    # more than 256 records of one epoch
    yield "publish", [table([(b"n%d" % i, 1, 1) for i in range(257)], 258), some(96), 257, 1, batch(b"n7")]


def lengths():
    for n in range(131):
        yield "start", [some(n)]
        yield "publish", [b"", some(n), 0, 0, b""]
    for n in [*range(172), *range(333, 340), 1007, 1009, 4 * 168 + 32, 4 * 162]:
        yield "publish", [some(n), some(64), 0, 0, b""]
    given = batch(b"ada", b"bo", b"eve")
    for n in [*range(172), *range(320, 329)]:
        yield "publish", [some(168), some(64), 0, 0, given[:n]]
    for n in (1023, 1024, 1025, 4096):
        yield "start", [some(n)]


def wrong_held(b):
    """A length and 64 bytes with b, of fewer than 62 bytes, that break their bounds."""
    fine, n = held(b), len(b)
    for length in (0, n - 1, 65, 128, 255):
        yield pasted(fine, 0, be(1, length))
    yield bytes(65)
    yield be(1, 65) + b"a" * 64
    for at in (1 + n, 3 + n, 64):
        yield pasted(fine, at, b"a")


def wrong_names():
    yield from wrong_held(b"hal")
    fine = held(b"hal")
    yield pasted(fine, 0, be(1, 4))
    for at, byte in itertools.product((1, 2, 3), (0x00, 0x1F, 0x20, 0x7F, 0x80, 0xFF)):
        yield pasted(fine, at, be(1, byte))
    for byte in (0x20, 0x7F):
        yield held(b"a" * 63 + be(1, byte))


# one name with two versions, and others with one, so that a damaged name breaks nobody's row of versions
ROWS = [(b"eve", 1, 1), (b"ada", 1, 1), (b"fay", 1, 2), (b"ada", 2, 2), (b"gil", 1, 4)]


def fields():
    """Names and keys of records and updates, right and wrong, at every place of table and batch."""
    names = [*wrong_names(), held(b"!"), held(b"h~"), held(b"~!" * 32)]
    keys = [*wrong_held(b"\x00key"), held(b"\x00"), held(bytes(64)), held(b"\xff" * 64), pasted(held(b"key"), 0, be(1, 4))]
    records, heads = table(ROWS, 6), some(32 * 7)
    for in_record, in_update, given in ((0, 0, names), (71, 65, keys)):
        for i, field in enumerate(given):
            row = (0, 2, 4)[i % 3]
            yield "publish", [pasted(records, 168 * row + in_record, field), heads, 5, 5, b""]
            # the last record, counted and not
            yield "publish", [pasted(records, 168 * 4 + in_record, field), heads, 4 + i % 2, 5, batch(b"ada")]
            yield "publish", [records, heads, 5, 5, pasted(batch(b"ida"), in_update, field)]
            place = 162 * (i % 3)
            yield "publish", [b"", some(64), 0, 0, pasted(batch(b"ida", b"joe", b"kim"), place + in_update, field)]
    for row, past in itertools.product((2, 4), (bytes(168), b"\xff" * 168)):
        yield "publish", [pasted(records, 168 * row, past), heads, row, 5, batch(b"ada", b"gil")]


def each_byte():
    """One bit turned, in every byte of a record and of an update."""
    one, given, heads = record(b"ada", 1, 1, b"key", some(32)), update(b"ada", b"key", some(32)), some(96)
    for at in range(168):
        yield "publish", [pasted(one, at, be(1, one[at] ^ 1 << at % 8)), heads, 1, 1, b""]
    for at in range(162):
        yield "publish", [one, heads, 0, 1, pasted(given, at, be(1, given[at] ^ 1 << at % 8))]


def shapes():
    """Versions and epochs that run on, and that do not: rows, and the current epoch."""
    a, b = b"a", b"b"
    for e, current in [(1, 1), (1, 0), (0, 0), (0, 1), (2, 1), (2, 2), (LARGEST, 2), (256, 2), (1 << 24, 2)]:
        yield [(a, 1, e)], current
    for v in (0, 2, 256, 257, 1023, 1024, 65535):
        yield [(a, v, 1)], 1
    # version and epoch of a first record, and of the next of the same name
    pairs = [((1, 1), x) for x in [(2, 2), (2, 3), (2, 1), (2, 0), (1, 2), (3, 2), (0, 2), (258, 2), (1024, 2)]]
    pairs += [((1, 2), (2, 1)), ((1, 2), (2, 3)), ((1, 3), (2, 4)), ((2, 1), (1, 2)), ((2, 1), (3, 2))]
    for (v, e), (w, f) in pairs:
        yield [(a, v, e), (a, w, f)], 3
        yield [(b, 1, 1), (a, v, e), (a, w, f)], 3
        yield [(a, v, e), (b, 1, e), (a, w, f)], 3
    for other in [(b, 1, 1), (b, 1, 2), (b, 2, 1), (b, 2, 2), (b, 0, 1), (b, 1, 0), (b, 1, 3), (b, 1, 4), (b"aa", 1, 1), (b"aa", 2, 2)]:
        yield [(a, 1, 1), other], 3
        yield [(a, 1, 1), other, (a, 2, 2)], 3
        yield [(a, 1, 1), (a, 2, 2), other], 3
    both = [(a, 1, 1), (b, 1, 1), (a, 2, 2), (b, 2, 2)]
    for last in [(a, 3, 3), (b, 3, 3)], [(b, 3, 3), (a, 3, 3)], [(a, 3, 3), (b, 4, 3)], [(a, 3, 3), (b, 2, 3)], [(a, 3, 3), (b, 3, 2)]:
        yield both + last, 4
    for x, y in [(b"n" * 63, b"n" * 64), (b"n" * 64, b"n" * 63 + b"m"), (b"n" * 64, b"m" + b"n" * 63), (b"ab", b"ba"), (b"a", b"A")]:
        yield [(x, 1, 1), (y, 1, 1), (x, 2, 2), (y, 2, 2)], 2
        yield [(x, 1, 1), (y, 2, 2)], 2


def rows_in_shape(many, current):
    rows, last, epoch = [], {}, 1
    while len(rows) < many:
        free = [n for n in (b"a", b"b", b"c") if last.get(n, (0, 0))[1] < epoch]
        if free and (epoch == current or ANY.random() < 0.6):
            name = ANY.choice(free)
            last[name] = (last.get(name, (0, 0))[0] + 1, epoch)
            rows.append((name, *last[name]))
        else:
            epoch += 1
    return rows


def tables():
    for rows, current in shapes():
        yield "publish", [table(rows, len(rows) + 1), some(32 * (current + 2)), len(rows), current, batch(rows[-1][0])]
    for _ in range(60):
        rows = rows_in_shape(5, 4)
        i = ANY.randrange(5)
        name, v, e = rows[i]
        rows[i] = ANY.choice([(name, v, e), (name, v + 1, e), (name, v - 1, e), (name, v, e + 1), (name, v, e - 1), (b"a", v, e), (b"b", v, e)])
        yield "publish", [table(rows, 6), some(32 * 7), 5, 5, batch(b"a")]
    for _ in range(15):
        yield "publish", [some(336), some(96), ANY.randrange(3), ANY.randrange(3), batch(b"ada")]
        yield "publish", [some(336), some(96), ANY.randrange(2**32), ANY.randrange(2**32), b""]


def states():
    """Any count and epoch, also those whose places in the tables are past 32 bits."""
    rows = [(b"ada", 1, 1), (b"bo", 1, 1), (b"ada", 2, 2)]
    records, heads = table(rows, 5), some(32 * 5)
    for count, epoch in itertools.product(range(7), range(7)):
        yield "publish", [records, heads, count, epoch, batch(b"ada", b"eve")[: 162 * ((count + epoch) % 3)]]
    for far in (255, 256, 4096, 4097, 65535, 65536, 25565281, 25565282, 2**27 - 2, 2**27 - 1, 2**27, 2**31 - 1, 2**31, LARGEST - 1, LARGEST):
        yield "publish", [records, heads, far, 3, b""]
        yield "publish", [records, heads, 3, far, b""]
        yield "publish", [records, heads, far, far, batch(b"ada")]
        yield "publish", [b"", some(32), 0, far, b""]
        yield "publish", [b"", some(32), far, 0, b""]


def causes():
    """Every set of causes at once, so that the order of the tests tells."""
    for bad_input, bad_table, twice, full in itertools.product(*[(None, 0, 1)] * 4):
        records, heads, count, given = table([(b"ada", 1, 1), (b"bo", 1, 2)], 5), some(32 * 4), 2, batch(b"ada", b"eve")
        if twice is not None:
            given += update((b"ada", b"eve")[twice])
        if full == 0:
            records = records[: 168 * 3]
        if full == 1:
            heads = heads[:96]
        if bad_table == 0:
            records = pasted(records, 168 + 65, be(2, 2))
        if bad_table == 1:
            count = 6
        if bad_input == 0:
            records += b"\x00"
        if bad_input == 1:
            given = pasted(given, 162, be(1, 65))
        yield "publish", [records, heads, count, 2, given]


def free():
    """Free records and head slots: enough, and one too few."""
    for slots, heads, count, many in itertools.product((2, 3, 4), (3, 4), (0, 1, 2), (0, 1, 2)):
        rows = [(b"ada", 1, 1), (b"ada", 2, 2)][:count]
        for epoch in (1, 2):
            if count <= epoch:
                yield "publish", [table(rows, slots), some(32 * heads), count, epoch, batch(b"ada", b"bo")[: 162 * many]]


def batches():
    rows = [(b"ada", 1, 1), (b"ad", 1, 1)]
    alike = [b"ada", b"ad", b"adam", b"ADA", b"a", b"a" * 63, b"a" * 64, b"b" + b"a" * 63]
    yield "publish", [table(rows, 10), some(96), 2, 1, batch(*alike)]
    for i, j in [(0, 1), (0, 7), (3, 4), (6, 7), (2, 5)]:
        names = list(alike)
        names[j] = names[i]
        yield "publish", [table(rows, 10), some(96), 2, 1, batch(*names)]
    same = update(b"eve")
    for given in (same + same, same + update(b"eve", b"other"), same * 3, same + update(b"ev") + same):
        yield "publish", [table(rows, 6), some(96), 2, 1, given]


def torn():
    """What publishing left, with a bit turned, moved, cut, or in another order."""
    *_, (_, (records, heads, count, epoch, _)) = run(5, 4, [batch(b"ada", b"bo"), batch(b"ada"), b""])
    for _ in range(40):
        at = ANY.randrange(168 * count)
        yield "publish", [pasted(records, at, be(1, records[at] ^ 1 << ANY.randrange(8))), heads, count, epoch, batch(b"ada")]
    for n in (1, 64, 167):
        yield "publish", [records[n:] + records[:n], heads, count, epoch, b""]
    for n in (1, 2, 3, 4):
        yield "publish", [records[168 * n :], heads, count, epoch, b""]
        yield "publish", [records[: 168 * n], heads, count, epoch, b""]
        yield "publish", [records, heads[: 32 * n], count, epoch, b""]
    parts = [records[168 * i : 168 * (i + 1)] for i in range(5)]
    for order in itertools.permutations(range(3)):
        yield "publish", [b"".join(parts[i] for i in order) + parts[3], heads, count, epoch, batch(b"bo")]


# all versions that a name can have, and one more, each in an epoch of its own
VERSIONS = b"".join(record(b"ada", v, v) for v in range(1, 1025))
HEADS = bytes(32 * 1026)


def last_version():
    yield "publish", [VERSIONS, HEADS, 1023, 1023, update(b"ada")]
    yield "publish", [VERSIONS, HEADS, 1024, 1024, b""]


def given():
    for group in (examples, runs, crowds, lengths, fields, each_byte, tables, states, causes, free, batches, torn, last_version):
        yield from group()


def at_bounds():
    """65,536 heads, 4,096 records, 1,023 versions, and one more of each."""
    yield "start", [bytes(32 * 65536)]
    yield "start", [bytes(32 * 65537)]
    for epoch in (65534, 65535, 65536):
        yield "publish", [some(168), bytes(32 * 65536), 0, epoch, batch(b"ada")]
    yield "publish", [some(168), bytes(32 * 65537), 0, 0, b""]
    records = table([(b"n%d" % i, 1, 1) for i in range(4095)], 4096)
    for count, names in [(4095, []), (4095, [b"ada"]), (4095, [b"n7"]), (4095, [b"ada", b"bo"]), (3840, [b"m%d" % i for i in range(256)])]:
        yield "publish", [records, some(128), count, 1, batch(*names)]
    for version, names in [(2, []), (2, [b"ada"]), (1, [])]:
        yield "publish", [pasted(records, 168 * 4095, record(b"n0", version, 2)), some(128), 4096, 2, batch(*names)]
    yield "publish", [records + some(168), some(128), 0, 0, b""]
    yield "publish", [VERSIONS, HEADS, 1022, 1022, update(b"ada")]
    yield "publish", [VERSIONS, HEADS, 1023, 1023, update(b"bo")]
    yield "publish", [VERSIONS, HEADS, 1023, 1023, update(b"ada") * 2]
    names = [b"ada", b"bo", b"eve", b"fay"]
    records = table([(name, v, v) for v in range(1, 1024) for name in names], 4096)
    for more in ([b"gil"], [b"gil", b"fay"]):
        yield "publish", [records, some(32 * 1025), 4092, 1023, batch(*more)]

"""Requests for the tree level, as (call, values): sets of labels that part at every depth, in any order, labels that are there twice, and
wrong lengths.
"""
import itertools
import random

from directory import ZERO, be, bits, pack
from server import pasted

ANY = random.Random(17)  # the same cases each time
some = ANY.randbytes


def entry(label, commitment=None, epoch=None):
    return label + (some(32) if commitment is None else commitment) + be(4, ANY.randrange(9) if epoch is None else epoch)


def entries(labels):
    return b"".join(entry(m) for m in labels)


def shuffled(labels):
    return entries(ANY.sample(labels, len(labels)))


def flipped(m, n):
    """The label with bit n turned."""
    return be(32, int.from_bytes(m, "big") ^ 1 << (255 - n))


def parting(m, n):
    """A label that parts from m at bit n, with any bits behind."""
    return pack(bits(flipped(m, n))[: n + 1] + bits(some(32))[n + 1 :])


def ladder(m):
    """Labels that part from m at every depth."""
    return [parting(m, n) for n in range(256)]


def level(given, asked):
    """The root over entries, and the path of each label asked, to be shown absent and not."""
    yield "tree_root", [given]
    for m in asked:
        for absent in (0, 1):
            yield "tree_path", [given, m, absent]


def examples():
    a, b, c = (some(32) for _ in range(3))
    yield from level(b"", [a])
    yield from level(entries([a]), [a, b, flipped(a, 255)])
    yield from level(entries([a, b]), [a, b, c])
    below = parting(a, 200)
    yield from level(entries([a, below]), [a, below, parting(a, 100), parting(a, 200), parting(a, 230)])
    yield from level(entries([a, b, c, parting(a, 7)]), [a, c])
    yield from level(entries([a, b, a]), [a, b, c])
    given = entries([a, b])
    for torn in (given[:-1], given + b"\x00", given[:1]):
        yield "tree_root", [torn]
        yield "tree_path", [torn, a, 0]
    for label in (b"", a[:31], a + b"\x00"):
        yield "tree_path", [given, label, 1]


def lengths():
    for n in range(141):
        yield "tree_root", [some(n)]
    given = entries([some(32) for _ in range(3)])
    for n in range(70):
        yield "tree_path", [given, given[:n], n % 2]
    for n in (1, 33, 67, 69, 203, 205):
        yield "tree_path", [some(n), given[:32], 0]


def sets():
    for n in [*range(1, 34), 64, 100, 257]:
        labels = [some(32) for _ in range(n)]
        given = shuffled(labels)
        yield "tree_root", [given]
        yield "tree_path", [given, labels[0], 0]
        yield "tree_path", [given, parting(labels[0], ANY.randrange(12)), 1]
    labels = [some(32) for _ in range(3)]
    for order in itertools.permutations([entry(m) for m in labels]):
        yield from level(b"".join(order), labels[:1])
    for falling in (False, True):
        labels = sorted((some(32) for _ in range(20)), reverse=falling)
        yield from level(entries(labels), labels[3:4])
    # all on one side of the root, whose other child is nothing
    for first in (b"\x00", b"\xff"):
        labels = [first + some(31) for _ in range(5)]
        yield from level(entries(labels), [labels[0], parting(labels[1], 0), parting(labels[1], 4), parting(labels[1], 30)])
    for m in (ZERO, b"\xff" * 32):
        yield from level(entries([m]), [m, flipped(m, 0), flipped(m, 255)])
        yield from level(entry(m, ZERO, 0) + entry(flipped(m, 255), b"\xff" * 32, 2**32 - 1), [m, flipped(m, 254)])


def prefixes():
    """Labels with much in common, and paths that end at a leaf or node beside the label."""
    for n in (0, 1, 6, 7, 8, 9, 15, 16, 63, 64, 127, 128, 247, 248, 253, 254, 255):
        m = some(32)
        other = parting(m, n)
        yield from level(shuffled([m, other]), [m, other, parting(m, n // 2), parting(m, 255)])
    m = some(32)
    below = [pasted(m, 20, some(12)) for _ in range(6)]
    given = shuffled(below + [parting(m, 3), parting(m, 40)])
    yield from level(given, [below[0]] + [parting(below[0], n) for n in (0, 1, 3, 4, 39, 40, 41, 80, 158, 159, 160, 165, 255)])
    yield from level(shuffled([be(32, x) for x in range(40)]), [be(32, x) for x in (0, 39, 40, 63, 64)])


def depths():
    m = some(32)
    rungs = ladder(m)
    yield from level(shuffled(rungs + [m]), [m, rungs[255]])
    for n in (254, 128, 0):
        yield "tree_path", [entries([m] + rungs), rungs[n], 0]
    # without m: its absence takes 255 steps, the most that absence can take
    yield from level(entries(rungs), [m])
    yield "tree_path", [shuffled(rungs[:255] + [m]), rungs[255], 1]
    for m in (ZERO, b"\xff" * 32):
        yield "tree_path", [shuffled([flipped(m, n) for n in range(256)] + [m]), m, 0]


def clashes():
    labels = [some(32) for _ in range(9)]
    for twice in ([0, 0], [0, 0, 1], [0, 1, 0], [1, 0, 0], [0, 0, 0], [0, 1, 1, 0], [*range(9), 0], [8, *range(9)], [4, *range(9)]):
        yield from level(entries([labels[i] for i in twice]), [labels[0], some(32)])
    same = entry(labels[0])
    yield from level(same + same, [labels[0], labels[1]])
    m = some(32)
    yield "tree_root", [shuffled(ladder(m) + [m, m])]
    # wrong lengths come first
    yield "tree_root", [same + same + b"\x00"]
    yield "tree_path", [same + same + b"\x00", labels[0], 1]
    yield "tree_path", [same + same, labels[0][:31], 1]
    yield "tree_path", [same, labels[0] + labels[0], 1]


def given():
    for group in (examples, lengths, sets, prefixes, depths, clashes):
        yield from group()


def at_bounds():
    """8,192 entries, and one more."""
    labels = [some(32) for _ in range(8192)]
    most = entries(labels)
    yield from level(most, [labels[4711], some(32)])
    yield "tree_root", [pasted(most, 68 * 4711, labels[17])]
    yield "tree_root", [most + entry(some(32))]
    yield "tree_path", [most + entry(some(32)), labels[0], 0]

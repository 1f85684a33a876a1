"""Requests for the three writers: each name and epoch of directories that were published, outputs of the right length and around it, and the
tables and states of tests/publish_cases.py that are out of bounds or out of shape."""
import itertools

import publish_cases
import server
import writers
from answer import Refused
from publish_cases import batch, record, run, update

ROOM = 100000  # more than any proof here has
LAST = 2**32 - 1


def left(steps):
    """(records, heads, count, epoch) that the last of the steps left."""
    tables = None
    for call, values in steps:
        if call == "publish":
            try:
                count, epoch, records, heads = server.publish(*values)
                tables = [records, heads, count, epoch]
            except Refused:
                pass
    return tables


def directories():
    names = [b"ada", b"bo", b"!", b"~" * 64, b"eve"]
    yield left(run(0, 3, [b"", b""])), [b"ada"]
    steps = [names[:2], [], names[:1], names[1:4], names[:1], names[:3], [], names[:1]]
    yield left(run(14, 10, [batch(*x) for x in steps])), names
    yield left(run(9, 11, [batch(b"ada") for _ in range(9)])), [b"ada", b"bo"]
    long = b"n" * 64
    yield left(run(2, 4, [update(long, b"k" * 64, b"\xff" * 32), update(long, b"k")])), [long, long[1:]]


def proofs(tables, names):
    """Every proof of a directory, and of epochs that it does not have."""
    for at in [*range(tables[3] + 2), LAST]:
        for name in names + [b"zed"]:
            yield "write_lookup", [*tables, name, at, ROOM]
            yield "write_history", [*tables, name, at, ROOM]
        yield "write_audit", [*tables, at, ROOM]


def rooms(tables, name):
    """Outputs that are empty, one byte short, and just long enough."""
    at = tables[3]
    for call, fields in [("write_lookup", [name, at]), ("write_history", [name, at]), ("write_audit", [at])]:
        size = len(writers.CALLS[call](*tables, *fields, ROOM)[0])
        for room in (0, size - 1, size, size + 1):
            yield call, [*tables, *fields, room]


def bad_names(tables):
    for name in (b"", b"a b", b"\x7f", b"n" * 65, b"n" * 1024):
        yield "write_lookup", [*tables, name, 1, ROOM]
        yield "write_history", [*tables, name, 1, ROOM]


def other_tables():
    """Tables and states of publishing's cases, one in seven of them."""
    groups = (publish_cases.lengths, publish_cases.fields, publish_cases.tables, publish_cases.states, publish_cases.torn)
    given = [values for group in groups for call, values in group() if call == "publish"]
    for i, (records, heads, count, epoch, _) in enumerate(given[::7]):
        call = ("write_lookup", "write_history", "write_audit")[i % 3]
        yield call, [records, heads, count, epoch, *([b"ada"] if call != "write_audit" else []), min(epoch, 1), ROOM]


def examples():
    """A small directory: each answer that is no proof, and some that are."""
    records, heads, count, epoch = left(run(3, 4, [batch(b"ada"), batch(b"bo"), batch(b"ada")]))
    tables = [records, heads, count, epoch]
    broken = [tables, [records[:-1], heads, count, epoch], [records, heads, count + 1, epoch], [records, heads, count, epoch + 1]]
    for call in ("write_lookup", "write_history"):
        for name, at in itertools.product((b"ada", b"bo", b"zed", b"a b"), (0, 1, 3, 4)):
            yield call, [*tables, name, at, ROOM]
        for given in broken:
            yield call, [*given, b"ada", 3, 108]
    for at in range(5):
        yield "write_audit", [*tables, at, ROOM]
    for given in broken:
        yield "write_audit", [*given, 3, 214]


def given():
    for tables, names in directories():
        yield from proofs(tables, names)
        yield from rooms(tables, names[0])
        yield from bad_names(tables)
    yield from other_tables()
    yield from examples()


def at_bounds():
    """A name of 1,023 versions, alone and with others of as many, tables of 4,096 records, and an audit of 256 updates."""
    alone = [publish_cases.VERSIONS, publish_cases.HEADS, 1023, 1023]
    yield "write_history", [*alone, b"ada", 1023, LAST]
    yield "write_lookup", [*alone, b"ada", 1023, LAST]
    yield "write_audit", [*alone, 1023, LAST]
    names = [b"ada", b"bo", b"eve", b"fay"]
    records = b"".join(record(name, v, v, b"k" * 64) for v in range(1, 1024) for name in names)
    yield "write_history", [records, publish_cases.HEADS, 4092, 1023, b"ada", 1023, LAST]
    new = [(b"n%d" % i, 1, 1) for i in range(4096)]
    replaced = new[:3840] + [(name, 2, 2) for name, _, _ in new[:256]]
    for rows, at in (new, 1), (replaced, 2):
        tables = [publish_cases.table(rows, 4096), bytes(96), 4096, at]
        yield "write_lookup", [*tables, b"n7", at, LAST]
        yield "write_history", [*tables, b"n7", at, LAST]
        yield "write_audit", [*tables, at, LAST]

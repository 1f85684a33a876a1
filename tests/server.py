#!/usr/bin/env python3
"""The server's calls after document 01, in plain Python over hashlib, written from the document alone: starting a directory, publishing,
and the tree level, which takes labels directly.

Each gives its values, or raises Refused with the number.

    python3 tests/server.py DIR

compares their answers with the vector files of a folder.
"""
import struct
import sys

sys.dont_write_bytecode = True
import vector_files
from answer import CLASH, FULL, INPUT, TABLE, TWICE, need
from directory import ZERO, Tree, be, head_opening, is_name, leaves_at, sha

ENTRY = struct.Struct(">32s32sI")  # label, commitment, epoch
RECORD = struct.Struct(">65sHI65s32s")  # name, version, epoch, key, opening; name and key are their length and 64 bytes
UPDATE = struct.Struct(">65s65s32s")  # name, key, opening


def within(b, size, least, most):
    """Whether b is from least to most parts of that size."""
    return len(b) % size == 0 and least <= len(b) // size <= most


def filled(field):
    """The bytes that a length and 64 bytes hold, or none where the length or the filling is wrong."""
    n = field[0]
    return field[1 : 1 + n] if 1 <= n <= 64 and not any(field[1 + n :]) else b""


def named_key(name, key):
    """Name and key of a record or update, or nothing where one breaks its bounds."""
    name, key = filled(name), filled(key)
    return (name, key) if is_name(name) and key else None


def need_distinct(leaves):
    need(len({x[0] for x in leaves}) == len(leaves), CLASH)


def read_entries(entries):
    # a record gives *all* two leaves at most
    need(within(entries, ENTRY.size, 0, 2 * 4096), INPUT)
    return list(ENTRY.iter_unpack(entries))


def tree_root(entries):
    leaves = read_entries(entries)
    need_distinct(leaves)
    return (Tree(leaves).root["digest"],)


def tree_path(entries, label, absent):
    leaves = read_entries(entries)
    need(len(label) == 32, INPUT)
    need_distinct(leaves)
    need(not (absent and label in {x[0] for x in leaves}), CLASH)
    return (Tree(leaves).path(label),)


def head(t, previous, every, old):
    return sha(b"\x03" + head_opening(t, previous, Tree(every), Tree(old)))


def start(heads):
    need(within(heads, 32, 1, 65536), INPUT)
    return 0, 0, head(0, ZERO, [], []) + heads[32:]


def read_batch(batch):
    need(within(batch, UPDATE.size, 0, 256), INPUT)
    updates = []
    for name, key, opening in UPDATE.iter_unpack(batch):
        named = named_key(name, key)
        need(named, INPUT)
        updates.append((*named, opening))
    return updates


def read_table(records, count, current):
    """The counted records, and each name's last version and epoch, of a table in shape."""
    table, last, before = [], {}, 1
    for name, v, e, key, opening in RECORD.iter_unpack(records[: count * RECORD.size]):
        named = named_key(name, key)
        need(named and 1 <= v <= 1023, TABLE)
        need(before <= e <= current, TABLE)
        version, epoch = last.get(named[0], (0, 0))
        need(v == version + 1 and e > epoch, TABLE)
        last[named[0]], before = (v, e), e
        table.append((named[0], v, e, named[1], opening))
    return table, last


def record_bytes(name, v, e, key, opening):
    return RECORD.pack(be(1, len(name)) + name, v, e, be(1, len(key)) + key, opening)


def pasted(b, at, part):
    return b[:at] + part + b[at + len(part) :]


def publish(records, heads, count, epoch, batch):
    need(within(records, RECORD.size, 0, 4096) and within(heads, 32, 1, 65536), INPUT)
    updates = read_batch(batch)
    need(count * RECORD.size <= len(records) and (epoch + 1) * 32 <= len(heads), TABLE)
    table, last = read_table(records, count, epoch)
    need(len({name for name, _, _ in updates}) == len(updates), TWICE)
    need((count + len(updates)) * RECORD.size <= len(records), FULL)
    need((epoch + 2) * 32 <= len(heads), FULL)
    versions = [1 + last.get(name, (0, 0))[0] for name, _, _ in updates]
    need(all(v <= 1023 for v in versions), FULL)
    t = epoch + 1
    more = [(name, v, t, key, opening) for v, (name, key, opening) in zip(versions, updates)]
    every, old = leaves_at(t, table + more)
    need_distinct(every)
    need_distinct(old)
    records = pasted(records, count * RECORD.size, b"".join(record_bytes(*r) for r in more))
    heads = pasted(heads, t * 32, head(t, heads[epoch * 32 : t * 32], every, old))
    return count + len(more), t, records, heads


CALLS = {"tree_root": tree_root, "tree_path": tree_path, "start": start, "publish": publish}


if __name__ == "__main__":
    vector_files.main(CALLS, "tests/server.py", __doc__)

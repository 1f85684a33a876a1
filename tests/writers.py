#!/usr/bin/env python3
"""The three writers after document 01, in plain Python over hashlib, written from the document alone: lookup, history and audit proofs
over tables of any bytes, for an output of so many bytes.

    python3 tests/writers.py DIR

compares their answers with the vector files of a folder.
"""
import sys

sys.dont_write_bytecode = True
import vector_files
from answer import EPOCH, INPUT, ROOM, TABLE, need
from directory import Directory, is_name, leaves_at
from server import RECORD, need_distinct, read_table, within


def directory(records, heads, count, epoch, at, good):
    """The directory that tables in shape hold, for proofs at an epoch."""
    need(within(records, RECORD.size, 0, 4096) and within(heads, 32, 1, 65536) and good, INPUT)
    need(count * RECORD.size <= len(records) and (epoch + 1) * 32 <= len(heads), TABLE)
    table, _ = read_table(records, count, epoch)
    need(at <= epoch, EPOCH)
    for leaves in leaves_at(at, table):
        need_distinct(leaves)
    kept = Directory()
    kept.records, kept.heads = table, [heads[i : i + 32] for i in range(0, len(heads), 32)]
    return kept


def fitting(proof, room):
    need(len(proof) <= room, ROOM)
    return (proof,)


def write_lookup(records, heads, count, epoch, name, at, room):
    return fitting(directory(records, heads, count, epoch, at, is_name(name)).lookup(name, at), room)


def write_history(records, heads, count, epoch, name, at, room):
    return fitting(directory(records, heads, count, epoch, at, is_name(name)).history(name, at), room)


def write_audit(records, heads, count, epoch, at, room):
    return fitting(directory(records, heads, count, epoch, at, at > 0).audit(at), room)


CALLS = {"write_lookup": write_lookup, "write_history": write_history, "write_audit": write_audit}


if __name__ == "__main__":
    vector_files.main(CALLS, "tests/writers.py", __doc__)

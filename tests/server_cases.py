#!/usr/bin/env python3
"""Requests for the server's calls with their answers: those of tests/level_cases.py, tests/publish_cases.py and tests/write_cases.py, answered by
tests/server.py and tests/writers.py.

    python3 tests/server_cases.py CALL > tests/vectors-own/CALL.txt

prints the small examples of a call as a vector file.
"""
import itertools
import sys

sys.dont_write_bytecode = True
import level_cases
import publish_cases
import server
import write_cases
import writers
from answer import line, word

CALLS = {**server.CALLS, **writers.CALLS}

HEADINGS = {
    "tree_root": ["leaves = root", "leaves: label 32, commitment 32, epoch 4 for each, one behind the other, in any order"],
    "tree_path": ["leaves label absent = path", "leaves as in tree_root; absent 1: the label is to be shown absent"],
    "start": ["heads = count epoch heads_after"],
    "publish": ["records heads count epoch batch = count epoch records_after heads_after"],
    "write_lookup": ["records heads count epoch name at room = proof", "at: the epoch of the proof; room: how many bytes are lent for it"],
    "write_history": ["records heads count epoch name at room = proof", "at, room: as in write_lookup"],
    "write_audit": ["records heads count epoch at room = proof", "at: the new epoch; room: as in write_lookup"],
}


SAMPLED = 600  # a case with more bytes than these is none of the driver's sample, which would have 4 MB with all; tests/longest.py puts it


def answered(*groups):
    for group in groups:
        for call, values in group():
            yield call, values, line(CALLS[call], *values)


def split():
    """(call, values, answer) of every case: those of the sample, and the longer ones."""
    parts = [], []
    for case in answered(level_cases.given, publish_cases.given, write_cases.given):
        parts[SAMPLED < sum(len(x) for x in case[1] if isinstance(x, bytes))].append(case)
    return parts


def cases():
    """The cases of the driver's sample."""
    return split()[0]


def longest():
    """The longer cases, and the largest."""
    return itertools.chain(split()[1], answered(level_cases.at_bounds, publish_cases.at_bounds, write_cases.at_bounds))


def main():
    if len(sys.argv) != 2 or sys.argv[1] not in HEADINGS:
        sys.exit(__doc__)
    first, *more = HEADINGS[sys.argv[1]]
    for text in [first + "  (or: refused N)", *more]:
        print("#", text)
    for call, values, said in answered(level_cases.examples, publish_cases.examples, write_cases.examples):
        if call == sys.argv[1]:
            print(*map(word, values), "=", said)


if __name__ == "__main__":
    main()

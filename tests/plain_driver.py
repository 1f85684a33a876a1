"""The driver after docs/DRIVER.md, in plain Python over the other implementations: the lines that it has to write for an input."""
import hashlib

import checker
import server
import writers
from answer import line
from driver import BYTES, CALLS


def first_difference(a, b):
    """The first bit at which the labels differ; the end of the shorter one where they differ nowhere."""
    n = 8 * min(len(a), len(b), 32)
    x, y = ("".join(f"{byte:08b}" for byte in s)[:n] for s in (a, b))
    return next((i for i in range(n) if x[i] != y[i]), n)


def history_paths(n, epoch):
    """Document 01's list, part by part."""
    most = min(10, epoch.bit_length())
    if n == 0:
        return most
    a = n.bit_length() - 1
    versions, old, last = n, n - 1, 1
    gap = len(range(n + 1, 2 ** (a + 1)))
    return versions + old + last + gap + (a + 1) + len(range(a + 1, most))


# each call, which gives its values
VALUES = {
    "sha256": lambda data: (hashlib.sha256(data).digest(),),
    "first_difference": lambda a, b: (first_difference(a, b),),
    "history_paths": lambda n, epoch: (history_paths(n, epoch),),
    "check_lookup": checker.check_lookup,
    "check_history": checker.check_history,
    "check_audit": checker.check_audit,
    "program": lambda stdin: (checker.program(stdin),),
    **server.CALLS,
    **writers.CALLS,
}

TABLES = [688296, 2097184]  # records, heads

# how many bytes each field of bytes may have, in order
MOST = {
    "sha256": [65536],
    "first_difference": [64, 64],
    "history_paths": [],
    "check_lookup": [256, 256, 3276800],
    "check_history": [256, 256, 3276800],
    "check_audit": [256, 256, 3276800],
    "program": [131072],
    "tree_root": [557124],
    "tree_path": [557124, 256],
    "start": TABLES[1:],
    "publish": [*TABLES, 41634],
    "write_lookup": [*TABLES, 1024],
    "write_history": [*TABLES, 1024],
    "write_audit": TABLES,
}
ROOM = 1200000  # what there is to be lent for a proof

BY_NUMBER = {number: call for call, (number, _) in CALLS.items()}


def fields(data):
    """The fields of a request behind its call's number, or none where one is cut short."""
    found, at = [], 0
    while at < len(data):
        n = int.from_bytes(data[at : at + 4], "big")
        if len(data) < at + 4 + n:
            return None
        found.append(data[at + 4 : at + 4 + n])
        at += 4 + n
    return found


def values(call, found):
    """What the fields say, or nothing where one is missing, too many, too long, or a number of another width."""
    kinds, most = CALLS[call][1], iter(MOST[call])
    if found is None or len(found) != len(kinds):
        return None
    said = []
    for kind, field in zip(kinds, found):
        if len(field) > next(most) if kind == BYTES else len(field) != kind:
            return None
        said.append(field if kind == BYTES else int.from_bytes(field, "big"))
    return said


def answer(request):
    """The line for a request, whose bytes follow its length."""
    call = BY_NUMBER.get(request[0]) if request else None
    said = values(call, fields(request[1:])) if call else None
    if said is None:
        return "bad"
    if call.startswith("write_"):
        said[-1] = min(said[-1], ROOM)
    return line(VALUES[call], *said)


def lines(data):
    """The lines for an input: one for each request, also for the last where the input ends within it."""
    at = 0
    while at < len(data):
        n = int.from_bytes(data[at : at + 4], "big")
        request = data[at + 4 : at + 4 + n]
        yield answer(request) if len(data) >= at + 4 + n else "bad"
        at += 4 + n

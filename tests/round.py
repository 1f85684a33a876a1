#!/usr/bin/env python3
"""What the writers wrote is put to the checkers, in one run of the driver program: it starts directories and publishes batches of any names,
writes lookup, history and audit proofs for names and epochs, and checks them at the heads that its own publishing left.

Each proof has to be accepted with the directory's own answer: the version and its key, at its place in the proof, n, and the epochs. With one
bit of a byte turned it has to be refused, by the number that tests/checker.py gives.
"""
import collections
import random
import sys

sys.dont_write_bytecode = True
import checker
from answer import line
from driver import Running
from publish_cases import update

ANY = random.Random(25)  # the same directories each time
DIRECTORIES = 40
EDITS = 3
ROOM = 10**6
SLOTS = 60
NAMES = [b"ada", b"bo", b"!", b"~" * 64, b"eve", b"fay"]
LATER = b"zed"  # a name that is never published


class Published:
    """A directory that the driver keeps: records, heads, count and epoch as its answers left them, and the keys that were published."""

    def __init__(self, running, epochs):
        count, epoch, heads = running.ask("start", bytes(32 * (epochs + 1))).split(" ")
        self.tables = bytes(168 * SLOTS), bytes.fromhex(heads), int(count), int(epoch)
        self.running, self.keys = running, collections.defaultdict(list)

    def publish(self, names):
        batch = [(name, ANY.randbytes(ANY.randint(1, 64)), ANY.randbytes(32)) for name in names]
        answer = self.running.ask("publish", *self.tables, b"".join(update(*x) for x in batch))
        count, epoch, records, heads = answer.split(" ")
        self.tables = bytes.fromhex(records), bytes.fromhex(heads), int(count), int(epoch)
        for name, key, _ in batch:
            self.keys[name].append((self.tables[3], key))

    def head(self, t):
        return self.tables[1][32 * t : 32 * (t + 1)]

    def by(self, name, t):
        """The keys of the name's versions with epoch at most t."""
        return [key for epoch, key in self.keys[name] if epoch <= t]


def lookup_is(said, proof, keys, t):
    """Whether a lookup's answer is the directory's: version, epoch, and where the key lies."""
    version, epoch, _, low, high = map(int, said.split(" "))
    return (version, epoch) == (len(keys), t) and proof[low:high] == (keys[-1] if keys else b"") and (keys or (low, high) == (0, 0))


def history_is(said, n, t):
    return tuple(map(int, said.split(" ")[:2])) == (n, t)


def proofs(d):
    """(writer, its fields, checker, its head and name or heads, whether an accepting line is the directory's answer)"""
    for t in range(d.tables[3] + 1):
        for name in NAMES + [LATER]:
            keys = d.by(name, t)
            yield "write_lookup", [name, t], "check_lookup", [d.head(t), name], lambda said, proof, k=keys, t=t: lookup_is(said, proof, k, t)
            yield "write_history", [name, t], "check_history", [d.head(t), name], lambda said, _, n=len(keys), t=t: history_is(said, n, t)
        if t:
            yield "write_audit", [t], "check_audit", [d.head(t - 1), d.head(t)], lambda said, _, t=t: history_is(said, t - 1, t)


def turned(proof):
    """The proof with one bit turned."""
    at = ANY.randrange(len(proof))
    return proof[:at] + bytes([proof[at] ^ 1 << ANY.randrange(8)]) + proof[at + 1 :]


def tried(running, check, under, proof):
    """The driver's answer, and whether it is the other implementation's."""
    said = running.ask(check, *under, proof)
    return said, said == line(getattr(checker, check), *under, proof)


def round_trip(running, d, seen):
    """Puts each proof of the directory, and gives what was wrong."""
    for write, fields, check, under, is_own in proofs(d):
        written = running.ask(write, *d.tables, *fields, ROOM)
        if written.startswith("refused"):
            yield f"{write} {fields}: {written}"
            continue
        proof = bytes.fromhex(written)
        said, same = tried(running, check, under, proof)
        if said.startswith("refused") or not same or not is_own(said, proof):
            yield f"{write} {fields}: the written proof is answered {said}"
        seen[check, "accepted"] += 1
        for _ in range(EDITS):
            said, same = tried(running, check, under, turned(proof))
            if not same or not said.startswith("refused"):
                yield f"{write} {fields}: with a bit turned it is answered {said}"
            seen[check, said] += 1


def main():
    wrong, seen = [], collections.Counter()
    with Running() as running:
        for _ in range(DIRECTORIES):
            epochs = ANY.randint(1, 9)
            d = Published(running, epochs)
            for _ in range(epochs):
                d.publish(ANY.sample(NAMES, ANY.choice((0, 1, 2, 3, 6))))
            wrong += round_trip(running, d, seen)
    for x in wrong[:10]:
        print(x)
    for (check, said), many in sorted(seen.items()):
        print(f"{check}: {many} {said}")
    sys.exit(1 if wrong else 0)


main()

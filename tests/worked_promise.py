#!/usr/bin/env python3
"""worked_promise.py NAME: prints a proof of crates/worked_arrow from its template, worked_NAME.antt.in. The bytes are those of a
directory in which a key was replaced, a lookup before, a history after and the audit step between, and of its first publishing.

@x@ stands for bytes; a line `@x: string` for x, the digest of the string, and the theorem `x-is` that it is."""
import os
import re
import sys

sys.path.insert(0, os.path.dirname(os.path.abspath(__file__)))
import server
from directory import Directory, label, sha

NAME = b"ida"
KEYS = [(b"first", bytes([7] * 32)), (b"second", bytes([8] * 32))]
UNFOLDING = (
    "F.be64 F.zeros F.pad F.parse F.digest be to_bits bits_of from_bits pack "
    "leaf_string inner_string nothing_string head_bytes head_string label_string commitment_string"
)


def values():
    d = Directory()
    for key, opening in KEYS:
        d.publish([(NAME, key, opening)])
    every1, old1 = (t.root for t in d.trees(1))
    every2, old2 = (t.root for t in d.trees(2))
    pair1, pair2 = every2["left"], every2["right"]
    digests = {
        "leaf-1": pair1["left"], "marker-0": pair1["right"], "pair-1": pair1,
        "marker-1": pair2["left"], "leaf-2": pair2["right"], "pair-2": pair2,
        "empty": old1["left"], "gone-1": old2["left"],
        "all-1": every1, "all-2": every2, "old-1": old1, "old-2": old2,
    }
    out = {name: node["digest"] for name, node in digests.items()}
    for i, (key, opening) in enumerate(KEYS, 1):
        out.update({"key-%d" % i: key, "opening-%d" % i: opening, "commitment-%d" % i: sha(b"\x05" + opening + key)})
    out.update({"label-%d" % i: label(1, i, NAME) for i in (1, 2, 3)})
    out.update({"mark-%d" % j: label(2, j, NAME) for j in (0, 1)})
    out.update({"name": NAME, "start": d.heads[0], "before": d.heads[1], "after": d.heads[2]})
    out.update({"lookup": d.lookup(NAME, 1), "step": d.audit(2), "history": d.history(NAME, 2)})
    out["wrong"] = sha(b"\x01" + bytes(2) + bytes(32) + bytes(32) + out["pair-2"])
    # the first sibling of the last path, which has two steps and this leaf, is 32 zero bytes
    at = len(out["history"]) - 103
    out["broken"] = server.pasted(out["history"], at, bytes(32))
    out.update(first_publishing())
    return out


def first_publishing():
    (key, opening), field = KEYS[0], lambda b: bytes([len(b)]) + b
    batch = server.UPDATE.pack(field(NAME), field(key), opening)
    count, epoch, begun = server.start(bytes(64))
    _, _, records, heads = server.publish(bytes(server.RECORD.size), begun, count, epoch, batch)
    return {"begun": begun, "batch": batch, "records": records, "heads": heads}


def antt(b):
    return " ∷ ".join([str(x) for x in b] + ["[]"])


def main():
    template = os.path.join(os.path.dirname(os.path.abspath(__file__)), "worked_%s.antt.in" % sys.argv[1])
    with open(template) as f:
        text = f.read()
    known = values()
    block = r"abbrev pub \1 : Bytes\n\1 = @\1@\n\npub \1-is : F.sha256 (\2) ≡ \1\nunfolding %s\n\1-is = fast-is (\2)" % UNFOLDING
    text = re.sub(r"(?m)^@([a-z0-9-]+): (.*)$", block, text)
    sys.stdout.write(re.sub(r"@([a-z0-9-]+)@", lambda m: antt(known[m[1]]), text))


main()

#!/usr/bin/env python3
"""Puts requests through C programs that are linked with the archive (tests/c/run builds them), and holds what they print to what other
implementations say: to tests/c/driver.c the driver's own sample, as far as the archive has its calls, proofs of a larger directory, and
requests of which some slices are empty, which it lends as NULL; to tests/c/check.c the checking program's cases, and the accepted key. `kit`
runs the programs that the kit's compiler made, `native` those of the machine's own, and `aarch64` those for Arm, under an emulator."""
import itertools
import os
import re
import subprocess
import sys

sys.dont_write_bytecode = True
sys.path.insert(0, os.path.join(os.path.dirname(os.path.abspath(__file__)), ".."))
import answer
import cases
import driver
import plain_driver
import runs
import write_cases

WRITERS = {12, 13, 14}
CALLS = {1, 4, 5, 6, 10, 11} | WRITERS


def command(name):
    if sys.argv[1:] == ["native"]:
        return [os.path.join(runs.ROOT, "target", "c", "native", name)]
    if sys.argv[1:] == ["aarch64"]:
        return ["qemu-aarch64", os.path.join(runs.ROOT, "target", "c", "aarch64", name)]
    return [os.path.join(runs.ROOT, "target", "c", name)]


def sample():
    """The readable requests of the driver's sample that the archive has a function for, with their lines."""
    folder = os.path.join(runs.ROOT, "crates", "driver")
    data = open(os.path.join(folder, "stdin"), "rb").read()
    at = 0
    for line in open(os.path.join(folder, "stdout")).read().split("\n")[:-1]:
        n = int.from_bytes(data[at : at + 4], "big")
        request = data[at : at + 4 + n]
        at += 4 + n
        if line != "bad" and request[4] in CALLS:
            yield request, line


def larger():
    """Proofs of a directory that is too long for the sample, whose count and epoch differ."""
    tables, names = list(write_cases.directories())[1]
    for call, values in write_cases.proofs(tables, names):
        request = driver.call_request(call, values)
        yield request, plain_driver.answer(request[4:])


def told(request, line):
    """The values of an accepted answer's struct behind its number, where the line or the request has them."""
    words = line.split(" ")
    if request[4] == 4:
        *values, low, high = map(int, words)
        return [*values, low, high - low]
    if request[4] in WRITERS:
        state = plain_driver.fields(request[5:])[2:4]
        return [*(int.from_bytes(x, "big") for x in state), len(words[0]) // 2]
    return [int(x) for x in words[: 2 if request[4] == 11 else 3]]


def seen_apart(given):
    """Whether each struct is answered with values that all differ, and from the number, 0: so that an exchange of fields would be seen. Start
    has the struct of publish, and a digest is one field."""
    accepted = [(r, line) for r, line in given if not line.startswith("refused") and r[4] not in (1, 10)]
    apart = {r[4] for r, line in accepted if len({0, *told(r, line)}) == 1 + len(told(r, line))}
    return apart == CALLS - {1, 10}


def emptied(request):
    """The request with some of its slices empty, in every way. A writer's output is a slice too, of as many bytes as its last field says."""
    kinds = driver.CALLS[plain_driver.BY_NUMBER[request[4]]][1]
    found = plain_driver.fields(request[5:])
    slices = [i for i, kind in enumerate(kinds) if kind == driver.BYTES] + [len(kinds) - 1] * (request[4] in WRITERS)
    for many in range(1, len(slices) + 1):
        for gone in itertools.combinations(slices, many):
            yield driver.request(request[4], [f if i not in gone else b"" if kinds[i] == driver.BYTES else bytes(4) for i, f in enumerate(found)])


def with_empty(given):
    """For each call an accepted request with no empty slice, so emptied, with the other implementation's lines."""
    for call in sorted(CALLS):
        whole = next(r for r, line in given if r[4] == call and not line.startswith("refused") and all(plain_driver.fields(r[5:])))
        for request in emptied(whole):
            yield request, plain_driver.answer(request[4:])


def interface():
    given = [*sample(), *larger()]
    empty = list(with_empty(given))
    asked = given + empty
    done = subprocess.run(command("driver"), input=b"".join(r for r, _ in asked), capture_output=True, check=True)
    lines = done.stdout.decode().split("\n")[:-1]
    wrong = [(r[4], a, b) for (r, a), b in zip(asked, lines) if a != b]
    for call, a, b in wrong[:5]:
        print(f"call {call}: expected {a[:120]}, got {b[:120]}")
    seen = sorted({r[4] for r, _ in given})
    print(f"C interface ({' '.join(sys.argv[1:])}): {len(given)} requests of calls {', '.join(map(str, seen))}, {len(empty)} with NULL; {len(wrong)} wrong")
    return len(lines) == len(asked) and not wrong and seen == sorted(CALLS) and seen_apart(given)


def numbers():
    """Whether the header, and the Rust crate over it, give document 01's numbers their names."""
    expected = {name: getattr(answer, name) for name in "INPUT FORM HEAD ROOT RULE FULL CLASH ROOM TWICE EPOCH TABLE".split()}
    found = []
    for file, pattern in ("include/noonhaggle.h", r"NOONHAGGLE_([A-Z]+) = (\d+)"), ("rust/src/lib.rs", r"(?m)^    ([A-Z][a-z]+) = (\d+),$"):
        text = open(os.path.join(runs.ROOT, file)).read()
        found.append({name.upper(): int(number) for name, number in re.findall(pattern, text)})
    print(f"the numbers that say no: {'as document 01 has them' if found == [expected] * 2 else found}")
    return found == [expected] * 2


def checking():
    count = good = 0
    for call, fields, said in cases.cases():
        if call != "program":
            continue
        (stdin,) = fields
        lines = subprocess.run(command("check"), input=stdin, capture_output=True, check=True).stdout.decode().split("\n")[:-1]
        expected = [said]
        if expected[0].startswith("version"):
            proof = stdin[33 + stdin[32] :]
            expected.append(proof[109 : 109 + proof[108]].hex() if not expected[0].startswith("version 0 ") else "")
        count += 1
        good += lines == expected
    print(f"the checking program in C: {count} inputs, {count - good} wrong")
    return count > 0 and good == count


ok = interface()
ok = checking() and ok
ok = numbers() and ok
sys.exit(0 if ok else 1)

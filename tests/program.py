#!/usr/bin/env python3
"""Runs the built checking program as a shell would, and compares what its caller sees with what another implementation, tests/checker.py,
says of the input. No contract can say which bytes a program reads, that it writes its line, or how it ends.

    python3 tests/program.py [COMMAND..]

runs a command in its place.
"""
import collections
import os
import sys
import tempfile
import threading

sys.dont_write_bytecode = True
import cases
import checker
import runs

BOUND = 65536
KINDS = {"version 0", "version 5", "refused 1", "refused 2", "refused 3", "refused 4", "refused 5"}


def line(data):
    return checker.program(data).encode() + b"\n"


def inputs():
    """The program's cases, and an accepted one: cut at each byte of head and name and at its last, and filled up to the bound and past it."""
    given = [fields[0] for call, fields, _ in cases.cases() if call == "program"]
    yield from given
    accepted = next(x for x in given if line(x).startswith(b"version 5 "))
    for n in [*range(34 + accepted[32]), len(accepted) - 1]:
        yield accepted[:n]
    for n in (BOUND - 1, BOUND, BOUND + 1, BOUND + 2, 2 * BOUND, 20 * BOUND):
        yield accepted.ljust(n, b"\0")


def from_file(words, data):
    with tempfile.TemporaryFile() as file:
        file.write(data)
        file.seek(0)
        return runs.ended(runs.started(words, stdin=file))


def slowly(words, data):
    """Through a pipe in up to eight pieces, the last of which is a byte."""
    size = len(data) // 7 + 1
    front = data[:-1]
    return runs.in_pieces(words, [front[at : at + size] for at in range(0, len(front), size)] + [data[-1:]])


def answered(words):
    """(how, what is seen, what is to be seen) for each input, in each way that a shell has to hand it over."""
    for data in inputs():
        for how, run in ("a file", from_file), ("a pipe", runs.piped), ("a pipe, in pieces", slowly):
            yield f"{len(data)} bytes from {how}", run(words, data), (0, line(data), b"")


def redirected(words, where):
    return ["sh", "-c", f'exec "$@" {where}', "sh", *words]


def unreadable(words):
    """An input that can't be read is an empty one."""
    yield "closed standard input", runs.ended(runs.started(redirected(words, "<&-"), stdin=None)), (0, line(b""), b"")
    yield "a folder as standard input", runs.ended(runs.started(redirected(words, "</"), stdin=None)), (0, line(b""), b"")


def unending(words):
    """What may come behind a byte more than is checked is not waited for."""
    data = bytes(BOUND + 1)
    ours, theirs = os.pipe()
    run = runs.started(words, stdin=ours)
    os.close(ours)
    threading.Thread(target=os.write, args=(theirs, data), daemon=True).start()
    yield f"{len(data)} bytes from a pipe that stays open", runs.ended(run), (0, line(data), b"")
    os.close(theirs)


def unwritable(words):
    """Where the line can't be written, the program ends all the same, and says nothing of it."""
    yield "closed standard output", runs.piped(redirected(words, ">&-"), b""), (0, b"", b"")
    if os.path.exists("/dev/full"):
        yield "full standard output", runs.piped(redirected(words, ">/dev/full"), b""), (0, b"", b"")
    else:
        print("skipped: full standard output (there is no /dev/full)")
    for ignored in False, True:
        ours, theirs = os.pipe()
        os.close(ours)
        # SIGPIPE is ignored here, as Python has it, and there unless it is restored; the program ignores it in either case
        run = runs.started(words, stdout=theirs, restore_signals=not ignored)
        os.close(theirs)
        yield f"nobody reads standard output{' (SIGPIPE ignored)' * ignored}", runs.ended(run, b""), (0, None, b"")


def main():
    words = sys.argv[1:] or [runs.built("program")]
    wrong, kinds = 0, collections.Counter()
    for group in (answered, unreadable, unending, unwritable):
        for how, seen, expected in group(words):
            kinds[" ".join((expected[1] or b"no line").decode().split()[:2])] += 1
            if seen != expected:
                wrong += 1
                if wrong <= 5:
                    print(f"{how}: expected {expected}, and seen {seen}")
    print(f"the checking program: {sum(kinds.values())} runs, {wrong} wrong ({', '.join(f'{k}: {n}' for k, n in sorted(kinds.items()))})")
    sys.exit(0 if not wrong and KINDS <= set(kinds) else 1)


main()

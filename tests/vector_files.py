"""Vector files, one for each call and named after it, as sha256.txt, and how answers are compared with them.

A line has the fields, separated by blanks, ` = ` and the answer; `#` begins a comment. Bytes are in hexadecimal digits, and `-` is no
bytes; numbers are decimal.
"""
import os
import sys

from answer import line as said
from driver import BYTES, CALLS


def value(kind, text):
    if kind == BYTES:
        return bytes.fromhex("" if text == "-" else text)
    return int(text)


def read(path, kinds):
    """The fields and the answer of each line."""
    for line in open(path):
        if line.startswith("#") or not line.strip():
            continue
        given, expected = line.rstrip("\n").split(" = ")
        words = given.split(" ")
        if len(words) != len(kinds):
            sys.exit(f"{path}: {len(words)} fields where the call has {len(kinds)}: {line[:80]}")
        yield given, [value(k, w) for k, w in zip(kinds, words)], expected


def compare(folder, call, who, answers):
    cases = list(read(os.path.join(folder, call + ".txt"), CALLS[call][1]))
    got = answers(call, [values for _, values, _ in cases])
    wrong = [(given, expected, line) for (given, _, expected), line in zip(cases, got) if expected != line]
    for given, expected, line in wrong[:5]:
        print(f"  {given[:120]}: expected {expected[:120]}, and {who} answered {line[:120]}")
    if len(got) != len(cases):
        print(f"  {len(cases)} requests, and {len(got)} lines in answer")
    agree = len(cases) == len(got) and not wrong and cases
    print(f"{call}: {len(cases)} lines, {'all agree' if agree else 'NOT ALL AGREE'}")
    return bool(agree)


def agree(folder, calls, who, answers):
    """Whether the folder has files of these calls, and answers(call, values of each line) gives each line's answer in all of them."""
    found = sorted(f[:-4] for f in os.listdir(folder) if f.endswith(".txt"))
    for call in found:
        if call not in calls:
            print(f"skipped: {call}, a call that {who} does not have")
    results = [compare(folder, call, who, answers) for call in found if call in calls]
    return bool(results) and all(results)


def main(calls, who, usage):
    """The command `who DIR`: exits with 0 if the calls, which give their values or raise Refused, answer each line of the folder's files."""
    if len(sys.argv) != 2:
        sys.exit(usage)
    same = agree(sys.argv[1], calls, who, lambda call, cases: [said(calls[call], *values) for values in cases])
    sys.exit(0 if same else 1)

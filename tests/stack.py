#!/usr/bin/env python3
"""Prints the stack that functions of the driver program take, or of another (-p PROGRAM), with all that they call, from the program's own
instructions: `python3 tests/stack.py main`, `python3 tests/stack.py -p target/c/driver noonhaggle_publish`.

A function's frame is what it pushes, what it subtracts from the stack pointer, and its return address. A large frame is taken step by step,
in a loop whose end is reckoned in the register r11 first; the loop's own step is a part of that. A function's stack is its frame and the
largest stack of a function that it calls. A function that calls itself is counted at the depth that its contract bounds: a recursion over the
bits of labels at 256, with one call more where the last only ends it. Run `tools/build driver` first; `objdump` must be on the path.
"""
import os
import re
import subprocess
import sys

ROOT = os.path.dirname(os.path.dirname(os.path.abspath(__file__)))
PROGRAM = os.path.join(ROOT, "crates/driver/out/driver")
if sys.argv[1:2] == ["-p"]:
    PROGRAM = sys.argv[2]
    del sys.argv[1:3]
text = subprocess.run(["objdump", "-d", "--no-show-raw-insn", PROGRAM], capture_output=True, text=True, check=True).stdout

DEPTHS = {
    "audit_root::below": 256,
    "arrange::sort": 257,
    "tree::below": 256,
    "tree_path::way_below": 256,
    "write_path::write_below": 256,
    "subtrees::count::count_below": 256,
    "subtrees::write::write_below": 256,
}

frames, calls, name, steps = {}, {}, None, False
for line in text.split("\n"):
    start = re.match(r"[0-9a-f]+ <(.*)>:$", line)
    if start:
        name = start.group(1)
        frames[name], calls[name] = 8, set()
    elif name:
        if re.search(r"\tpush ", line):
            frames[name] += 8
        sub = re.search(r"\tsub +\$0x([0-9a-f]+),%rsp", line)
        if sub:
            frames[name] += 0 if steps else int(sub.group(1), 16)
            steps = False
        end = re.search(r"\tsub +\$0x([0-9a-f]+),%r11", line)
        if end:
            frames[name] += int(end.group(1), 16)
            steps = True
        call = re.search(r"\t(?:call|jmp) +[0-9a-f]+ <(.*)>$", line)
        if call and not re.search(r"\+0x[0-9a-f]+$", call.group(1)):
            calls[name].add(call.group(1))


def stack(f, seen=()):
    levels = DEPTHS[f] if f in calls.get(f, ()) else 1
    inner = [stack(g, seen + (f,)) for g in calls.get(f, ()) if g != f and g not in seen]
    return frames.get(f, 0) * levels + max(inner, default=0)


for f in sys.argv[1:] or sorted(frames):
    print(f"{f}: frame {frames[f]}, with what it calls {stack(f)}")

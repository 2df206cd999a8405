#!/usr/bin/env python3
"""What a cycle, a single reading and a preset cost: instructions a line of the program `vectors` (valgrind's callgrind), as the difference of a script
with 1,000 such lines and one without, divided by 1,000. Reading the line and printing its answer are in it. Beside it stands how often a line asks what
is in force (calls of `in_force`); printing the position of an axis asks once. The last column has the instructions of `respond`, all of a cycle that
follows on the raw number.

    tools/build vectors && python3 bench/calls.py [PROGRAM]
"""
import os
import re
import subprocess
import sys
import tempfile

HERE = os.path.dirname(os.path.abspath(__file__))
PROGRAM = sys.argv[1] if len(sys.argv) > 1 else os.path.join(HERE, "..", "target", "bin", "vectors")
LINES = 1000

# R = T = 4096, M = 1000, L = 400,000; the axis stands at raw number 204,800, and moves by 37 steps a line
CLASS2 = ["axis  2  4096 4096 0000 0a 1000 400000", "first    0 50"]
CLASS4 = ["axis  4  4096 4096 0000 2a 1000 400000 0 0", "first    0 50", "hold     1234"]
# the same with block bit 5 at 0, and 1 for the sign-of-life limit
LIFE = ["axis  4  4096 4096 0000 0a 1000 400000 1 0", "first    0 50", "hold     1234"]


def raw(i):
    return (204800 + 37 * (i + 1)) % 16777216


# a preset on each rise of its bit: every other cycle
KINDS = {
    "class 2 cycle": (CLASS2, lambda i: f"exchange 4 {raw(i)} 00 00 00 05"),
    "class 2 cycle, preset every other": (CLASS2, lambda i: f"exchange 4 {raw(i)} {'80' if i % 2 else '00'} 00 00 05"),
    "class 4 cycle": (CLASS4, lambda i: f"exchange 12 {raw(i)} 04 00 00 00"),
    "class 4 cycle, preset every other": (CLASS4, lambda i: f"exchange 12 {raw(i)} 04 00 {'10' if i % 2 else '00'} 00"),
    "class 4 cycle, faulty": (CLASS4, lambda i: "exchange 12 16777216 04 00 00 00"),
    "class 4 cycle, sign of life right": (LIFE, lambda i: f"exchange 12 {raw(i)} {i % 15 + 1:x}4 00 00 00"),
    "class 4 cycle, sign of life failing": (LIFE, lambda i: f"exchange 12 {raw(i)} 34 00 00 00"),
    "telegram 83": (CLASS4, lambda i: f"measured 16 {raw(i)} 10 04 00 00 00"),
    "telegram 83, preset every other": (CLASS4, lambda i: f"measured 16 {raw(i)} 10 04 00 {'10' if i % 2 else '00'} 00"),
    "telegram 83, faulty": (CLASS4, lambda i: "measured 16 16777216 10 04 00 00 00"),
    "reading by raw number": (CLASS2, lambda i: f"number   {raw(i)}"),
    "preset": (CLASS2, lambda i: f"preset   {i}"),
    "relative preset": (CLASS2, lambda i: f"change   {i}"),
    "velocity": (CLASS2, lambda i: "velocity 37 50 10"),
}


def counted(lines):
    with tempfile.TemporaryDirectory() as folder:
        out = os.path.join(folder, "out")
        run = ["valgrind", "--tool=callgrind", f"--callgrind-out-file={out}", PROGRAM]
        subprocess.run(run, input="".join(f"{l}\n" for l in lines), text=True, stdout=subprocess.DEVNULL, stderr=subprocess.DEVNULL, check=True)
        profile = open(out).read()
    names = dict(re.findall(r"c?fn=\((\d+)\) (.+)", profile))
    calls = re.findall(r"cfn=\((\d+)\)[^\n]*\ncalls=(\d+)[^\n]*\n\S+ (\d+)", profile)  # function, how often, instructions in all
    asked = sum(int(n) for f, n, _ in calls if names.get(f, "").endswith("in_force"))
    responding = sum(int(i) for f, _, i in calls if names.get(f, "").endswith("cyclic::respond"))
    return [int(re.search(r"^(?:summary|totals): (\d+)", profile, re.M)[1]), asked, responding]


def main():
    print(f"{'a line':<36} {'instructions':>12} {'in_force':>9} {'respond':>9}")
    for kind, (head, line) in KINDS.items():
        counts = zip(counted(head + [line(i) for i in range(LINES)]), counted(head))
        total, asked, responding = ((all_lines - without) / LINES for all_lines, without in counts)
        print(f"{kind:<36} {total:>12,.0f} {asked:>9.2f} {responding:>9.1f}")


if __name__ == "__main__":
    main()

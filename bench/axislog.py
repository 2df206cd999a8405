#!/usr/bin/env python3
"""What axislog costs by the length of the log: instructions (valgrind's callgrind) and time (the best of 50 runs), at 15,000, 30,000 and 60,000
octets, for four kinds of log. What an empty log costs is taken off, and printed first.

    tools/build axislog && python3 bench/axislog.py
"""
import os
import random
import re
import subprocess
import tempfile
import time

PROGRAM = os.path.join(os.path.dirname(os.path.abspath(__file__)), "..", "target", "bin", "axislog")
AXIS = b"(axis (steps 4096) (turns 4096) (sequence cw) (scale 1000 400000))\n"


def readings(size):
    rng, raw, log = random.Random(1), 204800, bytearray(AXIS)
    while len(log) < size:
        raw = (raw + rng.randint(-4000, 4000)) % 16777216
        log += b"(read %d)\n" % raw
    return bytes(log[:size])


KINDS = {
    "readings": readings,
    "axis forms": lambda size: (AXIS * size)[:size],
    "empty lines": lambda size: b"\n" * size,
    "one long line": lambda size: b"(" * size,
}


def instructions(log):
    with tempfile.TemporaryDirectory() as folder:
        out = os.path.join(folder, "out")
        run = ["valgrind", "--tool=callgrind", f"--callgrind-out-file={out}", PROGRAM]
        subprocess.run(run, input=log, stdout=subprocess.DEVNULL, stderr=subprocess.DEVNULL, check=True)
        return int(re.search(r"^(?:summary|totals): (\d+)", open(out).read(), re.M)[1])


def seconds(log):
    best = 1e9
    with tempfile.TemporaryFile() as f:
        f.write(log)
        for _ in range(50):
            f.seek(0)
            start = time.perf_counter()
            subprocess.run([PROGRAM], stdin=f, stdout=subprocess.DEVNULL, check=True)
            best = min(best, time.perf_counter() - start)
    return best


def main():
    none, idle = instructions(b""), seconds(b"")
    print(f"empty log: {none:,} instructions, {idle * 1000:.2f} ms")
    print(f"{'log':<14} {'octets':>7} {'instructions':>13} {'an octet':>9} {'ms':>6}")
    for kind, made in KINDS.items():
        for size in (15000, 30000, 60000):
            log = made(size)
            n = instructions(log) - none
            print(f"{kind:<14} {size:>7,} {n:>13,} {n / size:>9.1f} {(seconds(log) - idle) * 1000:>6.2f}")


if __name__ == "__main__":
    main()

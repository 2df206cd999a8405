#!/usr/bin/env python3
"""axislog by document 01, apart from the Rattle code: a pattern for each form, and the axis of model/axis.py.

    python3 model/axislog.py < LOG              prints the answers
    python3 model/axislog.py --stored           prints what crates/logs is to print
    python3 model/axislog.py --check PROGRAM    compares PROGRAM with this model: the stored runs, both limits, pipes that deliver octet by
                                                octet, and logs drawn with a fixed seed

Prints how many logs were compared, or the first that differs.
"""
import os
import random
import re
import subprocess
import sys

from axis import Axis, Refused

NUMBER = rb"(0|[1-9][0-9]*)"
AXIS = re.compile(
    rb"\(axis \(steps N\) \(turns N\) \(sequence (cw|ccw)\)( \(scale N N\))?\)".replace(b"N", NUMBER)
)
READ = re.compile(rb"\(read N\)".replace(b"N", NUMBER))
PRESET = re.compile(rb"\(preset (-?)N\)".replace(b"N", NUMBER))
LARGEST = 4294967295


class Log:
    def __init__(self):
        self.axis = None
        self.started = False

    def answer(self, line):
        try:
            return self.form(line)
        except Refused as r:
            return b"(refused %d)" % r.args[0]

    def form(self, line):
        found = AXIS.fullmatch(line) or READ.fullmatch(line) or PRESET.fullmatch(line)
        if not found:
            raise Refused(15)
        parts = found.groups()
        if any(int(p) > LARGEST for p in parts if p and p.isdigit()):
            raise Refused(15)
        if found.re is AXIS:
            return self.set_up(*parts)
        if found.re is READ:
            return self.read(int(parts[0]))
        return self.preset(*parts)

    def set_up(self, steps, turns, sequence, scale, units, total):
        octet = 2 | (sequence == b"ccw") | (8 if scale else 0)
        axis = Axis(False, int(steps), int(turns), octet, int(units or 0), int(total or 0))
        if axis.parameters():
            raise Refused(axis.parameters())
        self.axis, self.started = axis, False
        return b"(axis ready)"

    def read(self, raw):
        if not self.axis:
            raise Refused(16)
        if self.started:
            self.axis.read_raw(raw)
        else:
            if raw >= self.axis.c:
                raise Refused(9)
            self.axis.start(raw % self.axis.r, raw // self.axis.r)
            self.started = True
        return b"(at %d)" % self.axis.position()

    def preset(self, sign, size):
        if sign and size == b"0":
            raise Refused(15)
        if not self.started:
            raise Refused(16)
        self.axis.set_preset(-int(size) if sign else int(size), False)
        return b"(at %d)" % self.axis.position()


def answers(log):
    if len(log) > 60000:
        return b"(refused 15)\n"
    lines = log.split(b"\n")
    if lines[-1] == b"":
        lines.pop()
    state = Log()
    return b"".join(state.answer(line) + b"\n" for line in lines)


# ---- logs drawn at random: mostly forms, some of them damaged
SIZES = [0, 1, 2, 3, 9, 10, 99, 100, 4095, 4096, 32768, 32769, 65535, 65536, 65537, 2**31 - 1, 2**31, LARGEST, LARGEST + 1, 10**10]


def some(rng, most):
    return rng.choice(SIZES) if rng.random() < 0.1 else rng.randrange(most + 1)


def setup(rng):
    steps, turns = rng.choice([(10, 3), (4, 4), (2, 1), (7, 5), (4096, 4096), (65536, 32768)])
    if rng.random() < 0.1:
        steps, turns = some(rng, 70000), some(rng, 40000)
    text = f"(axis (steps {steps}) (turns {turns}) (sequence {rng.choice(['cw', 'ccw'])})"
    if rng.random() < 0.7:
        units = rng.randint(1, max(steps, 1)) if rng.random() < 0.9 else some(rng, steps + 1)
        total = rng.randint(units, max(units * turns, units)) if rng.random() < 0.9 else some(rng, units * turns + 1)
        text += f" (scale {units} {total})"
    return text + ")", steps * turns, steps


def damaged(rng, line):
    at = rng.randrange(len(line) + 1)
    kind = rng.randrange(5)
    if kind == 0:
        return line[:at] + line[at + 1 :]
    if kind == 1:
        return line[:at] + rng.choice([b" ", b"0", b"-", b"\r", b"(", b")", b"\0", b"\xff", b"9"]) + line[at:]
    if kind == 2:
        return line[:at]
    if kind == 3:
        return line + rng.choice([b" ", b")", b"x", b"\r", b"\t"])
    return re.sub(rb"[0-9]+", lambda m: rng.choice([b"0", b"-0", b"00", b"0" + m[0], b"-" + m[0], str(LARGEST + 1).encode(), m[0]]), line)


def drawn(rng):
    out, c, steps, raw = [], 12, 4, 0
    for _ in range(rng.randrange(40)):
        k = rng.random()
        if k < 0.12 or not out:
            text, c, steps = setup(rng)
        elif k < 0.3:
            text = f"(preset {rng.choice(['', '-'])}{some(rng, max(c, 1))})"
        else:
            raw = (raw + rng.randint(-c // 3 - 1, c // 3 + 1)) % max(c, 1) if rng.random() < 0.9 else some(rng, c + 1)
            text = f"(read {raw})"
        line = text.encode()
        out.append(damaged(rng, line) if rng.random() < 0.12 else line)
    return b"\n".join(out) + rng.choice([b"", b"\n", b"\n\n"])


def written(program, log, dribble=False):
    if not dribble:
        return subprocess.run([program], input=log, stdout=subprocess.PIPE, check=True).stdout
    p = subprocess.Popen([program], stdin=subprocess.PIPE, stdout=subprocess.PIPE, bufsize=0)
    for octet in log:
        p.stdin.write(bytes([octet]))
    p.stdin.close()
    return p.stdout.read()


def limits():
    """60,000 octets of each kind, and one more."""
    head, last = b"(axis (steps 10) (turns 3) (sequence cw) (scale 3 7))\n", b"(read 28)"
    full = head + b"\n" * (60000 - len(head) - len(last)) + last
    return [b"", b"\n", b"x", b"\n" * 60000, b"\n" * 60001, b"x" * 60000, b"x" * 60001, full, full + b"\n", b"x\n" * 30000, b"\n" * 70000]


def stored():
    """The names of the stored logs, in the order in which they are run, and the logs."""
    logs = os.path.join(os.path.dirname(os.path.abspath(__file__)), "..", "crates", "logs")
    names = open(os.path.join(logs, "args")).read().split()
    return [(name, open(os.path.join(logs, "data", name), "rb").read()) for name in names]


def runs():
    text = b"".join(b"# " + name.encode() + b"\n" + answers(log) for name, log in stored())
    text += b"# a buffer too short, and one too long\n" + b"turned away with 13\n" * 2
    return text + b"# a buffer too short, and a log too long\nturned away with 15\n"


def check(program):
    kept = [log for name, log in stored()]
    rng = random.Random(15)
    logs = [(log, False) for log in kept + limits()] + [(log, True) for log in kept if len(log) < 5000]
    logs += [(drawn(rng), n % 50 == 0) for n in range(2000)]
    for log, dribble in logs:
        if written(program, log, dribble) != answers(log):
            sys.stdout.buffer.write(b"differs:\n" + log[:3000] + b"\n")
            return 1
    print(len(logs), "logs compared, no difference")
    return 0


if __name__ == "__main__":
    if sys.argv[1:2] == ["--check"]:
        sys.exit(check(sys.argv[2]))
    if sys.argv[1:2] == ["--stored"]:
        sys.stdout.buffer.write(runs())
        sys.exit(0)
    sys.stdout.buffer.write(answers(sys.stdin.buffer.read()))

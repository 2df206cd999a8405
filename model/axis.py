#!/usr/bin/env python3
"""An axis by document 01, with No. 1 to 4 of document 02, apart from the Rattle code: whole numbers of any size, and the paper's own words for
"modulo" and "rounded down" (Python's % and // are both rounded towards minus infinity).

    python3 model/axis.py            prints the calculated vectors, each call with its answer under it
    python3 model/axis.py --check    compares them with the last part of crates/vectors/stdout, the answers of its first part, by hand, with those
                                     of the model, and stdin with stdout without the answers

The calls are drawn with fixed seeds, so that every run prints the same. The last section but three repeats cycles that stand in
crates/vectors/stdout, but none of those by hand of document 02, No. 3, nor of what follows them.

Every batch is calculated twice, by the place and by document 02, No. 4. Where the two differ, the script fails.
"""
import itertools
import os
import random
import sys

LENGTH, IDENT, RESERVED, UNITS, TOTAL, SPEED, PLATE = 1, 2, 3, 4, 5, 6, 7
NO_AXIS, BUFFER, ELAPSED, STEP, TURN, HALF, OFF, PRESET, LIMIT = 16, 13, 14, 8, 9, 10, 12, 11, 17
FAULT, LIFE = 0x0001, 0x0F02  # the codes of an error


class Refused(Exception):
    pass


def cut(a, b):
    """a / b cut towards zero, b above 0."""
    return a // b if 0 <= a else -(-a // b)


class Link:
    """The link record, all 0 at the start. A preset is due in class 2 alone, and class 4 leaves `due` as it was (document 02, No. 2).
    Counter, expected value and code change in class 4 alone (document 02, No. 3)."""

    def __init__(self):
        self.bring(0, 0, 0, 0, 0)

    def bring(self, faulty, bit, error, seen, executed, due=0, counter=0, expected=0, code=0):
        self.faulty, self.bit, self.error, self.seen, self.executed, self.due = faulty, bit, error, seen, executed, due
        self.counter, self.expected, self.code = counter, expected, code

    def shown(self):
        bits = f"{self.faulty} {self.bit} {self.error} {self.seen} {self.executed} {self.due}"
        return f"  link {bits} {self.counter} {self.expected} {self.code:04x}"


class Axis:
    """The record: fields may be set to anything from outside."""

    def __init__(self, class4, r, t, octet, units, total, life=0, speed=0):
        self.class4, self.r, self.t, self.octet, self.units, self.total = class4, r, t, octet, units, total
        self.life, self.speed = life, speed
        self.place, self.last = 0, 2**64 - 1  # not started
        self.offset = self.preset = self.held = 0
        self.software, self.serial = [0] * 2, [0] * 10
        self.link = Link()

    # "Class 2 telegram", "Class 4 block" and rows 3 to 7; row 17 by document 02, No. 3
    def parameters(self):
        return self.plate() or self.reserved() or self.scale() or self.speed_unit() or self.life_limit()

    def plate(self):
        return 0 if 2 <= self.r <= 65536 and 1 <= self.t <= 32768 else PLATE

    def reserved(self):
        """Bits 6 and 7 of class 4, bits 4 to 7 of class 2: bit 5 of class 4 may be 0 (document 02, No. 3)."""
        return RESERVED if self.octet & (0xC0 if self.class4 else 0xF0) else 0

    def scale(self):
        if not self.scaling:
            return 0
        if self.units == 0 or self.units > self.r:
            return UNITS
        return TOTAL if self.total < self.units or self.total > self.units * self.t else 0

    def speed_unit(self):
        return SPEED if self.class4 and self.speed > 3 else 0

    def life_limit(self):
        return LIMIT if self.lives and self.life == 0 else 0

    @property
    def lives(self):
        """With the sign of life: class 4, bit 5 at 0."""
        return self.class4 and self.octet >> 5 & 1 == 0

    @property
    def stop(self):
        return 10 * self.life

    @property
    def c(self):
        return self.r * self.t

    @property
    def on(self):
        return self.octet >> 1 & 1 == 1

    @property
    def scaling(self):
        return self.on and self.octet >> 3 & 1 == 1

    @property
    def m(self):
        return self.units if self.scaling else self.r

    @property
    def span(self):
        return self.total if self.scaling else self.c

    @property
    def obeyed(self):
        """The code sequence counter-clockwise, and in force."""
        return self.octet & 1 == 1 and (self.on or not self.class4)

    # "The axis", rule by rule
    def oriented(self, raw):
        return (self.c - raw) % self.c if self.obeyed else raw

    def unshifted(self):
        return self.place * self.m // self.r % self.span

    def position(self):
        return (self.unshifted() + self.offset) % self.span

    def acceptable(self):
        return (
            self.parameters() == 0
            and self.place < self.r * self.span
            and self.last < self.c
            and all(abs(v) < self.span for v in (self.offset, self.preset, self.held))
        )

    def standing(self):
        if not self.acceptable():
            raise Refused(NO_AXIS)

    # document 02, No. 3: the limits of the link
    def link_acceptable(self):
        return self.counter_acceptable() and self.link.expected <= 15 and self.code_acceptable()

    def counter_acceptable(self):
        return self.link.counter <= (self.stop if self.lives else 0)

    def code_acceptable(self):
        if self.link.error:
            return self.link.code == FAULT or (self.link.code == LIFE and self.lives)
        return self.link.code == 0

    def linked(self):
        """16 of the axis and of the link that is brought."""
        self.standing()
        if not self.link_acceptable():
            raise Refused(NO_AXIS)

    def raw(self, s, t):
        if s >= self.r:
            raise Refused(STEP)
        if t >= self.t:
            raise Refused(TURN)
        return t * self.r + s

    def move(self, raw):
        """d, with -C/2 < d < C/2."""
        if raw >= self.c:
            raise Refused(TURN)
        d = (self.oriented(raw) - self.oriented(self.last)) % self.c
        if 2 * d == self.c:
            raise Refused(HALF)
        return d if 2 * d < self.c else d - self.c

    # "Velocity"
    def velocity_of(self, d, e):
        """The velocity of a move d in e milliseconds."""
        unit = self.speed if self.class4 else 0
        top = d * 60000 if unit == 3 else d * self.m * (1000, 100, 10)[unit]
        return max(-(2**31), min(2**31 - 1, cut(top, self.r * e)))

    # ---- the calls
    def start(self, s, t):
        n = self.parameters()
        self.place, self.last = 0, 2**64 - 1
        self.offset = self.preset = self.held = 0
        if n:
            raise Refused(n)
        raw = self.raw(s, t)
        self.place, self.last = self.oriented(raw) % (self.r * self.span), raw

    def read_raw(self, raw):
        self.standing()
        d = self.move(raw)
        self.place, self.last = (self.place + d) % (self.r * self.span), raw

    def read(self, s, t):
        self.standing()
        self.read_raw(self.raw(s, t))

    def value(self, v):
        self.standing()
        if not self.on:
            raise Refused(OFF)
        if not -self.span < v < self.span:
            raise Refused(PRESET)

    def set_preset(self, v, relative):
        self.value(v)
        new = ((self.position() if relative else 0) + v) % self.span
        self.offset, self.preset = new - self.unshifted(), v

    def hold(self, v):
        self.value(v)
        self.held = v

    def batch(self, raws, out):
        self.standing()
        if len(raws) != len(out):
            raise Refused(BUFFER)
        kept = self.place, self.last
        units, rest = self.divided()
        positions = []
        try:
            for raw in raws:
                units, rest = self.carried(units, rest, self.move(raw))
                self.read_raw(raw)
                positions.append(self.position())
                assert (units, rest) == self.divided(), (axis_line(self), kept, raws, "units and rest")
                assert (units + self.offset) % self.span == positions[-1], (axis_line(self), kept, raws, "position")
        except Refused:
            self.place, self.last = kept
            raise
        out[:] = positions

    # document 02, No. 4: a batch by the whole units and the rest
    def divided(self):
        """By the place: the unshifted position, and what dividing place x M by R leaves."""
        return self.unshifted(), self.place * self.m % self.r

    def carried(self, units, rest, d):
        """Units and rest after a move d, from the two before it and without the place."""
        q, s = d * self.m // self.r, d * self.m % self.r  # rounded down: s is never negative
        units, rest = units + q, rest + s
        if rest >= self.r:
            units, rest = units + 1, rest - self.r
        return units % self.span, rest

    def velocity(self, s, t, e):
        self.standing()
        if e == 0:
            raise Refused(ELAPSED)
        return self.velocity_of(self.move(self.raw(s, t)), e)

    # ---- "One cycle"
    def take(self, raw):
        """1 where 9 or 10 would refuse the raw number."""
        try:
            self.read_raw(raw)
            return 0
        except Refused:
            return 1

    def cycle(self, raw, out, given):
        """The input octets."""
        self.linked()
        if len(out) != 4 or len(given) != (12 if self.class4 else 4):
            raise Refused(BUFFER)
        self.link.faulty = self.take(raw)
        return self.cycle4(out) if self.class4 else self.cycle2(int.from_bytes(out, "big"))

    def cycle2(self, word):
        """A rise of bit 31 makes a preset due, until it is made or the bit is 0 (document 02, No. 2)."""
        k, asks, v = self.link, word // 2**31, word % 2**31
        if not asks:
            k.due = 0
        elif not k.bit:
            k.due = 1
        k.bit = asks
        if k.due and not k.faulty and v < self.span and self.on:
            self.set_preset(v, False)
            k.due = 0
        return self.position().to_bytes(4, "big")

    def cycle4(self, out):
        k = self.link
        stw2, stw = int.from_bytes(out[:2], "big"), int.from_bytes(out[2:], "big")
        if not stw2 & 0x0400:
            stw = 0
        ack, park, asks, relative = (1 if stw & 2**n else 0 for n in (15, 14, 12, 11))
        self.sign_of_life(stw2 >> 12)
        self.arise(park)
        self.acknowledge(ack)
        k.seen = 1 if k.error and ack else 0
        if asks and not k.bit and self.on and not k.error and not k.faulty:
            self.set_preset(self.held, relative == 1)
            k.executed = 1
        if not asks:
            k.executed = 0
        k.bit = asks
        zsw = 2**15 * k.error + 2**14 * park + 2**13 * (1 - k.error) + 2**12 * k.executed + 2**11 * k.seen
        first = self.unshifted() if self.octet & 4 else self.position()
        second = k.code if k.error else self.position()
        return b"".join(n.to_bytes(size, "big") for n, size in ((0x0200, 2), (zsw, 2), (first, 4), (second, 4)))

    # document 02, No. 3: the sign of life, and errors with a code
    def sign_of_life(self, v):
        """The value v of this cycle, on an axis with the sign of life."""
        if self.lives:
            self.count(v)
            self.expect(v)

    def count(self, v):
        k = self.link
        if k.expected == 0:
            return  # no start yet: up to it, and with it, nothing is counted
        if v == k.expected:
            k.counter = max(0, k.counter - 1)
        else:
            k.counter = min(self.stop, k.counter + 10)

    def expect(self, v):
        """15 is followed by 1; a 0 is followed by 1 once started, and is no start."""
        k = self.link
        if v:
            k.expected = v % 15 + 1
        elif k.expected:
            k.expected = 1

    def stopped(self):
        """The counter, once this cycle is counted, at its stop."""
        return self.lives and self.link.counter == self.stop

    def arise(self, park):
        """0001h comes before 0F02h; an error already held keeps its code."""
        k = self.link
        code = FAULT if k.faulty and not park else LIFE if self.stopped() else 0
        if code and not k.error:
            k.error, k.code = 1, code

    def acknowledge(self, ack):
        """Cleared only when neither cause is present, the cycle parked or not."""
        k = self.link
        if k.seen and not ack and not k.faulty and not self.stopped():
            k.error = k.code = 0

    # ---- document 02, No. 1
    def nist_b(self, raw, e):
        """The velocity of the move since the last accepted raw number; 0 where 9 or 10 would refuse the new one."""
        try:
            return self.velocity_of(self.move(raw), e)
        except Refused:
            return 0

    def cycle83(self, raw, e, out, given):
        """The input octets of telegram 83: those of telegram 81, then NIST_B."""
        self.linked()
        if not self.class4 or len(out) != 4 or len(given) != 16:
            raise Refused(BUFFER)
        if e == 0:
            raise Refused(ELAPSED)
        speed = self.nist_b(raw, e)  # from the readings, before the cycle moves the axis
        return self.cycle(raw, out, given[:12]) + speed.to_bytes(4, "big", signed=True)

    # ---- "Diagnosis": octet 7 stands first
    def diagnosis(self, given):
        self.linked()
        size = 57 if self.on else 10
        if len(given) != size:
            raise Refused(BUFFER)
        octets = {n: 0 for n in range(7, 64)}

        def put(first, last, n):
            for k, o in zip(range(first, last + 1), n.to_bytes(last - first + 1, "big", signed=n < 0)):
                octets[k] = o

        octets[7] = {57: 0x39, 10: 0x0A}[size]
        octets[8] = self.link.faulty
        octets[9] = self.octet & 0b1011 if self.class4 else self.octet
        octets[10] = 0 if self.t == 1 else 1
        put(11, 14, self.r)
        put(15, 16, self.t)
        put(18, 19, 1)
        octets[24] = octets[25] = 1
        octets[26], octets[27] = self.software
        put(28, 31, 0xFFFFFFFF)
        put(32, 35, self.offset)
        put(36, 39, self.preset)
        put(40, 43, self.m)
        put(44, 47, self.span)
        for k, o in enumerate(self.serial):
            octets[48 + k] = o
        return bytes(octets[n] for n in range(7, 7 + size))


# ---- telegram, block and writer
def number_of(octets):
    return int.from_bytes(octets, "big")


def turn_away(n):
    if n:
        raise Refused(n)


def read_telegram(r, t, ident, octets):
    """The axis of a class 2 telegram: 7, 1, 2, 3, 4, 5."""
    turn_away(Axis(False, r, t, 0, 0, 0).plate())
    if len(octets) != 17:
        raise Refused(LENGTH)
    if number_of(octets[4:6]) != ident:
        raise Refused(IDENT)
    a = Axis(False, r, t, octets[8], number_of(octets[9:13]), number_of(octets[13:17]))
    turn_away(a.parameters())
    return a


def read_block(r, t, octets):
    """The axis of a class 4 block: 7, 1, 3, 4, 5, 6, 17."""
    turn_away(Axis(True, r, t, 0, 0, 0).plate())
    if len(octets) != 11:
        raise Refused(LENGTH)
    a = Axis(True, r, t, octets[0], number_of(octets[1:5]), number_of(octets[5:9]), octets[9], octets[10])
    turn_away(a.parameters())
    return a


def written(a, ident, given):
    """The octets of the writer: 7, 13, 3, 4, 5, 6, 17."""
    turn_away(a.plate())
    if len(given) != (11 if a.class4 else 17):
        raise Refused(BUFFER)
    turn_away(a.parameters())
    fields = bytes([a.octet]) + a.units.to_bytes(4, "big") + a.total.to_bytes(4, "big")
    if a.class4:
        return fields + bytes([a.life, a.speed])
    return given[:4] + ident.to_bytes(2, "big") + given[6:8] + fields


# ---- the vectors
CALCULATED = "# Calculated apart by model/axis.py: "  # begins each section that this script prints
NOT_REPEATED = "# Document 02, No. 3: "  # begins the part by hand that `repeated` leaves out


def axis_line(a):
    numbers = f"{a.r} {a.t} 0000 {a.octet:02x} {a.units} {a.total}"
    return f"axis  4  {numbers} {a.life} {a.speed}" if a.class4 else f"axis  2  {numbers}"


def shown(a):
    return f"  at {a.position()} unshifted {a.unshifted()} offset {a.offset} preset {a.preset} stored {a.held}"


def answer(a, call):
    """The lines under a call: the axis that it leaves, or the number of the refusal."""
    try:
        call()
        return [shown(a)]
    except Refused as n:
        return [f"  refused {n}"]


def lent(octets):
    return " ".join([" "] + [f"{o:02x}" for o in octets])


def cycle_answer(a, cycle, given):
    """The lines under a cycle: the axis or the refusal, the link, and the lent octets as the cycle leaves them."""
    try:
        given = cycle(given)
        first = shown(a)
    except Refused as n:
        first = f"  refused {n}"
    return [first, a.link.shown(), lent(given)]


def diagnosis_answer(a, given):
    try:
        given = a.diagnosis(given)
        first = "  done"
    except Refused as n:
        first = f"  refused {n}"
    return [first, lent(given)]


def velocity_answer(a, s, t, e):
    try:
        return [f"  velocity {a.velocity(s, t, e)}"]
    except Refused as n:
        return [f"  refused {n}"]


def list_answer(a, raws, size):
    """The lines under a batch: the axis or the refusal, and the lent positions, each of them 7 before."""
    out = [7] * size
    return answer(a, lambda: a.batch(raws, out)) + [" ".join(["  list"] + [str(p) for p in out])]


def read_answer(read):
    """The lines under a telegram or a block."""
    try:
        a = read()
    except Refused as n:
        return [f"  refused {n}"]
    turning = "ccw" if a.obeyed else "cw"
    return [f"  M {a.m} L {a.span} {turning} {'on' if a.on else 'off'}"]


def written_answer(a, ident, given):
    try:
        given = written(a, ident, given)
        first = "  done"
    except Refused as n:
        first = f"  refused {n}"
    return [first, lent(given)]


class Script:
    def __init__(self, seed):
        self.random, self.lines, self.calls, self.cycles, self.measured = random.Random(seed), [], 0, 0, 0

    def number(self, a):
        """A raw number: near the last, at the other side of the sensor, anywhere, or past its end."""
        near = a.last + self.random.randint(-3, 3)
        far = a.last + a.c // 2 + self.random.randint(-1, 1)
        anywhere = self.random.randrange(a.c)
        past = a.c + self.random.randrange(3)
        return self.random.choice([near % a.c] * 4 + [far % a.c] * 2 + [anywhere] * 3 + [past])

    def step_turn(self, a):
        raw = self.number(a)
        return self.random.choice([(raw % a.r, raw // a.r)] * 5 + [(a.r, 0), (raw % a.r, a.t)])

    def some_value(self, a):
        return self.random.choice([0, 1, -1, a.span - 1, 1 - a.span, a.span, -a.span, self.random.randint(1 - a.span, a.span - 1)])

    def call(self, a):
        kind = self.random.choice(["number"] * 7 + ["reading", "preset", "preset", "change", "change", "hold", "list", "list", "velocity", "velocity", "given"])
        out = None
        if kind == "number":
            raw = self.number(a)
            text, act = f"number   {raw}", lambda: a.read_raw(raw)
        elif kind == "reading":
            s, t = self.step_turn(a)
            text, act = f"reading  {s} {t}", lambda: a.read(s, t)
        elif kind in ("preset", "change"):
            v = self.some_value(a)
            text, act = f"{kind}   {v}", lambda: a.set_preset(v, kind == "change")
        elif kind == "hold":
            v = self.some_value(a)
            text, act = f"hold     {v}", lambda: a.hold(v)
        elif kind == "given":
            self.given(a)
            return
        elif kind == "list":
            raws = [self.number(a) % a.c for _ in range(self.random.randrange(5))]
            if raws and self.random.random() < 0.2:
                raws[-1] = a.c
            size = len(raws) + (self.random.random() < 0.2)
            out = [7] * size
            text = " ".join(["list    ", str(size)] + [str(raw) for raw in raws])
            act = lambda: a.batch(raws, out)
        else:
            (s, t), e = self.step_turn(a), self.random.choice([0, 1, 1, 7, 100, 65535])
            self.lines.append(f"velocity {s} {t} {e}")
            self.calls += 1
            self.lines += velocity_answer(a, s, t, e)
            return
        self.lines.append(text)
        self.calls += 1
        self.lines += answer(a, act)
        if out is not None:
            self.lines.append(" ".join(["  list"] + [str(p) for p in out]))

    def output(self, a):
        """Output octets: the bits that matter drawn one by one, and values around L."""
        pick = lambda p: 1 if self.random.random() < p else 0
        if self.random.random() < 0.04:
            return bytes(self.random.randrange(256) for _ in range(self.random.choice([3, 5])))
        if not a.class4:
            v = self.random.choice([0, 1, a.span - 1, a.span, a.span + 1, self.random.randrange(a.span)])
            return (pick(0.6) * 2**31 + v % 2**31).to_bytes(4, "big")
        stw = sum(pick(p) * 2**n for n, p in ((15, 0.4), (14, 0.2), (13, 0.5), (12, 0.6), (11, 0.5)))
        stw2 = pick(0.85) * 0x0400 + self.random.choice([0, 0, 0xFBFF])
        return stw2.to_bytes(2, "big") + (stw + self.random.choice([0, 0x07FF])).to_bytes(2, "big")

    def brought(self, a, size):
        """What a cycle brings: raw number, output octets, lent input octets."""
        raw, out = self.number(a), self.output(a)
        if self.random.random() < 0.3:
            raw = a.c if self.random.random() < 0.5 else a.last
        given = b"\xee" * size
        if self.random.random() < 0.04:
            given = given[1:]
        return raw, out, given

    def exchange(self, a):
        self.send(a, *self.brought(a, 12 if a.class4 else 4))

    def send(self, a, raw, out, given):
        self.lines.append(" ".join(["exchange", str(len(given)), str(raw)] + [f"{o:02x}" for o in out]))
        self.calls += 1
        self.cycles += 1
        self.lines += cycle_answer(a, lambda octets: a.cycle(raw, out, octets), given)

    def measure(self, a):
        raw, out, given = self.brought(a, 16)
        self.send83(a, raw, self.random.choice([0] + [1, 2, 7, 100, 1000] * 2 + [65535]), out, given)

    def send83(self, a, raw, e, out, given):
        self.lines.append(" ".join(["measured", str(len(given)), str(raw), str(e)] + [f"{o:02x}" for o in out]))
        self.calls += 1
        self.cycles += 1
        self.measured += 1
        self.lines += cycle_answer(a, lambda octets: a.cycle83(raw, e, out, octets), given)

    def diagnose(self, a):
        size = (57 if a.on else 10) + self.random.choice([0, 0, 0, 1, -1])
        self.lines.append(f"diagnose {size}")
        self.calls += 1
        self.lines += diagnosis_answer(a, b"\xee" * size)

    def talk(self, a, cycles):
        """Cycles on one axis, with a held value, a diagnosis, a link or a record that is brought, and other calls between them."""
        self.begin(a)
        a.software = [self.random.randrange(256) for _ in range(2)]
        a.serial = [self.random.randrange(256) for _ in range(10)]
        self.lines.append(" ".join(["serial  "] + [f"{o:02x}" for o in a.software + a.serial]))
        for _ in range(cycles):
            kind = self.random.random()
            if kind < 0.12:
                self.hold(a)
            elif kind < 0.17:
                self.diagnose(a)
            elif kind < 0.20:
                self.keep(a)
            elif kind < 0.24:
                self.given(a)
            elif kind < 0.28:
                self.call(a)
            self.exchange(a)
        self.diagnose(a)

    def talk83(self, a, cycles):
        """Cycles of telegram 83 on one axis, and between them what `talk` has between its own, with cycles of telegram 81."""
        self.begin(a)
        for _ in range(cycles):
            kind = self.random.random()
            if kind < 0.15:
                self.hold(a)
            elif kind < 0.20:
                self.keep(a)
            elif kind < 0.27:
                self.given(a)
            elif kind < 0.33:
                self.call(a)
            elif kind < 0.55:
                self.exchange(a)
            self.measure(a)
            if not a.acceptable():
                self.given(a, [None])  # else the rest would be refused too

    def third(self, a):
        """A raw number near the last; about every third is past the sensor's end, or half its range away."""
        if self.random.random() < 0.35:
            return self.random.choice([a.c, a.c + 1, (a.last + a.c // 2) % a.c])
        return (a.last + self.random.randint(-2, 2)) % a.c

    def staying(self, a):
        """The output of class 2: a bit 31 that is up mostly stays so while a preset is due, and the value lies around L, as far as 31 bits reach."""
        up = self.random.random() < (0.85 if a.link.due else 0.5 if a.link.bit else 0.8)
        anywhere = self.random.randrange(2**31)
        v = self.random.choice([0, 1, a.span - 1, a.span, a.span + 1, 2**31 - 1, anywhere] + [anywhere % a.span] * 2)
        return (up * 2**31 + min(v, 2**31 - 1)).to_bytes(4, "big")

    def stay(self, a, cycles):
        """Cycles of class 2 on one axis in which bit 31 stays up, now and then a link, a record or another call between them."""
        self.begin(a)
        for _ in range(cycles):
            kind = self.random.random()
            if kind < 0.08:
                self.keep(a, 6)
            elif kind < 0.13:
                self.given(a)
            elif kind < 0.21:
                self.call(a)
            size = 4 if self.random.random() < 0.95 else self.random.choice([3, 5, 12])
            self.send(a, self.third(a), self.staying(a), b"\xee" * size)
            if not a.acceptable():
                self.given(a, [None])  # else the rest would be refused too

    def carry(self, a, cycles):
        """Cycles of class 4 by both telegrams on one axis, with links that are brought, some of them with a preset due."""
        self.begin(a)
        for n in range(cycles):
            if n % 3 == 0:
                self.hold(a)
                self.keep(a, 6)
            (self.exchange if self.random.random() < 0.5 else self.measure)(a)

    def hold(self, a):
        v = self.some_value(a)
        self.lines.append(f"hold     {v}")
        self.calls += 1
        self.lines += answer(a, lambda: a.hold(v))

    def keep(self, a, figures=5):
        """A link that is brought: no preset is due in one of five figures. An error has the code 0001h."""
        link = [self.random.randrange(2) for _ in range(figures)]
        if link[2]:
            link = (link + [0])[:6] + [0, 0, FAULT]
        self.bring(a, link)

    def bring(self, a, link):
        """The line of a link, its ninth figure hexadecimal."""
        a.link.bring(*link)
        self.lines.append(" ".join(["keep    "] + [str(n) for n in link[:8]] + [f"{n:04x}" for n in link[8:]]))

    def given(self, a, pasts=(None, None, None, "place", "last", "offset", "preset", "held")):
        """A record that is brought: within its limits, or past one of them."""
        pick = lambda limit: self.random.choice([0, limit - 1, self.random.randrange(limit), self.random.randrange(limit)])
        a.place, a.last = pick(a.r * a.span), pick(a.c)
        a.offset, a.preset, a.held = (self.random.choice([1, -1]) * pick(a.span) for _ in range(3))
        past = self.random.choice(pasts)
        if past == "place":
            a.place = a.r * a.span
        elif past == "last":
            a.last = a.c
        elif past:
            setattr(a, past, self.random.choice([a.span, -a.span]))
        self.lines.append(f"given    {a.place} {a.last} {a.offset} {a.preset} {a.held}")

    def life(self, a, cycles):
        """Cycles of the sign of life on one axis by both telegrams, with links and records that are brought, held values and diagnoses between."""
        self.begin(a)
        for _ in range(cycles):
            kind = self.random.random()
            if kind < 0.10:
                self.hold(a)
            elif kind < 0.18:
                self.keep_life(a)
            elif kind < 0.21:
                self.given(a)
            elif kind < 0.26:
                self.diagnose(a)
            elif kind < (0.33 if a.lives else 0.55):
                self.keep_past(a)
            self.send_life(a)
            if not a.acceptable():
                self.given(a, [None])  # else the rest would be refused too
            if not a.link_acceptable():
                self.diagnose(a)
                self.keep_life(a)

    def send_life(self, a):
        short = self.random.random() < 0.03
        raw, out = self.third(a), self.living(a)
        if a.class4 and self.random.random() < 0.4:
            self.send83(a, raw, self.random.choice([0] + [1, 2, 10, 1000, 65535] * 3), out, b"\xee" * (16 - short))
        else:
            self.send(a, raw, out, b"\xee" * ((12 if a.class4 else 4) - short))

    def living(self, a):
        """Output octets: of class 4 the expected value mostly, and an acknowledge that goes up and down while an error is held."""
        if not a.class4:
            return self.staying(a)
        pick = lambda p: self.random.random() < p
        v = self.random.choice([max(1, a.link.expected)] * 6 + [0, 0, 15] + [self.random.randrange(16)] * 3)
        ack = pick(0.25 if a.link.seen else 0.7 if a.link.error else 0.1)
        stw2 = v % 16 * 2**12 + pick(0.85) * 2**10 + self.random.choice([0, 0, 0x0BFF])
        stw = ack * 2**15 + pick(0.2) * 2**14 + pick(0.5) * 2**12 + pick(0.5) * 2**11
        return stw2.to_bytes(2, "big") + stw.to_bytes(2, "big")

    def within(self, a):
        """A link within its limits on the axis: the nine figures."""
        pick = lambda: self.random.randrange(2)
        error = pick()
        code = self.random.choice([FAULT, LIFE] if a.lives else [FAULT]) if error else 0
        counter = self.random.choice([0, 1, a.stop - 10, a.stop - 9, a.stop - 1, a.stop, self.random.randrange(a.stop + 1)]) if a.lives else 0
        return [pick(), pick(), error, pick(), pick(), pick(), counter, self.random.choice([0, 1, 15, self.random.randrange(16)]), code]

    def keep_life(self, a):
        self.bring(a, self.within(a))

    def keep_past(self, a):
        """A link past one of its limits."""
        link = self.within(a)
        n = self.random.choice([6, 7, 8, 8])
        if n == 6:
            limit = a.stop if a.lives else 0
            link[6] = self.random.choice([limit + 1, limit + 256, limit + 65536, 2**32 - 1])
        elif n == 7:
            link[7] = self.random.choice([16, 17, 256, 65537, 2**32 - 1])
        elif link[2]:
            link[8] = self.random.choice([0, 2, 0x0F01, 0x0F03, 0x0100, 0x020F, 0xFFFF] + ([] if a.lives else [LIFE] * 4))
        else:
            link[8] = self.random.choice([FAULT, LIFE, 0xFFFF])
        self.bring(a, link)

    def follow(self, a, sizes):
        """Batches on one axis, with readings, presets and records that are brought between them."""
        self.begin(a)
        for size in sizes:
            kind = self.random.random()
            if kind < 0.15:
                self.given(a, [None])
            elif kind < 0.65:
                self.shift(a)
            self.send_list(a, size)
            if self.random.random() < 0.5:
                self.read_on(a)

    def shift(self, a):
        v = self.some_value(a)
        kind = self.random.choice(["preset", "change"])
        self.lines.append(f"{kind}   {v}")
        self.calls += 1
        self.lines += answer(a, lambda: a.set_preset(v, kind == "change"))

    def read_on(self, a):
        """One reading more: it shows that the batch has left the place as it should."""
        (raw,) = self.raws(a, 1)
        self.lines.append(f"number   {raw}")
        self.calls += 1
        self.lines += answer(a, lambda: a.read_raw(raw))

    def send_list(self, a, size):
        """A batch, some refused at one entry or for the length of the lent list."""
        raws = self.raws(a, size)
        if raws and self.random.random() < 0.12:
            n = self.random.choice([size - 1, self.random.randrange(size)])
            before = raws[n - 1] if n else a.last
            raws[n] = self.random.choice([a.c, (before + a.c // 2) % a.c])
        lent = max(0, size + self.random.choice([0] * 18 + [1, -1]))
        self.lines.append(" ".join(["list    ", str(lent)] + [str(raw) for raw in raws]))
        self.calls += 1
        self.lines += list_answer(a, raws, lent)

    def raws(self, a, size):
        """Raw numbers, each less than half the range from the one before: single steps, the longest moves, whole turns, any."""
        most, at, raws = (a.c - 1) // 2, a.last, []
        for _ in range(size):
            any_move = self.random.randint(-most, most)
            move = self.random.choice([-1, 1, -most, most, -a.r, a.r, any_move, any_move, any_move])
            at = (at + max(-most, min(most, move))) % a.c
            raws.append(at)
        return raws

    def begin(self, a):
        self.lines.append(axis_line(a))
        a.last = 0
        s, t = self.step_turn(a)
        self.lines.append(f"first    {s} {t}")
        self.calls += 1
        self.lines += answer(a, lambda: a.start(s, t))
        if a.last >= a.c:
            self.lines.append("first    0 0")
            self.calls += 1
            self.lines += answer(a, lambda: a.start(0, 0))

    def run(self, a, calls):
        self.begin(a)
        for _ in range(calls):
            self.call(a)


def small(rng):
    r, t = rng.randint(2, 12), rng.randint(1, 6)
    class4 = rng.random() < 0.5
    units = rng.randint(1, r)
    total = rng.choice([units, units * t, rng.randint(units, units * t)])
    on, scaling, ccw = rng.random() < 0.9, rng.random() < 0.8, rng.random() < 0.4
    octet = (32 if class4 else 0) | 2 * on | 8 * scaling | ccw
    return Axis(class4, r, t, octet, units, total, rng.randrange(256), rng.randrange(4))


def large(rng):
    class4 = rng.random() < 0.5
    units = rng.choice([65536, 65535, rng.randint(1, 65536)])
    total = rng.choice([units, units * 32768, rng.randint(units, units * 32768)])
    octet = (32 if class4 else 0) | 10 | (rng.random() < 0.4)
    return Axis(class4, 65536, 32768, octet, units, total, 1, rng.randrange(4))


def short(rng):
    """A small sensor, and a total range that most moves go through, often more than once."""
    r, t = rng.randint(2, 12), rng.randint(1, 9)
    units = rng.randint(1, r)
    total = rng.choice([units, min(units + 1, units * t), rng.randint(units, units * t), rng.randint(units, units * t)])
    return passing(rng, r, t, rng.choice([10, 10, 10, 10, 2, 8]), units, total)


def widest(rng):
    """The largest sensor, with the largest total range, the least, and any; then with scaling off."""
    for units in (65536, 65535, rng.randint(2, 65534), 1):
        for total in (units * 32768, units, rng.randint(units, units * 32768)):
            yield passing(rng, 65536, 32768, 10, units, total)
    yield passing(rng, 65536, 32768, 2, 1, 1)


def passing(rng, r, t, octet, units, total):
    """An axis of either class and direction, with class and scaling bit as they are given."""
    class4, ccw = rng.random() < 0.5, rng.random() < 0.5
    return Axis(class4, r, t, (32 if class4 else 0) | octet | ccw, units, total, 1, rng.randrange(4))


# ---- lines that stand in the vectors, made again
NO_PART = ("telegram", "block", "write", "velocity", "diagnose", "serial")  # change nothing that a cycle looks at
TIMES = (1, 10, 7, 1000, 65535, 2)


def blocks(lines):
    """From each `axis` line up to the next: the lines without the comments, each with the answers under it."""
    found = [[]]
    for line in lines:
        if line.startswith("axis"):
            found.append([])
        if line.startswith("  "):
            found[-1][-1][1].append(line)
        elif line and not line.startswith("#"):
            found[-1].append((line, []))
    return found[1:]  # what stands before the first axis belongs to none


def axis_of(line):
    """The axis of a line `axis  2 ..` or `axis  4 ..`."""
    class_, r, t, _, octet, units, total, *more = line.split()[1:]
    return Axis(class_ == "4", int(r), int(t), int(octet, 16), int(units), int(total), *(int(w) for w in more))


def octets_of(words):
    return bytes(int(w, 16) for w in words)


def parameters_answer(line):
    """The lines under `telegram`, `block` or `write`."""
    kind, *words = line.split()
    if kind == "write":
        class_, r, t, ident, size, *more = words
        return written_answer(axis_of(" ".join(["axis", class_, r, t, ident] + more)), int(ident, 16), b"\xee" * int(size))
    r, t, ident, octets = int(words[0]), int(words[1]), int(words[2], 16), octets_of(words[3:])
    return read_answer(lambda: read_telegram(r, t, ident, octets) if kind == "telegram" else read_block(r, t, octets))


def answer_to(a, line):
    """The lines under a line that stands, or under a cycle of telegram 83."""
    kind, *words = line.split()
    if kind == "measured":
        size, raw, e = (int(w) for w in words[:3])
        out = octets_of(words[3:])
        return cycle_answer(a, lambda octets: a.cycle83(raw, e, out, octets), b"\xee" * size)
    if kind == "exchange":
        size, raw = (int(w) for w in words[:2])
        out = octets_of(words[2:])
        return cycle_answer(a, lambda octets: a.cycle(raw, out, octets), b"\xee" * size)
    if kind == "serial":
        a.software, a.serial = list(octets_of(words[:2])), list(octets_of(words[2:]))
        return []
    if kind == "keep":
        a.link.bring(*(int(w) for w in words[:8]), *(int(w, 16) for w in words[8:]))
        return []
    numbers = [int(w) for w in words]
    if kind == "given":
        a.place, a.last, a.offset, a.preset, a.held = numbers
        return []
    if kind == "diagnose":
        return diagnosis_answer(a, b"\xee" * numbers[0])
    if kind == "velocity":
        return velocity_answer(a, *numbers)
    if kind == "list":
        return list_answer(a, numbers[1:], numbers[0])
    calls = {"first": a.start, "number": a.read_raw, "reading": a.read, "hold": a.hold}
    calls.update(preset=lambda v: a.set_preset(v, False), change=lambda v: a.set_preset(v, True))
    return answer(a, lambda: calls[kind](*numbers))


def replayed(lines):
    """The lines without the answers, each with those of the model under it."""
    a, made = None, []
    for line in lines:
        if line.startswith("  "):
            continue
        made.append(line)
        if line.startswith("axis"):
            a = axis_of(line)
        elif line.startswith(("telegram", "block", "write")):
            made += parameters_answer(line)
        elif line and not line.startswith("#"):
            made += answer_to(a, line)
    return made


def repeated(script, standing):
    """Each class 4 axis that runs by telegram 81 alone, once more by telegram 83: all but NIST_B must be as it stands."""
    times = itertools.cycle(TIMES)
    script.lines.append(CALCULATED + "the cycles of telegram 81 above once more, each as telegram 83")
    for block in blocks(standing):
        kinds = [line.split()[0] for line, _ in block]
        if block[0][0].startswith("axis  4") and "exchange" in kinds and "measured" not in kinds:
            repeat(script, [(line, stands) for kind, (line, stands) in zip(kinds, block) if kind not in NO_PART], times)


def repeat(script, block, times):
    a = axis_of(block[0][0])
    script.lines.append(block[0][0])
    for line, stands in block[1:]:
        kind, *words = line.split()
        if kind != "exchange":
            under = answer_to(a, line)
            assert under == stands, line
        else:
            size, raw, *out = words
            line = " ".join(["measured", str(int(size) + 4), raw, str(next(times))] + out)
            under = answer_to(a, line)
            axis, link, octets = under
            assert [axis, link, octets[: -len(" ee") * 4]] == stands, line  # four octets more
            script.cycles += 1
            script.measured += 1
        script.calls += 1 if under else 0
        script.lines += [line] + under


def vectors(by_hand):
    script = Script(2026)
    rng = random.Random(1)
    script.lines.append(CALCULATED + "small sensors, R 2 to 12 and T 1 to 6")
    for _ in range(24):
        script.run(small(rng), 9)
    script.lines.append(CALCULATED + "the largest sensor, R = 65536 and T = 32768")
    for _ in range(10):
        script.run(large(rng), 8)
    talks(script, random.Random(2))
    standing = by_hand + script.lines
    script.random = random.Random(83)
    talks83(script, random.Random(3))
    repeated(script, standing)
    script.random = random.Random(132)
    stays(script, random.Random(4))
    script.random = random.Random(302)
    lives(script, random.Random(5))
    script.random = random.Random(404)
    passes(script, random.Random(6))
    return script


def talks(script, rng):
    script.lines.append(CALCULATED + "cycles of both classes and diagnoses, small sensors and the largest")
    for n in range(20):
        a = large(rng) if n % 5 == 4 else small(rng)
        a.octet |= rng.choice([0, 4])
        script.talk(a, 16)


def talks83(script, rng):
    script.lines.append(CALCULATED + "cycles of telegram 83, some of telegram 81 between them, small sensors and the largest, all speed units")
    for n in range(12):
        a = of_class(rng, small if n < 8 else large, True)
        a.octet |= rng.choice([0, 4])
        a.speed = n % 4
        script.talk83(a, 12)
    for _ in range(2):
        script.talk83(of_class(rng, small, False), 4)


def stays(script, rng):
    script.lines.append(CALCULATED + "bit 31 that stays up, small sensors and the largest; then a preset that is due, brought to class 4")
    for n in range(16):
        a = of_class(rng, large if n % 4 == 3 else small, False)
        if n % 8 == 4:
            a.octet &= ~2  # the class off
        script.stay(a, 11)
    for n in range(5):
        script.carry(of_class(rng, large if n == 4 else small, True), 8)


def lives(script, rng):
    script.lines.append(CALCULATED + "the sign of life, small sensors and the largest; then class 4 axes with bit 5 at 1, and class 2 axes")
    for n in range(15):
        a = of_class(rng, large if n % 5 == 4 else small, True)
        a.octet = a.octet & ~32 | rng.choice([0, 4, 16])
        a.life = 255 if n == 7 else 1 + n % 3
        script.life(a, 15)
    for n in range(5):
        a = of_class(rng, large if n == 4 else small, True)
        a.life = n % 3
        script.life(a, 9)
    for n in range(4):
        script.life(of_class(rng, large if n == 3 else small, False), 8)


def passes(script, rng):
    script.lines.append(CALCULATED + "batches, R 2 to 12 and T 1 to 9, ranges shorter than a move among them; then the largest sensor")
    for n in range(30):
        script.follow(short(rng), [rng.randint(1, 12), rng.randint(1, 12), 60 if n % 6 == 5 else rng.randint(0, 12), rng.randint(1, 12)])
    for a in widest(rng):
        script.follow(a, [rng.randint(1, 7) for _ in range(4)])


def of_class(rng, draw, class4):
    a = draw(rng)
    return a if a.class4 == class4 else of_class(rng, draw, class4)


def main():
    folder = os.path.join(os.path.dirname(os.path.abspath(__file__)), os.pardir, "crates", "vectors")
    stdout = open(os.path.join(folder, "stdout"), encoding="utf-8").read().split("\n")
    by_hand = list(itertools.takewhile(lambda line: not line.startswith(CALCULATED), stdout))
    script = vectors(list(itertools.takewhile(lambda line: not line.startswith(NOT_REPEATED), by_hand)))
    counts = f"{script.calls} calls, {script.cycles} of them cycles, {script.measured} of these of telegram 83"
    if "--check" not in sys.argv[1:]:
        print("\n".join(script.lines))
        print(counts, file=sys.stderr)
        return
    stdin = open(os.path.join(folder, "stdin"), encoding="utf-8").read().split("\n")
    calculated = stdout[-len(script.lines) - 1 : -1] == script.lines
    asked = [line for line in stdout if not line.startswith("  ")] == stdin
    again = replayed(by_hand)
    print(f"{counts}: {'as' if calculated else 'NOT as'} calculated; stdin {'is' if asked else 'is NOT'} stdout without the answers")
    print(f"the part by hand, {sum(line.startswith('  ') for line in again)} lines of answers: {'as' if again == by_hand else 'NOT as'} calculated")
    sys.exit(0 if calculated and asked and again == by_hand else 1)


if __name__ == "__main__":
    main()

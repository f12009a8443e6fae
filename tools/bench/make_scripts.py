#!/usr/bin/env python3
"""Writes mixed64.txt and commands.txt, described in README.md, and by the Python model their answers (.expected).

    python3 -B tools/bench/make_scripts.py
"""
import collections
import pathlib
import random
import struct
import sys

HERE = pathlib.Path(__file__).resolve().parent
sys.dont_write_bytecode = True
sys.path.insert(0, str(HERE.parent / "model"))
import ranges_model


def pattern(value):
    return "%08X" % struct.unpack(">I", struct.pack(">f", value))


def mixed64():
    lines = ["B"]
    for register, value in ((28, -100000), (29, 3.3), (30, 2.2), (31, 1.1)):
        lines.append("L %d %s %s" % (register, pattern(value), pattern(value)))
    for register in range(28):
        lines.append("L %d %s %s" % (register, pattern(-100000), pattern(1000000)))
    ties = []
    for a in range(0, 27, 3):
        b, c, d = a + 1, a + 2, a + 3
        ties += [("s", a, 31, b), ("d", c, 30, b), ("p", c, 28, d), ("s", a, 29, c), ("d", d, 29, a), ("p", b, c, c)]
    for a in range(0, 9, 3):
        b, d, e = a + 1, a + 3, a + 4
        ties += [("s", b, 30, d), ("d", e, 29, b), ("p", a, b, b)]
    ties.append(("s", 27, 31, 0))
    for place, (kind, x, y, z) in enumerate(ties):
        lines.append("E %d %s 15 %d %d %d" % (place, kind, x, y, z))
    lines.append("S 65535")
    lines += ["R %d" % register for register in range(28)]
    return lines


class Commands:
    """Short commands over binary32 that mostly make sense: the lines agree with numbers that are kept here, and the
    limits have these numbers in them, but for a scene now and then that makes the sheet void and leads out again."""

    def __init__(self):
        self.rng = random.Random(2019)
        base = [self.rng.randrange(-2000, 2000) / 10 for _ in range(9)]
        self.value = base[:8]
        self.ties = []
        for i in range(8):                      # registers 8.. sums, 16.. differences, 24.. peaks of neighbours
            self.value.append(self.value[i] + self.value[(i + 1) % 8])
            self.ties.append(("s", i, (i + 1) % 8, 8 + i))
        for i in range(8):
            self.value.append(self.value[i] - self.value[(i + 1) % 8])
            self.ties.append(("d", i, (i + 1) % 8, 16 + i))
        for i in range(8):
            self.value.append(max(self.value[i], self.value[(i + 1) % 8]))
            self.ties.append(("p", i, (i + 1) % 8, 24 + i))
        self.taken = {}

    def near(self, register, width):
        return self.value[register] + width * self.rng.random() - width / 2

    def limit(self):
        register = self.rng.randrange(32)
        width = self.rng.choice([1, 10, 100, 1000])
        low, high = self.value[register] - width * self.rng.random(), self.value[register] + width * self.rng.random()
        return "L %d %s %s" % (register, pattern(low - 0.01), pattern(high + 0.01))

    def enter(self):
        place = self.rng.choice([p for p in range(64) if p not in self.taken])
        self.taken[place] = tie = self.rng.choice(self.ties)
        return "E %d %s %d %d %d %d" % (place, tie[0], self.rng.choice([15, self.rng.randrange(1, 16)]), *tie[1:])

    def strike(self):
        place = self.rng.choice(sorted(self.taken))
        del self.taken[place]
        return "K %d" % place

    def partner(self):
        place = self.rng.choice(sorted(self.taken))
        _, x, _, z = self.taken[place]
        if self.rng.random() < 0.5:
            return "P %d %s %s" % (place, pattern(self.value[x]), pattern(self.value[z]))
        return "P %d %s %s" % (place, pattern(self.near(x, 5)), pattern(self.near(z, 5)))

    def refused(self):
        return self.rng.choice([
            "R 32", "R 7 ", "S 0", "S 65536", "K 64", "K 007", "L 5 7F800000 7F800000", "L 3 40000000 3F800000", "", "X",
            "E 64 s 15 0 1 8", "E 0 s 16 0 1 8", "E 5 d 1 0 1 32", "P 64 00000000 00000000", "L 1 3f800000 40000000",
            "E %d p 15 0 1 24" % self.rng.choice(sorted(self.taken) or [64]), "S  9", "P 1 0 0", "E 9 q 1 0 1 2"])

    def void_scene(self):
        register = self.rng.randrange(8)
        yield "L %d %s %s" % (register, pattern(9000), pattern(9001))       # a return to the limits
        yield "L %d %s %s" % (8 + register, pattern(-9001), pattern(-9000))
        yield "S 40"
        yield "R %d" % register
        yield "L %d %s %s" % (register, pattern(self.value[register] - 50), pattern(self.value[register] + 50))
        yield "L %d %s %s" % (8 + register, pattern(-3000), pattern(3000))
        yield "S 20"

    def lines(self):
        rng = self.rng
        while True:
            kind = rng.random()
            if kind < 0.22:
                yield self.limit()
            elif kind < 0.32 and len(self.taken) < 40:
                yield self.enter()
            elif kind < 0.36 and self.taken:
                yield self.strike()
            elif kind < 0.54:
                yield "S %d" % rng.choice([1, 2, 5, 10, 20, 40])
            elif kind < 0.75:
                yield "R %d" % rng.randrange(32)
            elif kind < 0.89 and self.taken:
                yield self.partner()
            elif kind < 0.99:
                yield self.refused()
            else:
                yield from self.void_scene()


def commands():
    lines, size = ["B"], 2
    for line in Commands().lines():
        size += len(line) + 1
        if size > 65536:
            return lines
        lines.append(line)


def write(name, lines):
    data = ("\n".join(lines) + "\n").encode()
    taken, changing, idle = collections.Counter(), collections.Counter(), 0

    def watch(sheet, place, before):
        nonlocal idle
        taken[place] += 1
        if not sheet.void and sheet.ranges == before:
            idle += 1
        else:
            changing["sdp"[sheet.lines[place].kind]] += 1

    answers = ranges_model.ranges(data, watch=watch)
    (HERE / (name + ".txt")).write_bytes(data)
    (HERE / (name + ".expected")).write_bytes(answers)
    print("%s: %d bytes, %d commands, %d steps, of which %d change nothing; %d places taken, each %d to %d times; "
          "changes by kind %s" % (name, len(data), len(lines) - 1, sum(taken.values()), idle, len(taken),
                                  min(taken.values()), max(taken.values()), dict(changing)))


if __name__ == "__main__":
    write("mixed64", mixed64())
    write("commands", commands())

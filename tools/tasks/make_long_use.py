#!/usr/bin/env python3
"""Writes crates/long_use/data/long_use_b.txt and long_use_c.txt: scripts in which one
sheet is used for long, over binary32 and over the counter.

    python3 tools/tasks/make_long_use.py

Each script is a row of scenes, the functions below, in a fixed rotation. What a
scene uses comes from a fixed pseudo-random rule, so the files are always the
same. The script keeps its own record of limits and lines, for no other reason
than to strike lines that stand and to widen limits that are narrow; what the
sheet answers it does not know.

A bank of registers, 0 to 11, has the lines that come and go; its limits lie
within -1,000..1,000 (the counter: 0..4,000) but for the scenes that make the
sheet void. Registers 12 to 14 and 16 stay at the smallest readings, 15 and 17 at
the greatest, 18 and 19 creep now and then.
"""

import os
import struct

BANK = range(12)
ROUNDS = 72
MOST_LINES = 12
LASTING = (0, 1, 63)                           # places whose lines are never struck


class Chance:
    """A fixed pseudo-random rule, the same on every machine."""

    def __init__(self, seed):
        self.state = seed

    def below(self, count):
        self.state = (self.state * 6364136223846793005 + 1442695040888963407) % 2 ** 64
        return (self.state >> 33) % count

    def one_of(self, things):
        return things[self.below(len(things))]

    def some_of(self, things, count):
        left = list(things)
        return [left.pop(self.below(len(left))) for _ in range(count)]


class Binary32:
    letter = "B"
    least, greatest = "FF7FFFFF", "7F7FFFFF"
    small, large = ("00000001", "00000009"), ("7F000000", "7F7FFFFF")
    no_readings = ("7F800000", "FF800000", "7FC00000", "FFFFFFFF")
    lowest, highest = -3000, 3000              # thirds, so that sums get rounded
    room = 1000                                # how far a low end goes up at a time

    def pattern(self, thirds):
        return "%08X" % struct.unpack(">I", struct.pack(">f", thirds / 3))


class Counter:
    letter = "C"
    least, greatest = "00000000", "00FFFFFF"
    small, large = ("00000001", "00000009"), ("00FFFF00", "00FFFFFF")
    no_readings = ("01000000", "FFFFFFFF", "80000000", "01000001")
    lowest, highest = 0, 4000
    room = 8

    def pattern(self, count):
        return "%08X" % count


class LongUse:
    def __init__(self, board, seed):
        self.board, self.chance = board, Chance(seed)
        self.lines = [board.letter]
        self.limits = {}                       # register of the bank -> (low, high)
        self.standing = {}                     # place -> (kind, modes, x, y, z)

    def say(self, *words):
        self.lines.append(" ".join(str(word) for word in words))

    # Single commands.

    def limit(self, register, low, high):
        self.limits[register] = low, high
        self.say("L", register, self.board.pattern(low), self.board.pattern(high))

    def enter(self, place, kind, modes, x, y, z):
        self.standing[place] = kind, modes, x, y, z
        self.say("E", place, kind, modes, x, y, z)

    def strike(self, place):
        del self.standing[place]
        self.say("K", place)

    def unfinished_settle(self):
        self.say("S", 1 + self.chance.below(6))

    def look(self):
        self.say("R", self.chance.one_of(BANK))

    # What to use.

    def free_place(self):
        return self.chance.one_of([n for n in range(64) if n not in self.standing])

    def passing_line(self):
        return self.chance.one_of([n for n in sorted(self.standing) if n not in LASTING])

    def modes(self):
        return 1 + self.chance.below(15)

    # Scenes.

    def the_bank_is_set_up(self):
        for register in BANK:
            self.widen(register)
        for register, (low, high) in ((12, self.board.small), (13, self.board.small),
                                      (15, self.board.large), (16, self.board.small)):
            self.say("L", register, low, high)
        self.enter(0, "s", self.modes(), 12, 13, 14)
        self.enter(1, "s", 9, 15, 16, 17)
        self.enter(63, "d", self.modes(), 15, 15, 21)
        self.say("S", 4)
        self.say("R", 17)

    def widen(self, register):
        """Most of what the bank may hold."""
        self.limit(register, self.board.lowest + self.chance.below(self.board.room),
                   self.board.highest - self.chance.below(1000))

    def tighten(self):
        register = self.chance.one_of(BANK)
        low, high = self.limits[register]
        size = high - low
        self.limit(register, low + self.chance.below(min(self.board.room, size // 4)),
                   high - self.chance.below(size // 4))

    def new_line(self):
        """A sum or a peak has the highest register as its z, a difference as its x."""
        a, b, c = sorted(self.chance.some_of(BANK, 3))
        twice = self.chance.below(5) == 0      # a register that is named twice
        kind = self.chance.one_of("ssddp")
        if kind == "d":
            x, y, z = c, c if twice else a, b
        elif kind == "s":
            x, y, z = a, a if twice else b, c
        else:
            x, y, z = a, c if twice else b, c
        self.enter(self.free_place(), kind, self.modes(), x, y, z)

    def a_copy(self):
        self.enter(self.free_place(), *self.standing[self.passing_line()])

    def struck_and_entered_again(self):
        place = self.passing_line()
        line = self.standing[place]
        self.strike(place)
        self.unfinished_settle()
        self.enter(place, *line)

    def questions(self):
        for _ in range(2):
            place = self.chance.one_of(sorted(self.standing))
            kind, modes, x, y, z = self.standing[place]
            x_low, x_high = self.limits.get(x, (0, 12))
            z_low, z_high = self.limits.get(z, (0, 12))
            self.say("P", place, self.board.pattern(x_low + self.chance.below(x_high - x_low + 1)),
                     self.board.pattern(z_low + self.chance.below(z_high - z_low + 1)))
            self.say("R", y)

    def declined(self, turn):
        """Calls that change nothing, two at a time, each in its turn."""
        bad, register = self.chance.one_of(self.board.no_readings), self.chance.one_of(BANK)
        taken, free = self.passing_line(), self.free_place()
        least, greatest = self.board.least, self.board.greatest
        each = [("L", 32, least, greatest), ("L", register, bad, greatest),
                ("L", register, least, bad), ("L", register, greatest, least),
                ("E", free, "s", 0, 0, 1, 2), ("E", free, "d", 16, 0, 1, 2),
                ("E", free, "p", 1, 0, 32, 2), ("E", taken, "s", 1, 0, 0, 0),
                ("E", 64, "s", 1, 0, 0, 0), ("K", free), ("K", 64), ("S", 0), ("S", 65536),
                ("R", 32), ("P", free, bad, bad), ("P", taken, bad, least),
                ("P", taken, least, bad), ("S", "05"), ("K", taken, taken), ("Q", 1)]
        for i in (2 * turn, 2 * turn + 1):
            self.say(*each[i % len(each)])

    def void_and_out(self, by_strike):
        """A register is asked for more than any line can make; then the way out."""
        place = self.passing_line()
        z = self.standing[place][4]
        self.limit(z, 4 * self.board.highest, 5 * self.board.highest)
        self.say("S", 2000)
        self.say("R", z)
        self.say("P", place, self.board.pattern(0), self.board.pattern(0))
        self.limit(z, 4 * self.board.highest, 4 * self.board.highest + 40)
        self.new_line()
        self.say("S", 3)
        if by_strike:
            self.strike(place)
            self.unfinished_settle()
        self.widen(z)

    def creep(self):
        """x + y = x with y above zero: it creeps on until it is struck."""
        place = self.free_place()
        self.limit(18, 0, 4000)
        self.limit(19, 1, 2)
        self.enter(place, "s", 15, 18, 19, 18)
        self.say("S", 7)
        self.say("R", 18)
        self.say("S", 300)
        self.say("P", place, self.board.pattern(8), self.board.pattern(9))
        self.strike(place)

    def tell(self):
        self.the_bank_is_set_up()
        for i in range(ROUNDS):
            self.new_line()
            if len(self.standing) > MOST_LINES:
                self.strike(self.passing_line())
            self.unfinished_settle()
            self.tighten()
            if i % 2 == 0:
                self.unfinished_settle()
                self.look()
            if i % 3 == 1:
                self.strike(self.passing_line())
            if i % 3 == 2:
                self.widen(self.chance.one_of(BANK))
            if i % 4 == 3:
                self.questions()
            if i % 5 == 2:
                self.declined(i // 5)
            if i % 6 == 5:
                self.void_and_out(by_strike=i % 12 == 5)
            if i % 7 == 3:
                self.struck_and_entered_again()
            if i % 9 == 4:
                self.creep()
            if i % 10 == 8:
                self.a_copy()
            if i % 8 == 7:
                self.say("S", 65535)
                self.look()
        self.strike(self.passing_line())       # so that the sheet is open at the end
        self.unfinished_settle()
        return "\n".join(self.lines) + "\n"


def scripts():
    """The two files, by name."""
    return {"long_use_b.txt": LongUse(Binary32(), 21).tell(),
            "long_use_c.txt": LongUse(Counter(), 24).tell()}


if __name__ == "__main__":
    root = os.path.dirname(os.path.dirname(os.path.dirname(os.path.abspath(__file__))))
    data = os.path.join(root, "crates", "long_use", "data")
    for name, text in scripts().items():
        with open(os.path.join(data, name), "w", newline="\n") as file:
            file.write(text)

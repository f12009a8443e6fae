#!/usr/bin/env python3
"""A second, independent `ranges`, used to check the answers of the first.

It is written from docs/CATALOGUES.md, docs/SHEET.md, docs/REFUSALS.md and
docs/SCRIPTS.md and from nothing else. It shares no code with the crates and is
meant to be read against those four documents, rule by rule; speed is no aim.

    python3 tools/model/ranges_model.py < SCRIPT            the answers
    python3 tools/model/ranges_model.py --steps < SCRIPT    also every step, on
                                                            stderr

To add a catalogue, write a class like Counter and name its letter in
CATALOGUES. To add a command, write a function like do_look and name its letter
and the form of its words in COMMANDS. Nothing else needs to change.
"""

import re
import sys

SUM, DIFFERENCE, PEAK = 0, 1, 2
NEAREST, UP, DOWN, TOWARD_ZERO = MODES = 1, 2, 4, 8

REGISTERS = 32
PLACES = 64
LARGEST_MODE_SET = 15
LARGEST_BUDGET = 65535
LARGEST_INPUT = 65536


class Refused(Exception):
    """A refused call; its one argument is the number of the refusal."""


# ---------------------------------------------------------------- ranges
# A range is a pair (low, high) with low <= high. Where nothing is left, the
# answer is None.

def common(*given):
    """What ranges have in common."""
    if None in given:
        return None
    low, high = max(r[0] for r in given), min(r[1] for r in given)
    return (low, high) if low <= high else None


def inside(a, b):
    """Whether range a lies inside range b."""
    return b[0] <= a[0] and a[1] <= b[1]


def ranks_where(holds, given):
    """The ranks of a range for which `holds` is true.

    `holds` changes its mind at most once over the range, so these ranks are a
    range or nothing, and the place of the change is found by halving.
    """
    low, high = given
    at_low, at_high = holds(low), holds(high)
    if at_low and at_high:
        return given
    if not at_low and not at_high:
        return None
    while high - low > 1:               # holds(low) is at_low, holds(high) is at_high
        middle = (low + high) // 2
        if holds(middle) == at_low:
            low = middle
        else:
            high = middle
    return (given[0], low) if at_low else (high, given[1])


# ------------------------------------------------------------ catalogues
# A catalogue has: least, greatest; rank_of(pattern), which may refuse with 2;
# pattern_of(rank); and for each kind and mode set the least and the greatest
# result of two readings. Narrowing is one text for all of them. `told` is how
# --steps writes a rank.

class Counter:
    least = 0

    def __init__(self, greatest=16777215):     # smaller ones serve the tests
        self.greatest = greatest

    def rank_of(self, pattern):
        if pattern > self.greatest:
            raise Refused(2)
        return pattern

    def pattern_of(self, rank):
        return rank

    def told(self, rank):
        return "%d" % rank

    def least_result(self, kind, modes, x, y):
        if kind == SUM:
            return min(x + y, self.greatest)
        if kind == DIFFERENCE:
            return max(x - y, 0)
        return max(x, y)

    greatest_result = least_result             # a counter never rounds


class Binary32:
    """Values are whole numbers of units, as large as they come; the machine's
    own floating point takes no part."""

    def __init__(self, field_bits=8, fraction_bits=23):     # fewer serve the tests
        self.digits = fraction_bits + 1        # binary digits that a reading has
        self.fractions = 2 ** fraction_bits    # readings with one exponent field
        self.sign_bit = self.fractions * 2 ** field_bits
        self.beyond = self.fractions * (2 ** field_bits - 1)
        self.greatest = self.beyond - 1
        self.least = -self.greatest
        self.threshold = (2 ** (self.digits + 1) - 1) * 2 ** (2 ** field_bits - 4)
        self.roundings = {NEAREST: self.nearest, UP: self.up, DOWN: self.down,
                          TOWARD_ZERO: self.toward_zero}

    def rank_of(self, pattern):
        sign, magnitude = divmod(pattern, self.sign_bit)
        if magnitude >= self.beyond:           # an exponent field of ones only
            raise Refused(2)
        return -magnitude if sign else magnitude

    def pattern_of(self, rank):
        return rank if rank >= 0 else self.sign_bit - rank

    def told(self, rank):
        return "%08X" % self.pattern_of(rank)

    def units(self, rank):
        """The value of a reading."""
        field, fraction = divmod(abs(rank), self.fractions)
        value = fraction if field == 0 else (self.fractions + fraction) << (field - 1)
        return -value if rank < 0 else value

    # The four roundings, each from an exact value in units to a rank.

    def down(self, exact):
        if exact < 0:
            return -self.up(-exact)
        # A reading keeps the first binary digits of the value, as many as it has;
        # each digit left out raises the exponent field by one.
        left_out = max(exact.bit_length() - self.digits, 0)
        return min(left_out * self.fractions + (exact >> left_out), self.greatest)

    def up(self, exact):
        if exact < 0:
            return -self.down(-exact)
        below = self.down(exact)               # the next rank may be beyond
        return below if self.units(below) == exact else below + 1

    def toward_zero(self, exact):
        return self.down(exact) if exact >= 0 else self.up(exact)

    def nearest(self, exact):
        if exact >= self.threshold:
            return self.beyond
        if exact <= -self.threshold:
            return -self.beyond
        low, high = self.down(exact), self.up(exact)
        if high == self.beyond:                # only one of the two is a reading
            return low
        if low == -self.beyond:
            return high
        to_low, to_high = exact - self.units(low), self.units(high) - exact
        if to_low != to_high:
            return low if to_low < to_high else high
        return low if low % 2 == 0 else high

    def results(self, kind, modes, x, y):
        if kind == PEAK:
            return [max(x, y)]
        if kind == SUM:
            exact = self.units(x) + self.units(y)
        else:
            exact = self.units(x) - self.units(y)
        return [self.roundings[mode](exact) for mode in MODES if modes & mode]

    def least_result(self, kind, modes, x, y):
        return min(self.results(kind, modes, x, y))

    def greatest_result(self, kind, modes, x, y):
        return max(self.results(kind, modes, x, y))


CATALOGUES = {"B": Binary32, "C": Counter}     # by the first line of a script


def narrow(catalogue, kind, modes, x, y, z):
    """Three narrowed ranges (for x, y and z), or None for "none"."""
    readings = (catalogue.least, catalogue.greatest)
    x, y, z = common(x, readings), common(y, readings), common(z, readings)
    if None in (x, y, z):
        return None

    (x_low, x_high), (y_low, y_high), (z_low, z_high) = x, y, z
    if kind == DIFFERENCE:                     # a larger y gives a smaller z
        y_for_least, y_for_greatest = y_high, y_low
    else:
        y_for_least, y_for_greatest = y_low, y_high

    def least(a, b):
        return catalogue.least_result(kind, modes, a, b)

    def greatest(a, b):
        return catalogue.greatest_result(kind, modes, a, b)

    new_z = common(z, (least(x_low, y_for_least), greatest(x_high, y_for_greatest)))
    new_x = common(ranks_where(lambda r: greatest(r, y_for_greatest) >= z_low, x),
                   ranks_where(lambda r: least(r, y_for_least) <= z_high, x))
    new_y = common(ranks_where(lambda r: greatest(x_high, r) >= z_low, y),
                   ranks_where(lambda r: least(x_low, r) <= z_high, y))
    if None in (new_x, new_y, new_z):
        return None
    return new_x, new_y, new_z


def partner(catalogue, kind, modes, x, y, z):
    """Some y of a range that makes an allowed triple with x and z, or None.

    Where there are several it is the lowest under the first mode that has one.
    """
    for mode in MODES:
        if modes & mode:
            def result(r):
                return catalogue.least_result(kind, mode, x, r)
            if kind == DIFFERENCE:
                arrived = ranks_where(lambda r: result(r) <= z, y)
            else:
                arrived = ranks_where(lambda r: result(r) >= z, y)
            if arrived is not None and result(arrived[0]) == z:
                return arrived[0]
    return None


# ----------------------------------------------------------------- lines

class CheckedLine:
    def __init__(self, kind, modes, x, y, z):
        self.kind, self.modes = kind, modes
        self.x, self.y, self.z = x, y, z

    def names(self, register):
        return register in (self.x, self.y, self.z)


def check(kind, modes, x, y, z):
    if kind > 2:
        raise Refused(4)
    if modes < 1 or modes > LARGEST_MODE_SET:
        raise Refused(5)
    if x >= REGISTERS or y >= REGISTERS or z >= REGISTERS:
        raise Refused(1)
    return CheckedLine(kind, modes, x, y, z)


# ------------------------------------------------------------- the sheet

class Sheet:
    def __init__(self, catalogue):
        self.catalogue = catalogue
        self.limits = [(catalogue.least, catalogue.greatest)] * REGISTERS
        self.ranges = list(self.limits)        # without meaning while void
        self.lines = {}                        # place -> checked line
        self.due = set()                       # places
        self.void = False
        self.watch = None                      # told of every step, if set

    # What several calls have in common.

    def become_void(self):
        self.void = True
        self.due = set()

    def return_to_limits(self):
        self.void = False
        self.ranges = list(self.limits)
        self.due = set(self.lines)

    def show(self, register, new):
        """Give a register a new shown range; a change makes lines due."""
        if new != self.ranges[register]:
            self.ranges[register] = new
            for place, line in self.lines.items():
                if line.names(register):
                    self.due.add(place)

    def at_rest(self):
        return self.void or not self.due

    # The calls.

    def limit(self, register, low_pattern, high_pattern):
        if register >= REGISTERS:
            raise Refused(1)
        low = self.catalogue.rank_of(low_pattern)
        high = self.catalogue.rank_of(high_pattern)
        if low > high:
            raise Refused(3)
        new, old = (low, high), self.limits[register]
        self.limits[register] = new
        if not inside(new, old):
            self.return_to_limits()
        elif not self.void:
            cut = common(self.ranges[register], new)
            if cut is None:
                self.become_void()
            else:
                self.show(register, cut)

    def enter(self, place, line):
        if place >= PLACES:
            raise Refused(7)
        if place in self.lines:
            raise Refused(6)
        self.lines[place] = line
        if not self.void:
            self.due.add(place)

    def strike(self, place):
        if place >= PLACES or place not in self.lines:
            raise Refused(7)
        del self.lines[place]
        self.return_to_limits()

    def step(self):
        place = min(self.due)
        self.due.remove(place)
        line = self.lines[place]
        named = (line.x, line.y, line.z)
        before = list(self.ranges)
        narrowed = narrow(self.catalogue, line.kind, line.modes,
                          *[before[register] for register in named])
        if narrowed is None:
            self.become_void()
        else:
            after = {}                         # register -> its new shown range
            for register in named:
                after[register] = common(*[new for new, r in zip(narrowed, named)
                                           if r == register])
            if None in after.values():
                self.become_void()
            else:
                for register, new in after.items():
                    self.show(register, new)
        if self.watch:
            self.watch(self, place, before)

    def settle(self, budget):
        if budget < 1 or budget > LARGEST_BUDGET:
            raise Refused(8)
        steps = 0
        while not self.at_rest() and steps < budget:
            self.step()
            steps += 1
        if self.void:
            return "void", steps
        return ("stopped" if self.due else "settled"), steps

    def look(self, register):
        if self.void:
            raise Refused(9)
        if register >= REGISTERS:
            raise Refused(1)
        return self.ranges[register], not self.due

    def partner(self, place, x_pattern, z_pattern):
        if place >= PLACES or place not in self.lines:
            raise Refused(7)
        x = self.catalogue.rank_of(x_pattern)
        z = self.catalogue.rank_of(z_pattern)
        if self.void:
            raise Refused(9)
        line = self.lines[place]
        y = partner(self.catalogue, line.kind, line.modes, x, self.ranges[line.y], z)
        return None if y is None else self.catalogue.pattern_of(y)

    # Reading back: no command of a script does.

    def limits_told(self, register):
        if register >= REGISTERS:
            raise Refused(1)
        return tuple(self.catalogue.pattern_of(rank) for rank in self.limits[register])

    def line_told(self, place):
        if place >= PLACES:
            raise Refused(7)
        return self.lines.get(place)

    def shows_same(self, other):
        if self.void or other.void:
            return self.void and other.void
        return (self.at_rest(), self.ranges) == (other.at_rest(), other.ranges)


# -------------------------------------------------------------- commands
# Each takes the sheet and its words, already read, and answers a text.

def do_limit(sheet, register, low, high):
    sheet.limit(register, low, high)
    return "ok"


def do_enter(sheet, place, kind, modes, x, y, z):
    sheet.enter(place, check(kind, modes, x, y, z))
    return "ok"


def do_strike(sheet, place):
    sheet.strike(place)
    return "ok"


def do_settle(sheet, budget):
    return "%s %d" % sheet.settle(budget)


def do_look(sheet, register):
    (low, high), settled = sheet.look(register)
    return "%08X %08X %s" % (sheet.catalogue.pattern_of(low),
                             sheet.catalogue.pattern_of(high),
                             "settled" if settled else "open")


def do_partner(sheet, place, x, z):
    found = sheet.partner(place, x, z)
    return "none" if found is None else "%08X" % found


# A form is what a word must look like and what it then means.

NUMBER = (r"0|[1-9][0-9]{0,4}", int)
PATTERN = (r"[0-9A-F]{8}", lambda word: int(word, 16))
KIND = (r"[sdp]", {"s": SUM, "d": DIFFERENCE, "p": PEAK}.get)

COMMANDS = {
    "L": ((NUMBER, PATTERN, PATTERN), do_limit),
    "E": ((NUMBER, KIND, NUMBER, NUMBER, NUMBER, NUMBER), do_enter),
    "K": ((NUMBER,), do_strike),
    "S": ((NUMBER,), do_settle),
    "R": ((NUMBER,), do_look),
    "P": ((NUMBER, PATTERN, PATTERN), do_partner),
}


def read_command(line):
    """The command's function and its words' meanings; refuses with 10."""
    letter, *words = line.split(" ")
    if letter not in COMMANDS:
        raise Refused(10)
    forms, function = COMMANDS[letter]
    if len(words) != len(forms):
        raise Refused(10)
    for word, (form, _) in zip(words, forms):
        if not re.fullmatch(form, word):
            raise Refused(10)
    return function, [meaning(word) for word, (_, meaning) in zip(words, forms)]


def answer(sheet, line):
    try:
        function, words = read_command(line)
        return function(sheet, *words)
    except Refused as refused:
        return "no %d" % refused.args[0]


def split_lines(data):
    """Lines of text; each byte becomes one character."""
    lines = data.decode("latin-1").split("\n")
    if len(lines) > 1 and lines[-1] == "":     # what follows a final line feed
        lines.pop()                            # is no line
    return lines


def ranges(data, heard=None, watch=None):
    """The answers to a whole input; both are bytes.

    `heard` is told of each command line, `watch` of each step, if given.
    """
    if len(data) > LARGEST_INPUT:
        return b"no 10\n"
    first, *rest = split_lines(data)
    if first not in CATALOGUES:
        return b"no 10\n"
    sheet = Sheet(CATALOGUES[first]())
    sheet.watch = watch
    answers = []
    for line in rest:
        if heard:
            heard(line)
        answers.append(answer(sheet, line) + "\n")
    return "".join(answers).encode("ascii")


def print_command(line):
    print("[%s]" % line, file=sys.stderr)


def print_step(sheet, place, before):
    if sheet.void:
        what = "void"
    else:
        told = sheet.catalogue.told
        what = ", ".join("r%d %s..%s" % (register, told(low), told(high))
                         for register, (low, high) in enumerate(sheet.ranges)
                         if (low, high) != before[register]) or "no change"
    print("  place %d: %s" % (place, what), file=sys.stderr)


def main():
    data = sys.stdin.buffer.read()
    if sys.argv[1:] == ["--steps"]:
        sys.stdout.buffer.write(ranges(data, print_command, print_step))
    else:
        sys.stdout.buffer.write(ranges(data))


if __name__ == "__main__":
    main()

#!/usr/bin/env python3
"""Tests of ranges_model.py and of the sessions quoted in docs/.

    python3 tools/model/test_model.py
"""

import copy
import itertools
import os
import random
import re
import struct
import sys
import unittest
from fractions import Fraction

HERE = os.path.dirname(os.path.abspath(__file__))
ROOT = os.path.dirname(os.path.dirname(HERE))
sys.dont_write_bytecode = True
sys.path.append(os.path.join(ROOT, "tools", "tasks"))
import make_long_use
import ranges_model as model
from ranges_model import (SUM, DIFFERENCE, PEAK, NEAREST, UP, DOWN, TOWARD_ZERO, MODES,
                          Binary32, Counter, Refused, common, inside, narrow, partner, ranges)

KINDS = (SUM, DIFFERENCE, PEAK)
TOP = 16777215


def all_ranges(top):
    return [(low, high) for low in range(top + 1) for high in range(low, top + 1)]


def ranks(given):
    return range(given[0], given[1] + 1)


def as_range(kept):
    """A list of ranks, which must have no gaps, as a range."""
    if not kept:
        return None
    assert kept == list(range(kept[0], kept[-1] + 1))
    return kept[0], kept[-1]


def by_trying_every_rank(catalogue, kind, modes, x, y, z):
    """The rules of docs/CATALOGUES.md, each rank of each range tried in turn."""
    def least(a, b):
        return catalogue.least_result(kind, modes, a, b)
    def greatest(a, b):
        return catalogue.greatest_result(kind, modes, a, b)
    (xl, xh), (yl, yh), (zl, zh) = x, y, z
    if kind == DIFFERENCE:
        answer = ([r for r in ranks(x) if greatest(r, yl) >= zl and least(r, yh) <= zh],
                  [r for r in ranks(y) if greatest(xh, r) >= zl and least(xl, r) <= zh],
                  [r for r in ranks(z) if least(xl, yh) <= r <= greatest(xh, yl)])
    else:
        answer = ([r for r in ranks(x) if greatest(r, yh) >= zl and least(r, yl) <= zh],
                  [r for r in ranks(y) if greatest(xh, r) >= zl and least(xl, r) <= zh],
                  [r for r in ranks(z) if least(xl, yl) <= r <= greatest(xh, yh)])
    answer = tuple(as_range(kept) for kept in answer)
    return None if None in answer else answer


def triples(catalogue, kind, modes, x, y):
    """Every allowed triple of readings x and y in two ranges, each with its mode."""
    for a, b, mode in itertools.product(ranks(x), ranks(y), MODES):
        if modes & mode:
            c = catalogue.least_result(kind, mode, a, b)
            if catalogue.least <= c <= catalogue.greatest:
                yield a, b, c, mode


def by_formula(top, kind, x, y, z):
    """The counter's table of bounds in docs/CATALOGUES.md."""
    (xl, xh), (yl, yh), (zl, zh) = x, y, z
    if kind == SUM:
        new = ((max(xl, zl - yh), xh if zh == top else min(xh, zh - yl)),
               (max(yl, zl - xh), yh if zh == top else min(yh, zh - xl)),
               (max(zl, min(xl + yl, top)), min(zh, xh + yh)))
    elif kind == DIFFERENCE:
        new = ((xl if zl == 0 else max(xl, zl + yl), min(xh, zh + yh)),
               (max(yl, xl - zh), yh if zl == 0 else min(yh, xh - zl)),
               (max(zl, xl - yh), min(zh, max(xh - yl, 0))))
    else:
        new = ((xl if yh >= zl else max(xl, zl), min(xh, zh)),
               (yl if xh >= zl else max(yl, zl), min(yh, zh)),
               (max(zl, xl, yl), min(zh, max(xh, yh))))
    return None if any(low > high for low, high in new) else new


def shrunk(x, y, z):
    """The same three ranges with one end of one of them moved in by one."""
    for i, given in enumerate((x, y, z)):
        low, high = given
        for smaller in ((low + 1, high), (low, high - 1)):
            if smaller[0] <= smaller[1]:
                yield tuple(smaller if j == i else r for j, r in enumerate((x, y, z)))


class Narrowing(unittest.TestCase):
    def test_every_triple_of_ranges_of_small_counters(self):
        for top in range(6):
            counter = Counter(top)
            for kind in KINDS:
                table = {}
                for x, y, z in itertools.product(all_ranges(top), repeat=3):
                    got = narrow(counter, kind, 1, x, y, z)
                    self.assertEqual(got, by_trying_every_rank(counter, kind, 1, x, y, z))
                    self.assertEqual(got, by_formula(top, kind, x, y, z))
                    table[x, y, z] = got
                for given, got in table.items():
                    if got is not None:                                  # inside
                        self.assertTrue(all(map(inside, got, given)))
                    for a, b, c, _ in triples(counter, kind, 1, *given[:2]):   # kept
                        if c in ranks(given[2]):
                            self.assertIsNotNone(got)
                            for r, kept in zip((a, b, c), got):
                                self.assertIn(r, ranks(kept))
                    for smaller in shrunk(*given):                       # steady; any
                        if table[smaller] is not None:                   # shrinking is a
                            self.assertIsNotNone(got)                    # chain of these
                            self.assertTrue(all(map(inside, table[smaller], got)))

    def test_formula_on_the_whole_counter(self):
        chance = random.Random(1)
        edges = [0, 1, 2, TOP // 2, TOP - 2, TOP - 1, TOP]
        def end():
            return chance.choice(edges + [chance.randint(0, TOP)])
        def given():
            return tuple(sorted((end(), end())))
        for _ in range(20000):
            kind, x, y, z = chance.choice(KINDS), given(), given(), given()
            self.assertEqual(narrow(Counter(), kind, 15, x, y, z), by_formula(TOP, kind, x, y, z))

    def test_given_ranges_are_first_cut_to_the_readings(self):
        self.assertEqual(narrow(Counter(9), SUM, 1, (-5, 3), (2, 40), (-1, 99)),
                         ((0, 3), (2, 9), (2, 9)))
        self.assertIsNone(narrow(Counter(9), PEAK, 1, (0, 9), (10, 12), (0, 9)))


BOARD = Binary32()
GREATEST = 2139095039
UNIT = Fraction(1, 2 ** 149)


def rank(text):
    return BOARD.rank_of(int(text, 16))


def span(low, high):
    return rank(low), rank(high)


def result(kind, mode, x, y):
    return BOARD.least_result(kind, mode, x, y)


def first_rank(holds, given):
    """The first rank of a range for which `holds`, once true, stays true; or None."""
    low, high = given
    if not holds(high):
        return None
    while low < high:
        middle = (low + high) // 2
        if holds(middle):
            high = middle
        else:
            low = middle + 1
    return low


def in_the_words_of_the_rule(mode, exact, board=BOARD):
    """A rounding looked for among all readings by nothing but their values."""
    readings, out = (board.least, board.greatest), board.greatest + 1
    above = first_rank(lambda r: board.units(r) >= exact, readings)
    over = first_rank(lambda r: board.units(r) > exact, readings)
    up = out if above is None else above
    down = (board.greatest if over is None else over - 1)      # least - 1 is beyond
    if mode == UP:
        return up
    if mode == DOWN:
        return down
    if mode == TOWARD_ZERO:
        return down if exact >= 0 else up
    if abs(exact) >= board.threshold:
        return out if exact > 0 else -out
    distance, _, nearer = min((abs(board.units(r) - exact), r % 2, r) for r in (down, up)
                              if board.least <= r <= board.greatest)
    return nearer


def exact_values(chance, count):
    """Exact values in units: of every size, close to readings and to their middles."""
    for _ in range(count):
        r = chance.choice([0, 1, 2 ** 23, 2 ** 24, GREATEST, chance.randint(0, GREATEST),
                           chance.randint(0, 2 ** 25)])
        low, high = BOARD.units(r), BOARD.units(r + 1)
        at = chance.choice([low, (low + high) // 2, chance.randint(low, high)])
        yield chance.choice((1, -1)) * (at + chance.randint(-2, 2))
    for edge in ((2 ** 25 - 1) * 2 ** 252, BOARD.units(GREATEST), 2 ** 277):
        for off in (-1, 0, 1):
            yield edge + off
            yield -edge - off


def reach(board, modes, low):
    """The least exact value that the modes can round to `low` or more, if any is.

    This is the first table of bounds of docs/CATALOGUES.md.
    """
    at, before = board.units(low), board.units(low - 1)
    per_mode = {UP: None if low == board.least else before + 1,
                NEAREST: -((-at - before) // 2) + (1 if (at + before) % 2 == 0 and low % 2 else 0),
                DOWN: at}
    per_mode[TOWARD_ZERO] = per_mode[DOWN if low > 0 else UP]
    found = [per_mode[mode] for mode in MODES if modes & mode]
    return None if None in found else min(found)


def mirrored(modes):
    """The modes that round the negated value to the negated result."""
    return modes & (NEAREST | TOWARD_ZERO) | (UP if modes & DOWN else 0) | (DOWN if modes & UP else 0)


def by_bounds(board, kind, modes, x, y, z):
    """The bounds of docs/CATALOGUES.md for sums and differences of binary32."""
    huge = 2 ** 300
    low, high = reach(board, modes, z[0]), reach(board, mirrored(modes), -z[1])
    low = -huge if low is None else low
    high = huge if high is None else -high
    (xl, xh), (yl, yh) = [(board.units(r[0]), board.units(r[1])) for r in (x, y)]
    if kind == SUM:
        bounds = ((low - yh, high - yl), (low - xh, high - xl), (xl + yl, xh + yh))
    else:
        bounds = ((low + yl, high + yh), (xl - high, xh - low), (xl - yh, xh - yl))
    inward = [(board.up(a), board.down(b)) for a, b in bounds[:2]]
    modes_of_set = [mode for mode in MODES if modes & mode]
    inward.append((min(in_the_words_of_the_rule(mode, bounds[2][0], board) for mode in modes_of_set),
                   max(in_the_words_of_the_rule(mode, bounds[2][1], board) for mode in modes_of_set)))
    new = [common(given, bound) if bound[0] <= bound[1] else None
           for given, bound in zip((x, y, z), inward)]
    return None if None in new else tuple(new)


class Readings(unittest.TestCase):
    def test_patterns_and_ranks(self):
        self.assertEqual((BOARD.least, BOARD.greatest), (-GREATEST, GREATEST))
        self.assertEqual(BOARD.threshold, (2 ** 25 - 1) * 2 ** 252)
        for pattern, expected in (("00000001", 1), ("80000000", 0), ("00000000", 0),
                                  ("80000001", -1), ("7F7FFFFF", GREATEST),
                                  ("FF7FFFFF", -GREATEST)):
            self.assertEqual(rank(pattern), expected)
        for pattern in ("7F800000", "FF800000", "7F800001", "7FC00000", "7FFFFFFF", "FFFFFFFF"):
            with self.assertRaises(Refused) as refused:
                rank(pattern)
            self.assertEqual(refused.exception.args, (2,))
        chance = random.Random(3)
        for r in [0, 1, -1, GREATEST, -GREATEST] + [chance.randint(-GREATEST, GREATEST)
                                                     for _ in range(2000)]:
            self.assertEqual(BOARD.rank_of(BOARD.pattern_of(r)), r)
            pattern = chance.getrandbits(32)
            if pattern % 2 ** 31 <= GREATEST and pattern != 0x80000000:
                self.assertEqual(BOARD.pattern_of(BOARD.rank_of(pattern)), pattern)
        self.assertEqual(BOARD.pattern_of(0), 0)

    def test_values(self):
        self.assertEqual(BOARD.units(rank("3F800000")) * UNIT, 1)
        self.assertEqual(BOARD.units(rank("BFC00000")) * UNIT, Fraction(-3, 2))
        self.assertEqual(BOARD.units(GREATEST), (2 ** 24 - 1) * 2 ** 253)
        chance = random.Random(4)
        for r in [field * 2 ** 23 + off for field in range(255) for off in (-2, -1, 0, 1)] + [
                chance.randint(0, GREATEST - 1) for _ in range(2000)]:
            if r < GREATEST:
                self.assertLess(BOARD.units(r), BOARD.units(r + 1))
                self.assertEqual(BOARD.units(-r), -BOARD.units(r))
                machine, = struct.unpack(">f", struct.pack(">I", BOARD.pattern_of(r)))
                self.assertEqual(BOARD.units(r) * UNIT, Fraction(machine))


class Rounding(unittest.TestCase):
    def test_in_the_words_of_the_rules(self):
        names = {NEAREST: BOARD.nearest, UP: BOARD.up, DOWN: BOARD.down,
                 TOWARD_ZERO: BOARD.toward_zero}
        for exact in exact_values(random.Random(5), 1500):
            for mode in MODES:
                self.assertEqual(names[mode](exact), in_the_words_of_the_rule(mode, exact))

    def test_published_vectors(self):
        count = 0
        for line in read("crates", "vectors", "data", "binary32-add-sub.txt").decode().split("\n"):
            if line:
                operation, x, y, *expected, exactness = line.split(" ")
                kind = {"add": SUM, "sub": DIFFERENCE}[operation]
                got = [result(kind, mode, rank(x), rank(y)) for mode in MODES]
                for pattern, r in zip(expected, got):              # an infinity is beyond
                    magnitude = int(pattern, 16) % 2 ** 31
                    self.assertEqual(r, -magnitude if pattern[0] > "7" else magnitude)
                self.assertEqual(len(set(got)) == 1, exactness == "exact")
                count += 1
        self.assertEqual(count, 5005)

    def test_the_machines_own_sums(self):
        """To nearest; a sum in double precision, rounded again, is the rounded sum."""
        chance = random.Random(6)
        for _ in range(3000):
            x = chance.randint(-GREATEST, GREATEST)
            y = chance.choice([chance.randint(-GREATEST, GREATEST),
                               -x + chance.randint(-2 ** 26, 2 ** 26)])
            if abs(y) <= GREATEST:
                a, b = struct.unpack(">ff", struct.pack(">II", BOARD.pattern_of(x),
                                                        BOARD.pattern_of(y)))
                try:
                    pattern, = struct.unpack(">I", struct.pack(">f", a + b))
                    expected = BOARD.rank_of(pattern)
                except OverflowError:
                    expected = GREATEST + 1 if a + b > 0 else -GREATEST - 1
                self.assertEqual(result(SUM, NEAREST, x, y), expected)

    def test_worked_examples(self):
        one, half_step, most = rank("3F800000"), rank("33800000"), GREATEST
        self.assertEqual(result(SUM, NEAREST, one, half_step), one)
        self.assertEqual(result(SUM, UP, one, half_step), rank("3F800001"))
        self.assertEqual(result(SUM, NEAREST, most, most), GREATEST + 1)
        self.assertEqual(result(SUM, TOWARD_ZERO, most, most), most)


# Pairs of places to look at closely: around zero and where subnormals end, ties,
# cancellation, where the spacing changes, and both ends.
CLOSE = [("00000000", "00000000"), ("00000003", "80000002"), ("007FFFFE", "00000003"),
         ("00800002", "80000003"), ("01000000", "80FFFFFE"), ("3F800000", "33800000"),
         ("3F800001", "33800000"), ("3F800000", "B3800000"), ("4B800000", "3F800000"),
         ("4B800001", "BF800000"), ("40000000", "C0000001"), ("42C80000", "C2C40000"),
         ("41800000", "35000000"), ("BFFFFFFF", "B4000000"), ("7F7FFFFD", "73000000"),
         ("7F7FFFFD", "72800003"), ("FF7FFFFD", "F3000000"), ("7F000000", "7EFFFFFE"),
         ("7F7FFFFD", "7F7FFFFD"), ("FF7FFFFD", "7F7FFFFD"), ("3F800000", "00000001")]


class Binary32Narrowing(unittest.TestCase):
    def test_worked_examples(self):
        sixteen, about_one = span("41800000", "41800000"), span("BF800000", "3F800000")
        self.assertEqual(narrow(BOARD, SUM, 1, about_one, sixteen, sixteen),
                         (span("B5000000", "35800000"), sixteen, sixteen))
        self.assertEqual(narrow(BOARD, SUM, 6, about_one, sixteen, sixteen),
                         (span("B57FFFFF", "35FFFFFF"), sixteen, sixteen))
        x, y = span("3F800000", "40000000"), span("3F000000", "3F800000")
        self.assertEqual(narrow(BOARD, DIFFERENCE, 1, x, y, span("00000000", "41200000")),
                         (x, y, span("00000000", "3FC00000")))

    def test_short_ranges_by_trying_every_rank(self):
        chance = random.Random(7)
        def around(middle, most):
            low = max(min(middle + chance.randint(-3, 1), GREATEST), -GREATEST)
            return low, min(low + chance.randint(0, most), GREATEST)
        answers = [0, 0]
        for x, y in CLOSE * 60:
            kind, modes = chance.choice(KINDS), chance.randint(1, 15)
            if kind == DIFFERENCE and chance.random() < 0.8:      # as close as the sum
                y = "%08X" % (int(y, 16) ^ 0x80000000)
            x, y = around(rank(x), 6), around(rank(y), 6)
            middle = chance.choice([c for _, _, c, _ in triples(BOARD, kind, modes, x, y)] or [0])
            z = around(middle, 4)
            got = narrow(BOARD, kind, modes, x, y, z)
            self.assertEqual(got, by_trying_every_rank(BOARD, kind, modes, x, y, z))
            answers[got is None] += 1
            if got is not None:
                self.assertTrue(all(map(inside, got, (x, y, z))))
            for a, b, c, _ in triples(BOARD, kind, modes, x, y):
                if c in ranks(z):
                    self.assertIsNotNone(got)
                    for r, kept in zip((a, b, c), got):
                        self.assertIn(r, ranks(kept))
        self.assertGreater(min(answers), 50)

    def test_rule_of_growth(self):
        for x, y in CLOSE:
            x, y = max(rank(x) - 3, -GREATEST), max(rank(y) - 3, -GREATEST)
            for kind, mode, i, j in itertools.product(KINDS, MODES, range(6), range(6)):
                if max(x + i, y + j) < GREATEST:
                    here = result(kind, mode, x + i, y + j)
                    self.assertLessEqual(here, result(kind, mode, x + i + 1, y + j))
                    there = result(kind, mode, x + i, y + j + 1)
                    self.assertTrue(there <= here if kind == DIFFERENCE else here <= there)

    def test_small_formats(self):
        """Formats of the same make with 11 to 55 readings, ranges from end to end."""
        chance = random.Random(8)
        for board in (Binary32(2, 1), Binary32(2, 2), Binary32(3, 1), Binary32(3, 2)):
            def given():
                return tuple(sorted(chance.randint(board.least, board.greatest) for _ in "lh"))
            for _ in range(300):
                kind, modes, x, y, z = chance.choice(KINDS), chance.randint(1, 15), given(), given(), given()
                got = narrow(board, kind, modes, x, y, z)
                self.assertEqual(got, by_trying_every_rank(board, kind, modes, x, y, z))
                self.assertEqual(got, by_formula(None, PEAK, x, y, z) if kind == PEAK else
                                 by_bounds(board, kind, modes, x, y, z))
                for a, b, c, _ in triples(board, kind, modes, x, y):
                    if c in ranks(z):
                        self.assertIsNotNone(got)
                        for r, kept in zip((a, b, c), got):
                            self.assertIn(r, ranks(kept))
                for smaller in shrunk(x, y, z):
                    less = narrow(board, kind, modes, *smaller)
                    if less is not None:
                        self.assertIsNotNone(got)
                        self.assertTrue(all(map(inside, less, got)))

    def test_bounds_on_all_readings(self):
        chance = random.Random(9)
        places = [rank(x) for pair in CLOSE for x in pair] + [-GREATEST, GREATEST]
        def end():
            r = chance.choice(places) + chance.choice([0, 0, 1, -1, chance.randint(-2 ** 24, 2 ** 24)])
            return min(max(chance.choice([r, -r, chance.randint(-GREATEST, GREATEST)]), -GREATEST), GREATEST)
        answers = [0, 0]
        for _ in range(1500):
            kind, modes = chance.choice((SUM, DIFFERENCE)), chance.randint(1, 15)
            x, y = [tuple(sorted((end(), end()))) for _ in "xy"]
            middle = BOARD.least_result(kind, modes, chance.randint(*x), chance.randint(*y))
            z = common((-GREATEST, GREATEST), (middle - chance.choice([0, 1, 9, 2 ** 28]),
                                               middle + chance.choice([0, 1, 9, 2 ** 28])))
            if z is not None:
                got = narrow(BOARD, kind, modes, x, y, z)
                self.assertEqual(got, by_bounds(BOARD, kind, modes, x, y, z))
                answers[got is None] += 1
        self.assertGreater(answers[0], 500)


class Partners(unittest.TestCase):
    def holds(self, catalogue, kind, modes, x, y, z):
        """Against every y of the range: some partner or none, and which one."""
        found = {(mode, b) for _, b, c, mode in triples(catalogue, kind, modes, (x, x), y) if c == z}
        expected = min(found)[1] if found else None     # first mode, then lowest y
        self.assertEqual(partner(catalogue, kind, modes, x, y, z), expected)
        return expected is not None

    def test_every_question_of_small_counters(self):
        for top in range(5):
            counter, readings = Counter(top), range(top + 1)
            for kind, x, y, z in itertools.product(KINDS, readings, all_ranges(top), readings):
                self.holds(counter, kind, 6, x, y, z)

    def test_small_formats(self):
        chance = random.Random(10)
        for board in (Binary32(2, 1), Binary32(3, 2)):
            def any_rank():
                return chance.randint(board.least, board.greatest)
            for _ in range(2000):
                self.holds(board, chance.choice(KINDS), chance.randint(1, 15), any_rank(),
                           tuple(sorted((any_rank(), any_rank()))), any_rank())

    def test_short_ranges(self):
        chance, answers = random.Random(11), [0, 0]
        for x, y in CLOSE * 60:
            kind, modes = chance.choice(KINDS), chance.randint(1, 15)
            if kind == DIFFERENCE and chance.random() < 0.8:
                y = "%08X" % (int(y, 16) ^ 0x80000000)
            x = min(rank(x) + chance.randint(-2, 2), GREATEST)
            low = max(min(rank(y) + chance.randint(-4, 2), GREATEST), -GREATEST)
            y = low, min(low + chance.randint(0, 6), GREATEST)
            some = [c for _, _, c, _ in triples(BOARD, kind, modes, (x, x), y)] or [0]
            z = max(min(chance.choice(some) + chance.randint(-1, 1), GREATEST), -GREATEST)
            answers[self.holds(BOARD, kind, modes, x, y, z)] += 1
        self.assertGreater(min(answers), 200)

    def test_worked_examples(self):
        sixteen = rank("41800000")
        self.assertEqual(partner(BOARD, SUM, 1, sixteen, span("BF800000", "3F800000"), sixteen),
                         rank("B5000000"))
        self.assertEqual(partner(BOARD, SUM, 1, sixteen, span("00000000", "3F800000"), sixteen), 0)
        self.assertIsNone(partner(BOARD, SUM, 1, sixteen, span("3F800000", "40000000"), sixteen))

    def test_wide_ranges(self):
        """An answer is a partner, and one that is known to exist is not missed."""
        chance = random.Random(12)
        for _ in range(1500):
            kind, modes = chance.choice(KINDS), chance.randint(1, 15)
            x, y = [chance.choice([chance.randint(-GREATEST, GREATEST), chance.randint(-2 ** 25, 2 ** 25)])
                    for _ in "xy"]
            z = chance.choice(BOARD.results(kind, modes, x, y))
            y = max(-GREATEST, y - chance.randint(0, 2 ** 30)), min(GREATEST, y + chance.randint(0, 2 ** 30))
            if abs(z) <= GREATEST:
                found = partner(BOARD, kind, modes, x, y, z)
                self.assertIn(found, ranks(y))
                self.assertIn(z, BOARD.results(kind, modes, x, found))


def sheet_with(limits, lines, top=TOP):
    sheet = model.Sheet(Counter(top))
    for register, (low, high) in limits.items():
        sheet.limit(register, low, high)
    for place, line in enumerate(lines):
        sheet.enter(place, model.check(*line))
    return sheet


class Settling(unittest.TestCase):
    def test_repeated_registers(self):
        sheet = sheet_with({0: (5, 9), 1: (2, 7)}, [(PEAK, 1, 0, 1, 1)])
        sheet.step()
        self.assertEqual(sheet.ranges[:2], [(5, 7), (5, 7)])
        sheet = sheet_with({0: (10, 20), 2: (30, 100)}, [(SUM, 1, 0, 0, 2)])
        sheet.settle(9)
        self.assertEqual((sheet.ranges[0], sheet.ranges[2]), ((10, 20), (30, 40)))

    def test_strike(self):
        sheet = sheet_with({0: (5, 9), 1: (2, 7), 2: (90, 99)}, [(PEAK, 1, 0, 1, 1), (SUM, 1, 0, 1, 2)])
        self.assertEqual(sheet.settle(9), ("void", 3))
        sheet.strike(1)
        self.assertEqual((sheet.void, sheet.due), (False, {0}))
        self.assertEqual(sheet.ranges, sheet.limits)
        self.assertEqual(sheet.settle(9), ("settled", 2))
        self.assertEqual(sheet.ranges[:2], [(5, 7), (5, 7)])
        sheet.strike(0)
        self.assertEqual((sheet.ranges, sheet.due), (sheet.limits, set()))
        for place in (0, 1, 64):
            self.assertRaises(Refused, sheet.strike, place)

    def test_partner_holds_nothing_equal(self):
        """x and z are taken as they are given, also where the line names a register twice."""
        sheet = sheet_with({0: (10, 20)}, [(SUM, 1, 0, 0, 0)])
        self.assertEqual(sheet.partner(0, 100, 115), 15)
        self.assertIsNone(sheet.partner(0, 100, 121))
        self.assertEqual(sheet.due, {0})

    def test_partner_is_sought_in_the_shown_range(self):
        sheet = sheet_with({0: (0, 100), 1: (0, 60), 2: (120, 200)}, [(SUM, 1, 0, 1, 2)])
        self.assertEqual(sheet.partner(0, 110, 120), 10)
        self.assertEqual(sheet.settle(9), ("settled", 2))
        self.assertEqual(sheet.ranges[1], (20, 60))
        self.assertIsNone(sheet.partner(0, 110, 120))
        self.assertEqual(sheet.partner(0, 100, 120), 20)

    def test_small_sheets_against_every_assignment(self):
        """Rest depends on no order of lines, and loses no assignment."""
        chance = random.Random(2)
        top, registers = 4, 3
        for _ in range(1500):
            counter = Counter(top)
            limits = {r: chance.choice(all_ranges(top)) for r in range(registers)}
            lines = [(chance.choice(KINDS), 1) + tuple(chance.randrange(registers) for _ in "xyz")
                     for _ in range(chance.randint(1, 4))]
            ends = []
            for order in itertools.permutations(lines):
                sheet = sheet_with(limits, order, top)
                outcome, _ = sheet.settle(65535)
                self.assertIn(outcome, ("settled", "void"))
                ends.append(None if sheet.void else sheet.ranges[:registers])
            self.assertTrue(all(end == ends[0] for end in ends))
            for assignment in itertools.product(*[ranks(limits[r]) for r in range(registers)]):
                if all(counter.least_result(k, m, assignment[x], assignment[y]) == assignment[z]
                       for k, m, x, y, z in lines):
                    self.assertIsNotNone(ends[0])
                    for r in range(registers):
                        self.assertIn(assignment[r], ranks(ends[0][r]))


class Words(unittest.TestCase):
    """The rules of docs/SHEET.md once more, as sentences about a sheet before and after."""

    def test_what_becomes_due(self):
        chance = random.Random(6)
        for _ in range(400):
            top, registers = 30, 5
            limits = {r: tuple(sorted((chance.randint(0, top), chance.randint(0, top)))) for r in range(registers)}
            lines = [(chance.choice(KINDS), 1) + tuple(chance.randrange(registers) for _ in "xyz")
                     for _ in range(chance.randint(1, 5))]
            sheet = sheet_with(limits, lines, top)
            while not sheet.at_rest():
                before = copy.deepcopy(sheet)
                sheet.step()
                taken = min(before.due)
                changed = {r for r in range(32) if sheet.ranges[r] != before.ranges[r]}
                if sheet.void:
                    self.assertEqual(sheet.due, set())
                else:
                    self.assertEqual(sheet.due, before.due - {taken} | {
                        place for place, line in sheet.lines.items() if changed & {line.x, line.y, line.z}})
                self.assertEqual((sheet.limits, sorted(sheet.lines)), (before.limits, sorted(before.lines)))
            register = chance.randrange(registers)
            low, high = sorted((chance.randint(0, top), chance.randint(0, top)))
            before = copy.deepcopy(sheet)
            sheet.limit(register, low, high)
            old = before.limits[register]
            if not (old[0] <= low and high <= old[1]):
                self.assertEqual((sheet.ranges, sheet.due), (sheet.limits, set(sheet.lines)))
            elif before.void:
                self.assertTrue(sheet.void)
                self.assertEqual(sheet.due, before.due)
            elif not sheet.void:
                naming = {place for place, line in sheet.lines.items() if register in (line.x, line.y, line.z)}
                heard = naming if sheet.ranges[register] != before.ranges[register] else set()
                self.assertEqual(sheet.due, before.due | heard)


class ReadBack(unittest.TestCase):
    def test_limits_and_lines(self):
        sheet = sheet_with({0: (5, 9), 1: (2, 7)}, [(PEAK, 1, 0, 1, 1)])
        sheet.settle(9)
        self.assertEqual(sheet.ranges[:2], [(5, 7), (5, 7)])
        self.assertEqual((sheet.limits_told(0), sheet.limits_told(1)), ((5, 9), (2, 7)))
        line = sheet.line_told(0)
        self.assertEqual((line.kind, line.modes, line.x, line.y, line.z), (PEAK, 1, 0, 1, 1))
        self.assertIsNone(sheet.line_told(63))
        for call, number, refusal in ((sheet.limits_told, 32, 1), (sheet.line_told, 64, 7)):
            with self.assertRaises(Refused) as refused:
                call(number)
            self.assertEqual(refused.exception.args, (refusal,))

    def test_a_void_sheet_tells_its_limits(self):
        sheet = sheet_with({0: (1, 1)}, [(SUM, 1, 0, 0, 0)])
        self.assertEqual(sheet.settle(9), ("void", 1))
        self.assertEqual(sheet.limits_told(0), (1, 1))

    def test_what_is_read_back_makes_the_same_sheet(self):
        """After every script, a new sheet with the limits and lines that are read back shows the same at rest."""
        chance = random.Random(7)
        for _ in range(300):
            top = 30
            sheet = sheet_with({}, [], top)
            for _ in range(40):
                try:
                    what = chance.randrange(4)
                    if what == 0:
                        sheet.limit(chance.randrange(6), chance.randint(0, top), chance.randint(0, top))
                    elif what == 1:
                        sheet.enter(chance.randrange(8), model.check(
                            chance.choice(KINDS), 1, *(chance.randrange(6) for _ in "xyz")))
                    elif what == 2:
                        sheet.strike(chance.randrange(8))
                    else:
                        sheet.settle(chance.randint(1, 6))
                except Refused:
                    pass
            new = sheet_with({}, [], top)
            for register in range(32):
                new.limit(register, *sheet.limits_told(register))
            for place in range(64):
                line = sheet.line_told(place)
                if line is not None:
                    new.enter(63 - place, model.check(line.kind, line.modes, line.x, line.y, line.z))
            sheet.settle(65535)
            new.settle(65535)
            self.assertTrue(sheet.shows_same(new))

    def test_unlike_sheets(self):
        one, other = sheet_with({}, []), sheet_with({31: (0, 1)}, [])
        void = sheet_with({0: (1, 1)}, [(SUM, 1, 0, 0, 0)])
        void.settle(9)
        self.assertFalse(one.shows_same(other))
        self.assertFalse(one.shows_same(void))
        self.assertTrue(void.shows_same(void))


class Scripts(unittest.TestCase):
    def answers(self, data, expected):
        self.assertEqual(ranges(data), expected)

    def test_first_line_and_ends_of_lines(self):
        self.answers(b"", b"no 10\n")
        self.answers(b"\n", b"no 10\n")
        self.answers(b"C", b"")
        self.answers(b"C\n", b"")
        self.answers(b"C\n\n", b"no 10\n")
        self.answers(b"C\n\n\n", b"no 10\nno 10\n")
        self.answers(b"C\nS 1", b"settled 0\n")
        self.answers(b"B\nR 31", b"FF7FFFFF 7F7FFFFF settled\n")
        for first in (b"c", b"C ", b" C", b"CC", b"C\r", b"b", b"BC", b"Z", b"S 1"):
            self.answers(first + b"\nS 1\n", b"no 10\n")

    def test_size(self):
        fits = b"C\n" + b"\n" * 65534
        self.answers(fits, b"no 10\n" * 65534)
        self.answers(fits + b"\n", b"no 10\n")

    def test_unreadable(self):
        for line in (b"", b" ", b"S", b"S ", b" S 1", b"S 1 ", b"S  1", b"S\t1", b"S 1\r", b"S 01",
                     b"S 00", b"S 100000", b"S -1", b"S +1", b"S 1 1", b"s 1", b"SS 1", b"X 1",
                     b"R", b"R A", b"R 0x1", b"R \xb2", b"R \xff", b"R 1\x00", b"\xc3\xa9",
                     b"L 0 0000000 00000001", b"L 0 000000000 00000001", b"L 0 0000000a 0000000F",
                     b"L 0 0000000G 0000000F", b"L 0 00000001", b"L 0 00000001 00000002 3",
                     b"L 32 00000001", b"L 99999 0000000a 00000000",
                     b"E 0 q 1 0 1 2", b"E 0 S 1 0 1 2", b"E 0 0 1 0 1 2", b"E 0 sd 1 0 1 2",
                     b"E 0 s 1 0 1", b"E 0 s 1 0 1 2 3", b"E 64 s 0 32 0 00",
                     b"K", b"K ", b"K 0 0", b"K 05", b"K 100000", b"k 0", b"K 0000000A",
                     b"P 0", b"P 0 00000000", b"P 0 00000000 00000000 00000000",
                     b"P 0 0 0", b"P 0 0000000a 00000000", b"P 00 00000000 00000000"):
            self.answers(b"C\n" + line + b"\n", b"no 10\n")

    def test_readable_but_refused(self):
        for line, number in ((b"L 32 00000000 00000001", 1), (b"L 99999 FFFFFFFF 00000000", 1),
                             (b"L 0 01000000 00000000", 2), (b"L 0 00000000 01000000", 2),
                             (b"L 0 FFFFFFFF FFFFFFFF", 2), (b"L 0 00000001 00000000", 3),
                             (b"E 64 s 0 32 0 0", 5), (b"E 64 s 16 0 0 0", 5),
                             (b"E 64 s 99999 0 0 0", 5), (b"E 64 s 1 0 0 32", 1),
                             (b"E 64 s 1 0 32 0", 1), (b"E 64 s 1 32 0 0", 1),
                             (b"E 64 s 1 0 0 0", 7), (b"E 99999 s 1 0 0 0", 7),
                             (b"S 0", 8), (b"S 65536", 8), (b"S 99999", 8),
                             (b"R 32", 1), (b"R 99999", 1), (b"K 0", 7), (b"K 64", 7),
                             (b"K 99999", 7), (b"P 0 FFFFFFFF FFFFFFFF", 7), (b"P 64 00000000 00000000", 7)):
            self.answers(b"C\n" + line, b"no %d\n" % number)

    def test_partner_on_a_void_sheet(self):
        void = b"C\nE 0 s 1 0 1 2\nL 0 00000000 00000005\nL 0 00000005 00000005\n" \
               b"L 2 00000000 00000004\nS 9\n"
        for line, number in ((b"P 1 01000000 01000000", 7), (b"P 0 01000000 00000000", 2),
                             (b"P 0 00000000 01000000", 2), (b"P 0 00000000 00000000", 9),
                             (b"K 1", 7)):
            self.answers(void + line, b"ok\n" * 4 + b"void 1\nno %d\n" % number)
        self.answers(void + b"K 0\nR 0", b"ok\n" * 4 + b"void 1\nok\n00000005 00000005 settled\n")


def read(*parts):
    with open(os.path.join(ROOT, *parts), "rb") as file:
        return file.read()


def number(text):
    """A number written like 1,182.5−2^−13 or 3·2^−149, exactly."""
    term = r"([+−]?)(?:(?:([0-9,]+)·)?2\^(−?[0-9]+)|([0-9,]+(?:\.[0-9]+)?))"
    assert re.fullmatch("(?:%s)+" % term, text), text
    total = Fraction(0)
    for sign, times, exponent, plain in re.findall(term, text):
        if exponent:
            value = Fraction(2) ** int(exponent.replace("−", "-"))
            value *= int((times or "1").replace(",", ""))
        else:
            value = Fraction(plain.replace(",", ""))
        total += -value if sign == "−" else value
    return total


def remark_fits(remark, first, patterns):
    """Whether a remark `low..high` gives the two patterns as numbers."""
    low, high = [int(pattern, 16) for pattern in patterns]
    if first == "C":
        return remark == "{:,}..{:,}".format(low, high)
    return [number(end) for end in remark.split("..")] == [
        BOARD.units(BOARD.rank_of(pattern)) * UNIT for pattern in (low, high)]


def quoted_session(name):
    """The session quoted in a document, as an input and its answers.

    A quoted line is `[command] answer`, and may go on with `  # low..high`, the
    range of the command or of the answer once more, as numbers.
    """
    commands, answers = [], []
    for line in read("docs", name).decode("utf-8").split("\n"):
        found = re.fullmatch(r"\[(.*)\](?: (\S+(?: \S+)*))?(?:  # (\S+))?", line)
        if found:
            command, answer, remark = found.groups()
            commands.append(command + "\n")
            answers.append(answer + "\n" if answer else "")
            if remark:
                patterns = re.findall(r"\b[0-9A-F]{8}\b", line.split("#")[0])
                assert remark_fits(remark, commands[0][0], patterns), line
    return "".join(commands).encode(), "".join(answers).encode()


class Quoted(unittest.TestCase):
    def test_scripts_example(self):
        commands, answers = quoted_session("SCRIPTS.md")
        self.assertEqual(ranges(commands), answers)

    def test_scaler_day(self):
        commands, answers = quoted_session("SCALER-DAY.md")
        self.assertEqual(commands, read("crates", "ranges", "stdin"))
        self.assertEqual(answers, read("crates", "ranges", "stdout"))
        self.assertEqual(ranges(commands), answers)

    def test_beamline(self):
        commands, answers = quoted_session("BEAMLINE.md")
        self.assertEqual(commands, read("crates", "beamline", "stdin"))
        self.assertEqual(answers, read("crates", "beamline", "stdout"))
        self.assertEqual(ranges(commands), answers)

    def test_creep(self):
        self.assertEqual(ranges(read("crates", "creep", "stdin")), read("crates", "creep", "stdout"))

    def test_bench(self):
        for name in ("creep60", "chain60", "mixed64", "commands"):
            self.assertEqual(ranges(read("tools", "bench", name + ".txt")),
                             read("tools", "bench", name + ".expected"))


class Record:
    """What stands after a script, by its commands and their answers alone."""

    def __init__(self, first):
        self.first = first
        self.limits, self.lines = {}, {}           # register, place -> command

    def hear(self, command, answer):
        letter, *words = command.split(" ")
        if answer == "ok" and letter == "L":
            self.limits[words[0]] = command
        if answer == "ok" and letter == "E":
            self.lines[words[0]] = " ".join(words[1:])
        if answer == "ok" and letter == "K":
            del self.lines[words[0]]

    def new_script(self):
        """The same limits and lines on a new sheet: each line once, at other places."""
        lines = sorted(set(self.lines.values()), reverse=True)
        return [self.first] + sorted(self.limits.values()) + [
            "E %d %s" % place_and_line for place_and_line in enumerate(lines)]


def shown_at_rest(script):
    """The outcome of a settle after a script, and the looks at all registers."""
    lines = script + ["S 65535"] + ["R %d" % register for register in range(32)]
    answers = ranges("\n".join(lines).encode()).decode().split("\n")
    return [answers[-34].split(" ")[0]] + answers[-33:-1]


class LongUse(unittest.TestCase):
    def script(self, name):
        return read("crates", "long_use", "data", name).decode().split("\n")[:-1]

    def test_files(self):
        for name, text in make_long_use.scripts().items():
            self.assertEqual(text.encode(), read("crates", "long_use", "data", name))
            self.assertLess(len(text), 60000)

    def test_a_long_used_sheet_beside_a_new_one(self):
        for name in ("long_use_b.txt", "long_use_c.txt"):
            script = self.script(name)
            answers = ranges("\n".join(script).encode()).decode().split("\n")
            record, seen = Record(script[0]), []
            for command, answer in zip(script[1:], answers):
                record.hear(command, answer)
                seen.append(command[0] + " " + " ".join(answer.split(" ")[:2 if answer[:2] == "no" else 1]))
            self.assertGreater(sum(seen.count(letter + " ok") for letter in "LEK"), 300)
            for letter, number in (("L", 1), ("L", 2), ("L", 3), ("E", 5), ("E", 1), ("E", 7), ("E", 6),
                                   ("K", 7), ("S", 8), ("R", 9), ("R", 1), ("P", 7), ("P", 2), ("P", 9)):
                self.assertIn("%s no %d" % (letter, number), seen)
            for answer in ("S settled", "S stopped", "S void", "P none", "K no 10"):
                self.assertIn(answer, seen)
            used = shown_at_rest(script)
            self.assertEqual(used[0], "settled")
            self.assertEqual(used, shown_at_rest(record.new_script()))

    def test_along_the_way(self):
        """The same comparison after every twelfth command; one finds a counter creeping."""
        for name, budget in (("long_use_b.txt", 5000), ("long_use_c.txt", 20000)):
            script = self.script(name)
            sheet, record, ends = model.Sheet(model.CATALOGUES[script[0]]()), Record(script[0]), []
            for i, command in enumerate(script[1:]):
                record.hear(command, model.answer(sheet, command))
                if i % 12 == 0:
                    used, new = copy.deepcopy(sheet), model.Sheet(sheet.catalogue)
                    for line in record.new_script()[1:]:
                        self.assertEqual(model.answer(new, line), "ok")
                    ends.append(used.settle(budget)[0])
                    self.assertEqual(new.settle(budget)[0], ends[-1])
                    if ends[-1] == "settled":
                        self.assertEqual(used.ranges, new.ranges)
            self.assertGreater(ends.count("settled"), 30)
            self.assertGreater(ends.count("void"), 10)
            self.assertLess(ends.count("stopped"), 2)


if __name__ == "__main__":
    unittest.main()

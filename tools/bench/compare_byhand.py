#!/usr/bin/env python3
"""Compares builds of byhand.c with the Python model, and with answers that are kept or published.

    python3 -B tools/bench/compare_byhand.py [--random 2400] [--seed 1] PROGRAM...

measure.sh leaves the programs as target/bench/byhand-plain and byhand-tuned. The scripts are: the edges and the 400
random scripts of tools/compare/compare.py; the bench scripts and those of the crates, which have kept answers too; the
published vectors of crates/vectors, held to the published results alone; the long-use scripts; sizes around 65,536
bytes; and random scripts made here. It takes about a minute and a half for each program.
"""
import argparse
import collections
import pathlib
import random
import subprocess
import sys
import time

ROOT = pathlib.Path(__file__).resolve().parents[2]
sys.dont_write_bytecode = True
sys.path += [str(ROOT / "tools" / "model"), str(ROOT / "tools" / "compare")]
import compare
import ranges_model

B_TOP, C_TOP, SIGN = 0x7F7FFFFF, 0x00FFFFFF, 0x80000000


# ------------------------------------------------------------------ random scripts

def rank(pattern):
    return -(pattern & 0x7FFFFFFF) if pattern & SIGN else pattern


def pattern_of(rank):
    return SIGN - rank if rank < 0 else rank


class Maker:
    """One random script. The flavour decides which patterns, modes and sizes it likes."""

    FLAVOURS = ["any", "small", "top", "near", "decimal", "zero", "edge"]

    def __init__(self, rng):
        self.rng = rng
        self.board = rng.choice("BBBC")
        self.flavour = rng.choice(self.FLAVOURS)
        self.registers = rng.choice([1, 2, 3, 5, 8, 32])
        self.places = rng.choice([2, 4, 10, 64])
        self.modes = rng.choice([None, None, 15, rng.randrange(1, 16)])
        self.kinds = rng.choice(["sdp", "sdp", "s", "d", "sd", "p"])
        self.centre = rng.randrange(-B_TOP, B_TOP + 1)
        self.malformed = rng.choice([0, 0.02, 0.02, 0.3])

    def reading(self):
        """The pattern of a reading."""
        rng = self.rng
        flavour = self.flavour if rng.random() < 0.85 else rng.choice(self.FLAVOURS)
        if self.board == "C":
            return {
                "any": lambda: rng.randrange(C_TOP + 1),
                "small": lambda: rng.randrange(12),
                "top": lambda: C_TOP - rng.randrange(12),
                "near": lambda: min(C_TOP, max(0, abs(self.centre) % C_TOP + rng.randrange(-40, 40))),
                "decimal": lambda: rng.randrange(60),
                "zero": lambda: rng.choice([0, 1, C_TOP, C_TOP - 1]),
                "edge": lambda: rng.choice([C_TOP >> 1, (C_TOP >> 1) + 1, rng.randrange(1 << rng.randrange(1, 25))]),
            }[flavour]()
        sign = rng.choice([0, SIGN])
        return {
            "any": lambda: sign | rng.randrange(B_TOP + 1),
            "small": lambda: sign | rng.randrange(rng.choice([4, 40, 1 << 23, 1 << 25])),
            "top": lambda: sign | B_TOP - rng.randrange(rng.choice([3, 100, 1 << 23, 1 << 25])),
            "near": lambda: pattern_of(max(-B_TOP, min(B_TOP, rng.choice([-1, 1, 1]) * (
                self.centre + rng.choice([rng.randrange(-3, 4), rng.randrange(-1 << 20, 1 << 20),
                                          rng.choice([-1, 0, 1]) * (rng.randrange(25) << 23)]))))),
            "decimal": lambda: compare.of_binary32(rng.choice([
                rng.randrange(-500, 500) / 10, rng.randrange(-40, 40) / 8, rng.uniform(-1, 1) * 10 ** rng.randrange(-3, 8)])),
            "zero": lambda: rng.choice([0, SIGN, 0, SIGN, 1, SIGN | 1, B_TOP, SIGN | B_TOP, 0x00800000, 0x80800000]),
            "edge": lambda: sign | max(0, min(B_TOP, (rng.randrange(255) << 23) + rng.choice([-1, 0, 1, 0x400000]))),
        }[flavour]()

    def pattern(self):
        rng = self.rng
        if rng.random() < 0.03:                 # perhaps no reading
            return rng.choice([0x7F800000, 0xFF800000, 0x7FC00000, 0xFFFFFFFF, 1 << 24, rng.randrange(1 << 32)])
        return self.reading()

    def limits(self):
        low, high = self.pattern(), self.pattern()
        wide = self.rng.random()
        if wide < 0.1:
            high = C_TOP if self.board == "C" else B_TOP
        elif wide < 0.2:
            low = 0 if self.board == "C" else SIGN | B_TOP
        elif wide < 0.25:
            high = low
        if self.rng.random() < 0.95 and rank(low) > rank(high):
            low, high = high, low
        return low, high

    def register(self):
        return self.rng.randrange(self.registers) if self.rng.random() < 0.98 else self.rng.choice([31, 32, 33, 99999])

    def place(self):
        return self.rng.randrange(self.places) if self.rng.random() < 0.97 else self.rng.choice([63, 64, 65, 99999])

    def mode_set(self):
        if self.rng.random() < 0.02:
            return self.rng.choice([0, 16, 99999])
        return self.modes or self.rng.randrange(1, 16)

    def budget(self):
        return self.rng.choice([1, 2, 3, 10, 40, 150, self.rng.choice([0, 1, 300, 65536, 99999])])

    def good(self):
        rng = self.rng
        kind = rng.random()
        if kind < 0.28:
            return "L %d %08X %08X" % (self.register(), *self.limits())
        if kind < 0.48:
            return "E %d %s %d %d %d %d" % (self.place(), rng.choice(self.kinds), self.mode_set(),
                                            self.register(), self.register(), self.register())
        if kind < 0.52:
            return "K %d" % self.place()
        if kind < 0.68:
            return "S %d" % self.budget()
        if kind < 0.84:
            return "R %d" % self.register()
        return "P %d %08X %08X" % (self.place(), self.pattern(), self.pattern())

    def command(self):
        rng = self.rng
        line = self.good().encode()
        if rng.random() >= self.malformed:
            return line
        how = rng.randrange(8)
        at = rng.randrange(len(line))
        odd = bytes([rng.choice([0, 9, 13, 32, 32, 32, 47, 48, 48, 58, 64, 71, 97, 102, 127, 128, 255, rng.randrange(256)])])
        if how == 0:
            return line[:at] + odd + line[at:]
        if how == 1:
            return line[:at] + line[at + 1:]
        if how == 2:
            return line[:at] + odd + line[at + 1:]
        if how == 3:
            return line + odd
        if how == 4:
            return line.lower()
        if how == 5:
            return b" ".join(line.split(b" ")[:rng.randrange(1, 6)])
        if how == 6:
            return line + b" " + line.split(b" ")[-1]
        return bytes(rng.randrange(256) for _ in range(rng.randrange(8)))

    def script(self):
        lines = [self.board.encode()] + [self.command() for _ in range(self.rng.randrange(10, 120))]
        text = b"\n".join(lines)
        return text if self.rng.random() < 0.5 else text + b"\n"


def random_scripts(count, seed):
    rng = random.Random(seed)
    for _ in range(count):
        yield Maker(rng).script()


def size_scripts():
    """Sizes around the largest input, ended in different ways; short budgets, so that the model keeps up."""
    rng = random.Random(65536)
    for size in range(65_533, 65_540):
        for board in (b"B", b"C"):
            for filler in (b"\n", b"R 0\n", b"S 1\n", b"x"):
                yield (board + b"\n" + filler * 70_000)[:size]
            text = board + b"\nE 0 s 15 0 1 2\nE 1 d 9 2 1 0\n"
            maker = Maker(rng)
            maker.board, maker.modes = board.decode(), None
            while len(text) < size:
                line = maker.good() if rng.random() < 0.05 else rng.choice(["R 0", "P 0 00000000 00000000", "K 64", ""])
                text += line.encode() + b"\n"
            yield text[:size]


def vector_scripts():
    """The published additions and subtractions of crates/vectors: 500 single roundings a script, and their answers."""
    cases = []
    for line in (ROOT / "crates" / "vectors" / "data" / "binary32-add-sub.txt").read_text().splitlines():
        kind, x, y, *results = line.split()[:7]
        for mode, z in zip((1, 2, 4, 8), results):
            beyond, z = z in ("7F800000", "FF800000"), "00000000" if z == "80000000" else z
            cases.append(("L 0 %s %s\nL 1 %s %s\nE 0 %s %d 0 1 2\nS 9\nR 2\nK 0\n" % (x, x, y, y, {"add": "s", "sub": "d"}[kind], mode),
                          "ok\nok\nok\n%s\nok\n" % ("void 1\nno 9" if beyond else "settled 2\n%s %s settled" % (z, z))))
    for start in range(0, len(cases), 500):
        some = cases[start:start + 500]
        yield ("B\n" + "".join(script for script, _ in some)).encode(), "".join(answers for _, answers in some).encode()


# ------------------------------------------------------------------ comparing

class Comparison:
    def __init__(self, program):
        self.program = program
        self.scripts = collections.Counter()
        self.answers = collections.Counter()

    def byhand(self, script):
        return subprocess.run([self.program], input=script, capture_output=True, timeout=20, check=True).stdout

    def same(self, group, script, kept=None, model=True):
        got = self.byhand(script)
        wanted = [kept] if kept is not None else []
        if model:
            wanted.append(ranges_model.ranges(script))
        for want in wanted:
            if got != want:
                path = pathlib.Path("/tmp/byhand-differs.txt")
                path.write_bytes(script)
                sys.exit("%s differs, on a script of the group '%s', kept as %s" % (self.program, group, path))
        self.scripts[group] += 1
        for line in got.split(b"\n")[:-1]:
            word = line.split(b" ")[0]
            if word == b"no":
                word = line
            elif line.endswith((b" settled", b" open")):
                word = b"look, " + line.split(b" ")[-1]
            elif len(word) == 8:
                word = b"a partner"
            self.answers[word.decode()] += 1


def compare_all(program, options):
    started = time.time()
    comparison = Comparison(program)
    for path in sorted((ROOT / "tools" / "bench").glob("*.expected")):
        comparison.same("bench", path.with_suffix(".txt").read_bytes(), path.read_bytes())
    for path in sorted((ROOT / "crates").glob("*/stdin")):
        comparison.same("crates", path.read_bytes(), path.with_name("stdout").read_bytes())
    for script, answers in vector_scripts():
        comparison.same("vectors", script, answers, model=False)
    for script in compare.edges():
        comparison.same("compare.py, edges", script)
    for script in compare.random_scripts(400):
        comparison.same("compare.py, random", script)
    for path in sorted((ROOT / "crates" / "long_use" / "data").glob("*.txt")):
        comparison.same("long use", path.read_bytes())
    for script in size_scripts():
        comparison.same("sizes", script)
    for script in random_scripts(options.random, options.seed):
        comparison.same("random", script)
    print("%s: equal on %d scripts, %d answers, in %d s" % (
        program, sum(comparison.scripts.values()), sum(comparison.answers.values()), time.time() - started))
    print("  scripts:", ", ".join("%s %d" % pair for pair in sorted(comparison.scripts.items())))
    print("  answers:", ", ".join("%s %d" % pair for pair in sorted(comparison.answers.items())))


def main():
    parser = argparse.ArgumentParser()
    parser.add_argument("programs", nargs="+", metavar="PROGRAM")
    parser.add_argument("--random", type=int, default=2400)
    parser.add_argument("--seed", type=int, default=1)
    options = parser.parse_args()
    for program in options.programs:
        compare_all(program, options)


if __name__ == "__main__":
    main()

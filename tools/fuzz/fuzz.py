#!/usr/bin/env python3
"""Feeds `ranges` random scripts and compares its answers, byte for byte, with those of the independent model.

    tools/fuzz/fuzz.py --cases 20000 --seed 1

It is no part of the whole test. scripts.py has the scripts. A case fails if the answers differ, if one of them is
none that the documents have for its command, or if the program ends with a status other than 0, writes to standard
error or takes too long. The first case that fails is made small, written to a file and named, and the status is 1.
If none fails, the counts tell what was tried; the status is 3 if some answer of the documents never came.
"""
import argparse
import collections
import pathlib
import random
import re
import subprocess
import sys
import tempfile
import time

sys.dont_write_bytecode = True
ROOT = pathlib.Path(__file__).resolve().parents[2]
sys.path.insert(0, str(ROOT / "tools" / "model"))
import ranges_model
import scripts

PATTERN = rb"[0-9A-F]{8}"
# The answers that the documents have: command, name, form. Refusal 4 cannot come from a script.
ANSWERS = [
    ("L", "ok", rb"ok"), ("L", "no 1", rb"no 1"), ("L", "no 2", rb"no 2"), ("L", "no 3", rb"no 3"),
    ("E", "ok", rb"ok"), ("E", "no 1", rb"no 1"), ("E", "no 5", rb"no 5"), ("E", "no 6", rb"no 6"),
    ("E", "no 7", rb"no 7"),
    ("K", "ok", rb"ok"), ("K", "no 7", rb"no 7"),
    ("S", "settled", rb"settled [0-9]+"), ("S", "stopped", rb"stopped [0-9]+"), ("S", "void", rb"void [0-9]+"),
    ("S", "no 8", rb"no 8"),
    ("R", "shown, settled", PATTERN + b" " + PATTERN + b" settled"),
    ("R", "shown, open", PATTERN + b" " + PATTERN + b" open"), ("R", "no 1", rb"no 1"), ("R", "no 9", rb"no 9"),
    ("P", "partner", PATTERN), ("P", "none", rb"none"), ("P", "no 2", rb"no 2"), ("P", "no 7", rb"no 7"),
    ("P", "no 9", rb"no 9"),
    ("a line", "no 10", rb"no 10"),
]
WHOLE = ("the whole input", "no 10")


class Failed(Exception):
    """Why a case fails."""


class TooManySteps(Exception):
    """The model was asked for more steps than it is given time for."""


def run(program, script, seconds, by_file):
    """The answers of a program, which gets the script as a file or through a pipe."""
    with tempfile.TemporaryFile() as file:
        if by_file:
            file.write(script)
            file.seek(0)
        given = {"stdin": file} if by_file else {"input": script}
        try:
            done = subprocess.run([program], **given, capture_output=True, timeout=seconds)
        except subprocess.TimeoutExpired:
            raise Failed(f"{program} took more than {seconds} seconds")
    if done.returncode != 0:
        raise Failed(f"{program} ended with status {done.returncode}: {done.stderr[:300]!r}")
    if done.stderr:
        raise Failed(f"{program} wrote to standard error: {done.stderr[:300]!r}")
    return done.stdout


def model(script, steps):
    """The answers of the model in Python."""
    def count(*_):
        nonlocal steps
        steps -= 1
        if steps < 0:
            raise TooManySteps
    try:
        return ranges_model.ranges(script, None, count)
    except TooManySteps:
        raise
    except Exception as error:
        raise Failed(f"the model failed: {error!r}")


BUDGET = re.compile(rb"^S ([1-9][0-9]{0,4})$", re.M)


def lowered(script, steps):
    """The script with its budgets lowered to an equal share, where they come to more than so many steps."""
    budgets = [int(word) for word in BUDGET.findall(script) if int(word) <= scripts.MOST_STEPS]
    if sum(budgets) <= steps:
        return script
    share = max(1, steps // len(budgets))

    def lower(found):
        return b"S %d" % share if share < int(found[1]) <= scripts.MOST_STEPS else found[0]
    return BUDGET.sub(lower, script)


def compare(got, want, script):
    """Raises Failed where the answers of the program and those of the model differ."""
    if got == want:
        return
    lines = script.split(b"\n")[1:]
    got, want = got.split(b"\n"), want.split(b"\n")
    at = next((i for i, pair in enumerate(zip(got, want)) if pair[0] != pair[1]), min(len(got), len(want)))
    command, ours, theirs = (items[at] if at < len(items) else None for items in (lines, got, want))
    raise Failed(f"answer {at + 1} differs: command {command!r}, program {ours!r}, model {theirs!r}")


def named(script, answers):
    """Each answer by catalogue, command and name; Failed for an answer that the documents do not have."""
    first, *lines = script.split(b"\n")
    if len(script) > scripts.MOST_BYTES or first not in (b"B", b"C"):
        if answers != b"no 10\n":
            raise Failed(f"an input that is no script is answered by {answers[:300]!r}")
        return [("", *WHOLE)]
    if lines and lines[-1] == b"":
        del lines[-1]
    answers = answers.split(b"\n")
    if answers.pop() != b"" or len(answers) != len(lines):
        raise Failed(f"{len(lines)} commands have {len(answers)} answers")
    found = []
    for line, answer in zip(lines, answers):
        command = "a line" if answer == b"no 10" else chr(line[0]) if line else ""
        name = next((name for letter, name, form in ANSWERS if letter == command and re.fullmatch(form, answer)), None)
        if name is None:
            raise Failed(f"command {line!r} is answered by {answer!r}")
        found.append((first.decode(), command, name))
    return found


class Driver:
    def __init__(self, options):
        self.program, self.model, self.seconds = options.program, options.model, options.seconds
        self.steps = options.steps or (400_000 if self.model else 4_000)
        self.sorts, self.answers, self.lines = (collections.Counter() for _ in range(3))
        self.commands = self.made = self.repeated = self.lowered = self.bytes = 0

    def asked(self, script, as_it_is):
        """The script, with its budgets lowered where the model would take too long, and the model's answers."""
        if self.model:
            script = script if as_it_is else lowered(script, self.steps)
            return script, run(self.model, script, self.seconds, True)
        try:
            return script, model(script, 10 ** 9 if as_it_is else self.steps)
        except TooManySteps:
            script = lowered(script, self.steps)
            return script, model(script, 10 ** 9)

    def answered(self, script, want, by_file):
        """The program's answers; Failed if anything is wrong with them."""
        got = run(self.program, script, self.seconds, by_file)
        compare(got, want, script)
        return named(script, got), got

    def count(self, sort, script, found, answers):
        self.sorts[sort] += 1
        self.bytes += len(script)
        self.answers.update(found)
        if found == [("", *WHOLE)]:
            return
        self.commands += len(found)
        for line, answer, (board, command, name) in zip(script.split(b"\n")[1:], answers.split(b"\n"), found):
            if command == "S" and name != "no 8":
                self.made += int(answer.split(b" ")[1])
            if (command, name) == ("E", "ok"):
                _, _, kind, modes, *registers = line.split(b" ")
                self.lines[board, kind, modes] += 1
                self.repeated += len(set(registers)) < 3

    def fails(self, script, by_file):
        """What is wrong with the answers to a script, if anything."""
        try:
            self.answered(*self.asked(script, True), by_file)
        except Failed as failed:
            return str(failed)
        return None

    def shrunk(self, script, by_file, seconds):
        """A smaller script that fails too: first without some of its lines, then without some of its bytes."""
        end = time.monotonic() + seconds

        def without(parts, join):
            size = max(1, len(parts) // 2)
            while True:
                at, found = 0, False
                while at < len(parts) and time.monotonic() < end:
                    fewer = parts[:at] + parts[at + size:]
                    if self.fails(join(fewer), by_file):
                        parts, found = fewer, True
                    else:
                        at += size
                if (size == 1 and not found) or time.monotonic() >= end:
                    return parts
                size = max(1, size // 2)

        script = b"\n".join(without(script.split(b"\n"), b"\n".join))
        return without(script, bytes)

    def report(self):
        """Prints what was tried, and gives what never came."""
        print("cases: " + ", ".join(f"{self.sorts[sort]:,} {sort}" for sort in scripts.SORTS))
        print(f"{self.bytes:,} bytes, {self.commands:,} commands, {self.made:,} steps; "
              f"budgets were lowered in {self.lowered:,} cases")
        combinations = 2 * len(scripts.KINDS) * scripts.MODE_SETS
        print(f"{sum(self.lines.values()):,} lines entered, {self.repeated:,} of them with a register repeated; "
              f"{len(self.lines)} of {combinations} combinations of catalogue, kind and mode set")
        print(f"{'command':16}{'answer':16}{'counter':>14}{'binary32':>14}")
        missing = [f"a {sort} case" for sort in scripts.SORTS if not self.sorts[sort]]
        if len(self.lines) < combinations:
            missing.append("some combination of catalogue, kind and mode set")
        for command, name, _ in ANSWERS:
            counts = {board: self.answers[board, command, name] for board in "CB"}
            print(f"{command:16}{name:16}{counts['C']:14,}{counts['B']:14,}")
            missing += [f"{name} to {command} over {board}" for board in "CB" if not counts[board]]
        whole = self.answers["", *WHOLE]
        print(f"{WHOLE[0]:16}{WHOLE[1]:16}{whole:14,}")
        return missing + ([] if whole else ["no 10 to the whole input"])


def arguments():
    """What the command line asks for; the programs that it names are there."""
    parser = argparse.ArgumentParser(description="Compares ranges with the independent model on random scripts.")
    parser.add_argument("--cases", type=int, default=10_000, help="how many scripts (10000)")
    parser.add_argument("--seed", type=int, default=1, help="a script follows from the seed and its number (1)")
    parser.add_argument("--first", type=int, default=0, help="the number of the first script (0)")
    parser.add_argument("--program", type=pathlib.Path, default=ROOT / "crates" / "ranges" / "out" / "ranges",
                        help="the program (crates/ranges/out/ranges)")
    parser.add_argument("--model", type=pathlib.Path,
                        help="a program that answers scripts too, in place of the model in Python")
    parser.add_argument("--steps", type=int,
                        help="lower the budgets of a script that asks for more steps (4000; with --model, 400000)")
    parser.add_argument("--seconds", type=float, default=20, help="the time that a script may take (20)")
    parser.add_argument("--out", type=pathlib.Path, default=ROOT / "target" / "fuzz",
                        help="where a script that fails is written (target/fuzz)")
    options = parser.parse_args()
    for name in ("program", "model"):
        path = getattr(options, name)
        if path is not None:
            if not path.is_file():
                parser.error(f"there is no {path}")
            setattr(options, name, path.resolve())
    return options


def main():
    options = arguments()
    driver = Driver(options)
    for number in range(options.first, options.first + options.cases):
        sort, given = scripts.case(random.Random(f"{options.seed} {number}"))
        script, by_file = given, number % 2 == 0
        try:
            script, want = driver.asked(given, sort == "sized")
            driver.lowered += script != given
            driver.count(sort, script, *driver.answered(script, want, by_file))
        except Failed as failed:
            print(f"seed {options.seed}, case {number} ({sort}): {failed}", flush=True)
            options.out.mkdir(parents=True, exist_ok=True)
            file = options.out / f"fails-{options.seed}-{number}.txt"
            small_file = file.with_suffix(".small.txt")
            file.write_bytes(script)
            small = driver.shrunk(script, by_file, 120)
            small_file.write_bytes(small)
            print(f"The script is {file}; made small, from {len(script)} to {len(small)} bytes, it is {small_file}:")
            print(f"{small[:500]!r}: {driver.fails(small, by_file)}")
            return 1
        if (number + 1 - options.first) % 5_000 == 0:
            print(f"{number + 1 - options.first:,} cases", file=sys.stderr, flush=True)
    print(f"seed {options.seed}: no difference, and every run ended with status 0")
    missing = driver.report()
    print("never met: " + ("; ".join(missing) or "nothing: every answer came, in both catalogues"))
    return 3 if missing else 0


if __name__ == "__main__":
    sys.exit(main())

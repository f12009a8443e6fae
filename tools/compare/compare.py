#!/usr/bin/env python3
"""Compares the program `ranges` with the independent model, on scripts that no other run of the gate covers.

Edge sizes and first lines, the bench scripts, and some hundred random scripts by a fixed seed. Each run of the program
has ten seconds, so a search that became linear, or a settle that never ends, fails here too. A failed read or write must
show in the exit status, and an input without end is too long.
"""
import os
import pathlib
import random
import resource
import struct
import subprocess
import sys

ROOT = pathlib.Path(__file__).resolve().parents[2]
PROGRAM = ROOT / "crates" / "ranges" / "out" / "ranges"
MODEL = ROOT / "tools" / "model" / "ranges_model.py"
sys.path.insert(0, str(MODEL.parent))
sys.dont_write_bytecode = True


def answer_of_program(script):
    return subprocess.run([PROGRAM], input=script, capture_output=True, timeout=10, check=True).stdout


def answer_of_model(script):
    return subprocess.run([sys.executable, "-B", MODEL], input=script, capture_output=True, timeout=300, check=True).stdout


def edges():
    yield b""
    yield b"\n"
    yield b"B"
    yield b"C"
    yield b"C\n"
    yield b"C\n\n"
    yield b"C \nS 1\n"
    yield b"C\r\nS 1\r\n"
    yield b"c\nS 1\n"
    yield b"C\nS 1"
    yield bytes(range(256))
    for size in (65_535, 65_536, 65_537, 70_000):
        yield (b"C\n" + b"S 1\n" * 20_000)[:size]
        yield b"\0" * size
    # bounds that move across the whole range of readings, one way and back
    for board, top, next_to_top in ((b"C", b"00FFFFFF", b"00FFFFFE"), (b"B", b"7F7FFFFF", b"7F7FFFFE")):
        wide = [board, b"E 0 s 1 0 1 2", b"E 1 d 1 2 1 3"]
        for _ in range(300):
            wide += [b"L 2 %s %s" % (next_to_top, top), b"S 9", b"L 2 00000000 00000001", b"S 9", b"R 0"]
        yield b"\n".join(wide)
    # 16 + x = 16 for every x near 0: rounded down alone, a bound that lies hundreds of millions of ranks from the likely one
    far = [b"B", b"L 1 41800000 41800000", b"L 2 41800000 41800000", b"E 0 s 4 0 1 2"]
    for _ in range(300):
        far += [b"L 0 BF800000 3F800000", b"S 9", b"R 0", b"L 0 C0000000 40000000"]
    yield b"\n".join(far)


def number(rng, most):
    return str(rng.choice([rng.randrange(most), rng.randrange(4), most, most + 1, 99_999]))


def any_pattern(rng):
    value = rng.choice([rng.randrange(20), rng.randrange(1 << 24), (1 << 24) - 1, 1 << 24, rng.randrange(1 << 32)])
    return f"{value:08X}"


def count(rng):
    return rng.randrange(60)


def of_binary32(value):
    return struct.unpack(">I", struct.pack(">f", value))[0]


def measured(rng):
    """A value of binary32: near others, far away, subnormal or the greatest."""
    return rng.choice([
        rng.randrange(-40, 40) / 8, rng.uniform(-100, 100), rng.randrange(-9, 9) * 2.0 ** -149,
        rng.randrange(-4, 4) * 2.0 ** rng.randrange(-30, 30), rng.choice([-1, 1]) * (2 - 2.0 ** -23) * 2.0 ** 127])


class Commands:
    """Random commands over one catalogue: few registers and places, so that lines meet."""

    def __init__(self, board, rng):
        self.board, self.rng = board, rng

    def pattern(self):
        return "%08X" % (count(self.rng) if self.board == "C" else of_binary32(measured(self.rng)))

    def limits(self):
        if self.board == "C":
            low, high = sorted((count(self.rng), count(self.rng)))
        else:
            low, high = map(of_binary32, sorted((measured(self.rng), measured(self.rng))))
        return f"{low:08X} {high:08X}"

    def place(self):
        return self.rng.choice([str(self.rng.randrange(6)), number(self.rng, 64)])

    def command(self):
        rng = self.rng
        kind = rng.random()
        if kind < 0.25:
            return f"L {rng.randrange(8)} {self.limits()}"
        if kind < 0.33:
            return f"L {number(rng, 32)} {any_pattern(rng)} {any_pattern(rng)}"
        if kind < 0.53:
            return "E %s %s %s %d %d %d" % (
                self.place(), rng.choice("sdp"), number(rng, 16), rng.randrange(8), rng.randrange(8), rng.randrange(8))
        if kind < 0.60:
            return f"K {self.place()}"
        if kind < 0.75:
            return f"S {number(rng, 40)}"
        if kind < 0.85:
            return f"P {self.place()} {self.pattern()} {self.pattern()}"
        if kind < 0.97:
            return f"R {rng.randrange(8)}"
        return rng.choice(["", "S", "S 01", "L 0 0 0", "R 1 ", "X 1", "E 0 q 1 0 1 2", "R  1", "K", "P 0 0 0", "\t"])


def random_scripts(count):
    rng = random.Random(754)
    for i in range(count):
        commands = Commands("CB"[i % 2], rng)
        yield "\n".join([commands.board] + [commands.command() for _ in range(rng.randrange(80))]).encode()


def failures_untold():
    """Whether the program ends with status 0 where it could not read all, or not write all."""
    folder = os.open(ROOT, os.O_RDONLY)
    unread = subprocess.run([PROGRAM], stdin=folder, stdout=subprocess.DEVNULL, stderr=subprocess.DEVNULL, timeout=10)
    os.close(folder)
    with open("/dev/full", "wb") as full:
        unwritten = subprocess.run([PROGRAM], input=b"C\nS 1\n", stdout=full, stderr=subprocess.DEVNULL, timeout=10)
    return unread.returncode == 0 or unwritten.returncode == 0


def most_memory():
    resource.setrlimit(resource.RLIMIT_AS, (1 << 30, 1 << 30))


def too_long_by(source):
    """Whether the program answers `no 10` alone to an input without end, for which it has 1 GiB of memory."""
    ran = subprocess.run([PROGRAM], stdin=source, capture_output=True, timeout=10, preexec_fn=most_memory)
    return ran.returncode == 0 and ran.stdout == b"no 10\n"


def endless_misread():
    """Whether the program answers otherwise to zeros without end, or to a script that goes on until the pipe breaks."""
    with open("/dev/zero", "rb") as zeros, subprocess.Popen(
            ["sh", "-c", "echo B; exec yes 'S 1'"], stdout=subprocess.PIPE) as script:
        return not (too_long_by(zeros) and too_long_by(script.stdout))


def main():
    if failures_untold():
        print("ranges says nothing of an input that it could not read, or of answers that it could not write")
        return 1
    if endless_misread():
        print("ranges does not answer an input without end by `no 10` alone")
        return 1
    benches = [path.with_suffix(".txt").read_bytes() for path in sorted((ROOT / "tools" / "bench").glob("*.expected"))]
    done = 0
    for script in [*edges(), *benches, *random_scripts(400)]:
        got, want = answer_of_program(script), answer_of_model(script)
        if got != want:
            pathlib.Path("/tmp/ranges-differs.txt").write_bytes(script)
            print("ranges and the model differ on /tmp/ranges-differs.txt")
            return 1
        done += 1
    print(f"ranges and the model agree on {done} scripts")
    return 0


if __name__ == "__main__":
    sys.exit(main())

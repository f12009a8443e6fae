"""Scripts for the fuzz driver: well-formed, mutated, malformed and large ones, each from a random.Random.

Nothing here knows what `ranges` answers. The writer of well-formed scripts remembers the limits and lines that it has
asked for, only so that most of its commands are not refused and most of its sheets are not void at once.
"""
import pathlib
import re
import struct

ROOT = pathlib.Path(__file__).resolve().parents[2]
MOST_BYTES = 65_536
REGISTERS, PLACES, KINDS, MODE_SETS, MOST_STEPS = 32, 64, "sdp", 15, 65_535


class Counter:
    letter = "C"
    least, greatest = 0, 16_777_215
    no_reading = (0x01000000, 0x01000001, 0x7FFFFFFF, 0x80000000, 0xFFFFFFFF)
    styles = ("small", "top", "powers", "any")

    def pattern(self, rng, rank):
        return rank

    def fresh(self, rng, style):
        if style == "small":
            return rng.randrange(60)
        if style == "top":
            return self.greatest - rng.randrange(60)
        if style == "powers":
            return min(max((1 << rng.randrange(25)) + rng.randrange(-2, 3), 0), self.greatest)
        return rng.randint(0, self.greatest)

    def result(self, kind, x, y):
        return max(0, min({"s": x + y, "d": x - y, "p": max(x, y)}[kind], self.greatest))

    def pair(self, rng):
        """Two readings whose sum is close to the greatest reading, or whose difference is close to 0."""
        x = self.fresh(rng, rng.choice(self.styles))
        return x, min(max(rng.choice((x, self.greatest - x)) + rng.randrange(-2, 3), 0), self.greatest)


def rank_of(pattern):
    return pattern if pattern < 0x80000000 else 0x80000000 - pattern


class Binary32:
    letter = "B"
    published = [tuple(rank_of(int(word, 16)) for word in line.split(" ")[1:3])
                 for line in (ROOT / "crates" / "vectors" / "data" / "binary32-add-sub.txt").read_text().splitlines()]
    least, greatest = -2_139_095_039, 2_139_095_039
    no_reading = (0x7F800000, 0xFF800000, 0x7F800001, 0x7FC00000, 0xFF800001, 0xFFFFFFFF)
    styles = ("eighths", "subnormal", "fields", "top", "spread", "any")

    def pattern(self, rng, rank):
        if rank == 0 and rng.random() < 0.3:
            return 0x80000000
        return rank if rank >= 0 else 0x80000000 - rank

    def value(self, rank):
        return struct.unpack(">f", struct.pack(">I", rank if rank >= 0 else 0x80000000 - rank))[0]

    def rank(self, value):
        try:
            pattern, = struct.unpack(">I", struct.pack(">f", value))
        except OverflowError:
            return self.greatest if value > 0 else self.least
        return rank_of(pattern)

    def fresh(self, rng, style):
        sign = rng.choice((-1, 1))
        if style == "eighths":
            return self.rank(rng.randrange(-40, 40) / 8)
        if style == "subnormal":                   # around zero and where the exponent field becomes 1 and 2
            return sign * max(0, rng.choice((0, 1 << 23, 1 << 24)) + rng.randrange(-9, 10))
        if style == "fields":                      # where an exponent field ends
            return sign * min(self.greatest, max(0, (rng.randrange(256) << 23) + rng.randrange(-3, 4)))
        if style == "top":                         # the greatest readings, and what adds up to their bound
            return sign * (rng.choice((0x7F7FFFFC, 0x7F000000, 0x7EFFFFFF, 0x73000000, 0x73800000, 0x72800000))
                           + rng.randrange(-3, 4))
        if style == "spread":
            return self.rank(rng.randrange(-9, 10) * 2.0 ** rng.randrange(-30, 30))
        return rng.randint(self.least, self.greatest)

    def result(self, kind, x, y):
        if kind == "p":
            return max(x, y)
        return self.rank(self.value(x) + (self.value(y) if kind == "s" else -self.value(y)))

    def pair(self, rng):
        """Two readings whose sum or difference is hard to round."""
        how = rng.randrange(5)
        if how == 0:                               # a tie: x and an odd number of halves of its spacing
            x = abs(self.fresh(rng, rng.choice(self.styles)))
            y = self.rank(rng.choice((1, 1, 3, 5, rng.randrange(1, 1 << 20, 2))) * 2.0 ** (max(x >> 23, 2) - 151))
        elif how == 1:                             # where nearest becomes beyond
            below = rng.choice((0, 0, 1, 2, rng.randrange(1 << 20)))
            x, y = self.greatest - below, self.rank((2 * below + 1) * 2.0 ** 103)
        elif how == 2:                             # where the exponent changes
            x = (rng.randrange(1, 255) << 23) - 1
            y = self.rank(rng.choice((0.5, 1, 2)) * 2.0 ** (max(x >> 23, 1) - 150))
        elif how == 3:                             # the published ones
            return rng.choice(self.published)
        else:                                      # almost the same
            x = y = abs(self.fresh(rng, rng.choice(self.styles)))
        x, y = (min(max(r + rng.choice((0, 0, 0, 1, -1, rng.randrange(-40, 41))), 0), self.greatest) for r in (x, y))
        x, y = rng.choice(((x, y), (y, x)))
        return rng.choice((-1, 1)) * x, rng.choice((-1, 1)) * y


class Writer:
    """Writes one well-formed script: each command has the form that SCRIPTS.md asks for.

    `actual` has one reading for each register. Depending on `honest`, limits are set around it and lines are entered
    that it keeps, so that some sheets narrow for long before they are void, if they ever are.
    """

    def __init__(self, rng, most_budget=MOST_STEPS):
        self.rng, self.most_budget = rng, most_budget
        self.board = rng.choice((Counter(), Binary32()))
        self.styles = rng.sample(self.board.styles, rng.choice((1, 1, 2, len(self.board.styles))))
        self.honest = rng.choice((0.0, 0.5, 0.9, 1.0, 1.0))
        self.faulty = rng.choice((0.0, 0.1, 0.1, 0.3))
        self.registers = rng.sample(range(REGISTERS), rng.choice((1, 2, 3, 4, 6, 8, 12, REGISTERS)))
        self.places = rng.sample(range(PLACES), rng.choice((1, 3, 6, 12, 30, PLACES)))
        self.actual = {r: self.fresh() for r in self.registers}
        self.limits, self.lines = {}, {}
        self.weights = rng.choice(((5, 6, 1, 4, 4, 3), (8, 3, 1, 4, 3, 2), (2, 4, 3, 4, 3, 4), (3, 3, 1, 9, 9, 9)))

    # Words. A command is faulty now and then; each of its words then has a fault by chance, so that several meet.

    def fresh(self):
        return self.board.fresh(self.rng, self.rng.choice(self.styles))

    def near(self, rank):
        return min(max(rank + self.rng.choice((0, 0, 0, 1, -1, 2, -2, 9, -9)), self.board.least), self.board.greatest)

    def reading(self):
        rng = self.rng
        known = [*self.actual.values()] + [end for limits in self.limits.values() for end in limits]
        how = rng.random()
        if how < 0.3:
            return self.fresh()
        if how < 0.7:
            return self.near(rng.choice(known))
        return self.near(self.board.result(rng.choice(KINDS), rng.choice(known), rng.choice(known)))

    def word(self, rank, fault):
        if fault and self.rng.random() < 0.4:
            return "%08X" % self.rng.choice(self.board.no_reading)
        return "%08X" % self.board.pattern(self.rng, rank)

    def number(self, value, fault, outside):
        return self.rng.choice(outside) if fault and self.rng.random() < 0.4 else value

    def register(self, value, fault):
        return self.number(value, fault, (32, 33, 63, 64, 255, 256, 65_536, 99_999))

    def place(self, fault):
        taken = list(self.lines) if self.rng.random() < 0.85 else []
        return self.number(self.rng.choice(taken or self.places), fault, (64, 65, 128, 256, 65_536, 99_999))

    # Commands.

    def limit(self, fault):
        rng, board = self.rng, self.board
        r = rng.choice(self.registers)
        low, high = self.limits.get(r, (board.least, board.greatest))
        how = rng.random()
        if how < 0.1:
            low, high = board.least, board.greatest
        elif how < 0.4:                                # inside the limits that stand
            low, high = sorted((rng.choice((low, rng.randint(low, high))), rng.choice((high, rng.randint(low, high)))))
        elif rng.random() < self.honest:
            far = (0, 1, 2, 5, 40, 1 << 20, 1 << 23, 1 << 31)
            low = max(board.least, self.actual[r] - rng.choice(far))
            high = min(board.greatest, self.actual[r] + rng.choice(far))
        else:
            low, high = sorted((self.reading(), self.reading()))
        if fault and low < high and rng.random() < 0.4:
            return f"L {self.register(r, fault)} {self.word(high, False)} {self.word(low, False)}"
        if not fault:
            self.limits[r] = (low, high)
        return f"L {self.register(r, fault)} {self.word(low, fault)} {self.word(high, fault)}"

    def line(self):
        """A kind and three registers, of which the actual readings make a triple if the line is an honest one."""
        rng = self.rng
        named = {r for line in self.lines.values() for r in line[2:]} | set(self.limits)
        for _ in range(20):
            kind = rng.choice(KINDS)
            x, y, z = (rng.choice(self.registers) for _ in "xyz")
            result = self.board.result(kind, self.actual[x], self.actual[y])
            if z not in named | {x, y}:
                self.actual[z] = result
            if self.actual[z] == result or rng.random() >= self.honest:
                break
        return kind, x, y, z

    def enter(self, fault):
        rng = self.rng
        kind, x, y, z = self.line()
        modes = rng.randint(1, MODE_SETS)
        free = [n for n in self.places if n not in self.lines]
        if fault or not free:
            n = self.place(fault)
        else:
            n = rng.choice(free)
            self.lines[n] = (kind, modes, x, y, z)
        modes = self.number(modes, fault, (0, 16, 17, 31, 256, 65_536, 99_999))
        return f"E {n} {kind} {modes} {self.register(x, fault)} {self.register(y, fault)} {self.register(z, fault)}"

    def strike(self, fault):
        n = self.place(fault)
        self.lines.pop(n, None)
        return f"K {n}"

    def settle(self, fault):
        rng = self.rng
        budget = rng.choice((1, 1, 2, 3, rng.randint(1, 10), rng.randint(1, 100), rng.randint(1, MOST_STEPS),
                             MOST_STEPS))
        return f"S {self.number(min(budget, self.most_budget), fault, (0, 65_536, 65_537, 99_999))}"

    def look(self, fault):
        r = self.rng.choice(self.registers) if self.rng.random() < 0.95 else self.rng.randrange(REGISTERS)
        return f"R {self.register(r, fault)}"

    def partner(self, fault):
        rng = self.rng
        n = self.place(fault)
        kind, _, x, y, _ = self.lines.get(n, ("s", 1, *[rng.choice(self.registers)] * 3))
        low, high = self.limits.get(y, (self.board.least, self.board.greatest))
        a = self.near(rng.choice((self.actual[x], self.actual[x], self.reading())))
        b = rng.choice((self.actual[y], low, high, rng.randint(low, high), self.reading()))
        z = self.near(self.board.result(kind, a, b)) if rng.random() < 0.9 else self.reading()
        return f"P {n} {self.word(a, fault)} {self.word(z, fault)}"

    def command(self):
        commands = (self.limit, self.enter, self.strike, self.settle, self.look, self.partner)
        write, = self.rng.choices(commands, self.weights)
        return write(self.rng.random() < self.faulty)

    def script(self):
        rng = self.rng
        lines = [self.board.letter]
        for _ in range(rng.choice((0, 3, 8, 40))):       # limits and lines first
            lines.append(rng.choice((self.limit, self.enter))(False))
        for _ in range(rng.choice((2, 10, 30, 60, 100))):
            lines.append(self.command())
            if lines[-1][0] in "LKS" and rng.random() < 0.5:
                lines.append(self.look(False))
        lines += [f"R {r}" for r in self.registers]
        return "\n".join(lines).encode() + rng.choice((b"\n", b""))


def probes(rng):
    """One pair of readings after another: all results of a few lines, and what x and y can be for such a result."""
    board = rng.choice((Counter(), Binary32()))
    x, y, *zs = rng.sample(range(REGISTERS), rng.choice((3, 5, 9)))
    lines = [(place, rng.choice(KINDS), rng.randint(1, MODE_SETS), z) for place, z in enumerate(zs)]

    def limit(r, low, high):
        return "L %d %08X %08X" % (r, board.pattern(rng, low), board.pattern(rng, high))

    script = [board.letter] + [f"E {place} {kind} {modes} {x} {y} {z}" for place, kind, modes, z in lines]
    for _ in range(rng.choice((1, 5, 20))):
        a, b = board.pair(rng)
        script += [limit(x, a, a), limit(y, b, b), "S 99", *[f"R {z}" for z in zs]]
        place, kind, _, z = rng.choice(lines)
        c = min(max(board.result(kind, a, b) + rng.choice((0, 0, 1, -1)), board.least), board.greatest)
        ask = "P %d %08X %08X" % (place, board.pattern(rng, a), board.pattern(rng, c))
        free = rng.choice((x, y))
        script += [ask, limit(free, board.least, board.greatest), ask, limit(z, c, c), "S 99", f"R {free}", ask,
                   limit(z, board.least, board.greatest)]
    return "\n".join(script).encode() + b"\n"


def well_formed(rng):
    return probes(rng) if rng.random() < 0.2 else Writer(rng).script()


# ---- mutated scripts

def scripts_of_repository():
    """Every script that stands in the repository, by the file it stands in."""
    found = {}
    for pattern in ("crates/*/stdin", "crates/long_use/data/*.txt", "tools/bench/*60.txt"):
        for path in sorted(ROOT.glob(pattern)):
            found[str(path.relative_to(ROOT))] = path.read_bytes()
    text = (ROOT / "docs" / "SCRIPTS.md").read_bytes()
    found["docs/SCRIPTS.md"] = b"\n".join(re.findall(rb"^\[([^\]]*)\]", text, re.M)) + b"\n"
    text = (ROOT / "README.md").read_bytes()
    found["README.md"] = re.search(rb"^```\n(C\n.*?)^```", text, re.M | re.S)[1]
    return found


OTHER_WORDS = b"""0 1 31 32 63 64 15 16 65535 65536 99999 00 01 010 100000 4294967296 4294967297 18446744073709551617 -1
    +1 0x1 1.0 s d p q S L E K R P B C 00000000 80000000 00FFFFFF 01000000 7F7FFFFF 7F800000 FF7FFFFF ffffffff 7f7fffff
    3F80000 3F8000000 FFFFFFFF""".split()
OTHER_BYTES = b"\n\n\n   \r\t\0\x0b\x0c\x1a\x7f\x80\xa0\xb2\xff0123456789ABCDEFGabcdefsdpqLEKSRPBC-+.,"


def mutate_bytes(rng, script):
    at, to = sorted(rng.randrange(len(script) + 1) for _ in "ab")
    to = min(to, at + rng.choice((1, 1, 1, 2, 5, 40)))
    how = rng.randrange(6)
    if how == 0 and at < len(script):                    # flip a bit
        return script[:at] + bytes([script[at] ^ 1 << rng.randrange(8)]) + script[at + 1:]
    if how == 1:                                         # insert
        return script[:at] + bytes([rng.choice(OTHER_BYTES)]) * rng.choice((1, 1, 1, 2, 9)) + script[at:]
    if how == 2:                                         # replace
        return script[:at] + bytes([rng.choice(OTHER_BYTES)]) + script[at + 1:]
    if how == 3:                                         # delete
        return script[:at] + script[to:]
    if how == 4:                                         # duplicate
        return script[:to] + script[at:to] + script[to:]
    return script[:at] + script[at + 1:at + 2] + script[at:at + 1] + script[at + 2:]     # swap


def mutate_list(rng, items, others):
    """Deletes, duplicates, replaces, swaps or moves items of a list."""
    items, at = list(items), rng.randrange(len(items))
    how = rng.randrange(5)
    if how == 0:
        del items[at:at + rng.choice((1, 1, 2, 5))]
    elif how == 1:
        items[at:at] = items[at:at + rng.choice((1, 1, 2, 5))] * rng.choice((1, 1, 3))
    elif how == 2:
        items[at] = rng.choice(others)
    elif how == 3:
        to = rng.randrange(len(items))
        items[at], items[to] = items[to], items[at]
    else:
        items.insert(rng.randrange(len(items)), items.pop(at))
    return items


def mutate_words(rng, script):
    parts = re.split(rb"([ \n])", script)                # words at even places, what stands between them at odd ones
    words = parts[::2]
    if rng.random() < 0.5:                               # in one line only
        lines = script.split(b"\n")
        at = rng.randrange(len(lines))
        lines[at] = b" ".join(mutate_list(rng, lines[at].split(b" "), OTHER_WORDS + words))
        return b"\n".join(lines)
    at, to = rng.randrange(len(words)), rng.randrange(len(words))
    if rng.random() < 0.3:
        parts[2 * at] = rng.choice(OTHER_WORDS)
    else:
        parts[2 * at], parts[2 * to] = parts[2 * to], parts[2 * at]
    return b"".join(parts)


def mutate_lines(rng, script):
    first, *lines = script.split(b"\n")
    if not lines or rng.random() < 0.05:                 # the same script over the other catalogue, or over none
        return b"\n".join([rng.choice((b"B", b"C", b"", b" C", first + b" ")), *lines])
    return b"\n".join([first, *mutate_list(rng, lines, lines)])


def some_lines(rng, script, most):
    """The first line and at most so many of the later lines, one after another."""
    first, *lines = script.split(b"\n")
    at = rng.randrange(len(lines)) if len(lines) > most else 0
    return b"\n".join([first, *lines[at:at + most]])


class Mutated:
    def __init__(self):
        self.sources = list(scripts_of_repository().values())

    def __call__(self, rng):
        script = rng.choice(self.sources) if rng.random() < 0.5 else well_formed(rng)
        if rng.random() < 0.7:
            script = some_lines(rng, script, rng.choice((20, 100, 200)))
        for _ in range(rng.choice((1, 1, 2, 3, 5, 10, 30))):
            script = rng.choice((mutate_bytes, mutate_words, mutate_lines))(rng, script)
        return script


# ---- malformed bytes

def odd_line(rng, writer):
    """A line that is not quite a command, or not at all one; it has no line feed in it, except by chance."""
    how = rng.randrange(9)
    line = writer.command().encode()
    if how == 0:
        return rng.choice((
            b"", b" ", b"\r", b"\t", b"\0", b"S", b"S ", b" S 1", b"S  1", b"S 1 ", b"S\t1", b"S 1\r", b"s 1", b"X 1",
            b"S 1\0", b"\xef\xbb\xbfS 1", b"S \xb2", b"S \xd9\xa1", b"R 1 1", b"E 0 s 1 0 1", b"E 0 s 1 0 1 2 3",
            b"E 0 S 1 0 1 2", b"E 0 0 1 0 1 2", b"E 0  1 0 1 2", b"L 0 00000000", b"P 0 00000000", b"K", b"#", b"B"))
    if how == 1:
        return bytes(rng.randrange(256) for _ in range(rng.randrange(40)))
    if how == 2:                                         # a very long word
        long = rng.choice((b"0", b"1", b"9", b"F", b"\0", b" ", b"\xff")) * rng.choice((5, 9, 300, 9_000))
        return line + rng.choice((b"", b" ")) + long
    if how == 3:
        return line.lower()
    if how == 4:
        return line + rng.choice((b"\r", b" ", b"\0", b"\t", b"\xa0", b" 0", b"0"))
    if how == 5:
        return rng.choice((b" ", b"\0", b"\r", b"\xff")) + line
    if how == 6:
        return line.replace(b" ", rng.choice((b"  ", b"\t", b"", b"\0", b" \0")), rng.choice((1, -1)))
    if how == 7:
        other = rng.choice((rb"0\1", rb"+\1", rb"-\1", rb"\g<1>0", rb"\1.0", rb"\1_"))
        return re.sub(rb"([0-9]+)", other, line, count=rng.choice((0, 1)))
    return mutate_bytes(rng, line)


def malformed(rng):
    how = rng.random()
    if how < 0.05:
        return rng.choice((
            b"", b"\n", b"\n\n", b"\0", b"B", b"C", b"B\n", b"C\n", b"C\r\n", b"C\r\nS 1\r\n", b"c\n", b"BC\n", b"C \n",
            b" C\n", b"\nC\n", b"C\0\n", b"C\n\n", b"C\n\n\n", b"C\nS 1", b"C\nS 1\n\n", b"\xef\xbb\xbfC\n"))
    if how < 0.15:                                       # any bytes at all
        return bytes(rng.randrange(256) for _ in range(rng.choice((1, 10, 300))))
    if how < 0.25:                                       # a good first line and any bytes, line feeds among them
        few = bytes(rng.randrange(256) for _ in range(rng.randrange(1, 9))) + b"\n"
        return rng.choice((b"B\n", b"C\n")) + bytes(rng.choice(few) for _ in range(rng.choice((1, 30, 1_000))))
    writer = Writer(rng)                                 # odd lines among good ones
    odd = rng.choice((0.2, 0.5, 1.0))
    lines = [writer.board.letter.encode()]
    for _ in range(rng.choice((3, 10, 50))):
        lines.append(odd_line(rng, writer) if rng.random() < odd else writer.command().encode())
    lines += [b"R %d" % r for r in writer.registers]
    return rng.choice((b"\n", b"\n", b"\n", b"\r\n")).join(lines) + rng.choice((b"\n", b"", b"\n\n", b"\r", b"\0"))


# ---- sizes around the limit

def filled(rng, size):
    """Well-formed commands of exactly so many bytes, with a final line feed or without."""
    writer = Writer(rng, most_budget=20)
    ended = rng.random() < 0.5
    script, left = [writer.board.letter], size - 2 + (not ended)
    while left > 40:                                     # no command is that long
        script.append(writer.command())
        left -= len(script[-1]) + 1
    while left:                                          # a look has 4 to 8 bytes with its line feed
        take = left if left <= 8 else 4
        script.append("R 1" + "0" * (take - 4))
        left -= take
    return "\n".join(script).encode() + b"\n" * ended


def sized(rng):
    size = rng.choice((65_535, 65_536, 65_536, 65_537, 65_538, rng.randrange(65_400, 65_700),
                       rng.randrange(65_538, 200_000), 1_000_000))
    how = rng.random()
    if how < 0.6:
        script = filled(rng, size)
    else:
        first = rng.choice((b"B\n", b"C\n", b""))
        unit = rng.choice((b"\n", b"\0", b"S 1\n", b"K 0\n", b"9", b" ", b"\xff", b"R 0", b"E 0 s 1 0 0 0\nK 0\n",
                           Writer(rng, most_budget=20).script()))
        script = (first + unit * (size // len(unit) + 1))[:size]
    assert len(script) == size
    return script


# What a case is, and how often, of a thousand.
SORTS = {"well-formed": (590, well_formed), "mutated": (280, Mutated()), "malformed": (120, malformed),
         "sized": (10, sized)}


def case(rng):
    sort, = rng.choices(list(SORTS), [share for share, _ in SORTS.values()])
    return sort, SORTS[sort][1](rng)

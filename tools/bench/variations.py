"""Scripts over binary32 that measure.sh makes anew for each run: one command over and over, and such as show how the
cost grows. Each function gives a script and how many steps, lines or commands it has.
"""
import struct

ALL, LARGEST = 15, 65_536


def pattern(value):
    return "%08X" % struct.unpack(">I", struct.pack(">f", value))


def value(rank):
    return struct.unpack(">f", struct.pack(">I", rank))[0]


def script(lines):
    return ("\n".join(["B", *lines]) + "\n").encode()


# limits that do not lie inside the ones before return all ranges to the limits
RETURNS = ["L 31 00000000 00000001", "L 31 00000001 00000002"]
ALONE = {
    "look (`R 0`)": ["R 0"],
    "limit that narrows nothing": ["L 0 00000000 42C80000"],
    "limit that returns all ranges": RETURNS,
    "enter and strike": ["E 63 s 15 0 1 2", "K 63"],
    "settle at rest (`S 1`)": ["S 1"],
    "partner": ["P 0 42200000 425E0000"],
    "declined (`R 32`)": ["R 32"],
    "unreadable (`R`)": ["R"],
}


def alone(name):
    """One command, or two in turn, as often as they fit into a script, on a sheet with one settled line."""
    lines = ["L 0 00000000 42C80000", "L 1 41200000 41A00000", "E 0 s %d 0 1 2" % ALL, "S 20"]
    space = LARGEST - len(script(lines))
    block = ALONE[name]
    lines += block * (space // len("\n".join(block) + "\n"))
    return script(lines), len(lines)


def due(count):
    """One settle of 65,535 steps with so many lines due throughout: the lines at places 0 and 1 make each other due
    without end, and those at the higher places wait."""
    lines = ["L 31 %s %s" % (pattern(1.1), pattern(1.1))]
    lines += ["L %d %s %s" % (register, pattern(0), pattern(2.0 ** 24)) for register in (0, 1)]
    lines += ["E 0 s %d 0 31 1" % ALL, "E 1 s %d 1 31 0" % ALL]
    lines += ["E %d %s %d %d %d %d" % (place, "sdp"[place % 3], ALL, 2 + place % 9, 11 + place % 9, 20 + place % 9)
              for place in range(2, count)]
    return script(lines + ["S 65535", "R 0", "R 1"]), 65_535


def distance(ranks):
    """Fifteen sums x + 0.375 = z, settled over and over: each time, x's low end rises from 1 by so many ranks (one less
    for the largest number), and a second step finds nothing more."""
    low = 0x3F80_0000
    z_low = value(low + ranks) + 0.375
    lines = ["L 30 %s %s" % (pattern(0.375), pattern(0.375))]
    for i in range(15):
        lines += ["L %d %08X 7F000000" % (i, low), "L %d %s 7F000000" % (15 + i, pattern(z_low)),
                  "E %d s %d %d 30 %d" % (i, ALL, i, 15 + i)]
    count = 2000
    for i in range(count):
        lines += [RETURNS[i % 2], "S 99"]
    return script(lines + ["R 0"]), 15 * count


def length(size):
    """A script of at most so many bytes: the same eight commands over and over."""
    lines = ["L 1 %s %s" % (pattern(10), pattern(20)), "L 2 %s %s" % (pattern(30), pattern(90)), "E 0 s %d 0 1 2" % ALL,
             "E 1 d %d 2 1 3" % ALL, "E 2 p %d 0 1 4" % ALL]
    block = ["L 0 %s %s" % (pattern(0), pattern(100)), "S 20", "R 0", "P 0 %s %s" % (pattern(40), pattern(55.5)),
             "L 0 %s %s" % (pattern(25.5), pattern(60)), "S 20", "R 2", "K 9"]
    while len(script(lines + block)) <= min(size, LARGEST):
        lines += block
    return script(lines), len(lines)

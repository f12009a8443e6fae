"""Checks the programs that measure.sh has built, measures them and prints the tables."""
import pathlib
import re
import subprocess
import sys

import variations

HERE = pathlib.Path(__file__).resolve().parent
ROOT = HERE.parents[1]
WORK = ROOT / "target" / "bench"
PROGRAMS = {"ranges": ROOT / "crates" / "ranges" / "out" / "ranges",
            "plain": WORK / "byhand-plain", "tuned": WORK / "byhand-tuned"}
SCRIPTS = {"creep60": (65_535, "steps"), "chain60": (65_535, "steps"), "mixed64": (65_535, "steps"),
           "commands": (5_112, "commands")}
ROUNDS = 100


def output(command, script=b""):
    return subprocess.run([str(word) for word in command], input=script, stdout=subprocess.PIPE, check=True).stdout


def check(name, script, expected):
    """Ends the measurement if a program answers otherwise than expected."""
    for program, path in PROGRAMS.items():
        if output([path], script) != expected:
            sys.exit("measure: %s gives other answers to %s than expected" % (program, name))


def whole(path):
    """For each program, the least processor time from start to exit, in microseconds, and its peak memory in kB."""
    lines = [line.split() for line in output([WORK / "runs", ROUNDS, path, *PROGRAMS.values()]).decode().splitlines()]
    return [float(line[1]) for line in lines], [int(line[3]) for line in lines]


def calls(*command):
    """What a measuring program printed: the nanoseconds of one call, by name."""
    found = re.findall(r"(.*): (\d+) ns for (\d+)", output(command).decode())
    return {name: int(total) / int(count) for name, total, count in found}


def table(title, head, rows):
    print("\n%s\n" % title)
    for row in [head, ["---"] * len(head), *rows]:
        print("| " + " | ".join(row) + " |", flush=True)


def milliseconds(times):
    return ["%.2f ms" % (time / 1000) for time in times]


def ratios(times):
    """How many times as long the other two take as ranges."""
    return ["%.2f" % (time / times[0]) for time in times[1:]]


def kilobytes(peaks):
    return ["%d kB" % peak for peak in peaks]


def bench_scripts(start, least):
    alone = "the line `B` alone"
    runs, worked, memory = [[alone, *milliseconds(start), *ratios(start)]], [], [[alone, *kilobytes(least)]]
    for name, (count, what) in SCRIPTS.items():
        times, peaks = whole(HERE / (name + ".txt"))
        net = [time - begun for time, begun in zip(times, start)]
        runs.append([name, *milliseconds(times), *ratios(times)])
        worked.append([name, *milliseconds(net), *ratios(net), *("%.1f" % (count / time) for time in net), what])
        memory.append([name, *kilobytes(peaks)])
    head = ["script", *PROGRAMS, "plain / ranges", "tuned / ranges"]
    table("Whole runs, from start to exit:", head, runs)
    table("The same, less the time for the line `B` alone:",
          head + ["ranges, million per second", "plain", "tuned", "of"], worked)
    table("Peak memory:", ["script", *PROGRAMS], memory)


def sums():
    ours, hardware = calls(WORK / "bench", "sums"), calls(WORK / "hardware")
    bare = ours.pop("operands alone")
    rows = [["the operands alone", "%.1f ns" % bare, "", ""]]
    for name, time in {**hardware, **ours}.items():
        net = time - bare
        rows.append([name, "%.1f ns" % time, *(["%.1f ns" % net, "%.0f" % (1000 / net)] if net > 0.5 else ["hidden", ""])])
    table("Sums of binary32:", ["", "a pair", "less the operands", "million pairs per second"], rows)


def narrowings():
    rows = {}
    for name, time in calls(WORK / "bench", "narrowings").items():
        line, _ = name.rsplit(", ", 1)
        rows.setdefault(line, []).append("%.1f (%.0f ns)" % (1000 / time, time))
    table("Narrowings, million per second:",
          ["", "nothing changes, z holds every result", "nothing changes, z does not", "an end of x moves"],
          [[line, *found] for line, found in rows.items()])


def varied(start, make, values, title, head, unit, more=None):
    """A table of the time that each program takes for one step, line or command, by scripts that `make` gives."""
    rows = []
    for value in values:
        script, count = make(value)
        path = WORK / "variation.txt"
        path.write_bytes(script)
        check("%s %s" % (make.__name__, value), script, output([PROGRAMS["ranges"]], script))
        times, peaks = whole(path)
        each = [(time - begun) * 1000 / count for time, begun in zip(times, start)]
        rows.append([value if isinstance(value, str) else "{:,}".format(value), *("%.0f ns" % time for time in each),
                     *{"ratios": ratios(each), "memory": kilobytes(peaks[:1])}.get(more, [])])
    added = {"ratios": ["plain / ranges", "tuned / ranges"], "memory": ["ranges, peak memory"]}.get(more, [])
    table(title, [head, *(name + unit for name in PROGRAMS), *added], rows)


def main():
    for name in SCRIPTS:
        check(name, (HERE / (name + ".txt")).read_bytes(), (HERE / (name + ".expected")).read_bytes())
    print("ranges, plain and tuned answer %s as expected" % ", ".join(SCRIPTS))
    nothing = WORK / "nothing.txt"
    nothing.write_bytes(b"B\n")
    start, least = whole(nothing)
    bench_scripts(start, least)
    varied(start, variations.alone, variations.ALONE, "One command over and over, a command:", "", "", "ratios")
    sums()
    narrowings()
    varied(start, variations.due, (8, 16, 32, 64), "Growth with the lines due:", "lines due", ", a step")
    varied(start, variations.distance, (1, 10**3, 10**6, 10**9), "Growth with the distance moved:", "ranks", ", a line")
    varied(start, variations.length, (4_096, 16_384, 65_536), "Growth with the input:", "bytes, at most", ", a command",
           "memory")


main()

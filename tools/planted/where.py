"""Says in one line where a check refused a crate, from its log: the functions not proved, and of each what failed.

A proof that only names what is no longer there counts for little, and is said only where nothing else failed.
"""
import re
import sys

text = open(sys.argv[1], encoding="utf-8").read()
at, names, seen = {}, {}, []


def add(where, function, need):
    if need not in where.setdefault(function, []):
        where[function].append(need)


for line in text.split("\n"):
    found = re.match(r"(?:fn|struct|enum|trait|impl) (\S+): (not proved|no proof)(.*)", line)
    if found and "it calls `" not in found[3] and "it waits for" not in found[3]:
        seen.append(found[1])
    found = re.match(r"note: (src/\S+?):(\d+):\d+: it is not (?:proved|shown) that (.*?) \(`([^`]+)`\)", line)
    if found:
        at.setdefault(f"{found[1]}:{found[2]}", []).append(f"{found[3]} (`{found[4]}`)")
        continue
    found = re.match(r"(?:\./)?proofs/(\S+?)/(Answers|Invariants|Proof)\.antt:\d+:\d+: error: (?:`([^`]+)`: )?(.*)", line)
    if found:
        missing = "that can be named from here" in found[4] or "is not in scope" in found[4]
        add(names if missing else at, f"proofs/{found[1]}", f"`{found[3] or found[2]}`")
    elif re.match(r"(?:\./)?proofs/\S+: error", line):
        add(at, line.split(":")[0].removeprefix("./"), "a lemma")
print("in " + (", ".join(seen) or "no function named") + " | " + "; ".join(f"{where}: {', '.join(needs)}" for where, needs in (at or names).items())
      + ("" if at or not names else " (only a name that the proof uses)"))

#!/usr/bin/env python3
"""Brings the repository's own definitions and lemmas to today's spelling: words in snake case, types in camel case.

usage: python3 tools/port_names.py        at the top of the repository, once, after /opt/rattle/port/port.py

What is renamed: the names with a hyphen that specs/ and the lemma files of proofs/ define. Names that Rattle makes for a
function's goals and steps keep their spelling, as do functions of src/, strings, inputs and outputs.
Names that would fall together are refused, and nothing is changed.
"""

import collections
import glob
import re
import sys

WORD = r"[^\s(){}\[\].,;:=λ∀→↦×⌜⌝\"@«»\\]+"
DEFINITION = re.compile(
    r"^\s*(?:(?:abbrev|unfoldable|irreducible|opaque|postulate)\s+)*(?:pub\s+)?(?:(?:abbrev|unfoldable|irreducible|opaque|record|data)\s+)*"
    rf"(?P<name>{WORD})(?=\s+:|\s+\()"
)
# a name of the library that a line of ours begins with
LIBRARY = {"cond-false"}
# names whose plain respelling would not do: it is taken, or it is no word
SPECIAL = {"≤-then": "le_then", "getD-same": "get_or_same", "SameLines": "LinesStay"}


def files(pattern):
    return sorted(glob.glob(pattern, recursive=True))


def definers():
    return files("crates/*/specs/**/*.antt") + files("crates/*/proofs/*.antt")


def respelled(name):
    if name in SPECIAL:
        return SPECIAL[name]
    if name[:1].isupper():
        return "".join(part[:1].upper() + part[1:] for part in name.split("-"))
    return name.replace("-", "_")


def defined(path):
    with open(path, encoding="utf-8") as f:
        for line in f:
            found = DEFINITION.match(line)
            if found and found["name"] not in LIBRARY:
                yield found["name"]


def renamings():
    names = collections.defaultdict(set)
    for path in definers():
        for name in defined(path):
            names[name].add(path)
    table = {n: respelled(n) for n in names if ("-" in n.strip("-") and re.match(r"[\w≤]", n)) or n in SPECIAL}
    table = {n: to for n, to in table.items() if n != to}
    bad = False
    for name, to in sorted(table.items()):
        others = [n for n in names if n != name and table.get(n, n) == to]
        if others:
            print(f"port_names: {name} would fall together with {others}", file=sys.stderr)
            bad = True
    if bad:
        raise SystemExit(2)
    return table


def generated(text):
    """The names of goals and steps that a proof file of a function cites."""
    made = set(re.findall(rf"\bgoal\.({WORD})", text))
    for listed in re.findall(r"\.(?:Goals|Given)\.\{([^}]*)\}", text):
        made.update(w.strip() for w in listed.split(","))
    return made


def turned(text, table, kept, comment):
    def word(found):
        name = found[0]
        if name in kept or name not in table:
            return name
        before = text[: found.start()]
        if re.search(r"(?:^|[\s(,{])(?:c|w|l)\.$", before[-4:]):
            return name
        return table[name]

    out, at = [], 0
    marks = re.compile(comment + r".*")
    pattern = re.compile(WORD)
    position = 0
    for line in text.splitlines(keepends=True):
        cut = marks.search(line)
        end = cut.start() if cut else len(line)
        for found in pattern.finditer(text, position, position + end):
            out.append(text[at : found.start()])
            out.append(word(found))
            at = found.end()
        if cut:
            for quoted in re.finditer(r"`[^`]*`", line[end:]):
                start = position + end + quoted.start()
                for found in pattern.finditer(text, start + 1, start + len(quoted[0]) - 1):
                    out.append(text[at : found.start()])
                    out.append(word(found))
                    at = found.end()
        position += len(line)
    out.append(text[at:])
    return "".join(out)


def main():
    table = renamings()
    changed = 0
    for path in files("crates/*/**/*.antt") + files("crates/*/src/**/*.rt"):
        if "/out/" in path:
            continue
        with open(path, encoding="utf-8") as f:
            text = f.read()
        source = path.endswith(".rt")
        new = turned(text, table, set() if source else generated(text), r"(?://)" if source else r"(?:^|(?<=\s))--(?=\s|$)")
        if new != text:
            changed += 1
            with open(path, "w", encoding="utf-8") as f:
                f.write(new)
    print(f"port_names: {len(table)} names, {changed} files")


main()

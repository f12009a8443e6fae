"""plant.py CRATE EDIT plants a bug in the crate's folder CRATE. Where the edit does not fit, it says why and plants nothing.

With --look before them it plants nothing in any case.
"""
import pathlib
import sys


def unfit(why):
    print(why)
    sys.exit(1)


words = sys.argv[1:]
look = words[:1] == ["--look"]
crate, edit = map(pathlib.Path, words[look:])
texts, path, old = {}, None, None
for line in edit.read_text(encoding="utf-8").split("\n"):
    if line.startswith("file: "):
        path = crate / line[6:]
        if path not in texts:
            if not path.is_file():
                unfit(f"no file {line[6:]}")
            texts[path] = path.read_text(encoding="utf-8")
    elif line.startswith("old: "):
        old = line[5:]
    elif line.startswith("new:"):
        count = texts[path].count(old)
        if count != 1:
            unfit(f"its old text stands {count} times in {path.relative_to(crate)}, and not once: {old}")
        texts[path] = texts[path].replace(old, line[4:].removeprefix(" "))
if not look:
    for path, text in texts.items():
        path.write_text(text, encoding="utf-8")

#!/usr/bin/env python3
"""Counts by function what the design pass looks at: tools/repeats.py [FOLDER].

Reads each function of crates/*/src and prints: twins (functions whose texts are equal once names of types, numbers and
called functions are taken out), facts that stand in the preconditions of three functions or more, parameters that stand
together in four functions or more, and how many proof answers there are.
"""
import collections, pathlib, re, sys

root = pathlib.Path(sys.argv[1] if len(sys.argv) > 1 else ".")
FN = re.compile(r"^(\s*)(?:pub(?:\([a-z]+\))? )?(?:const )?(?:final )?fn ([a-z_0-9]+)", re.M)


def functions():
    for path in sorted(root.glob("crates/*/src/*.rt")):
        text = path.read_text()
        starts = list(FN.finditer(text))
        for here, after in zip(starts, starts[1:] + [None]):
            end = after.start() if after else len(text)
            body = text[here.start():end]
            close = re.search(r"^" + here.group(1) + r"\}$", body, re.M)
            if close:
                body = body[: close.end()]
            yield f"{path.parent.parent.name}/{path.name} {here.group(2)}", body


def shape(text):
    text = re.sub(r"//.*", "", text)
    text = re.sub(r"^\s*(requires|ensures).*$", "", text, flags=re.M)
    text = re.sub(r"\b[0-9][0-9_A-Fa-fx]*\b", "0", text)
    text = re.sub(r"\b[A-Z][A-Za-z0-9]*\b", "T", text)
    text = re.sub(r"'[^']*'|\"[^\"]*\"", "''", text)
    text = re.sub(r"\b[a-z_0-9]+(?=\()", "f", text)
    text = re.sub(r"(?<=\.)[a-z_0-9]+", "m", text)
    return re.sub(r"\s+", " ", text)


every = list(functions())
print(f"functions: {len(every)}")

groups = collections.defaultdict(list)
for name, body in every:
    if body.count("\n") >= 3:
        groups[shape(body)].append(name)
twins = [names for names in groups.values() if len(names) > 1]
print(f"== twins: {len(twins)} groups")
for names in sorted(twins):
    print("  " + ", ".join(names))

facts = collections.defaultdict(list)
for name, body in every:
    for clause in re.findall(r"^\s*requires[^{]*\{ (.*) \}$", body, re.M):
        for part in re.split(r" × ", clause):
            fact = re.sub(r"\b[a-z_0-9.]+\b", "v", part.strip("() "), count=1)
            facts[fact].append(name)
print("== facts in three preconditions or more")
for fact, names in sorted(facts.items()):
    if len(set(names)) >= 3:
        print(f"  {fact}: {len(set(names))} functions")

pairs = collections.defaultdict(set)
for name, body in every:
    head = body[: body.find("{")]
    inside = re.search(r"\((.*?)\)\s*(?:->|$|\n|requires|ensures)", head, re.S)
    if not inside:
        continue
    params = re.findall(r"([a-z_]+): ([^,()]+)", inside.group(1))
    for i in range(len(params)):
        for j in range(i + 1, len(params)):
            pairs[(params[i], params[j])].add(name)
print("== parameters together in four functions or more")
for (a, b), names in sorted(pairs.items()):
    if len(names) >= 4:
        print(f"  {a[0]}: {a[1].strip()}, {b[0]}: {b[1].strip()}: {len(names)} functions")

answers = list(root.glob("crates/*/proofs/**/Answers.antt"))
goals = sum(len(re.findall(r"^pub \S+ : goal\.", p.read_text(), re.M)) for p in answers)
print(f"== proof answers: {len(answers)} files, {goals} goals")

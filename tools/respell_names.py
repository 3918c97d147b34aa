#!/usr/bin/env python3
"""Brings the names of our own definitions and lemmas to snake case: `isBad` becomes `is_bad`, `bad-all` becomes `bad_all`.

    python3 tools/respell_names.py [--dry]

Run once, at the top of the repository, after port.py. A name is one that a file of specs/ or proofs/ declares: a
definition, a lemma, a field or a constructor. Types, facts and modules keep their capital, and so does a lemma's name
that begins with one. Where a lemma would get the name of a definition, `_lem` is added to it. Functions and fields of
src/, and the names of goals, steps and invariants, which the checker makes, stay. Other names that fall together are
printed, and nothing is written then.
"""
import collections
import glob
import re
import sys

TOKEN = re.compile(r"[^\s(){}\[\],;.\"`:]+")
DECLARED = re.compile(
    r"^[ \t]*(?:(?:abbrev|unfoldable|pub|private|instance) +)*([^\s(){}:,;.∷]+) *(?:\([^)]*\) *|\{[^}]*\} *)*: (.*)$", re.M)
WHERE = re.compile(r"^[ \t]*(?:pub +)?(?:record|data|section|ruleset) +([^\s(){}:]+)", re.M)
IMPORTED = re.compile(r"^(?:pub +)?(?:ghost +)?use +([^\s{]+)\.\{([^}]*)\}", re.M)

OTHERWISE = re.compile(r"([^\s{,]+) as ([^\s},]+)")


def snake(name):
    if name[0].isupper():
        return name
    name = re.sub(r"(?<=[a-z0-9])([A-Z])", lambda m: "_" + m.group(1).lower(), name)
    return re.sub(r"(?<=[A-Za-z0-9'])-(?=[A-Za-z0-9])", "_", name)


def read(path):
    with open(path, encoding="utf-8") as f:
        return f.read()


def declared_names(files):
    names = collections.defaultdict(set)
    for path in files:
        text = read(path)
        for m in DECLARED.finditer(text) if path.endswith(".antt") else ():
            if re.search(r"\bgoal\.", m.group(2)) and path.endswith(("Answers.antt", "Invariants.antt")):
                continue
            names[m.group(1)].add(path)
        for m in WHERE.finditer(text) if path.endswith(".antt") else ():
            names[m.group(1)].add(path)
    for path in files:
        for _, name in OTHERWISE.findall(read(path)):
            if name not in names and re.fullmatch(r"[a-z]+[A-Z]\w*", name):
                names[name].add(path)
    return names


def library_names(files):
    names = collections.defaultdict(set)
    ours = {p.split("/")[1] for p in files}
    for path in files:
        for m in IMPORTED.finditer(read(path)):
            parts = m.group(1).split(".")
            if parts[0] == "Rattle" and parts[1] in ours:
                continue
            for name in m.group(2).split(","):
                names[name.split(" as ")[-1].strip()].add(path)
    return names


def together(names, spelled):
    groups = collections.defaultdict(set)
    for n in names:
        groups[spelled.get(n, n)].add(n)
    return groups


def main():
    antt = sorted(glob.glob("crates/*/specs/**/*.antt", recursive=True) + glob.glob("crates/*/proofs/**/*.antt", recursive=True))
    rust = sorted(glob.glob("crates/*/src/**/*.rt", recursive=True))
    names = declared_names(antt + rust)
    library = library_names(antt + rust)
    spelled = {n: snake(n) for n in names if snake(n) != n}
    clash = [n for n in spelled if n in library]
    groups = together(names, spelled)
    for new, olds in groups.items():
        defined = [o for o in olds if any("/specs/" in p for p in names[o])]
        if len(olds) > 1 and len(defined) == 1:
            for old in olds - set(defined):
                spelled[old] = new + "_lem"
    groups = together(names, spelled)
    bad = False
    for new, olds in sorted(groups.items()):
        if len(olds) > 1:
            print("fall together:", new, sorted(olds), sorted({p for o in olds for p in names[o]}))
            bad = True
        if new in library and any(o in spelled for o in olds):
            print("a library's name too:", new, sorted(olds), sorted(library[new])[:4])
    for n in clash:
        print("also imported from a library:", n, sorted(names[n]), sorted(library[n])[:4])
    if "--dry" in sys.argv or bad:
        print(len(spelled), "names")
        return 1 if bad else 0
    pages = glob.glob("docs/*.md") + ["README.md"]
    edits = glob.glob("crates/*/must-fail/*.edit")
    for path in antt + rust + edits:
        text = read(path)
        new = TOKEN.sub(lambda m: spelled.get(m.group(0), m.group(0)), text)
        if new != text:
            with open(path, "w", encoding="utf-8") as f:
                f.write(new)
    for path in pages:
        text = read(path)
        new = re.sub(r"`[^`\n]+`", lambda q: TOKEN.sub(lambda m: spelled.get(m.group(0), m.group(0)), q.group(0)), text)
        if new != text:
            with open(path, "w", encoding="utf-8") as f:
                f.write(new)
    print(len(spelled), "names respelled")
    return 0


sys.exit(main())

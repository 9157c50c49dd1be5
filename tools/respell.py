#!/usr/bin/env python3
"""Brings this repository's own definitions and lemmas to the spelling of the newer Rattle: words in snake case, facts in
camel case. It is run once, at the top, right after the toolchain's own script, and it touches crates/ alone.

usage: tools/respell.py [--names]      --names prints the old and the new spelling of each name and writes nothing

A name is respelled where it is declared in specs/ or in a file of lemmas (proofs/*.antt, and a lemma beside the answers);
names that the toolchain makes, names of src/, strings and module names stay.
"""

import os
import re
import sys

FACTS = {
    "filing-law": "FilingLaw",
    "block-law": "BlockLaw",
    "reading-law": "ReadingLaw",
    "row_made": "RowAnswered",
    "row-made": "RowAnswered",
    "Reaches-floor": "ReachesFloor",
    "Keeps-ceiling": "KeepsCeiling",
    "Takes-torus": "TakesTorus",
}
ANSWERS = ("Answers.antt", "Invariants.antt", "Choices.antt", "Needs.antt")
DECLARED = re.compile(r"^(\s*)(?:abbrev |unfoldable )?(pub )?(?:record |data |ruleset )?([^\s:(){}=,]+)(?: .*)? : ")
# the worked samples call their set of two tiles A; `{A = ..}` names an argument
SET_A = re.compile(r"abbrev pub A :|Samples\.\{A,")
BARE_A = re.compile(r"(?<![\w'-])A(?![\w'-]| =| :)|(?<=abbrev pub )A(?= :)|^A(?= =)")
TOKEN = re.compile(r"[^\s(){}.,:;=\"λ→×]+")


def files(root, endings):
    for folder, dirs, names in os.walk(os.path.join(root, "crates")):
        dirs[:] = sorted(d for d in dirs if d != "out")
        for name in sorted(names):
            if name.endswith(endings):
                yield os.path.join(folder, name)


def text(path):
    with open(path, encoding="utf-8") as f:
        return f.read()


def declared(path):
    beside_answers = os.path.basename(path) in ANSWERS
    for line in text(path).splitlines():
        found = DECLARED.match(line)
        if not found or line.lstrip().startswith(("--", "use ", "let ")):
            continue
        indent, public, name = found.groups()
        if beside_answers and (public or indent):
            continue
        yield name


def aliases(path):
    return re.findall(r" as ([a-z][\w'-]*-[\w'-]*)", "\n".join(l for l in text(path).splitlines() if "use " in l))


def snake(name):
    name = re.sub(r"^getD(?=[-_])", "get_or", name)
    name = re.sub(r"(?<![A-Za-z])A(?![A-Za-z])", "a", name)
    return name.replace("-", "_")


def respelled(root):
    names = {}
    for path in files(root, ".antt"):
        for name in declared(path):
            if name in FACTS:
                names[name] = FACTS[name]
            elif "-" in name and not name.startswith("-"):
                names[name] = snake(name)
    for path in files(root, (".antt", ".rt")):
        names.update((name, snake(name)) for name in aliases(path))
    return names


def fallen_together(names, taken):
    seen = {}
    for old, new in sorted(names.items()):
        if new in seen or new in taken:
            yield old, new
        seen[new] = old


def main(arguments):
    names = respelled(".")
    taken = {n for p in files(".", ".antt") for n in declared(p)} - set(names)
    for old, new in fallen_together(names, taken):
        print(f"respell: {old} would fall together with another {new}", file=sys.stderr)
    if arguments == ["--names"]:
        for old, new in sorted(names.items()):
            print(f"{old} {new}")
        return 0
    for path in files(".", (".antt", ".rt")):
        old = text(path)
        new = TOKEN.sub(lambda m: names.get(m.group(0), m.group(0)), old)
        if SET_A.search(old):
            new = "\n".join(l if l.lstrip().startswith("--") else BARE_A.sub("set_a", l) for l in new.split("\n"))
        if new != old:
            with open(path, "w", encoding="utf-8") as f:
                f.write(new)
    return 0


if __name__ == "__main__":
    raise SystemExit(main(sys.argv[1:]))

#!/usr/bin/env python3
"""Plants wrong bodies in the code, one at a time, and says what the prover makes of each.

Usage: tools/plant.py [CRATE ...] [--only WORD] [--docs] [--edits]
    The wrong bodies stand in tools/planted/CRATE.txt, each in lines of this form and order:
        function: the function whose body is wrong
        wrong: what is wrong with it, in a few words
        keep: (only where it tells most) a label, the name of its must-fail edit, which the gate tries too once it is written
        file: the source file, from the crate's folder
        old: the text to replace, which stands once in that file
        new: the text to put there
    Run `rt all check` first: each body is checked over what that has proved, which is quick and no verdict.
    --only WORD  only the entries that have WORD in their function or in what is wrong
    --docs       write the results of these crates to docs/planted/CRATE.md
    --edits      try nothing: write crates/CRATE/must-fail/LABEL.edit for each body that is kept and has none yet

What it says of each: REFUSED with the fact that no longer holds; UNFIT where a proof file no longer fits the code, which shows
little; PROVED where the contract is too weak; BROKEN where it does not compile.
"""
import os
import re
import shutil
import subprocess
import sys
import tempfile

ROOT = os.path.dirname(os.path.dirname(os.path.abspath(__file__)))


def entries(crate):
    found, entry = [], {}
    for line in open(os.path.join(ROOT, "tools", "planted", crate + ".txt")):
        field = re.match(r"(function|wrong|keep|file|old|new): ?(.*)", line.rstrip("\n"))
        if field:
            entry[field.group(1)] = field.group(2)
        if field and field.group(1) == "new":
            found.append(entry)
            entry = {}
    return found


def edit(entry):
    return "file: %s\nold: %s\nnew: %s\n" % (entry["file"], entry["old"], entry["new"])


def verdict(said, label):
    """What the prover's words on an edit come to: a word, and where it first fails."""
    found = re.search(r"must-fail \S*/%s\.edit: (.*)" % label, said)
    words = found.group(1) if found else "nothing was said of it: " + said[-160:]
    if words.startswith("NOT REFUSED"):
        return "PROVED", ""
    if not words.startswith("refused"):
        return "BROKEN", words[:160]
    words = words.removeprefix("refused, as it must be")
    proof = re.search(r"(proofs/\S+?):\d+:\d+: error: `([^`]*)`", words)
    if words.startswith(" (") or proof:
        return "UNFIT", ": ".join(proof.groups()) if proof else words.strip(" :")[:160]
    goal = re.match(r": note: (\S+?):\d+:\d+: .*?\(`([^`]*)`\)", words)
    return "REFUSED", ": ".join(goal.groups()) if goal else words.lstrip(": ")


def plant(crate, todo):
    """Tries the entries of a crate as must-fail edits, in a copy of the checkout."""
    folder = tempfile.mkdtemp(prefix="planted-")
    try:
        shutil.copy(os.path.join(ROOT, "crates.txt"), folder)
        shutil.copytree(os.path.join(ROOT, "crates"), os.path.join(folder, "crates"), ignore=shutil.ignore_patterns("out", "must-fail"))
        edits = os.path.join(folder, "crates", crate, "must-fail")
        os.makedirs(edits)
        for k, entry in enumerate(todo):
            with open(os.path.join(edits, "plant%d.edit" % k), "w") as f:
                f.write(edit(entry))
        ran = subprocess.run(["rt", "must-fail", crate], cwd=folder, stdout=subprocess.PIPE, stderr=subprocess.STDOUT, text=True)
        return [(entry, verdict(ran.stdout, "plant%d" % k)) for k, entry in enumerate(todo)]
    finally:
        shutil.rmtree(folder)


def table(crate, tried):
    lines = ["# Wrong bodies tried in `%s`" % crate, ""]
    lines += ["Written by `tools/plant.py %s --docs`; [planted.md](../planted.md) says what this is." % crate, ""]
    lines += ["| function | what is wrong | what the prover says |", "|---|---|---|"]
    for entry, (word, where) in tried:
        lines.append("| `%s` | %s | %s%s |" % (entry["function"], entry["wrong"], word.lower(), ": " + where if where else ""))
    return "\n".join(lines) + "\n"


def write_edits(crate):
    """Writes the edits that are kept and not there yet. It changes and removes none."""
    folder = os.path.join(ROOT, "crates", crate, "must-fail")
    for entry in entries(crate):
        if "keep" not in entry:
            continue
        path = os.path.join(folder, entry["keep"] + ".edit")
        if not os.path.exists(path):
            os.makedirs(folder, exist_ok=True)
            open(path, "w").write(edit(entry))
        elif open(path).read() != edit(entry):
            print("%s stands with another text" % path)


def main(words):
    if "--help" in words:
        print(__doc__.strip())
        return
    only = words[words.index("--only") + 1] if "--only" in words else ""
    chosen = [w for w in words if not w.startswith("--") and w != only]
    chosen = chosen or sorted(f[:-4] for f in os.listdir(os.path.join(ROOT, "tools", "planted")))
    if "--edits" in words:
        for crate in chosen:
            write_edits(crate)
        return
    weak = 0
    for crate in chosen:
        todo = [e for e in entries(crate) if only in e["function"] + " " + e["wrong"]]
        results = plant(crate, todo)
        for entry, (word, where) in results:
            print("%-8s %s: %s: %s   %s" % (word, crate, entry["function"], entry["wrong"], where), flush=True)
            weak += word != "REFUSED"
        if "--docs" in words:
            os.makedirs(os.path.join(ROOT, "docs", "planted"), exist_ok=True)
            open(os.path.join(ROOT, "docs", "planted", crate + ".md"), "w").write(table(crate, results))
    print("%d not refused by a fact" % weak)


if __name__ == "__main__":
    main(sys.argv[1:])

#!/usr/bin/env python3
"""Lists the places in src/ that could be written in a newer form, a line each.

    python3 tools/places.py [POINT..]

Points: 1 own Option and Result, flags and number codes; 2 twins; 3 loops that count; 4 comparing and converting by hand;
5 facts and parameters that stand three times; 6 parallel arrays, lengths beside buffers; 7 switches on which step to run.
What it lists is a place to look at, not a verdict.
"""
import collections
import pathlib
import re
import sys

FILES = sorted(pathlib.Path("crates").glob("*/src/**/*.rt"))
TEXT = {path: path.read_text() for path in FILES}


def grep(pattern, skip=r"^\s*(ghost use|use )"):
    for path, text in TEXT.items():
        for number, line in enumerate(text.splitlines(), 1):
            if re.search(pattern, line) and not re.search(skip, line):
                yield f"{path}:{number}", line.strip()


def functions():
    """Each function: its place, its name, its head and its body."""
    start = re.compile(r"^( *)(?:pub(?:\(\w+\))? )?(?:extern \"C\" )?fn (\w+)", re.M)
    for path, text in TEXT.items():
        for found in start.finditer(text):
            indent = found[1]
            body = re.compile(rf"^{indent}\{{$|\{{$", re.M).search(text, found.end())
            end = re.compile(rf"^{indent}\}}$", re.M).search(text, found.end())
            if body and end and body.start() < end.start():
                line = text.count("\n", 0, found.start()) + 1
                yield f"{path}:{line}", found[2], text[found.start():body.start()], text[body.end():end.start()]


def enums():
    for path, text in TEXT.items():
        for found in re.finditer(r"^ *(?:pub(?:\(\w+\))? )?enum (\w+)[^{]*\{\n(.*?)^\s*\}", text, re.M | re.S):
            lines = [l.strip() for l in found[2].splitlines() if l.strip() and not l.strip().startswith("//")]
            yield f"{path}:{text.count(chr(10), 0, found.start()) + 1}", found[1], lines


def structs():
    for path, text in TEXT.items():
        for found in re.finditer(r"^ *(?:pub(?:\(\w+\))? )?struct (\w+)[^{;]*\{\n(.*?)^\s*\}", text, re.M | re.S):
            yield f"{path}:{text.count(chr(10), 0, found.start()) + 1}", found[1], found[2]


def point1():
    for place, name, variants in enums():
        if len(variants) == 2 and any("(" in v for v in variants):
            yield place, f"enum {name} of the shape of Option or Result: {' '.join(variants)}"
    for place, name, body in structs():
        if len(re.findall(r": Option<", body)) > 1:
            yield place, f"struct {name} with several Options"
    yield from grep(r"0xffff_ffff|\b0 is no|\(0: any\)|row 0\b|none where|0 past the (end|last)")
    yield from grep(r"\b(kind|row|pile): u8\b|, due: u8|[(,] ?number: u8|pub number: u32|fn \w*kind\w*\(.*-> u8", r"fn small_paper")
    yield from grep(r"Err\(_\w*\) => None|None => None|Some\(\w+\) => Ok\(|Ok\(\w+\) => (Ok\(Some|Some\()|None => Err\(")


def point2():
    shapes = collections.defaultdict(list)
    for place, name, head, body in functions():
        flat = re.sub(r"\b[a-zA-Z_]\w*\b", "i", re.sub(r"\b\d\w*\b", "n", re.sub(r"\s+", " ", body)))
        if len(flat) > 24:
            shapes[flat].append((place, name))
    for alike in shapes.values():
        if len(alike) > 1:
            yield alike[0][0], "alike: " + ", ".join(f"{name} ({place})" for place, name in alike)
    names = collections.defaultdict(list)
    for place, line in grep(r"^\s*(pub )?const \w+"):
        names[re.search(r"const (\w+)", line)[1]].append(place)
    for name, places in names.items():
        if len(places) > 1:
            yield places[0], f"const {name} in {len(places)} places"
    types = collections.defaultdict(list)
    for place, name, _ in list(structs()) + list(enums()):
        types[name].append(place)
    for name, places in types.items():
        if len(places) > 1:
            yield places[0], f"type {name} in {len(places)} places"
    blanks = [place for place, line in grep(r"^\s*west: 0,$")]
    if len(blanks) > 1:
        yield blanks[0], f"a tile of four zeros in {len(blanks)} places"


def point3():
    yield from grep(r"^\s*(while\b|for \w+ in [^{]*\.\.)")


def point4():
    for place, name, head, body in functions():
        if "-> bool" in head and re.search(r"Option<\w+>, \w+: Option", head):
            yield place, f"fn {name}: equality by hand"
        if re.search(r"\((\w+): (\w+), (\w+): \2\) -> \2\b", head):
            yield place, f"fn {name}: an order by hand"
        if re.search(r"\(\w+: u8\) -> (Option<)?\w*Kind", head):
            yield place, f"fn {name}: a conversion by hand"
    yield from grep(r"\bas (u8|u16|u32|u64|usize|char)\b")


def point5():
    by_crate = collections.defaultdict(lambda: collections.defaultdict(list))
    for place, name, head, _ in functions():
        crate = place.split("/")[1]
        for fact in set(re.findall(r"(?:requires|ensures)(?: \w+)? \{(.*)\}", head)):
            by_crate[crate][fact.strip()].append(name)
        pairs = re.findall(r"(\w+): (&?(?:mut )?[\w<>'_\[\]]+)", head.split("->")[0])
        for i, one in enumerate(pairs):
            for other in pairs[i + 1:]:
                by_crate[crate][f"parameters {one[0]} and {other[0]}"].append(name)
    for crate, facts in by_crate.items():
        for fact, names in facts.items():
            if len(set(names)) > 2 and "result" not in fact:
                yield f"crates/{crate}/src", f"{fact} in {len(names)}: {', '.join(names)}"


def point6():
    for place, name, body in structs():
        if len(re.findall(r": Vec<", body)) > 1:
            yield place, f"struct {name} with parallel arrays"
        if re.search(r": &'a \[", body) and re.search(r"count: ", body):
            yield place, f"struct {name} with a count beside its slice"
    yield from grep(r"&mut \[\w+\]")
    yield from grep(r"\[\w+: usize\]|\w+\[\w+ as usize\]|\w+\[[a-z]\]")


def point7():
    for place, name, head, body in functions():
        arms = re.findall(r"=> (?:\w+(?:\.|::))?(\w+)\(", body)
        if len(arms) > 1 and len(set(arms)) == 1 and arms[0] not in ("Some", "Ok", "Err", "Number"):
            yield place, f"fn {name}: each arm calls {arms[0]}"
        if re.search(r"\bself\b", head) and re.search(r"Way::", body):
            yield place, f"fn {name}: a switch on the way"
    for place, name, variants in enums():
        if len(variants) > 1 and not any("(" in v or "=" in v for v in variants) and "Fault" not in name:
            yield place, f"enum {name}, which picks a step"


def main():
    points = sys.argv[1:] or list("1234567")
    for point in points:
        rows = list(globals()[f"point{point}"]())
        print(f"point {point}: {len(rows)} places")
        for place, what in rows:
            print(f"  {place}: {what}")


main()

#!/usr/bin/env python3
"""Runs a judge on every case and compares: check_judge.py JUDGE_BINARY

Each case of crates/cases/data/cases.bin is unpacked into a temporary folder, the judge is
run there, and what it prints is compared with crates/cases/stdout. A case with an empty
text is run twice: with an empty set.txt and with none. A judge that says of a set that
it does not judge it yet (`set not judged`) is not compared there, only counted. Ends with
1 if a case differs or is not judged.
"""
import os
import re
import subprocess
import sys
import tempfile
import time

sys.dont_write_bytecode = True  # leaves no folder of compiled files here
from make_cases import CASES, EXPECTED, unpack


def read_expected():
    """The lines of each case."""
    with open(EXPECTED) as file:
        parts = re.split(r"^case \d+\n", file.read(), flags=re.MULTILINE)
    return [part.splitlines() for part in parts[1:]]


def run(binary, text, papers):
    """The lines that the judge prints; set.txt is left out if text is None."""
    with tempfile.TemporaryDirectory() as folder:
        files = {f"paper{k}.bin": data for k, data in enumerate(papers, 1)}
        if text is not None:
            files["set.txt"] = text
        for name, data in files.items():
            with open(os.path.join(folder, name), "wb") as file:
                file.write(data)
        try:
            done = subprocess.run([binary], cwd=folder, stdin=subprocess.DEVNULL,
                                  capture_output=True, timeout=60)
        except subprocess.TimeoutExpired:
            return ["(no end within 60 seconds)"]
    lines = done.stdout.decode("utf-8", "replace").splitlines()
    return lines + ([f"(ended with {done.returncode})"] if done.returncode else [])


def main():
    if len(sys.argv) != 2:
        sys.exit(__doc__)
    binary = os.path.abspath(sys.argv[1])
    with open(CASES, "rb") as file:
        cases = unpack(file.read())
    expected = read_expected()
    assert len(cases) == len(expected)
    start, wrong, unjudged = time.monotonic(), 0, 0
    for n, ((text, papers), lines) in enumerate(zip(cases, expected), 1):
        for given in [text] if text else [text, None]:
            found = run(binary, given, papers)
            if found and found[0].startswith("set not judged"):
                unjudged += 1
            elif found != lines:
                wrong += 1
                print(f"case {n} differs; text {text[:60]!r}")
                for a, b in zip(lines + ["(nothing)"] * 9, found + ["(nothing)"] * 9):
                    if a != b:
                        print(f"    expected {a}\n    found    {b}")
                break
    print(f"{len(cases)} cases, {wrong} differ, {unjudged} not judged, "
          f"{time.monotonic() - start:.1f} seconds")
    sys.exit(1 if wrong or unjudged else 0)


if __name__ == "__main__":
    main()

#!/usr/bin/env python3
"""Writes what the program `slots` must print: the counts and edges of every catalogue row, of a small set, and of layers on it.

python3 tools/second/make_slots.py writes crates/slots/stdout."""
import os

import judge

SMALL = [(0, 1, 0, 1), (1, 0, 1, 0), (1, 2, 1, 1), (2, 2, 0, 3), (3, 0, 3, 1)]
OUT = os.path.join(os.path.dirname(__file__), "..", "..", "crates", "slots", "stdout")


def lines(name, t):
    """A line of counts, then a line for each slot with an edge."""
    yield f"{name}: {t.states} states {t.letters} letters {t.slots} slots"
    for slot in sorted(t.edges):
        yield f"{name} slot {slot}: " + " ".join(map(str, t.edges[slot]))


def main():
    small = judge.list_transducer(SMALL)
    shown = [(f"row {row}", judge.catalogue_transducer(row)) for row in range(1, 9)]
    shown += [("set", small), ("turned", judge.turn(small)), ("trimmed", judge.trim(small)),
              ("two high", judge.stack(small, small))]
    with open(OUT, "w", encoding="ascii") as out:
        for name, t in shown:
            out.writelines(line + "\n" for line in lines(name, t))


if __name__ == "__main__":
    main()

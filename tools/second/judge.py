#!/usr/bin/env python3
"""A second judge, in plain Python: judge.py [FOLDER]

Reads set.txt and paper1.bin .. paper9.bin of the folder (the working folder if none is
given) and prints what judge prints. It was written from the rules alone, without a look
at the proved program, so that the two agree because the rules say so.

An edge is a tuple (start, end, south, north): the rules call the first two from and to.
"""
import math
import os
import re
import struct
import sys
from collections import defaultdict, namedtuple

MAX_TEXT = 65535
MAX_TILES = 1024
MAX_STATES = 4096
MAX_SLOTS = 1048576
MAX_BLOCKS = 64
BLOCK = 512
BLOCK_NUMBERS = 126
MAX_CELLS = MAX_BLOCKS * BLOCK_NUMBERS - 2
MAX_RANK = 65535
STRIP, RING, RANKING, TORUS = 1, 2, 3, 4
ENDLESS = math.inf

# row: p, d, low, high
CATALOGUE = {1: (2, 1, 1, 4), 2: (2, 3, 1, 4), 3: (1, 2, 1, 4), 4: (1, 3, 1, 4),
             5: (3, 1, 1, 4), 6: (3, 2, 1, 4), 7: (1, 1, 0, 1), 8: (4, 3, 0, 3)}

# edges: a dictionary from slot to edge, in rising order of the slots that hold one.
Transducer = namedtuple("Transducer", "states letters slots edges")
Set = namedtuple("Set", "pile row tiles")


class SetFault(Exception):
    """A fault of the set text: number, line, column."""


class PileFault(Exception):
    """A pile that is too large: number."""


class PaperFault(Exception):
    """A fault of a paper: number, place."""


# The set text

def read_form(line, number, ranges):
    """The numbers of a line: after its first letter, a space and a number for each range
    (low, high), then a line feed. The line is given with its line feed, if it has one."""
    at = 1

    def expect(fits):
        if at == len(line):
            raise SetFault(6, number, at + 1)
        if not fits:
            raise SetFault(2, number, at + 1)

    values = []
    for low, high in ranges:
        expect(line[at:at + 1] == b" ")
        at += 1
        digits = re.match(rb"0|[1-9][0-9]{0,2}", line[at:])
        expect(digits)
        value = int(digits.group())
        if not low <= value <= high:
            raise SetFault(3, number, at + 1)
        values.append(value)
        at += len(digits.group())
    expect(line[at:at + 1] == b"\n")
    return values


def read_set(text):
    """The set that a text says, or a SetFault."""
    if len(text) > MAX_TEXT:
        raise SetFault(7, 0, 0)
    pile, row, tiles = None, None, []
    lines = re.findall(rb"[^\n]*\n|[^\n]+", text)
    for number, line in enumerate(lines, 1):
        first = line[:1]
        if first not in (b"p", b"t", b"f", b"#", b"\n"):
            raise SetFault(1, number, 1)
        if first == b"p":
            if pile is not None:
                raise SetFault(4, number, 1)
            pile, = read_form(line, number, [(1, 6)])
        elif first == b"f":
            if pile is None or row is not None or tiles:
                raise SetFault(4, number, 1)
            row, = read_form(line, number, [(1, 8)])
        elif first == b"t":
            if pile is None or row is not None:
                raise SetFault(4, number, 1)
            if len(tiles) == MAX_TILES:
                raise SetFault(5, number, 1)
            tiles.append(tuple(read_form(line, number, [(0, 255)] * 4)))
        elif not line.endswith(b"\n"):
            raise SetFault(6, number, len(line) + 1)
    if row is None and not tiles:
        raise SetFault(6, len(lines) + 1, 1)
    return Set(pile, row, tiles)


# Transducers

def list_transducer(tiles):
    """Slot i holds tile i."""
    states = 1 + max(max(west, east) for west, east, _, _ in tiles)
    letters = 1 + max(max(south, north) for _, _, south, north in tiles)
    return Transducer(states, letters, len(tiles), dict(enumerate(tiles)))


def catalogue_transducer(row):
    """The transducer that multiplies by p and divides by d."""
    p, d, low, high = CATALOGUE[row]
    states = p + d - 1
    span = high - low + 1
    edges = {}
    for west in range(states):
        for south in range(low, high + 1):
            for north in range(low, high + 1):
                carry = p * south + (west - (p - 1)) - d * north
                if 1 - p <= carry <= d - 1:
                    slot = (west * span + south - low) * span + north - low
                    edges[slot] = (west, carry + p - 1, south, north)
    return Transducer(states, high + 1, states * span * span, edges)


def stack(lower, upper):
    """The transducer of upper on lower, or a PileFault."""
    if lower.states * upper.states > MAX_STATES:
        raise PileFault(31)
    if lower.slots * upper.slots > MAX_SLOTS:
        raise PileFault(32)
    by_south = defaultdict(list)
    for slot, edge in upper.edges.items():
        by_south[edge[2]].append((slot, edge))
    edges = {}
    for low_slot, (low_start, low_end, south, middle) in lower.edges.items():
        for up_slot, (up_start, up_end, _, north) in by_south[middle]:
            edges[low_slot * upper.slots + up_slot] = (
                low_start * upper.states + up_start, low_end * upper.states + up_end,
                south, north)
    return Transducer(lower.states * upper.states, max(lower.letters, upper.letters),
                      lower.slots * upper.slots, edges)


def turn(t):
    """The transducer with states and letters exchanged."""
    edges = {slot: (south, north, start, end)
             for slot, (start, end, south, north) in t.edges.items()}
    return Transducer(t.letters, t.states, t.slots, edges)


def trim(t):
    """The transducer with the edges between kept states only."""
    edges = t.edges
    while True:
        kept = {e[0] for e in edges.values()} & {e[1] for e in edges.values()}
        fewer = {slot: e for slot, e in edges.items() if e[0] in kept and e[1] in kept}
        if len(fewer) == len(edges):
            return t._replace(edges=edges)
        edges = fewer


def build_pile(the_set):
    """The transducer that the papers speak of, or a PileFault."""
    if the_set.row is None:
        t = list_transducer(the_set.tiles)
    else:
        t = catalogue_transducer(the_set.row)
    if the_set.pile == 2:
        return turn(t)
    if the_set.pile in (3, 5, 6):
        t = stack(t, t)
    if the_set.pile == 6:
        t = stack(t, t)
    return trim(t) if the_set.pile in (4, 5) else t


# Papers

def check_sum(block):
    """The check that a block's first 508 bytes call for."""
    return sum((i + 1) * byte for i, byte in enumerate(block[:508]))


def read_paper(data):
    """The kind and the numbers of a paper, or a PaperFault (11 to 16)."""
    count = len(data) // BLOCK
    if len(data) % BLOCK or not 1 <= count <= MAX_BLOCKS:
        raise PaperFault(11, 0)
    numbers = []
    for k in range(count):
        block = data[k * BLOCK:(k + 1) * BLOCK]
        place, kind, used = struct.unpack_from("<HBB", block)
        if struct.unpack_from("<I", block, 508)[0] != check_sum(block):
            raise PaperFault(12, k)
        if place != k:
            raise PaperFault(13, k)
        if not STRIP <= kind <= TORUS or kind != data[2]:
            raise PaperFault(14, k)
        if not (1 if k == count - 1 else BLOCK_NUMBERS) <= used <= BLOCK_NUMBERS:
            raise PaperFault(15, k)
        values = struct.unpack_from("<126I", block, 4)
        if any(values[used:]):
            raise PaperFault(16, k)
        numbers += values[:used]
    return kind, numbers


def check_row(t, numbers, first, width, closed):
    """Faults 33, 34 and, if the row must close, 35 of the cells from place first on."""
    for place in range(first, first + width):
        if numbers[place] not in t.edges:
            raise PaperFault(33, place)
        if place > first and t.edges[numbers[place - 1]][1] != t.edges[numbers[place]][0]:
            raise PaperFault(34, place)
    if closed and t.edges[numbers[first + width - 1]][1] != t.edges[numbers[first]][0]:
        raise PaperFault(35, first + width - 1)


def check_torus(t, numbers):
    """Faults 17 and 33 to 36 of a torus."""
    if len(numbers) < 3:
        raise PaperFault(17, 0)
    width, rows = numbers[:2]
    if not (1 <= width <= MAX_CELLS and 1 <= rows <= MAX_CELLS):
        raise PaperFault(17, 0)
    cells = width * rows
    if len(numbers) != 2 + cells:
        raise PaperFault(17, 0)
    for row in range(rows):
        check_row(t, numbers, 2 + row * width, width, True)
    for cell in range(cells):
        above = (cell + width) % cells
        if t.edges[numbers[2 + cell]][3] != t.edges[numbers[2 + above]][2]:
            raise PaperFault(36, 2 + cell)


def check_ranking(t, ranks):
    """Faults 37, 18 and 38 of a ranking."""
    if len(ranks) != t.states:
        raise PaperFault(37, 0)
    for place, rank in enumerate(ranks):
        if rank > MAX_RANK:
            raise PaperFault(18, place)
    for slot, (start, end, _, _) in t.edges.items():
        if ranks[end] >= ranks[start]:
            raise PaperFault(38, slot)


def judge_paper(t, data):
    """What an accepted paper shows, as a pair of bounds (floor, ceiling), or a PaperFault."""
    kind, numbers = read_paper(data)
    if kind == RANKING:
        check_ranking(t, numbers)
        return 0, max(numbers)
    if kind == TORUS:
        check_torus(t, numbers)
        return ENDLESS, ENDLESS
    check_row(t, numbers, 0, len(numbers), kind == RING)
    return (ENDLESS if kind == RING else len(numbers)), ENDLESS


# The whole run

def show(bound):
    """A bound in digits, or endless."""
    return "endless" if bound == ENDLESS else str(bound)


def judge(text, papers):
    """The lines that judge prints for a set text and its papers, all given as bytes."""
    try:
        t = build_pile(read_set(text))
    except SetFault as fault:
        return ["set refused %d line %d column %d" % fault.args]
    except PileFault as fault:
        return ["pile refused %d" % fault.args]
    lines = []
    floor, ceiling = 0, ENDLESS
    for k, data in enumerate(papers, 1):
        try:
            least, most = judge_paper(t, data)
        except PaperFault as fault:
            lines.append("paper %d refused %d at %d" % (k, *fault.args))
            continue
        floor, ceiling = max(floor, least), min(ceiling, most)
        lines.append(f"paper {k} accepted floor {show(floor)} ceiling {show(ceiling)}")
    return lines


def read_file(path):
    """The bytes of a file, or None if it is missing."""
    try:
        with open(path, "rb") as file:
            return file.read()
    except FileNotFoundError:
        return None


def main():
    folder = sys.argv[1] if len(sys.argv) > 1 else "."
    text = read_file(os.path.join(folder, "set.txt")) or b""
    papers = []
    for k in range(1, 10):
        data = read_file(os.path.join(folder, f"paper{k}.bin"))
        if data is None:
            break
        papers.append(data)
    for line in judge(text, papers):
        print(line)


if __name__ == "__main__":
    main()

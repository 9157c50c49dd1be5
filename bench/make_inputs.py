#!/usr/bin/env python3
"""Writes the inputs of the benchmark into a folder: set texts (NAME.txt) and papers (NAME.bin)."""
import os
import random
import sys

KINDS = {"strip": 1, "ring": 2, "ranking": 3, "torus": 4}
BLOCK_NUMBERS = 126


def paper(kind, numbers):
    """The bytes of a paper of whole blocks."""
    blocks = []
    for place in range(0, len(numbers), BLOCK_NUMBERS):
        part = numbers[place : place + BLOCK_NUMBERS]
        head = (place // BLOCK_NUMBERS).to_bytes(2, "little") + bytes([KINDS[kind], len(part)])
        words = b"".join(n.to_bytes(4, "little") for n in part)
        block = (head + words).ljust(508, b"\0")
        check = sum((i + 1) * byte for i, byte in enumerate(block))
        blocks.append(block + check.to_bytes(4, "little"))
    return b"".join(blocks)


def set_text(pile, tiles):
    lines = ["p %d" % pile] + ["t %d %d %d %d" % tile for tile in tiles]
    return ("\n".join(lines) + "\n").encode()


def falling_tiles(dice, count, states, letters):
    """Tiles whose east is always less than their west, so that the rank of a state can be the state."""
    tiles = [(states - 1, 0, 0, 0)]
    while len(tiles) < count:
        west = dice.randrange(1, states)
        east = dice.randrange(west)
        tiles.append((west, east, dice.randrange(letters), dice.randrange(letters)))
    return tiles


def pair_ranks(ranks):
    """The ranks of a stack's states: the sum of the ranks of both parts."""
    return [a + b for a in ranks for b in ranks]


def ranking_inputs(dice):
    """Rankings over 1,048,576 slots; dense has one letter, so that all slots hold an edge."""
    for name, letters in (("dense", 1), ("sparse", 256)):
        tiles = falling_tiles(dice, 1024, 64, letters)
        yield "two_%s.txt" % name, set_text(3, tiles)
        yield "two_trim_%s.txt" % name, set_text(5, tiles)
    yield "two_ranking.bin", paper("ranking", pair_ranks(range(64)))
    for name, letters in (("dense", 1), ("sparse", 8)):
        yield "four_%s.txt" % name, set_text(6, falling_tiles(dice, 32, 8, letters))
    yield "four_ranking.bin", paper("ranking", pair_ranks(pair_ranks(range(8))))


def round_tiles(dice):
    """1,024 tiles, eight that leave each of 64 states with each of two south letters."""
    tiles = [(w, dice.randrange(64), s, dice.randrange(2)) for w in range(64) for s in range(2) for _ in range(8)]
    dice.shuffle(tiles)
    return tiles


def plain_walk(dice, tiles, steps):
    state, walk = tiles[0][0], []
    for _ in range(steps):
        slot = dice.choice([i for i, t in enumerate(tiles) if t[0] == state])
        state = tiles[slot][1]
        walk.append(slot)
    return walk


def stack_walk(dice, tiles, steps):
    low = high = tiles[0][0]
    walk = []
    for _ in range(steps):
        lower = dice.choice([i for i, t in enumerate(tiles) if t[0] == low])
        upper = dice.choice([i for i, t in enumerate(tiles) if t[0] == high and t[2] == tiles[lower][3]])
        low, high = tiles[lower][1], tiles[upper][1]
        walk.append(lower * len(tiles) + upper)
    return walk


def strip_inputs(dice):
    tiles = round_tiles(dice)
    yield "round_plain.txt", set_text(1, tiles)
    yield "round_two.txt", set_text(3, tiles)
    yield "round_trim.txt", set_text(5, tiles)
    yield "strip_plain.bin", paper("strip", plain_walk(dice, tiles, 8064))
    yield "strip_two.bin", paper("strip", stack_walk(dice, tiles, 8064))


def torus_inputs(dice):
    """All tiles of five states and five letters, so that any colouring of a torus is a tiling."""
    wide, high, colours = 58, 139, 5
    tiles = [(w, e, s, n) for w in range(5) for e in range(5) for s in range(5) for n in range(5)]
    across = [[dice.randrange(colours) for _ in range(wide)] for _ in range(high)]
    upward = [[dice.randrange(colours) for _ in range(wide)] for _ in range(high)]
    cells = []
    for row in range(high):
        for i in range(wide):
            west, east = across[row][i], across[row][(i + 1) % wide]
            south, north = upward[row][i], upward[(row + 1) % high][i]
            cells.append(((west * 5 + east) * 5 + south) * 5 + north)
    yield "all_plain.txt", set_text(1, tiles)
    yield "torus_plain.bin", paper("torus", [wide, high] + cells)


def text_inputs(dice):
    """65,535 bytes: a p line, 1,024 t lines, and # lines and empty lines between them."""
    lines = ["p 3"]
    size = 4
    for k in range(1024):
        tile = [dice.randrange(64), dice.randrange(64), dice.randrange(256), dice.randrange(256)]
        line = "t %d %d %d %d" % tuple(tile)
        note = "# " + "tile %d of the set, and what is said of it" % k if k % 2 else ""
        lines += [line, note]
        size += len(line) + len(note) + 2
    while 65535 - size > 80:
        lines.append("# " + "." * 60)
        size += 63
    lines.append("#" * (65535 - size - 1))
    yield "long.txt", ("\n".join(lines) + "\n").encode()


def main():
    folder = sys.argv[1]
    dice = random.Random(20)
    for make in (ranking_inputs, strip_inputs, torus_inputs, text_inputs):
        for name, data in make(dice):
            with open(os.path.join(folder, name), "wb") as f:
                f.write(data)


main()

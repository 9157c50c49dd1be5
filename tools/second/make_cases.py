#!/usr/bin/env python3
"""Makes the cases on which two programs must agree: make_cases.py

Writes crates/cases/data/cases.bin and crates/cases/stdout, always the same bytes.

cases.bin, numbers of 32 bits least byte first, one case after another:
    number      length of the set text, or 0xFFFFFFFF: no more cases, the file ends here
    bytes       the set text
    one byte    count of papers, 0 to 9
    then for each paper
    number      length of the paper
    bytes       the paper
stdout has for each case a line `case N`, N from 1, and the lines that judge prints.

Many cases are made with an outcome in mind. It is stated beside them and compared with
what judge.py says; a difference ends the run.
"""
import os
import random
import struct
import sys
from collections import Counter, defaultdict

sys.dont_write_bytecode = True  # leaves no folder of compiled files here
import judge
from judge import RANKING, RING, STRIP, TORUS, BLOCK, BLOCK_NUMBERS

CRATE = os.path.join(os.path.dirname(os.path.abspath(__file__)), "..", "..", "crates", "cases")
CASES = os.path.join(CRATE, "data", "cases.bin")
EXPECTED = os.path.join(CRATE, "stdout")
END = 0xFFFFFFFF
TOP = 0xFFFFFFFF
ALL = judge.MAX_BLOCKS * BLOCK_NUMBERS
START = 20260101

SET_A = [(0, 1, 0, 0), (1, 2, 0, 0)]
BITS = [(0, 0, south, north) for south in (0, 1) for north in (0, 1)]


# Cases

class Cases:
    """The cases so far and the lines that they give."""

    def __init__(self):
        self.cases, self.lines = [], []

    def add(self, text, papers=(), want=None):
        """Adds one case. want: its lines; those of papers may leave out `paper K ` and
        all that follows `accepted`."""
        lines = judge.judge(text, papers)
        if want is not None:
            fits = len(want) == len(lines) and all(
                line in (w, f"paper {k} {w}") or
                w == "accepted" and line.startswith(f"paper {k} accepted ")
                for k, (w, line) in enumerate(zip(want, lines), 1))
            if not fits:
                sys.exit(f"case {len(self.cases) + 1}: wanted {want}, found {lines}")
        assert len(papers) <= 9 and all(sound(line) for line in lines)
        self.cases.append((text, list(papers)))
        self.lines.append(lines)

    def add_papers(self, text, pairs):
        """Adds papers, each with the outcome in mind, nine to a case."""
        for i in range(0, len(pairs), 9):
            part = pairs[i:i + 9]
            self.add(text, [data for data, _ in part], [want for _, want in part])


def sound(line):
    """No docket may have its floor above its ceiling."""
    words = line.split()
    if words[2] != "accepted":
        return True
    return float(words[4].replace("endless", "inf")) <= float(words[6].replace("endless", "inf"))


def pack(cases):
    """All cases as the bytes of cases.bin."""
    parts = []
    for text, papers in cases:
        parts += [struct.pack("<I", len(text)), text, bytes([len(papers)])]
        for data in papers:
            parts += [struct.pack("<I", len(data)), data]
    return b"".join(parts) + struct.pack("<I", END)


def unpack(data):
    """The cases that the bytes of cases.bin hold."""
    cases, at = [], 0

    def take(count):
        nonlocal at
        at += count
        return data[at - count:at]

    while True:
        length, = struct.unpack("<I", take(4))
        if length == END:
            assert at == len(data)
            return cases
        text = take(length)
        papers = [take(struct.unpack("<I", take(4))[0]) for _ in range(take(1)[0])]
        cases.append((text, papers))


# Texts and papers

def set_text(pile, bottom):
    """The plain text of a pile over a catalogue row (a number) or a list of tiles."""
    lines = [f"p {pile}"]
    if isinstance(bottom, int):
        lines.append(f"f {bottom}")
    else:
        lines += ["t %d %d %d %d" % tuple(tile) for tile in bottom]
    return "".join(line + "\n" for line in lines).encode()


def pile_of(pile, bottom):
    return judge.build_pile(judge.read_set(set_text(pile, bottom)))


def paper(kind, numbers):
    """A well-formed paper."""
    blocks = []
    for k, first in enumerate(range(0, len(numbers), BLOCK_NUMBERS)):
        part = numbers[first:first + BLOCK_NUMBERS]
        body = struct.pack("<HBB", k, kind, len(part)) + struct.pack(f"<{len(part)}I", *part)
        blocks.append(sealed(body.ljust(BLOCK, b"\0")))
    return b"".join(blocks)


def sealed(block):
    """The block with a right check."""
    return block[:508] + struct.pack("<I", judge.check_sum(block))


def damaged(data, k, at, new, seal=True):
    """The paper with new bytes at a place of block k, its check made right if seal."""
    block = bytearray(data[k * BLOCK:(k + 1) * BLOCK])
    block[at:at + len(new)] = new
    block = sealed(bytes(block)) if seal else bytes(block)
    return data[:k * BLOCK] + block + data[(k + 1) * BLOCK:]


def changed(numbers, place, new):
    """The numbers with another one at a place."""
    return numbers[:place] + [new] + numbers[place + 1:] if place >= 0 \
        else changed(numbers, len(numbers) + place, new)


# Search

def steps(t):
    """From each state, the (slot, state) that follow."""
    out = defaultdict(list)
    for slot, (start, end, _, _) in t.edges.items():
        out[start].append((slot, end))
    return out


def find_ranks(t):
    """For each state the length of the longest strip from it, or None if there is a ring."""
    back, left = defaultdict(list), [0] * t.states
    for start, end, _, _ in t.edges.values():
        back[end].append(start)
        left[start] += 1
    ranks = [0] * t.states
    ready = [state for state in range(t.states) if not left[state]]
    for state in ready:
        for before in back[state]:
            ranks[before] = max(ranks[before], ranks[state] + 1)
            left[before] -= 1
            if not left[before]:
                ready.append(before)
    return ranks if len(ready) == t.states else None


def longest_strip(t, ranks):
    """A strip as long as the greatest rank."""
    out, state, strip = steps(t), ranks.index(max(ranks)), []
    while ranks[state]:
        slot, state = next(s for s in out[state] if ranks[s[1]] == ranks[state] - 1)
        strip.append(slot)
    return strip


def find_cycle(out, rng):
    """The labels along a closed walk of a graph {node: [(label, next node)]}, or None."""
    done = set()
    for root in rng.sample(sorted(out), len(out)):
        path, on_path, labels = [(root, iter(out[root]))], {root: 0}, []
        while path and root not in done:
            node, rest = path[-1]
            for label, after in rest:
                if after in on_path:
                    return labels[on_path[after]:] + [label]
                if after in out and after not in done:
                    on_path[after] = len(path)
                    labels.append(label)
                    path.append((after, iter(rng.sample(out[after], len(out[after])))))
                    break
            else:
                done.add(node)
                del on_path[node]
                path.pop()
                if labels:
                    labels.pop()
    return None


def walk(t, length, rng):
    """A strip of at most so many cells, found by walking at random."""
    out = steps(t)
    start, strip = rng.choice(sorted(out)), []
    while len(strip) < length and out[start]:
        slot, start = rng.choice(out[start])
        strip.append(slot)
    return strip


def closed_walk(t, length, rng, tries=400):
    """A ring of exactly so many cells found by walking at random, or None."""
    for _ in range(tries if t.edges else 0):
        ring = walk(t, length, rng)
        if len(ring) == length and t.edges[ring[-1]][1] == t.edges[ring[0]][0]:
            return ring
    return None


def find_torus(t, width, rng, limit=3000):
    """The numbers of a torus of this width, or None if the search finds none."""
    rows = []
    out = steps(t)

    def extend(row, first, state):
        if len(rows) >= limit:
            return
        if len(row) == width:
            if state == first:
                rows.append(row)
            return
        for slot, after in out[state]:
            extend(row + [slot], first, after)

    for state in sorted(out):
        extend([], state, state)
    words = defaultdict(list)
    for row in rows:
        words[tuple(t.edges[s][2] for s in row)].append((row, tuple(t.edges[s][3] for s in row)))
    cycle = find_cycle(words, rng)
    if cycle is None or width * len(cycle) > judge.MAX_CELLS:
        return None
    return [width, len(cycle)] + sum(cycle, [])


def bit_torus(width, rows, rng):
    """A torus over the four tiles BITS: any pattern of bits is one."""
    bits = [[rng.randrange(2) for _ in range(width)] for _ in range(rows)]
    return [width, rows] + [2 * bits[y][x] + bits[(y + 1) % rows][x]
                            for y in range(rows) for x in range(width)]


# Parts

def samples(cases):
    """The samples that the rules give."""
    one, turned, trimmed = (set_text(p, SET_A) for p in (1, 2, 4))
    cases.add(one, [paper(STRIP, [0, 1])], ["accepted floor 2 ceiling endless"])
    cases.add(one, [paper(STRIP, [1, 0])], ["refused 34 at 1"])
    cases.add(one, [paper(RANKING, [2, 1, 0])], ["accepted floor 0 ceiling 2"])
    cases.add(one, [paper(RANKING, [2, 0, 1])], ["refused 38 at 1"])
    cases.add(one, [paper(RING, [0])], ["refused 35 at 0"])
    cases.add(turned, [paper(RING, [0])], ["accepted floor endless ceiling endless"])
    cases.add(turned, [paper(TORUS, [1, 1, 0])], ["refused 36 at 2"])
    cases.add(trimmed, [paper(RANKING, [0, 0, 0])], ["accepted floor 0 ceiling 0"])
    cases.add(set_text(1, 7), [paper(TORUS, [1, 1, 0])], ["accepted floor endless ceiling endless"])
    cases.add(set_text(1, 7), [paper(TORUS, [1, 1, 1])], ["refused 33 at 2"])
    cases.add(b"p 1\nt 0 0 0 256\n", [], ["set refused 3 line 2 column 9"])


def text_faults(cases):
    """Short texts, each with its fault, line and column."""
    p, t, f = b"p 1\n", b"t 0 0 0 0\n", b"f 7\n"
    table = [
        (1, 1, 1, [b"x", b"x\n", b" p 1\n", b"\r\n", b"\0", b"\xff", b"P 1\n", b"0\n", b"o 1\n",
                   b"q 1\n", b"\"\n", b"$\n", b"\t\n", b"\x0b"]),
        (1, 2, 1, [p + b"q", p + b" \n", b"\nx", b"#\nx"]),
        (1, 3, 1, [p + t + b" \n", p + f + b"\r\n", p + t + b"1 2 3 4\n", b"#\n\n\\"]),
        (2, 1, 2, [b"pp", b"p\n", b"p\t1\n", b"p1\n", b"p\0", b"p#\n"]),
        (2, 1, 3, [b"p  1\n", b"p x", b"p \n", b"p -1\n", b"p /\n", b"p :\n", b"p +1\n"]),
        (2, 1, 4, [b"p 1 \n", b"p 1x", b"p 1\r\n", b"p 6#\n", b"p 1p"]),
        (2, 2, 2, [p + b"t0", p + b"f8\n", p + b"t\n", p + b"f\n", p + b"tt"]),
        (2, 2, 3, [p + b"f  1\n", p + b"t  0 0 0 0\n", p + b"t -1 0 0 0\n", p + b"t \n",
                   p + b"f \n", p + b"t /", p + b"t :"]),
        (2, 2, 4, [p + b"t 00 0 0 0\n", p + b"t 01 0 0 0\n", p + b"f 1 \n", p + b"f 8x\n",
                   p + b"t 0\n", p + b"t 0,0,0,0\n"]),
        (2, 2, 6, [p + b"t 1 01 0 0\n", p + b"t 2550 0 0 0\n", p + b"t 2555", p + b"t 255\n",
                   p + b"t 1000 0 0 0\n"]),
        (2, 2, 8, [p + b"t 0 0 0\n", p + b"t 0 0 00 0\n", p + b"t 1 2 3\t4\n"]),
        (2, 2, 10, [p + b"t 0 0 0 0 \n", p + b"t 0 0 0 0 0\n", p + b"t 0 0 0 00\n",
                    p + b"t 0 0 0 0\r\n", p + b"t 0 0 0 0\0", p + b"t 0 0 0 0t 0 0 0 0\n"]),
        (2, 2, 18, [p + b"t 255 255 255 255x\n", p + b"t 255 255 255 2551\n",
                    p + b"t 255 255 255 255 "]),
        (3, 1, 3, [b"p 0\n", b"p 7\n", b"p 8\n", b"p 9\n", b"p 10\n", b"p 16\n", b"p 256\n",
                   b"p 257\n", b"p 999\n", b"p 1000\n", b"p 01\n", b"p 0", b"p 7", b"p 7x",
                   b"p 12x", b"p 99999999999999999999\n"]),
        (3, 2, 3, [p + b"f 0\n", p + b"f 9\n", p + b"f 10\n", p + b"f 256\n", p + b"f 9",
                   p + b"f 81\n", p + b"f 08\n", p + b"f 264\n", p + b"t 256 0 0 0\n",
                   p + b"t 999 0 0 0\n", p + b"t 2560 0 0 0\n", p + b"t 256", p + b"t 300x",
                   p + b"t 256 256 x\n", p + b"t 9999999999 0 0 0\n"]),
        (3, 2, 5, [p + b"t 0 256 0 0\n", p + b"t 0 257 x\n"]),
        (3, 2, 7, [p + b"t 0 0 256 0\n", p + b"t 255 300 0 0\n", p + b"t 0 0 512 256\n"]),
        (3, 2, 9, [p + b"t 0 0 0 256\n", p + b"t 1 2 3 999"]),
        (3, 2, 15, [p + b"t 255 255 255 256\n", p + b"t 255 255 255 256"]),
        (4, 1, 1, [t, f, b"t", b"f", b"txyz\n", b"f 9\n", b"t 256 0 0 0\n", b"f\n"]),
        (4, 2, 1, [p + p, p + b"p", p + b"p 9\n", p + b"pxx", b"#\nt", b"\nf"]),
        (4, 3, 1, [p + t + p, p + t + f, p + f + t, p + f + f, p + f + p, p + t + b"p",
                   p + t + b"f 99\n", p + f + b"t 256\n", p + f + b"fxx", p + f + b"p"]),
        (4, 4, 1, [p + t + t + f, p + b"#\n" + f + f, p + f + b"\n" + t]),
        (6, 1, 1, [b""]),
        (6, 2, 1, [b"\n", b"#\n", p, b"# t 0 0 0 0\n"]),
        (6, 3, 1, [p + b"\n", p + b"# f 1\n", b"\n\n", b"#x\n#y\n"]),
        (6, 1, 2, [b"#"]),
        (6, 1, 6, [b"#p 1 "]),
        (6, 3, 3, [p + t + b"# ", p + f + b"##", p + t + b"t "]),
    ]
    for fault, line, column, texts in table:
        for text in texts:
            cases.add(text, [], [f"set refused {fault} line {line} column {column}"])
    good = [p + b"t 10 2 0 255\n# ends\n", b"\n" + p + b"f 8\n"]
    for text in good:
        for k in range(1, len(text)):
            part = text[:k].split(b"\n")
            if part[-1]:
                cases.add(text[:k], [], [f"set refused 6 line {len(part)} "
                                         f"column {len(part[-1]) + 1}"])
    # The first faulty line wins, whatever comes after it.
    cases.add(b"p 1\nt 0 0 0 0x\nzzz\np 1\n", [], ["set refused 2 line 2 column 10"])
    cases.add(b"#\n\nx\np 9\n", [], ["set refused 1 line 3 column 1"])
    # Texts that are good although they look odd.
    two = [paper(STRIP, [0]), paper(STRIP, [1])]
    for text in (p + t, b"#\0\xff\r #\n\n" + p + b"\n#t\n" + t + b"\n\n#p 1\n#\n",
                 b"##\n" + p + f + b"#f 1\n\n"):
        cases.add(text, two, ["accepted", "refused 33 at 0"])
    for text in (p + t + b"t 255 255 255 255\n", p + t + b"\n# t 9 9 9 9\nt 100 10 1 0\n"):
        cases.add(text, two, ["accepted", "accepted"])


def long_texts(cases):
    """The longest texts, and the most tiles."""
    p, t, most = b"p 1\n", b"t 0 0 0 0\n", judge.MAX_TEXT
    strip = paper(STRIP, [1023])

    def fill(head, tail, size=most):
        return head + b"\n" * (size - len(head) - len(tail)) + tail

    full = p + b"t 255 255 255 255\n" * 1023 + t
    cases.add(full, [strip], ["accepted floor 1 ceiling endless"])
    cases.add(p + t * 1024, [strip, paper(STRIP, [1024])], ["accepted", "refused 33 at 0"])
    cases.add(p + t * 1024 + t, [], ["set refused 5 line 1026 column 1"])
    for tail, fault in ((b"t", 5), (b"txx", 5), (b"t 256", 5), (b"p", 4), (b"f 1\n", 4), (b"x", 1)):
        cases.add(p + t * 1024 + tail, [], [f"set refused {fault} line 1026 column 1"])
    cases.add(p + t * 1024 + b"#", [], ["set refused 6 line 1026 column 2"])
    cases.add(p + t * 1024 + b"\n#\n", [strip], ["accepted"])
    cases.add(p + b"#" * (most - 15) + b"\n" + t, [paper(RING, [0])], ["accepted"])
    cases.add(b"#" * most, [], [f"set refused 6 line 1 column {most + 1}"])
    cases.add(b"\n" * most, [], [f"set refused 6 line {most + 1} column 1"])
    cases.add(b"\n" * (most - 1) + b"x", [], [f"set refused 1 line {most} column 1"])
    cases.add(fill(p, b"p"), [], [f"set refused 4 line {most - 3} column 1"])
    cases.add(fill(p + t * 1024, b"t"), [], [f"set refused 5 line {most - 3 - 9 * 1024} column 1"])
    cases.add(full[:-len(t)] + b"t 255 255 255 256", [], ["set refused 3 line 1025 column 15"])
    cases.add(full[:-1] + b" ", [], ["set refused 2 line 1025 column 10"])
    cases.add(fill(p + t, b"", most + 1), [], ["set refused 7 line 0 column 0"])
    cases.add(b"x" * (most + 1), [], ["set refused 7 line 0 column 0"])


def text_noise(cases, rng):
    """Good texts with a few bytes put in, taken out or exchanged."""
    signs = b"ptf# \n01256789x\r\0\xff"
    goods = [b"p 1\nt 0 1 0 0\nt 1 2 0 0\n", b"#a\n\np 3\nf 7\n", b"p 5\n\nt 0 0 1 1\n#\nt 1 0 25 1\n",
             b"p 6\nf 3\n", b"p 2\n#x\nt 12 0 0 12\n"]
    for _ in range(150):
        text = bytearray(rng.choice(goods))
        for _ in range(rng.choice((1, 1, 1, 2, 3))):
            at = rng.randrange(len(text) + 1)
            text[at:at + rng.randrange(2)] = bytes([rng.choice(signs)] * rng.randrange(2))
        refused = judge.judge(bytes(text), [])
        papers = [paper(STRIP, [slot]) for slot in range(2)]
        cases.add(bytes(text), papers[:1] if refused and rng.randrange(4) == 0 else
                  [] if refused else papers)


def paper_faults(cases, rng):
    """Faults 11 to 16, in the first, a middle and the last block."""
    text = set_text(1, BITS)
    one = paper(STRIP, [0, 3, 0])
    full = paper(STRIP, [0, 3] * 63)
    two = paper(STRIP, [0] * 130)
    three = paper(RING, [3] * 300)
    large = paper(STRIP, [rng.choice((0, 3)) for _ in range(ALL)])
    pairs = [(one, "accepted"), (full, "accepted"), (two, "accepted"), (three, "accepted")]
    sizes = [b"", one[:1], one[:256], one[:511], one + b"\0", two[:1023], two + one[:1],
             b"\0" * 511]
    pairs += [(data, "refused 11 at 0") for data in sizes]
    pairs += [(b"\0" * 512, "refused 14 at 0"), (b"\xff" * 512, "refused 12 at 0"),
              (one + b"\0" * 512, "refused 15 at 0"), (full + b"\0" * 512, "refused 13 at 1")]
    # 12: each part of a block, low and high bytes of the check.
    for at in (0, 1, 2, 3, 4, 15, 16, 507, 508, 509, 510, 511):
        pairs.append((damaged(one, 0, at, b"\x81", False), "refused 12 at 0"))
    for k in (0, 1, 2):
        for at in (0, 4, 507, 508, 511):
            pairs.append((damaged(three, k, at, b"\x47", False), f"refused 12 at {k}"))
    exchanged = bytearray(one)
    exchanged[4:6], exchanged[8:10] = exchanged[8:10], exchanged[4:6]
    pairs.append((bytes(exchanged), "refused 12 at 0"))
    # 13
    for field in (b"\1\0", b"\0\1", b"\xff\xff", b"\x40\0"):
        pairs.append((damaged(one, 0, 0, field), "refused 13 at 0"))
    for field in (b"\0\0", b"\2\0", b"\1\1", b"\xff\0"):
        pairs.append((damaged(three, 1, 0, field), "refused 13 at 1"))
    pairs.append((three[512:1024] + three[:512] + three[1024:], "refused 13 at 0"))
    pairs.append((three[:512] + three[1024:] + three[512:1024], "refused 13 at 1"))
    # 14
    for kind in (0, 5, 6, 128, 255):
        pairs.append((damaged(one, 0, 2, bytes([kind])), "refused 14 at 0"))
        pairs.append((damaged(three, 2, 2, bytes([kind])), "refused 14 at 2"))
    for kind in (STRIP, RANKING, TORUS):
        pairs.append((damaged(three, 1, 2, bytes([kind])), "refused 14 at 1"))
    # 15
    for count in (0, 127, 128, 255):
        pairs.append((damaged(one, 0, 3, bytes([count])), "refused 15 at 0"))
        pairs.append((damaged(three, 2, 3, bytes([count])), "refused 15 at 2"))
    for count in (0, 1, 125, 127, 255):
        pairs.append((damaged(three, 0, 3, bytes([count])), "refused 15 at 0"))
        pairs.append((damaged(three, 1, 3, bytes([count])), "refused 15 at 1"))
    # 16: three numbers in block 0, or 48 in block 2, are followed by nothing.
    for at in (16, 17, 18, 19, 20, 300, 504, 507):
        pairs.append((damaged(one, 0, at, b"\1"), "refused 16 at 0"))
    for at in (196, 199, 504, 507):
        pairs.append((damaged(three, 2, at, b"\x80"), "refused 16 at 2"))
    pairs.append((damaged(one, 0, 3, b"\2"), "accepted"))
    pairs.append((damaged(paper(STRIP, [0, 3, 3]), 0, 3, b"\2"), "refused 16 at 0"))
    pairs.append((damaged(full, 0, 3, b"\x7d"), "refused 16 at 0"))
    # The order of faults within a block, and block before block.
    bad = one
    for at, new, fault in ((504, b"\1", 16), (3, b"\x7f", 15), (2, b"\x09", 14), (0, b"\1", 13)):
        bad = damaged(bad, 0, at, new)
        pairs.append((bad, f"refused {fault} at 0"))
    pairs.append((damaged(bad, 0, 508, b"\xee", False), "refused 12 at 0"))
    pairs.append((damaged(damaged(three, 0, 3, b"\1"), 1, 508, b"\xff", False), "refused 15 at 0"))
    pairs.append((damaged(damaged(three, 2, 0, b"\7"), 1, 3, b"\7"), "refused 15 at 1"))
    # A fault of form before any fault of content.
    pairs.append((damaged(paper(STRIP, [9] * 300), 2, 508, b"\xff", False), "refused 12 at 2"))
    pairs.append((damaged(paper(TORUS, [0] * 300), 2, 507, b"\1"), "refused 16 at 2"))
    cases.add_papers(text, pairs)
    # 64 blocks, and more
    cases.add(text, [large], [f"accepted floor {ALL} ceiling endless"])
    cases.add(text, [large + b"\0"], ["refused 11 at 0"])
    over = large + sealed((struct.pack("<HBB", 64, STRIP, 1)).ljust(BLOCK, b"\0"))
    cases.add(text, [over], ["refused 11 at 0"])
    last = paper(STRIP, [0] * (ALL - 125))
    for new in ((511, b"\1", False, 12), (1, b"\1", True, 13), (2, b"\2", True, 14),
                (3, b"\0", True, 15), (507, b"\1", True, 16)):
        cases.add(text, [damaged(last, 63, *new[:3])], [f"refused {new[3]} at 63"])


def row_faults(cases, rng):
    """Faults 33 to 35 of strips and rings, at the first and last places."""
    # Slots: 0 and 1 stay, 2 and 3 cross, 4 leads to state 2 where nothing goes on.
    tiles = [(0, 0, 0, 0), (1, 1, 0, 0), (0, 1, 0, 0), (1, 0, 0, 0), (0, 2, 0, 0)]
    text = set_text(1, tiles)
    pairs = []
    for kind in (STRIP, RING):
        for width in (1, 2, 7, 126, 127):
            good = [0] * width
            pairs.append((paper(kind, good), "accepted"))
            for place in {0, width // 2, width - 1}:
                for slot in (5, rng.choice((6, 255, 1 << 16, 1 << 20, 1 << 31, TOP))):
                    pairs.append((paper(kind, changed(good, place, slot)), f"refused 33 at {place}"))
            if width > 1:
                pairs.append((paper(kind, changed(good, 1, 1)), "refused 34 at 1"))
                pairs.append((paper(kind, changed(good, -1, 1)), f"refused 34 at {width - 1}"))
                pairs.append((paper(kind, changed(good, 0, 1)), "refused 34 at 1"))
                pairs.append((paper(kind, changed(changed(good, 1, 1), 0, 9)), "refused 33 at 0"))
            end = "accepted" if kind == STRIP else f"refused 35 at {width - 1}"
            pairs.append((paper(kind, changed(good, -1, 2)), end))
            pairs.append((paper(kind, changed(good, -1, 4)), end))
            if width > 2:
                pairs.append((paper(kind, [2] + [1] * (width - 2) + [3]), "accepted"))
                pairs.append((paper(kind, [3] + good[1:]), end))
    cases.add_papers(text, pairs)
    good = [rng.choice((0, 5)) for _ in range(ALL)]
    text = set_text(1, tiles + [(0, 0, 7, 8)])
    for kind, slot, want in (
            (RING, 0, "accepted floor endless ceiling endless"), (STRIP, 6, f"refused 33 at {ALL - 1}"),
            (STRIP, 1, f"refused 34 at {ALL - 1}"), (RING, 2, f"refused 35 at {ALL - 1}")):
        cases.add(text, [paper(kind, changed(good, -1, slot))], [want])
    # Slots without an edge in piles: a lower north that is not the upper south, a slot past the end.
    text = set_text(3, [(0, 0, 0, 1), (0, 0, 1, 0), (0, 0, 1, 1)])
    cases.add_papers(text, [(paper(STRIP, [slot]), "accepted" if slot in (1, 2, 3, 7, 8)
                             else "refused 33 at 0") for slot in list(range(11)) + [TOP]])


def torus_faults(cases, rng):
    """Faults 17 and 33 to 36 of toruses."""
    text = set_text(1, BITS)
    seventeen = [[1], [1, 1], [0, 0], [0, 0, 0], [1, 0, 0], [0, 1, 0], [1, 1, 0, 0], [2, 1, 0],
                 [1, 2, 0], [2, 2, 0, 0, 0], [2, 2, 0, 0, 0, 0, 0], [8063, 1, 0], [1, 8063, 0],
                 [8062, 8062, 0], [65536, 65536, 0], [1 << 31, 2, 0], [TOP, 1, 0], [1, TOP, 0],
                 [TOP, TOP, 0], [65537, 65537] + [0] * 9, [1 << 16, 1 << 16], [3, 0x55555556, 0, 0],
                 [8062, 1, 9], [3, 0xAAAAAAAB, 0], [1, 2, 9], [0, 0] + [0] * 124, [11, 12] + [0] * 131]
    pairs = [(paper(TORUS, n), "refused 17 at 0") for n in seventeen]
    for width, rows in ((1, 1), (1, 2), (2, 1), (2, 2), (3, 5), (1, 124), (124, 1), (31, 4),
                        (5, 25), (25, 5), (10, 25)):
        good = bit_torus(width, rows, rng)
        last = 1 + width * rows
        pairs.append((paper(TORUS, good), "accepted"))
        for place in (2, rng.randrange(2, last + 1), last):
            pairs.append((paper(TORUS, changed(good, place, rng.choice((4, 5, TOP)))),
                          f"refused 33 at {place}"))
        below = last if rows == 1 else last - width
        pairs.append((paper(TORUS, changed(good, 2, good[2] ^ 1)), "refused 36 at 2"))
        pairs.append((paper(TORUS, changed(good, -1, good[-1] ^ 1)), f"refused 36 at {last}"))
        pairs.append((paper(TORUS, changed(good, -1, good[-1] ^ 2)), f"refused 36 at {below}"))
        if width * rows > 1:
            both = changed(changed(good, 2, good[2] ^ 1), -1, 4)
            pairs.append((paper(TORUS, both), f"refused 33 at {last}"))
    cases.add_papers(text, pairs)
    for width, rows in ((8062, 1), (1, 8062)):
        good = bit_torus(width, rows, rng)
        cases.add(text, [paper(TORUS, good)], ["accepted floor endless ceiling endless"])
    good = bit_torus(58, 139, rng)
    cases.add(text, [paper(TORUS, changed(good, -1, good[-1] ^ 1))], ["refused 36 at 8063"])
    # Slots 0 to 3 as above, 4 stays in state 1, 5 leads from 0 to 1, 6 back.
    text = set_text(1, BITS + [(1, 1, 0, 0), (0, 1, 0, 0), (1, 0, 0, 0)])
    table = [
        ([2, 1, 0, 4], "refused 34 at 3"), ([2, 1, 4, 0], "refused 34 at 3"),
        ([1, 1, 5], "refused 35 at 2"), ([2, 1, 0, 5], "refused 35 at 3"),
        ([2, 2, 0, 0, 0, 4], "refused 34 at 5"), ([2, 2, 0, 5, 0, 7], "refused 35 at 3"),
        ([2, 2, 0, 0, 4, 6], "refused 35 at 5"), ([2, 2, 0, 4, 7, 7], "refused 34 at 3"),
        ([2, 2, 0, 0, 4, 4], "accepted"), ([2, 2, 5, 6, 0, 0], "accepted"),
        ([2, 2, 5, 6, 4, 4], "accepted"), ([2, 2, 1, 5, 6, 0], "refused 35 at 3"),
        ([2, 2, 1, 0, 6, 0], "refused 35 at 5"), ([2, 2, 1, 0, 0, 0], "refused 36 at 2"),
        ([2, 2, 0, 0, 1, 0], "refused 36 at 4"), ([2, 2, 0, 0, 0, 1], "refused 36 at 5"),
        ([1, 3, 0, 4, 0], "accepted"), ([1, 3, 0, 6, 0], "refused 35 at 3"),
        ([3, 1, 5, 4, 6], "accepted"), ([3, 1, 5, 4, 4], "refused 35 at 4"),
        ([1, 2, 1, 2], "accepted"), ([1, 2, 2, 1], "accepted"), ([1, 2, 1, 3], "refused 36 at 3"),
        ([2, 2, 1, 0, 2, 0], "accepted"), ([2, 2, 0, 0, 2, 0], "refused 36 at 2"),
        ([2, 2, 2, 0, 0, 4], "refused 34 at 5"), ([2, 3, 1, 1, 2, 2, 5, 4], "refused 35 at 7")]
    cases.add_papers(text, [(paper(TORUS, n), want) for n, want in table])
    cases.add(text, [paper(TORUS, changed(good, -1, 4))], ["refused 34 at 8063"])
    cases.add(text, [paper(TORUS, changed(good, -1, 5))], ["refused 35 at 8063"])


def one_way_toruses(cases):
    """Toruses of three rows in every pile, over nine tiles that count on eastward and northward:
    tile 3i + j leads from i to i + 1 and has j below and j + 1 above, all modulo 3."""
    tiles = [(i, (i + 1) % 3, j, (j + 1) % 3) for i in range(3) for j in range(3)]
    for pile, high in ((1, 1), (2, 1), (3, 2), (4, 1), (5, 2), (6, 4)):
        cells = []
        for y in range(3):
            for x in range(3):
                slot = 0
                for k in range(high):
                    i, j = (x + k) % 3, (high * y + k) % 3
                    slot = 9 * slot + (3 * j + i if pile == 2 else 3 * i + j)
                cells.append(slot)
        rows = [cells[0:3], cells[3:6], cells[6:9]]
        mirrored = [row[::-1] for row in rows]
        shifted = [rows[0], rows[1][1:] + rows[1][:1], rows[2]]
        cases.add(set_text(pile, tiles), [
            paper(TORUS, [3, 3] + cells), paper(TORUS, [3, 3] + sum(rows[::-1], [])),
            paper(TORUS, [3, 3] + sum(mirrored, [])), paper(TORUS, [3, 3] + sum(shifted, [])),
            paper(TORUS, [3, 2] + cells[:6]), paper(RING, rows[1]), paper(RING, mirrored[2]),
            paper(TORUS, [9, 1] + cells)],
            ["accepted", "refused 36 at 2", "refused 34 at 3", "accepted", "refused 36 at 5",
             "accepted", "refused 34 at 1", "refused 36 at 2"])


def ranking_faults(cases, rng):
    """Faults 18, 37 and 38."""
    text = set_text(1, SET_A)
    table = [
        ([65535, 1, 0], "accepted floor 0 ceiling 65535"), ([65535, 65534, 65533], "accepted"),
        ([65536, 1, 0], "refused 18 at 0"), ([2, 65536, 0], "refused 18 at 1"),
        ([0, 0, 65536], "refused 18 at 2"), ([TOP, TOP, TOP], "refused 18 at 0"),
        ([0, 1, TOP], "refused 18 at 2"), ([131071, 65535, 0], "refused 18 at 0"),
        ([0x10002, 1, 0], "refused 18 at 0"), ([2, 1], "refused 37 at 0"), ([2], "refused 37 at 0"),
        ([3, 2, 1, 0], "refused 37 at 0"), ([65536, 1], "refused 37 at 0"),
        ([65536] * 4, "refused 37 at 0"), ([0] * 126, "refused 37 at 0"),
        ([0] * 129, "refused 37 at 0"), ([0, 0, 0], "refused 38 at 0"), ([1, 1, 0], "refused 38 at 0"),
        ([0, 1, 0], "refused 38 at 0"), ([2, 1, 1], "refused 38 at 1"), ([2, 1, 2], "refused 38 at 1"),
        ([65535, 0, 65535], "refused 38 at 1"), ([2, 1, 0], "accepted"), ([9, 5, 4], "accepted")]
    cases.add_papers(text, [(paper(RANKING, n), want) for n, want in table])
    # An edge from a state to itself, alone and at the end.
    cases.add(set_text(1, [(0, 0, 0, 0)]), [paper(RANKING, [n]) for n in (0, 5, 65535)],
              ["refused 38 at 0"] * 3)
    cases.add(set_text(1, SET_A + [(2, 2, 0, 0)]), [paper(RANKING, [2, 1, 0])], ["refused 38 at 2"])
    # No edge at all: any ranks do, the height is the greatest, states without edges count.
    cases.add(set_text(4, SET_A), [paper(RANKING, n) for n in ([3, 9, 65535], [3, 9, 4], [0, 0, 1],
                                                              [0, 0, 65536], [0, 0], [0, 0, 0])],
              ["accepted floor 0 ceiling 65535", "accepted floor 0 ceiling 9",
               "accepted floor 0 ceiling 1", "refused 18 at 2", "refused 37 at 0",
               "accepted floor 0 ceiling 0"])
    cases.add(set_text(1, [(4, 2, 0, 0)]), [paper(RANKING, n) for n in ([7, 8, 0, 9, 1], [0, 0, 0, 0, 1])],
              ["accepted floor 0 ceiling 9", "accepted floor 0 ceiling 1"])
    # 256 states in a line, both ways of the turn: three blocks.
    line = [(i, i + 1, 0, 0) for i in range(255)]
    turned = [(0, 0, i, i + 1) for i in range(255)]
    ranks = list(range(255, -1, -1))
    for text in (set_text(1, line), set_text(2, turned)):
        cases.add(text, [paper(RANKING, ranks), paper(STRIP, list(range(255))),
                         paper(RANKING, changed(ranks, 0, 254)), paper(RANKING, changed(ranks, 255, 1)),
                         paper(RANKING, changed(ranks, 255, 65536)), paper(RANKING, ranks[:-1]),
                         paper(RANKING, ranks + [0]), paper(RANKING, [2 * r for r in ranks]),
                         paper(STRIP, list(range(256)))],
                  ["accepted floor 0 ceiling 255", "accepted floor 255 ceiling 255",
                   "refused 38 at 0", "refused 38 at 254", "refused 18 at 255", "refused 37 at 0",
                   "refused 37 at 0", "accepted floor 255 ceiling 255", "refused 33 at 255"])
    cases.add(set_text(1, 7), [paper(RANKING, [0] * ALL)], ["refused 37 at 0"])


def falling_tiles(states, count, letters, rng):
    """So many tiles that lead from higher to lower states: the first and the last alone leave
    the two highest states, and each meets itself above."""
    tiles = [(states - 2, states - 3, letters, letters)]
    while len(tiles) < count - 1:
        west = rng.randrange(1, states - 2)
        tiles.append((west, rng.randrange(west), rng.randrange(letters), rng.randrange(letters)))
    return tiles + [(states - 1, states - 2, letters + 1, letters + 1)]


def large_piles(cases, rng):
    """The largest piles, and those that are too large."""
    for pile, states, count, letters in ((3, 64, 1024, 60), (6, 8, 32, 6)):
        tiles = falling_tiles(states, count, letters, rng)
        text, t = set_text(pile, tiles), pile_of(pile, tiles)
        assert (t.states, t.slots) == (4096, 1048576)
        high, last = 2 if pile == 3 else 4, 1048575
        ranks = [sum((state // states ** k) % states for k in range(high)) for state in range(4096)]
        ends, low = t.edges[0], find_ranks(t)
        strip = longest_strip(t, low)
        height = max(low)
        cases.add(text, [paper(RANKING, ranks), paper(RANKING, low), paper(STRIP, strip),
                         paper(STRIP, [last]), paper(STRIP, [0]), paper(STRIP, [last + 1]),
                         paper(STRIP, strip + [0]), paper(RING, strip), paper(STRIP, [TOP])],
                  [f"accepted floor 0 ceiling {high * (states - 1)}", f"accepted floor 0 ceiling {height}",
                   f"accepted floor {height} ceiling {height}", "accepted", "accepted",
                   "refused 33 at 0", f"refused 34 at {height}", f"refused 35 at {height - 1}",
                   "refused 33 at 0"])
        cases.add(text, [paper(RANKING, changed(ranks, 4095, 0)),
                         paper(RANKING, changed(ranks, ends[0], 0)),
                         paper(RANKING, changed(ranks, 4095, 65536)), paper(RANKING, ranks[:-1])],
                  [f"refused 38 at {last}", "refused 38 at 0", "refused 18 at 4095",
                   "refused 37 at 0"])
        # All the same with a ring at the last slot, trimmed or not. Only the first edge of a
        # strip can be that of the last slot.
        round_tiles = tiles[:-1] + [(states - 1, states - 1, letters + 1, letters + 1)]
        cases.add(set_text(pile, round_tiles), [paper(RING, [last]), paper(STRIP, strip[1:]), paper(RANKING, ranks),
                                                paper(TORUS, [1, 1, last])],
                  ["accepted", "accepted", f"refused 38 at {last}", "accepted"])
        if pile == 3:
            cases.add(set_text(5, round_tiles), [paper(RING, [last]), paper(STRIP, strip[1:]), paper(RANKING, ranks),
                                                 paper(STRIP, [0])],
                      ["accepted", "refused 33 at 0", f"refused 38 at {last}", "refused 33 at 0"])
    strip = [paper(STRIP, [0])]
    two = [(0, 0, 0, 0)]
    wanted = [(3, 63, 1, None), (3, 64, 1, 31), (5, 64, 1, 31), (3, 255, 1, 31), (6, 64, 1, 31),
              (6, 7, 1, None), (6, 8, 1, 31), (6, 8, 33, 31), (6, 7, 32, None), (6, 7, 33, 32),
              (6, 0, 33, 32), (6, 0, 1024, 32), (6, 255, 1024, 31), (5, 63, 2, None), (1, 255, 1, None),
              (2, 255, 1, None), (4, 255, 1, None), (5, 255, 2, 31), (3, 64, 1024, 31)]
    for pile, top, count, fault in wanted:
        for tile in ((top, 0, 0, 0), (0, top, 0, 0))[:1 if count > 100 else 2]:
            tiles = [tile] + two * (count - 1)
            if fault:
                cases.add(set_text(pile, tiles), strip, [f"pile refused {fault}"])
            elif count == 1:
                kept = top == 0 or pile not in (2, 4, 5)
                ring = pile == 2
                cases.add(set_text(pile, tiles), strip,
                          ["accepted" if kept or ring else "refused 33 at 0"])
            else:
                cases.add(set_text(pile, tiles), strip + [paper(RING, [1])])
    # A pile that is too large is told before any paper is read, and without any paper.
    cases.add(set_text(6, 8), [], ["pile refused 32"])
    cases.add(set_text(3, [(255, 255, 0, 0)]), [b""], ["pile refused 31"])
    # Letters do not count as states unless they are turned: 256 letters two high are made.
    cases.add(set_text(3, [(0, 0, 255, 255)]), strip, ["accepted"])
    for row, fault in ((2, 32), (4, 32), (5, 32), (6, 32), (8, 32)):
        cases.add(set_text(6, row), strip, [f"pile refused {fault}"])


def dockets(cases):
    """How floor and ceiling move."""
    text = set_text(1, SET_A + [(2, 3, 0, 0), (3, 4, 0, 0)])
    strip = [paper(STRIP, list(range(w))) for w in range(5)]
    ranks = {h: paper(RANKING, [h, 3, 2, 1, 0]) for h in (4, 5, 7, 9)}
    cases.add(text, [strip[2], strip[1], paper(STRIP, [1, 0]), strip[3], ranks[7], ranks[9], ranks[4],
                     ranks[5], strip[4]],
              ["accepted floor 2 ceiling endless", "accepted floor 2 ceiling endless", "refused 34 at 1",
               "accepted floor 3 ceiling endless", "accepted floor 3 ceiling 7", "accepted floor 3 ceiling 7",
               "accepted floor 3 ceiling 4", "accepted floor 3 ceiling 4", "accepted floor 4 ceiling 4"])
    cases.add(text, [ranks[9], b"", ranks[4], strip[1]],
              ["accepted floor 0 ceiling 9", "refused 11 at 0", "accepted floor 0 ceiling 4",
               "accepted floor 1 ceiling 4"])
    cases.add(text, [], [])
    text = set_text(1, 7)
    cases.add(text, [paper(STRIP, [0, 3]), paper(RING, [3, 0]), paper(STRIP, [0] * 9), paper(RING, [1]),
                     paper(RANKING, [0]), paper(TORUS, [1, 1, 3])],
              ["accepted floor 2 ceiling endless", "accepted floor endless ceiling endless",
               "accepted floor endless ceiling endless", "refused 33 at 0", "refused 38 at 0",
               "accepted floor endless ceiling endless"])
    cases.add(text, [paper(STRIP, [0]), paper(TORUS, [2, 2, 0, 3, 0, 3]), paper(STRIP, [0, 0])],
              ["accepted floor 1 ceiling endless", "accepted floor endless ceiling endless",
               "accepted floor endless ceiling endless"])


def search_papers(t, rng, most=140):
    """Papers about a transducer found by search, good ones and ones with one change."""
    def other(numbers, first=0):
        place = rng.randrange(first, len(numbers))
        pool = list(t.edges) + [rng.randrange(t.slots + 2)]
        return changed(numbers, place, rng.choice(pool))

    found = []
    ranks = find_ranks(t)
    if ranks:
        found.append(paper(RANKING, ranks))
        if max(ranks):
            strip = longest_strip(t, ranks)
            found += [paper(STRIP, strip), paper(RING, strip), paper(STRIP, strip + [strip[0]])]
        if t.states <= 300:
            found.append(paper(RANKING, [3 * r + rng.randrange(3) for r in ranks]))
            place = rng.randrange(t.states)
            found.append(paper(RANKING, changed(ranks, place, max(0, ranks[place] - 1))))
    else:
        ring = find_cycle(steps(t), rng)
        wide = closed_walk(t, rng.randrange(2, most), rng) or ring
        strip = walk(t, rng.randrange(1, most), rng)
        found += [paper(RING, ring), paper(RING, wide), paper(STRIP, strip),
                  paper(RING, other(wide)), paper(STRIP, other(strip))]
        for width in rng.sample((1, 2, 3), 3):
            torus = find_torus(t, width, rng)
            if torus:
                found += [paper(TORUS, torus), paper(TORUS, other(torus, 2))]
                break
        if t.states <= 300:
            found.append(paper(RANKING, [rng.randrange(t.states + 1) for _ in range(t.states)]))
    some = [rng.choice(list(t.edges) or [0]) for _ in range(rng.randrange(1, 4))]
    found.append(paper(rng.choice((STRIP, RING)), some))
    if t.slots > 1:
        found.append(paper(STRIP, [rng.randrange(t.slots)]))
    return found


def random_tiles(states, letters, count, rng):
    return [(rng.randrange(states), rng.randrange(states), rng.randrange(letters),
             rng.randrange(letters)) for _ in range(count)]


def piles(cases, rng):
    """Every pile over every catalogue row and over tiles of many sorts."""
    bottoms = list(range(1, 9)) + [
        SET_A, BITS, random_tiles(2, 2, 6, rng), random_tiles(3, 3, 12, rng),
        random_tiles(4, 3, 9, rng), random_tiles(8, 8, 32, rng), random_tiles(8, 5, 32, rng),
        falling_tiles(7, 24, 3, rng), [(0, 1, 0, 1), (1, 0, 1, 0)] * 2,
        [(0, 1, 0, 0), (1, 2, 1, 0), (2, 1, 0, 1), (2, 3, 0, 0), (4, 4, 0, 1), (3, 5, 1, 1)],
        random_tiles(64, 30, 300, rng), random_tiles(40, 256, 600, rng)]
    for bottom in bottoms:
        for pile in range(1, 7):
            text = set_text(pile, bottom)
            try:
                t = pile_of(pile, bottom)
            except judge.PileFault as fault:
                cases.add(text, [paper(STRIP, [0])], ["pile refused %d" % fault.args])
                continue
            found = search_papers(t, rng)
            found[0:0] = [paper(RANKING, [0] * (t.states + 1))] if t.states < 100 else []
            cases.add(text, found[:8])


def random_sets(cases, rng):
    """Small random sets, with papers found by search and papers damaged at random."""
    for _ in range(160):
        states, letters = rng.randrange(1, 6), rng.randrange(1, 5)
        tiles = random_tiles(states, letters, rng.randrange(1, 14), rng)
        if rng.randrange(3) == 0:
            tiles = [(max(w, e) + 1, min(w, e), s, n) for w, e, s, n in tiles]
        pile = rng.randrange(1, 7)
        try:
            t = pile_of(pile, tiles)
        except judge.PileFault as fault:
            cases.add(set_text(pile, tiles), [], ["pile refused %d" % fault.args])
            continue
        found = [data for data in search_papers(t, rng, 60) if len(data) <= 3 * BLOCK]
        found = rng.sample(found, min(len(found), 3))
        bad = bytearray(rng.choice(found))
        k = rng.randrange(len(bad) // BLOCK)
        at = rng.choice((rng.randrange(BLOCK), rng.randrange(4 + 4 * bad[k * BLOCK + 3])))
        bad[k * BLOCK + at] ^= 1 << rng.randrange(8)
        found.append(damaged(bytes(bad), k, 0, b"", rng.randrange(4) > 0))
        cases.add(set_text(pile, tiles), found)


def make():
    """All cases."""
    cases, rng = Cases(), random.Random(START)
    samples(cases)
    text_faults(cases)
    long_texts(cases)
    text_noise(cases, rng)
    paper_faults(cases, rng)
    row_faults(cases, rng)
    torus_faults(cases, rng)
    one_way_toruses(cases)
    ranking_faults(cases, rng)
    large_piles(cases, rng)
    dockets(cases)
    piles(cases, rng)
    random_sets(cases, rng)
    return cases


def report(cases):
    """Counts of what the cases hold."""
    faults, accepted, by_pile = Counter(), Counter(), Counter()
    for (text, papers), lines in zip(cases.cases, cases.lines):
        if not (lines and lines[0].startswith("set")):
            the_set = judge.read_set(text)
            by_pile[the_set.pile, "tiles" if the_set.row is None else "rows"] += 1
        for k, line in enumerate(lines):
            words = line.split()
            if "accepted" in words:
                accepted[("strip", "ring", "ranking", "torus")[papers[k][2] - 1]] += 1
            else:
                faults[int(words[2 if words[0] != "paper" else 3])] += 1
    print(f"{len(cases.cases)} cases, {sum(len(papers) for _, papers in cases.cases)} papers")
    print("lines by fault:", ", ".join(f"{n}: {faults[n]}" for n in sorted(faults)))
    print("papers accepted:", ", ".join(f"{kind}: {n}" for kind, n in sorted(accepted.items())))
    print("cases by pile and bottom:", ", ".join(f"{p} {b}: {n}" for (p, b), n in sorted(by_pile.items())))
    wanted = [*range(1, 8), *range(11, 19), *range(31, 39)]
    assert sorted(faults) == wanted, "a fault without a case"


def main():
    cases = make()
    data = pack(cases.cases)
    assert unpack(data) == cases.cases
    os.makedirs(os.path.dirname(CASES), exist_ok=True)
    with open(CASES, "wb") as file:
        file.write(data)
    with open(EXPECTED, "w", newline="\n") as file:
        for n, lines in enumerate(cases.lines, 1):
            file.write("".join(line + "\n" for line in [f"case {n}"] + lines))
    report(cases)
    print(f"cases.bin {len(data)} bytes, stdout {os.path.getsize(EXPECTED)} bytes")


if __name__ == "__main__":
    main()

#!/usr/bin/env python3
"""Writes a paper to standard output: write_paper.py KIND NUMBER..

KIND is strip, ring, ranking or torus; the numbers are of 32 bits, 1 to 8,064 of them.
The form of a paper is described in docs/formats.md."""
import struct
import sys

KINDS = {"strip": 1, "ring": 2, "ranking": 3, "torus": 4}
BLOCK_NUMBERS = 126


def block(place, kind, numbers):
    body = struct.pack("<HBB", place, kind, len(numbers))
    body += b"".join(struct.pack("<I", n) for n in numbers)
    body += bytes(4 * (BLOCK_NUMBERS - len(numbers)))
    check = sum((i + 1) * b for i, b in enumerate(body))
    return body + struct.pack("<I", check)


def paper(kind, numbers):
    parts = [numbers[i:i + BLOCK_NUMBERS] for i in range(0, len(numbers), BLOCK_NUMBERS)]
    return b"".join(block(place, kind, part) for place, part in enumerate(parts))


def main():
    if len(sys.argv) < 3 or sys.argv[1] not in KINDS:
        sys.exit(__doc__)
    sys.stdout.buffer.write(paper(KINDS[sys.argv[1]], [int(n) for n in sys.argv[2:]]))


if __name__ == "__main__":
    main()

#!/usr/bin/env python3
"""Makes the samples: each record by its rule, the listings from the vectors and by the second implementation (see README.md).

    make.py [FOLDER]
"""
import sys
from pathlib import Path

HERE = Path(__file__).resolve().parent
sys.dont_write_bytecode = True
sys.path.insert(0, str(HERE.parent / 'tests' / 'compare'))
from records import build, graph, layered, line, listing, tallest, vectors

# of the worked examples (docs/SPECIFICATION.md, 16.1), with listings read off the rules
PAPER = ['P1', 'P5', 'P6', 'P7']


def house():
    """Two house lines with arrows along them, over them and between them."""
    lines = [[0, 2, 4, 6, 8], [1, 3, 5, 7]]
    spine = [(line[i], line[i + 1]) for line in lines for i in range(len(line) - 1)]
    side = [(0, 4), (0, 6), (2, 6), (2, 8), (4, 8), (1, 5), (1, 7)]
    cross = [(1, 2), (3, 6), (0, 7), (5, 8)]
    return graph(9, spine + side + cross, lines)


def editor():
    """House lines of five of eleven words; a planned line leads through one of them, and an arrow bends around it."""
    lines = [[1, 4, 7, 9], [6]]
    along = [(1, 4), (4, 7), (7, 9), (1, 7), (1, 9)]
    others = [(0, 4), (4, 5), (3, 6), (6, 8), (0, 3), (2, 5), (2, 10), (8, 10), (5, 9), (4, 8)]
    return graph(11, along + others, lines)


def wide():
    """As many lines as a chart may have."""
    return layered(31)


def broad():
    """One line more."""
    return layered(32)


def deep():
    """One line of 128 words: the shortest arrows from lower to higher numbers, as many as a record may have."""
    return graph(128, [(u, u + rise) for rise in range(1, 128) for u in range(128 - rise)][:4096])


def centuries():
    """Words of the 900s, 1200s and 1500s, three rows for each: some floors lift their word and those above it, some do nothing."""
    house_line = [0, 1, 4, 5, 7, 8]
    along = line(house_line) + [(0, 5), (1, 5)]
    others = [(2, 6), (6, 9), (3, 10), (1, 6), (4, 9), (3, 7)]
    return graph(11, along + others, [house_line], 4 * [0] + 3 * [3] + 4 * [6])


def tall():
    """One line of 128 words from the highest floor up: as many rows as a chart may have."""
    return tallest()


def ring():
    return graph(3, [(0, 1), (1, 2), (2, 0)])


def main():
    folder = Path(sys.argv[1]) if len(sys.argv) > 1 else HERE
    build()
    for name, record, lines in vectors():
        if name in PAPER:
            (folder / f'{name.lower()}.record').write_bytes(record)
            (folder / f'{name.lower()}.listing').write_bytes(lines)
    for rule in [house, editor, centuries, wide, broad, deep, tall, ring]:
        record = rule()
        (folder / f'{rule.__name__}.record').write_bytes(record)
        (folder / f'{rule.__name__}.listing').write_bytes(listing(record))
    # made once at random, and kept
    (folder / 'large.listing').write_bytes(listing((HERE / 'large.record').read_bytes()))


main()

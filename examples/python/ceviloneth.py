#!/usr/bin/env python3
"""Draws a record, asks how its words lead to each other, or checks a folder of records: the shared library by ctypes alone.

    tools/archive.sh && tools/shared-library.sh
    python3 examples/python/ceviloneth.py draw samples/p5.record
    python3 examples/python/ceviloneth.py leads samples/p5.record 0 3
    python3 examples/python/ceviloneth.py check samples

`draw` prints the chart's counts and entries as a listing (docs/SPECIFICATION.md, 14.1), or `refused` and the number. `leads`
prints how one word leads to another: `no`, `arrow`, `longer` or `both`, or `refused` and the number. `check` prints a line for each file
of the folder that ends in `.record`, by name: accepted, or refused with the number and its word. Exit status 1 where something is refused;
2 where the library, the file or the folder can't be used. CEVILONETH_LIBRARY names a library that lies elsewhere.
"""
import ctypes
import os
import sys
from pathlib import Path

# What include/ceviloneth.h says: its version, the numbers of lists that hold every chart, the numbers of an entry, the refusals,
# and how one word leads to another, in the words of the program `session`.
VERSION = 5
ROOM = [768, 20480, 1024]
NUMBERS = [6, 5, 4]
WORDS = ['', 'layout', 'size', 'stranger', 'double', 'ring', 'cover', 'broken', 'short', 'full', 'off page', 'broad', 'floor']
LEADS = ['no', 'arrow', 'longer', 'both']

# The tag of the field of floors.
FLOORS = 4

# One byte more than a record may have, so that a longer file is refused.
MOST_BYTES = 65536

LARGEST = ctypes.c_size_t(-1).value

LIBRARY = Path(__file__).resolve().parents[2] / 'target' / 'shared' / 'libceviloneth.so'


class Unusable(Exception):
    """The library, a file or a folder can't be used."""


class Counts(ctypes.Structure):
    """`ceviloneth_counts`."""
    _fields_ = [
        ('refusal', ctypes.c_uint8),
        ('words', ctypes.c_size_t),
        ('arrows', ctypes.c_size_t),
        ('bundles', ctypes.c_size_t),
        ('rows', ctypes.c_uint8),
        ('lines', ctypes.c_uint8),
        ('firm', ctypes.c_uint16),
        ('width', ctypes.c_uint16),
        ('side_columns', ctypes.c_uint16 * 128),
    ]


class Answer(ctypes.Structure):
    """`ceviloneth_answer`."""
    _fields_ = [('refusal', ctypes.c_uint8), ('leads', ctypes.c_uint8)]


def load(path):
    """The library with the types of its calls, if it is of the header's version."""
    if not Path(path).is_file():
        raise Unusable(f'{path} is missing: run tools/shared-library.sh, or set CEVILONETH_LIBRARY')
    try:
        library = ctypes.CDLL(str(path))
        library.ceviloneth_version.argtypes = []
        library.ceviloneth_version.restype = ctypes.c_uint32
        library.ceviloneth_chart.argtypes = [ctypes.c_char_p, ctypes.c_size_t] + 3 * [ctypes.POINTER(ctypes.c_uint16), ctypes.c_size_t]
        library.ceviloneth_chart.restype = Counts
        library.ceviloneth_leads.argtypes = [ctypes.c_char_p] + 3 * [ctypes.c_size_t]
        library.ceviloneth_leads.restype = Answer
    except (OSError, AttributeError) as error:
        raise Unusable(f'{path} is no library of this engine: {error}') from error
    if library.ceviloneth_version() != VERSION:
        raise Unusable(f'{path} has version {library.ceviloneth_version()}, and this program needs {VERSION}')
    return library


class Engine:
    """The library, and lists with room for every chart, which each record uses again."""

    def __init__(self, path):
        self.library = load(path)
        self.lists = [(ctypes.c_uint16 * room)() for room in ROOM]

    def chart(self, record):
        """The counts of a record's chart. Where it is not refused, the lists begin with its entries."""
        lent = [part for numbers in self.lists for part in (numbers, len(numbers))]
        return self.library.ceviloneth_chart(record, len(record), *lent)

    def leads(self, record, tail, head):
        """How one word of a record leads to another; no chart is drawn for it."""
        return self.library.ceviloneth_leads(record, len(record), tail, head)

    def entries(self, counts):
        """The words, the arrows and the bundles of the chart drawn last, each entry a list of numbers."""
        parts = zip(self.lists, NUMBERS, [counts.words, counts.arrows, counts.bundles])
        return [[numbers[size * i:size * (i + 1)] for i in range(count)] for numbers, size, count in parts]


def has_floors(record):
    """Whether an accepted record has floors; each of its fields has a tag, a length of two bytes and as many bytes."""
    start = 0
    while start < len(record) and record[start] != FLOORS:
        start += 3 + int.from_bytes(record[start + 1:start + 3], 'big')
    return start < len(record)


def listing(record, counts, entries):
    """The lines of a chart. An accepted record has its arrows from byte 7 on, tail and head in turn. A word's floor stands last, where the
    record has floors."""
    words, arrows, bundles = entries
    floored = has_floors(record)
    yield (f'chart {counts.words} {counts.arrows} rows {counts.rows} lines {counts.lines} firm {counts.firm} '
           f'bundles {counts.bundles} width {counts.width}')
    for number, (line, position, column, row, _descendants, floor) in enumerate(words):
        yield f'w {number} {line} {position} {column} {row}' + (f' {floor}' if floored else '')
    for number, kind, value, bend_row, implied in arrows:
        tail, head = record[7 + 2 * number:9 + 2 * number]
        course = ['S', f'B {value}', 'D', f'K {value} {bend_row}'][kind]
        yield f'a {number} {tail} {head} {course} {"i" if implied else "f"}'
    for number, (line, first_row, last_row, side_column) in enumerate(bundles):
        yield f'b {number} {line} {first_row} {last_row} {side_column}'


def read(path):
    try:
        with open(path, 'rb') as file:
            return file.read(MOST_BYTES)
    except OSError as error:
        raise Unusable(f'{path} can\'t be read: {error.strerror}') from error


def draw(engine, path):
    record = read(path)
    counts = engine.chart(record)
    if counts.refusal != 0:
        print(f'refused {counts.refusal}')
        return 1
    print('\n'.join(listing(record, counts, engine.entries(counts))))
    return 0


def leads(engine, path, *words):
    if not all(word.isdecimal() for word in words):
        raise Unusable(f'words are numbers, and not {" and ".join(words)}')
    # ctypes would let a larger number come round to a small one
    answer = engine.leads(read(path), *(min(int(word), LARGEST) for word in words))
    print(f'refused {answer.refusal}' if answer.refusal else LEADS[answer.leads])
    return 1 if answer.refusal else 0


def check(engine, folder):
    if not Path(folder).is_dir():
        raise Unusable(f'{folder} is no folder')
    status = 0
    for path in sorted(Path(folder).glob('*.record')):
        refusal = engine.chart(read(path)).refusal
        print(f'{path.name}: ' + (f'refused {refusal} {WORDS[refusal]}' if refusal else 'accepted'))
        status = 1 if refusal else status
    return status


def main():
    commands = {('draw', 1): draw, ('leads', 3): leads, ('check', 1): check}
    command = commands.get((sys.argv[1], len(sys.argv) - 2)) if len(sys.argv) > 1 else None
    if command is None:
        print(__doc__, file=sys.stderr)
        return 2
    try:
        engine = Engine(os.environ.get('CEVILONETH_LIBRARY', LIBRARY))
        return command(engine, *sys.argv[2:])
    except Unusable as error:
        print(f'ceviloneth: {error}', file=sys.stderr)
        return 2


if __name__ == '__main__':
    sys.exit(main())

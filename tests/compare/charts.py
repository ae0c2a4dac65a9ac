#!/usr/bin/env python3
"""Compares the proved program `chart` with listings, byte for byte: the samples, the vectors, the limits, and random records.

    charts.py [SEED [COUNT]]

Each record is given to crates/chart/out/chart, the samples also in pieces. The samples and the records that take most of the stack are given to
it with a stack of 160 KiB. Listings are those of the samples' and the vectors' files, else the second implementation's. The seed is
printed, and of the first record with another listing the bytes and the first lines that differ. The last line says how many were
compared; the exit status is 1 at a difference.
"""
import resource
import subprocess
import sys

sys.dont_write_bytecode = True
from records import EDGES, ROOT, VECTORS, WORST, build, by_pieces, listing, output, random_records, vectors

PROGRAM = ROOT / 'crates' / 'chart' / 'out' / 'chart'
STACK = 160 * 1024


def printed(record):
    ran = subprocess.run([PROGRAM], input=record, stdout=subprocess.PIPE)
    return output(ran.returncode, ran.stdout)


def printed_by_pieces(record):
    return by_pieces(PROGRAM, record, 777)


def printed_on_small_stack(record):
    def limit():
        resource.setrlimit(resource.RLIMIT_STACK, (STACK, STACK))
    ran = subprocess.run([PROGRAM], input=record, stdout=subprocess.PIPE, env={}, preexec_fn=limit)
    return output(ran.returncode, ran.stdout)


def samples():
    for path in sorted((ROOT / 'samples').glob('*.record')):
        yield path.name, path.read_bytes(), path.with_suffix('.listing').read_bytes()


def cases(seed, count):
    """How the program is run, a name, a record and its listing."""
    for name, record, lines in samples():
        yield printed, name, record, lines
        yield printed_by_pieces, f'{name}, in pieces', record, lines
        yield printed_on_small_stack, f'{name}, on a small stack', record, lines
    for name, record, _ in EDGES:
        yield printed, name, record, listing(record)
    for name, record in WORST:
        yield printed_on_small_stack, f'{name}, on a small stack', record, listing(record)
    for name, record, lines in [*vectors(), *random_records(seed, count)]:
        yield printed, name, record, lines


def difference(said, expected):
    """The first lines that differ."""
    ours, theirs = said.decode().split('\n'), expected.decode().split('\n')
    place = next((i for i, pair in enumerate(zip(ours, theirs)) if pair[0] != pair[1]), min(len(ours), len(theirs)))
    shown = lambda lines: lines[place] if place < len(lines) else 'nothing'
    return f'line {place + 1}: the engine prints\n  {shown(ours)}\nand the listing has\n  {shown(theirs)}'


def main():
    seed = sys.argv[1] if len(sys.argv) > 1 else '20261115'
    count = sys.argv[2] if len(sys.argv) > 2 else '4000'
    print(f'seed {seed}, {count} random records')
    build()
    compared, drawn = 0, 0
    for run, name, record, lines in cases(seed, count):
        said = run(record)
        if said != lines:
            print(f'{name}: {record.hex()}\n{difference(said, lines)}')
            return 1
        compared += 1
        drawn += lines.startswith(b'chart')
    print(f'{compared} listings compared, {drawn} of charts and {compared - drawn} of refusals: all agree')
    return 0 if compared >= int(count) + len(EDGES) + len(WORST) + VECTORS + 3 * 11 else 1


sys.exit(main())

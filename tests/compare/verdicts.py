#!/usr/bin/env python3
"""Compares the proved program `verdict` with the second implementation: the vectors, the limits, and random records.

    verdicts.py [SEED [COUNT]]

Each record is given to crates/verdict/out/verdict; what it prints must be `accepted` where the second implementation draws a chart or finds it
broad, else its refusal. The first record with another answer is printed. The seed is printed.
"""
import subprocess
import sys

sys.dont_write_bytecode = True
from records import EDGES, ROOT, VECTORS, build, random_records, vectors

PROGRAM = ROOT / 'crates' / 'verdict' / 'out' / 'verdict'
BROAD = 'refused 11'


def verdict(record):
    return subprocess.run([PROGRAM], input=record, capture_output=True, check=True).stdout.decode().strip()


def expected_of(listing):
    """Broad is a refusal of the chart, and not of the record."""
    line = listing.decode().split('\n')[0]
    return line if line.startswith('refused') and line != BROAD else 'accepted'


def main():
    seed = sys.argv[1] if len(sys.argv) > 1 else '20261115'
    count = sys.argv[2] if len(sys.argv) > 2 else '3000'
    build()
    cases = list(EDGES)
    for name, record, lines in [*vectors(), *random_records(seed, count)]:
        cases.append((name, record, expected_of(lines)))
    print(f'seed {seed}: {len(cases)} records')
    for name, record, expected in cases:
        said = verdict(record)
        if said != expected:
            print(f'{name}: {record.hex()}: the engine says {said}, the second implementation {expected}')
            return 1
    answers = sorted({expected for _, _, expected in cases})
    print(f'all agree; answers seen: {", ".join(answers)}')
    return 0 if len(cases) >= len(EDGES) + VECTORS else 1


sys.exit(main())

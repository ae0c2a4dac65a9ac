#!/usr/bin/env python3
"""Compares the proved program `session` with the second implementation, byte for byte: given, small, full and random scripts.

    sessions.py [SEED [COUNT]]

Each script is given to crates/session/out/session, some also in pieces or without the last line feed. Answers are those of the file of vectors,
else the second implementation's. The seed is printed, and of the first script with another answer the lines since its last start, with
both answers. The last line says which answers were seen; the exit status is 1 at a difference, or where one was not seen.
"""
import itertools
import random
import subprocess
import sys

sys.dont_write_bytecode = True
from records import REFERENCE, ROOT, build, by_pieces, dense, output

PROGRAM = ROOT / 'crates' / 'session' / 'out' / 'session'
SECOND = REFERENCE / 'target' / 'release' / 'session'
ANSWERS = {'ok', 'no', 'arrow', 'longer', 'both', 'unreadable', *(f'refused {number}' for number in [2, 3, 4, 5, 9])}

# lines that are no orders, or nearly none
ODD = ['', ' ', 'words', 'words 3 ', 'words  3', 'wordss 3', 'add 0', 'add 0 1 ', 'add 0 1 2', 'add -1 0', 'ADD 0 1', 'lead 0 1',
       'leadss 0 1', 'leads 0 1\r', 'leads 0\t1', 'yes', 'leads 0 x', 'leads 0 1 ok', 'x' * 300]


def answers(program, script):
    ran = subprocess.run([program], input=script, stdout=subprocess.PIPE)
    return output(ran.returncode, ran.stdout)


def answers_by_pieces(script):
    return by_pieces(PROGRAM, script, 37)


def text(lines):
    return ''.join(f'{line}\n' for line in lines).encode()


def given():
    """The script of the vectors, and its answers."""
    lines = [line for line in (REFERENCE / 'vectors/d.txt').read_text().splitlines() if line and not line.startswith('#')]
    return text(line[2:] for line in lines if line.startswith('> ')), text(line for line in lines if not line.startswith('> '))


def small():
    """Every set of arrows over up to three words, rings too, and every question, also of a word that is not there."""
    for size in range(1, 4):
        pairs = list(itertools.product(range(size), repeat=2))
        for chosen in itertools.product([False, True], repeat=len(pairs)):
            yield f'words {size}'
            yield from (f'add {u} {v}' for u, v in itertools.compress(pairs, chosen))
            yield from (f'leads {u} {v}' for u, v in itertools.product(range(size + 1), repeat=2))


def full(chance):
    """As many arrows as a session may have, and a few more of every kind; between them questions."""
    pairs = dense(128 * 127 // 2)
    chance.shuffle(pairs)
    yield 'words 128'
    for u, v in pairs[:4200]:
        yield f'add {u} {v}'
        yield f'leads {chance.randrange(128)} {chance.randrange(129)}'
    yield from ['add 0 0', 'add 128 0', f'add {pairs[0][0]} {pairs[0][1]}', f'add {pairs[0][1]} {pairs[0][0]}']


def line(chance, size):
    """An order to a session of so many words; few are refused or unreadable."""
    u, v = sorted(chance.randrange(size + chance.randrange(5) // 4) for _ in range(2))
    kind = chance.randrange(100)
    if kind < 50:
        return f'add {u} {v}'
    if kind < 90:
        return f'leads {u} {v}' if chance.randrange(5) else f'leads {v} {u}'
    if kind < 94:
        return f'add {v} {u}'
    return f'add {u} {2 ** 64 + v}' if kind < 96 else chance.choice(ODD)


def chance_made(chance):
    """One session, or two or three after each other."""
    for _ in range(chance.randrange(1, 4)):
        size = chance.choice([2, 3, 4, 5, 6, 7, 8, 12, 20, 64, 65, 128])
        yield f'words {chance.choice([0, 129, 1000]) if chance.randrange(12) == 0 else size}'
        yield from (line(chance, size) for _ in range(chance.randrange(8 * min(size, 12))))


def cases(chance, count):
    """A name, a script, its answers and what the program said."""
    script, expected = given()
    yield 'the given script', script, expected, answers(PROGRAM, script)
    yield 'the given script, in pieces', script, expected, answers_by_pieces(script)
    scripts = [('the stored script', (ROOT / 'crates/session/stdin').read_bytes()), ('every small session', text(small())),
               ('a full session', text(full(chance))), ('nothing', b''), ('a line feed', b'\n')]
    scripts += [(f'random script {number}', text(chance_made(chance))) for number in range(count)]
    for number, (name, script) in enumerate(scripts):
        script = script[:-1] if number % 5 == 3 else script
        yield name, script, answers(SECOND, script), answers(PROGRAM, script)


def difference(script, said, expected):
    """The lines from the last start up to the first answer that differs, and both answers."""
    ours, theirs = said.decode(errors='replace').splitlines(), expected.decode().splitlines()
    place = next((i for i, pair in enumerate(zip(ours, theirs)) if pair[0] != pair[1]), min(len(ours), len(theirs)))
    lines = script.decode(errors='replace').split('\n')[:place + 1]
    start = max((i for i, order in enumerate(lines) if order.startswith('words ')), default=0)
    shown = lambda answers: answers[place] if place < len(answers) else 'nothing'
    return '\n'.join(lines[start:] + [f'the engine answers {shown(ours)}, and not {shown(theirs)}'])


def main():
    seed = sys.argv[1] if len(sys.argv) > 1 else '20261115'
    count = int(sys.argv[2]) if len(sys.argv) > 2 else 1000
    print(f'seed {seed}, {count} random scripts')
    build()
    compared, seen = 0, set()
    for name, script, expected, said in cases(random.Random(seed), count):
        if said != expected:
            print(f'{name}:\n{difference(script, said, expected)}')
            return 1
        seen.update(expected.decode().splitlines())
        compared += 1
    print(f'{compared} scripts agree; answers seen: {", ".join(sorted(seen))}')
    return 0 if seen == ANSWERS and compared > count else 1


sys.exit(main())

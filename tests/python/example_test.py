#!/usr/bin/env python3
"""The example in Python: what it draws is each sample's listing, and that of the program `chart` for records with floors, what it checks is
what that program says, words lead to each other by the arrows, and errors are told.

Needs target/shared/libceviloneth.so (tools/shared-library.sh) and crates/chart/out/chart. Exit status 1 where something differs.
"""
import os
import shutil
import subprocess
import sys
import tempfile
from pathlib import Path

ROOT = Path(__file__).resolve().parents[2]
EXAMPLE = ROOT / 'examples' / 'python' / 'ceviloneth.py'
RECORDS = sorted((ROOT / 'samples').glob('*.record'))
WORDS = {'refused 5': 'refused 5 ring', 'refused 1': 'refused 1 layout', 'refused 6': 'refused 6 cover', 'refused 11': 'refused 11 broad',
         'refused 12': 'refused 12 floor'}
# two words with no arrow, word 1 in two house lines
REPEAT = bytes([1, 0, 1, 2, 2, 0, 0, 3, 0, 4, 1, 1, 1, 1])
# two words and an arrow, also with a house line of word 1; and fields of floors behind them: zeros, others, one too high, too few, none
TWO = bytes([1, 0, 1, 2, 2, 0, 2, 0, 1])
FLOORED = [record + bytes([4, 0, len(floors), *floors]) for record in (TWO, TWO + bytes([3, 0, 2, 1, 1]), TWO + bytes([3, 0, 0]))
           for floors in ([0, 0], [5, 0], [0, 127], [0, 128], [0], [])]

wrong = []


def run(*arguments, library=None):
    """Exit status, output and errors of the example."""
    environment = {name: value for name, value in os.environ.items() if name != 'CEVILONETH_LIBRARY'}
    if library is not None:
        environment['CEVILONETH_LIBRARY'] = str(library)
    ran = subprocess.run([sys.executable, '-B', EXAMPLE, *arguments], capture_output=True, text=True, env=environment)
    return ran.returncode, ran.stdout, ran.stderr


def expect(what, said, expected):
    if said != expected:
        wrong.append(f'{what}: {said}, and not {expected}')


def expect_error(what, said, text):
    """Exit status 2, nothing printed, and one line that says what is wrong."""
    status, output, errors = said
    if status != 2 or output or text not in errors or len(errors.splitlines()) != 1:
        wrong.append(f'{what}: {said}, and not 2 with {text}')


def charted(path):
    """What the program prints for a record."""
    said = subprocess.run([ROOT / 'crates' / 'chart' / 'out' / 'chart'], stdin=path.open('rb'), capture_output=True, text=True, check=True)
    return said.stdout


def verdict(path):
    """Accepted where the program draws a chart, else its refusal."""
    line = charted(path).split('\n')[0]
    return line if line.startswith('refused') else 'accepted'


def checked(paths):
    """What must be printed for a folder of these records."""
    said = [verdict(path) for path in paths]
    lines = ''.join(f'{path.name}: {WORDS.get(line, line)}\n' for path, line in zip(paths, said))
    return int(any(line != 'accepted' for line in said)), lines, ''


def test_drawing():
    for path in RECORDS:
        lines = path.with_suffix('.listing').read_text()
        expect(f'draw {path.name}', run('draw', path), (int(lines.startswith('refused')), lines, ''))


def test_floors(folder):
    """Drawn and checked as by the program; of each kind of record some are drawn, and some refused with 12."""
    for number, record in enumerate(FLOORED):
        path = folder / f'{number:02}.record'
        path.write_bytes(record)
        lines = charted(path)
        expect(f'draw {record.hex()}', run('draw', path), (int(lines.startswith('refused')), lines, ''))
    paths = sorted(folder.glob('*.record'))
    expect('check floors', run('check', folder), checked(paths))
    said = [verdict(path) for path in paths]
    expect('floors', said, 3 * (3 * ['accepted'] + 3 * ['refused 12']))
    expect('a question beside wrong floors', run('leads', paths[3], '0', '1'), (1, 'refused 12\n', ''))
    expect('a question beside floors', run('leads', paths[1], '0', '1'), (0, 'arrow\n', ''))


def test_checking(folder):
    expect('check samples', run('check', ROOT / 'samples'), checked(RECORDS))
    expect('a refused sample', checked(RECORDS)[0], 1)
    expect('an empty folder', run('check', folder), (0, '', ''))
    shutil.copy(ROOT / 'samples' / 'p1.record', folder)
    expect('a sound record alone', run('check', folder), (0, 'p1.record: accepted\n', ''))
    (folder / 'long.record').write_bytes((ROOT / 'samples' / 'p1.record').read_bytes().ljust(100000, b'\0'))
    (folder / 'none.record').write_bytes(b'')
    (folder / 'repeat.record').write_bytes(REPEAT)
    (folder / 'some.record').write_bytes(REPEAT[:9] + bytes([2, 1, 1]))
    for words in [31, 32]:
        (folder / f'{words}-apart.record').write_bytes(bytes([1, 0, 1, words, 2, 0, 0]))
    expect('refused files beside sound ones', run('check', folder), checked(sorted(folder.glob('*.record'))))


def test_leading():
    for tail, head, answer in [(0, 1, 'arrow'), (0, 3, 'both'), (0, 4, 'longer'), (3, 0, 'no'), (4, 4, 'no')]:
        said = run('leads', ROOT / 'samples' / 'p1.record', str(tail), str(head))
        expect(f'p1, {tail} to {head}', said, (0, f'{answer}\n', ''))
    for name, head, number in [('p1', 5, 3), ('p1', 2 ** 64 + 1, 3), ('ring', 1, 5)]:
        said = run('leads', ROOT / 'samples' / f'{name}.record', '0', str(head))
        expect(f'{name}, 0 to {head}', said, (1, f'refused {number}\n', ''))
    expect('a question of a broad record', run('leads', ROOT / 'samples' / 'broad.record', '0', '0'), (0, 'no\n', ''))


def of_another_version(folder):
    """A library that has the calls and says another version."""
    library = folder / 'other.so'
    source = 'unsigned ceviloneth_version(void) { return 77; } void ceviloneth_chart(void) {} void ceviloneth_leads(void) {}'
    subprocess.run(['cc', '-shared', '-fPIC', '-o', library, '-x', 'c', '-'], input=source, text=True, check=True)
    return library


def test_errors(folder):
    record = RECORDS[0]
    (folder / 'text.so').write_text('no library')
    expect_error('no library', run('draw', record, library=folder / 'none.so'), 'none.so is missing')
    expect_error('another file', run('draw', record, library=folder / 'text.so'), 'text.so is no library')
    expect_error('another version', run('draw', record, library=of_another_version(folder)), 'other.so has version 77')
    expect_error('no file', run('draw', folder / 'no.record'), 'no.record can\'t be read')
    expect_error('no folder', run('check', folder / 'no'), 'no is no folder')
    expect_error('no number', run('leads', record, '0', 'x'), 'words are numbers')
    expect_error('a question of no file', run('leads', folder / 'no.record', '0', '1'), 'no.record can\'t be read')
    for arguments in [('paint', record), (), ('leads', record), ('draw', record, '0', '1')]:
        expect('wrong use', run(*arguments)[0], 2)


def main():
    test_drawing()
    test_leading()
    for test in [test_checking, test_floors, test_errors]:
        with tempfile.TemporaryDirectory() as folder:
            test(Path(folder))
    print('\n'.join(wrong + [f'{len(RECORDS)} samples, {len(wrong)} faults']))
    return 1 if wrong or len(RECORDS) < 11 else 0


sys.exit(main())

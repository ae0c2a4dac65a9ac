"""Records to compare programs on, what the second implementation prints for them, and how programs are run."""
import re
import subprocess
import time
from pathlib import Path

ROOT = Path(__file__).resolve().parents[2]
REFERENCE = ROOT / 'tests' / 'reference'

# how many records are given
VECTORS = 67 + 34 + 9 + 37

# a name, a record in hexadecimal, its listing
BLOCK = re.compile(r'^# (.*)\n([0-9A-Fa-f]*)\n((?:chart|refused) .*\n(?:[wab] .*\n)*)', re.M)


def output(status, text):
    return text if status == 0 else f'ended with status {status}'.encode()


def by_pieces(program, data, size):
    """What a program prints whose input comes in pieces of so many bytes: a read gets less than it asks for, a line is cut anywhere."""
    with subprocess.Popen([program], stdin=subprocess.PIPE, stdout=subprocess.PIPE) as running:
        for start in range(0, len(data), size):
            running.stdin.write(data[start:start + size])
            running.stdin.flush()
            time.sleep(0.002)
        text = running.communicate()[0]
    return output(running.returncode, text)


def field(tag, data):
    return bytes([tag, len(data) // 256, len(data) % 256]) + bytes(data)


def edges(pairs):
    return field(2, [end for pair in pairs for end in pair])


def graph(words, pairs, lines=None, floors=None):
    """The record of a graph, with house lines and floors where they are given."""
    record = field(1, [words]) + edges(pairs)
    if lines is not None:
        record += field(3, [byte for line in lines for byte in [len(line), *line]])
    return record if floors is None else record + field(4, floors)


def dense(count):
    """So many different arrows among 128 words, each from a lower to a higher one."""
    return [(u, v) for v in range(128) for u in range(v)][:count]


def line(order):
    """Arrows that make one line of the words in this order."""
    return list(zip(order, order[1:]))


def layered(breadth):
    """Rows of so many words, arrows from all of a row to all of the next, then to all of the one after it, as many as a record may have."""
    rows = [range(first, min(first + breadth, 128)) for first in range(0, 128, breadth)]
    pairs = [(u, v) for rise in (1, 2) for low, high in zip(rows, rows[rise:]) for u in low for v in high]
    return graph(128, pairs[:4096])


def tallest(*pairs, lines=None, floor=127):
    """128 words in one line, from a floor on: 127 is the highest, and then there are as many rows as a chart may have."""
    return graph(128, [*line(range(128)), *pairs], lines, [floor] + 127 * [0])


def bipartite(half):
    """Each of so many words to each of as many others."""
    return [(u, v) for u in range(half) for v in range(half, 2 * half)]


def alone(words):
    """House lines of one word each."""
    return [[word] for word in range(words)]


# the limits of what is accepted, and near them (docs/SPECIFICATION.md, 16.2), with what `verdict` says: it takes broad records too
EDGES = [
    ('128 words, 4,096 arrows', graph(128, dense(4096)), 'accepted'),
    ('128 words, 4,096 arrows, 31 lines', layered(31), 'accepted'),
    ('128 words, 4,096 arrows, 32 lines', layered(32), 'accepted'),
    ('31 words alone', graph(31, []), 'accepted'),
    ('32 words alone', graph(32, []), 'accepted'),
    ('128 words alone', graph(128, []), 'accepted'),
    ('129 words', graph(129, []), 'refused 2'),
    ('4,097 arrows', graph(128, dense(4097)), 'refused 2'),
    ('no words', graph(0, []), 'refused 2'),
    ('arrows of length 0', graph(1, []), 'accepted'),
    ('arrows missing', field(1, [1]), 'refused 1'),
    ('house lines of length 0', graph(1, [], []), 'accepted'),
    ('house lines of length 0 and a ring', graph(1, [(0, 0)], []), 'refused 5'),
    ('0 to 0 twice', graph(1, [(0, 0), (0, 0)]), 'refused 4'),
    ('0 to 0', graph(1, [(0, 0)]), 'refused 5'),
    ('a repeat and a break', graph(2, [], [[0, 1], [0]]), 'refused 6'),
    ('a break in a line before a repeat in two others', graph(3, [(0, 1)], [[1, 0], [2], [2]]), 'refused 6'),
    ('a repeat in a line', graph(2, [(0, 1)], [[0, 0]]), 'refused 6'),
    ('a break', graph(2, [], [[0, 1]]), 'refused 7'),
    ('a break beside a word that lacks', graph(3, [(0, 1)], [[1, 0]]), 'refused 7'),
    ('a word lacks', graph(2, [], [[0]]), 'accepted'),
    ('127 words lack', graph(128, dense(4096), [[64]]), 'accepted'),
    ('one of 128 words lacks', graph(128, [], alone(127)), 'accepted'),
    ('31 house lines', graph(31, [], alone(31)), 'accepted'),
    ('31 house lines and a word', graph(32, line(range(32)), alone(31)), 'accepted'),
    ('32 house lines where one would do', graph(32, line(range(32)), alone(32)), 'accepted'),
    ('32 house lines and a repeat', graph(32, [], alone(32) + [[0]]), 'refused 6'),
    ('32 house lines and a break', graph(33, [], alone(31) + [[31, 32]]), 'refused 7'),
    ('a stranger beside a word that lacks', graph(2, [], [[2]]), 'refused 3'),
    ('a stranger in the last house line before a double', graph(2, [(0, 1), (0, 1)], [[0], [2]]), 'refused 3'),
    ('a line of no word before 129 words', graph(129, [], [[]]), 'refused 1'),
    ('a line past its field', graph(1, []) + field(3, [2, 0]), 'refused 1'),
    ('a byte too many', graph(1, []) + b'\0', 'refused 1'),
    ('65,535 bytes', field(1, [1]) + field(2, bytes(65528)), 'refused 2'),
    ('65,536 bytes', field(1, [1]) + field(2, bytes(65528)) + b'\0', 'refused 1'),
    ('65,536 bytes in fields', field(1, [1]) + field(2, bytes(65526)) + field(3, []), 'refused 1'),
    ('a sound record and zeros up to 100,000 bytes', graph(1, []).ljust(100000, b'\0'), 'refused 1'),
    ('nothing', b'', 'refused 1'),
    ('a floor of 127', graph(1, [], floors=[127]), 'accepted'),
    ('a floor of 128', graph(1, [], floors=[128]), 'refused 12'),
    ('floors of length 0', graph(1, [], floors=[]), 'refused 12'),
    ('a floor too few', graph(2, [], floors=[0]), 'refused 12'),
    ('a floor too many', graph(2, [], floors=[0, 0, 0]), 'refused 12'),
    ('127 floors of 128 words', graph(128, [], floors=127 * [0]), 'refused 12'),
    ('128 floors of 127', graph(128, [], floors=128 * [127]), 'accepted'),
    ('a last floor of 128 words too high', graph(128, dense(4096), floors=127 * [0] + [128]), 'refused 12'),
    ('floors behind house lines', graph(2, [(0, 1)], [[0, 1]], [3, 9]), 'accepted'),
    ('floors behind an empty field of house lines', graph(2, [(0, 1)], [], [3, 9]), 'accepted'),
    ('floors before house lines', graph(2, [(0, 1)], floors=[3, 9]) + field(3, [1, 0]), 'refused 1'),
    ('floors before an empty field of house lines', graph(2, [(0, 1)], floors=[3, 9]) + field(3, []), 'refused 1'),
    ('floors before arrows', field(1, [1]) + field(4, [0]) + field(2, []), 'refused 1'),
    ('floors twice', graph(1, [], floors=[0]) + field(4, [0]), 'refused 1'),
    ('a byte behind floors', graph(1, [], floors=[0]) + b'\0', 'refused 1'),
    ('tag 5 behind floors', graph(1, [], floors=[0]) + field(5, [0]), 'refused 1'),
    ('no words and a floor too many', graph(0, [], floors=[0]), 'refused 2'),
    ('4,097 arrows and a floor too high', graph(128, dense(4097), floors=128 * [128]), 'refused 2'),
    ('a stranger and a floor too high', graph(2, [(0, 2)], floors=[0, 128]), 'refused 12'),
    ('a stranger beside good floors', graph(2, [(0, 2)], floors=[0, 127]), 'refused 3'),
    ('a repeat and no floor', graph(2, [(0, 1)], [[0, 0]], []), 'refused 12'),
    ('a repeat beside good floors', graph(2, [(0, 1)], [[0, 0]], [0, 0]), 'refused 6'),
    ('32 words alone with floors', graph(32, [], floors=range(32)), 'accepted'),
    ('65,535 bytes of floors', field(1, [1]) + field(2, []) + field(4, bytes(65525)), 'refused 12'),
    ('65,536 bytes of floors', field(1, [1]) + field(2, []) + field(4, bytes(65526)), 'refused 1'),
    ('255 rows', tallest(), 'accepted'),
    ('256 rows, if floors went so high', tallest(floor=128), 'refused 12'),
]


def deepest(held):
    """The searches of all words but the last wait for each other; so many words more are a house line that their routes go through."""
    left = 128 - held
    house_line = range(left, 128)
    order = [left - 3, left - 4, *house_line, *range(left - 4), left - 2, left - 1]
    return graph(128, line(order), [house_line] if held else None)


# what takes most of the stack or of the tables: searches that wait for each other (of the first, 127), most arrows, bundles, lines
WORST = [
    ('the deepest search', deepest(0)),
    ('the deepest search beside a house line of one word', deepest(1)),
    ('the deepest search beside a house line of two words', deepest(2)),
    ('a search through 64 words at every step', graph(128, [(u, v) for u in range(64) for v in range(64, 128 - u)])),
    ('a search through 31 words at every step', graph(62, [(u, v) for u in range(31) for v in range(31, 62 - u)])),
    ('a line from the highest word down', graph(128, line(range(127, -1, -1)))),
    ('a line with arrows up to 32 on', graph(128, [(u, u + step) for step in range(1, 33) for u in range(128 - step)])),
    ('each word of a half to each of the other', graph(128, bipartite(64))),
    ('the same beside 32 house lines', graph(128, bipartite(64), [[u, u + 64] for u in range(32)])),
    ('each of 31 words to each of 31', graph(62, bipartite(31))),
    ('the same beside 16 house lines', graph(62, bipartite(31), [[u, u + 31] for u in range(16)])),
    ('4,096 arrows', graph(128, dense(4096))),
    ('4,096 arrows and 31 lines', layered(31)),
    ('4,096 arrows and a house line', graph(128, line(range(128)) + [(u, v) for v in range(128) for u in range(v - 1)][:3969], [range(128)])),
    ('128 house lines', graph(128, [], alone(128))),
    ('30 house lines and a planned one', graph(128, line(range(128)), alone(30))),
    ('255 rows', tallest()),
    ('255 rows with arrows two on', tallest(*[(u, u + 2) for u in range(126)])),
    ('255 rows with arrows two on, a house line', tallest(*[(u, u + 2) for u in range(126)], lines=[range(128)])),
    ('4,096 arrows and 31 lines with floors', layered(31) + field(4, [7 * word % 128 for word in range(128)])),
]


def build():
    """Builds the second implementation."""
    subprocess.run(['cargo', 'build', '--release', '--quiet', '--offline'], cwd=REFERENCE, check=True)


def listing(record):
    """What the second implementation prints."""
    return subprocess.run([REFERENCE / 'target/release/reference'], input=record, capture_output=True, check=True).stdout


def blocks(text):
    """Name, bytes and listing of each record of a list of vectors."""
    for name, digits, lines in BLOCK.findall(text):
        yield name, bytes.fromhex(digits), lines.encode()


def vectors():
    """The given records, with their listings."""
    for name in ['base', 'a', 'b', 'e']:
        yield from blocks((REFERENCE / f'vectors/{name}.txt').read_text())


def random_records(seed, count):
    """Random records, with house lines and floors among them, and damaged ones, with the second implementation's listings."""
    command = [REFERENCE / 'target/release/records', str(seed), str(count)]
    return blocks(subprocess.run(command, capture_output=True, text=True, check=True).stdout)

"""What the page must say and light, from a listing alone, and what the proved program `session` says."""
import subprocess

# the answers by whether an arrow and whether a longer route leads there, and the words of `session` for them
ANSWERS = {(False, False): 'not at all', (True, False): 'by an arrow only', (False, True): 'by longer routes only', (True, True): 'by both'}
SESSION = {'no': 'not at all', 'arrow': 'by an arrow only', 'longer': 'by longer routes only', 'both': 'by both'}


class Chart:
    """A listing's words, as line, column and row, their floors, if it has any, and its arrows, as pairs."""

    def __init__(self, listing):
        parts = [line.split(' ') for line in listing.splitlines()]
        words = [list(map(int, part[1:])) for part in parts if part[0] == 'w']
        self.words = [(line, column, row) for _, line, _, column, row, *_ in words]
        self.floors = [word[5] for word in words if len(word) == 6]
        self.arrows = [(int(part[2]), int(part[3])) for part in parts if part[0] == 'a']
        counted = parts[0][:3] == ['chart', str(len(self.words)), str(len(self.arrows))]
        if not words or not counted or len(self.floors) not in (0, len(words)):
            raise ValueError(f'no whole chart: {listing[:60]}')
        self.pairs = [(first, second) for first in range(len(self.words)) for second in range(len(self.words))]
        self.out = [[number for number, arrow in enumerate(self.arrows) if arrow[0] == word] for word in range(len(self.words))]
        self.known = {}

    def routes(self, first, second):
        """Whether an arrow and whether a longer route leads there, and the arrows of all routes: one arrow, then on from its end."""
        if (first, second) not in self.known:
            arrow, longer, lit = False, False, set()
            for number in self.out[first]:
                end = self.arrows[number][1]
                after = self.routes(end, second)
                arrow |= end == second
                longer |= after[0] or after[1]
                if end == second or after[0] or after[1]:
                    lit |= {number} | after[2]
            self.known[first, second] = arrow, longer, lit
        return self.known[first, second]

    def answer(self, first, second):
        return ANSWERS[self.routes(first, second)[:2]]

    def lit(self, first, second):
        return sorted(self.routes(first, second)[2])

    def said(self, *picks):
        """The line that the page shows for no pick, one or two. A word's floor is told where there are floors."""
        if len(picks) == 0:
            return 'Pick a word, then a second one, to see how the first leads to the second.'
        names = [f'{word} (floor {self.floors[word]})' if self.floors else str(word) for word in picks]
        if len(picks) == 1:
            return f'Word {names[0]} is picked. Pick a second word.'
        lit = len(self.lit(*picks))
        count = {0: 'no arrow', 1: '1 arrow'}.get(lit, f'{lit} arrows')
        return f'Word {names[0]} leads to word {names[1]}: {self.answer(*picks)} ({count} lit)'

    def label(self, word):
        floor = f', floor {self.floors[word]}' if self.floors else ''
        return f'word {word}, line {self.words[word][0]}{floor}'

    def levels(self):
        """The floors that have a line below their rows."""
        return sorted(set(self.floors) - {0})

    def next(self, word, key):
        """The word that an arrow key goes to: in the line, or in the nearest line that way, the nearest row."""
        _, column, row = self.words[word]
        ways = {'ArrowUp': lambda across, up: across == 0 < up, 'ArrowDown': lambda across, up: across == 0 > up,
                'ArrowLeft': lambda across, up: across < 0, 'ArrowRight': lambda across, up: across > 0}
        ahead = [(abs(x - column), abs(y - row), other) for other, (_, x, y) in enumerate(self.words) if ways[key](x - column, y - row)]
        return min(ahead)[2] if ahead else word

    def asked(self, session):
        """What `session` answers for every pair, in the page's words."""
        lines = [f'words {len(self.words)}', *(f'add {tail} {head}' for tail, head in self.arrows)]
        asks = [f'leads {first} {second}' for first, second in self.pairs]
        said = subprocess.run([session], input='\n'.join(lines + asks) + '\n', capture_output=True, text=True, timeout=60, check=True)
        answers = said.stdout.split('\n')[:-1]
        if len(answers) != len(lines) + len(asks) or set(answers[:len(lines)]) != {'ok'}:
            raise ValueError(f'session answers {answers[:len(lines)]}')
        return [SESSION.get(answer, answer) for answer in answers[len(lines):]]

"""A sample's page in a tab: what it shows, compared with what it must show."""
import os
import subprocess
from pathlib import Path

from charts import Chart

ROOT = Path(__file__).resolve().parents[2]
SVG = Path(os.environ.get('SVG', ROOT / 'apps' / 'target' / 'release' / 'svg'))

# the line, who is picked and lit, how that looks, what has the focus
STATE = '''(() => {
  const words = [...document.querySelectorAll('#chart .word')], arrows = [...document.querySelectorAll('#chart .arrow')];
  const numbers = (list, is) => list.map((one, number) => is(one) ? number : -1).filter((number) => number >= 0);
  const looks = (one) => { const style = getComputedStyle(one); return [style.stroke, parseFloat(style.strokeWidth), style.opacity] };
  arrows.sort((one, other) => one.dataset.arrow - other.dataset.arrow);
  return {
    said: document.getElementById('answer').textContent,
    first: numbers(words, (word) => word.matches('.first')), second: numbers(words, (word) => word.matches('.second')),
    pressed: numbers(words, (word) => word.getAttribute('aria-pressed') === 'true'),
    lit: numbers(arrows, (arrow) => arrow.matches('.lit')), arrows: arrows.map(looks),
    points: words.map((word) => getComputedStyle(word.querySelector('circle:not(.ring)'))).map((style) => style.fill + style.stroke),
    focus: words.indexOf(document.activeElement),
    ringed: numbers(words, (word) => getComputedStyle(word.querySelector('.ring')).stroke !== 'none'),
  };
})()'''
# the middles of the words' targets, their sizes, what lies there, and the boxes that must stay where they are
BOXES = '''(() => {
  const words = [...document.querySelectorAll('#chart .word')];
  const box = (one) => { const at = one.getBoundingClientRect(); return [at.x, at.y, at.width, at.height] };
  const targets = words.map((word) => box(word.querySelector('.target')));
  const middles = targets.map(([x, y, width, height]) => [x + width / 2, y + height / 2]);
  const scale = document.getElementById('chart').getScreenCTM().a;
  return {
    targets, middles, hit: middles.map(([x, y]) => words.indexOf(document.elementFromPoint(x, y)?.closest('.word'))),
    letters: Math.min(...words.map((word) => parseFloat(getComputedStyle(word.querySelector('text')).fontSize) * scale)),
    still: [...document.querySelectorAll('header, main, #chart, #clear')].map(box),
    clear: box(document.getElementById('clear')), wide: document.documentElement.scrollWidth, window: innerWidth,
  };
})()'''
# the lines below floors: each with its number, how large that is, and the boxes of both
FLOORS = '''(() => {
  const box = (one) => { const at = one.getBoundingClientRect(); return [at.x, at.y, at.width, at.height] };
  const scale = document.getElementById('chart').getScreenCTM().a;
  return [...document.querySelectorAll('#chart .floor')].map((floor) => {
    const [line, number] = ['line', 'text'].map((part) => floor.querySelector(part));
    const letters = parseFloat(getComputedStyle(number).fontSize) * scale;
    return { floor: Number(number.textContent), letters, line: box(line), number: box(number) };
  });
})()'''
# picks by events made in the page, for charts with too many pairs to tap
QUICK = '''((pairs) => {
  const words = [...document.querySelectorAll('#chart .word')];
  const lit = () => [...document.querySelectorAll('#chart .lit')].map((arrow) => Number(arrow.dataset.arrow)).sort((a, b) => a - b);
  const pick = (word) => words[word].dispatchEvent(new MouseEvent('click', { bubbles: true }));
  return pairs.map(([first, second]) => (pick(first), pick(second), [document.getElementById('answer').textContent, lit()]));
})'''

wrong = []
counts = {'taps': 0, 'pairs': 0}


def expect(what, said, expected):
    if said != expected:
        wrong.append(f'{what}: {said!r}, and not {expected!r}')


class Tried:
    """A sample's page, open in a tab."""

    def __init__(self, tab, folder, name, window=(1200, 1000), phone=False):
        self.tab, self.name = tab, name
        listing = (ROOT / 'samples' / f'{name}.listing').read_text()
        self.chart = Chart(listing)
        self.path = Path(folder) / f'{name}.html'
        drawn = subprocess.run([SVG, '--html'], input=listing, capture_output=True, text=True, timeout=60, check=True)
        self.path.write_text(drawn.stdout)
        tab.window(*window, phone)
        tab.open(self.path.as_uri())
        self.boxes = tab.ask(BOXES)

    def place(self, word):
        return self.boxes['middles'][word]

    def shows(self, what, *picks):
        """The state of the page, which must be that of these picks."""
        state, what = self.tab.ask(STATE), f'{self.name}, {what}'
        expect(f'{what}: the line', state['said'], self.chart.said(*picks))
        expect(f'{what}: first', state['first'], list(picks[:1]))
        expect(f'{what}: second', state['second'], list(picks[1:]))
        expect(f'{what}: pressed', state['pressed'], sorted(set(picks)))
        lit = self.chart.lit(*picks) if len(picks) == 2 else []
        expect(f'{what}: lit', state['lit'], lit)
        self.looks(what, state, lit, set(picks))
        return state

    def looks(self, what, state, lit, picks):
        """Lit arrows have a colour of their own and are broader than the others; picked words look like no other."""
        bright = [look for number, look in enumerate(state['arrows']) if number in lit]
        others = [look for number, look in enumerate(state['arrows']) if number not in lit]
        expect(f'{what}: colours of lit arrows', len({colour for colour, _, _ in bright}), min(1, len(lit)))
        expect(f'{what}: unlit arrows in that colour', {look[0] for look in bright} & {look[0] for look in others}, set())
        expect(f'{what}: faint lit arrows', [look for look in bright if look[2] != '1'], [])
        if bright and others:
            expect(f'{what}: lit arrows are broader', min(look[1] for look in bright) > max(look[1] for look in others), True)
        points = state['points']
        others = {points[word] for word in range(len(points)) if word not in picks}
        expect(f'{what}: picked words that look unpicked', [word for word in picks if points[word] in others], [])

    def stays(self, what):
        expect(f'{self.name}, {what}: what must not move', self.tab.ask(BOXES)['still'], self.boxes['still'])

    def pick(self, *words):
        self.tab.click(*map(self.place, words))
        counts['taps'] += len(words)

    def clear(self):
        x, y, width, height = self.boxes['clear']
        self.tab.click((x + width / 2, y + height / 2))

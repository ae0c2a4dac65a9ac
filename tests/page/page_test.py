#!/usr/bin/env python3
"""The page of a chart, tried in a headless browser: for every two words the answer and the arrows lit; taps, fingers, keys, sizes.

Needs the tool `svg` (apps/target/release/svg, or what SVG names) and a browser: what CHROME names, or chromium, chromium-browser,
google-chrome or google-chrome-stable on the path. Where no browser is installed nothing is tried, which one line says. What the page
answers is compared with the proved program too where that is there (crates/session/out/session, or what SESSION names).
Exit status 1 where something differs, or where the browser does not run. With --installed it only tells by its exit status whether
there is a browser.
"""
import os
import re
import signal
import subprocess
import sys
import tempfile
import time
from pathlib import Path

sys.dont_write_bytecode = True
import browser
from tried import BOXES, FLOORS, QUICK, ROOT, STATE, Tried, counts, expect, wrong

SESSION = Path(os.environ.get('SESSION', ROOT / 'crates' / 'session' / 'out' / 'session'))
SESSION_THERE = 'SESSION' in os.environ or SESSION.exists()
SMALL = ('p1', 'p5', 'p6', 'editor', 'house', 'centuries')
# seconds for all
LIMIT = 240
# what is big enough for a finger and for the eye, in CSS pixels
FINGER, LETTER = 44, 11
# how much letters stand out from the paper, at least: WCAG's ratio
CONTRAST = 4.5


def every_pair(page):
    """All ordered pairs by real taps. Each pair's first tap is a third one: it starts anew."""
    answers = []
    for first, second in page.chart.pairs:
        page.pick(first, second)
        state = page.shows(f'taps on {first}, {second}', first, second)
        answers.append(state['said'])
    page.stays('after all taps')
    counts['pairs'] += len(answers)
    return answers


def agrees(page, answers):
    """The answers that the page gave are those of the proved program."""
    if not SESSION_THERE:
        return
    for (first, second), line, answer in zip(page.chart.pairs, answers, page.chart.asked(SESSION)):
        said = line.partition(': ')[2].rpartition(' (')[0]
        expect(f'{page.name}: {first} to {second}, the page and session', said, answer)


def picks_and_clears(page):
    """None, one, two, a third that starts anew, the same word twice, the button; taps beside words pick nothing."""
    page.shows('at first')
    page.pick(0)
    page.shows('one tap', 0)
    page.pick(4)
    page.shows('two taps', 0, 4)
    page.pick(2)
    page.shows('a third tap', 2)
    page.pick(2)
    state = page.shows('the same word twice', 2, 2)
    expect('the same word twice', 'not at all' in state['said'], True)
    page.clear()
    page.shows('the button')
    page.pick(1)
    page.clear()
    page.shows('the button after one tap')
    x, y, width, height = page.boxes['still'][2]
    page.tab.click((x + 3, y + 3), (x + width - 3, y + height - 3))
    page.shows('taps beside words')
    page.stays('after picks and clears')


def tabbing(page):
    """Tab goes to the button, then from word to word by number, and back; the focus is seen."""
    tab, words = page.tab, range(len(page.chart.words))
    tab.key('Tab')
    expect(f'{page.name}: the first Tab', tab.ask('document.activeElement.id'), 'clear')
    for back, order in ((False, words), (True, words[-2::-1])):
        for word in order:
            tab.key('Tab', shift=back)
            state = tab.ask(STATE)
            expect(f'{page.name}: Tab to word {word}, back: {back}', (state['focus'], state['ringed']), (word, [word]))


def moving(page):
    """The arrow keys from every word, Home and End."""
    for word in range(len(page.chart.words)):
        for key in ('ArrowUp', 'ArrowDown', 'ArrowLeft', 'ArrowRight'):
            page.tab.ask(f'document.querySelectorAll("#chart .word")[{word}].focus()')
            page.tab.key(key)
            expect(f'{page.name}: {key} from word {word}', page.tab.ask(STATE)['focus'], page.chart.next(word, key))
    for key, word in (('Home', 0), ('End', len(page.chart.words) - 1)):
        page.tab.key(key)
        expect(f'{page.name}: {key}', page.tab.ask(STATE)['focus'], word)


def key_picks(page):
    """Enter and the space bar pick, a held key once; Escape clears; the focus stays."""
    tab, last = page.tab, len(page.chart.words) - 1
    tab.key('Tab')
    tab.key('Tab')
    tab.key('Enter')
    page.shows('Enter', 0)
    tab.key('End')
    tab.key(' ')
    page.shows('Enter, space bar', 0, last)
    tab.key('Enter')
    page.shows('a third key', last)
    tab.key('Escape')
    state = page.shows('Escape after one pick')
    expect(f'{page.name}: the focus after Escape', (state['focus'], state['ringed']), (last, [last]))
    tab.key('Enter', held=3)
    page.shows('Enter held', last)
    tab.key('Home')
    tab.key('Enter')
    page.shows('keys', last, 0)
    tab.key('Escape')
    page.shows('Escape after two picks')
    tab.key('Tab', shift=True)
    page.pick(3)
    tab.ask('document.activeElement.blur()')
    tab.key('Escape')
    page.shows('Escape while no word has the focus')
    page.stays('after keys')


def key_pairs(page):
    """All ordered pairs by keys alone."""
    page.tab.key('Tab')
    at = -1
    for first, second in page.chart.pairs:
        for word in (first, second):
            for _ in range(abs(word - at)):
                page.tab.key('Tab', shift=word < at)
            at = word
            page.tab.key('Enter')
        page.shows(f'keys on {first}, {second}', first, second)


def fits(page):
    """Targets and letters are big enough, each target is its word's, and the page is no broader than the window."""
    boxes = page.tab.ask(BOXES)
    small = [word for word, (_, _, width, height) in enumerate(boxes['targets']) if min(width, height) < FINGER]
    expect(f'{page.name}: words too small for a finger', small, [])
    expect(f'{page.name}: words hit', boxes['hit'], list(range(len(page.chart.words))))
    expect(f'{page.name}: the button is big enough', min(boxes['clear'][2:]) >= FINGER, True)
    expect(f'{page.name}: letters are big enough', round(boxes['letters'], 1) >= LETTER, True)
    expect(f'{page.name}: the page is no broader than the window', boxes['wide'] <= boxes['window'], True)


def floors(page):
    """Below the rows of each floor above 0 a line over the whole chart, its number left of all words; taps on them pick nothing."""
    drawn = page.tab.ask(FLOORS)
    expect(f'{page.name}: floors', [one['floor'] for one in drawn], page.chart.levels())
    # the chart is the last of these boxes
    left, _, width, _ = page.boxes['still'][-1]
    for one in drawn:
        what, at = f'{page.name}: floor {one["floor"]}', one['line'][1]
        above = [word for word, (_, y) in enumerate(page.boxes['middles']) if y < at]
        expect(f'{what}: words above', above, [word for word, (_, _, row) in enumerate(page.chart.words) if row >= one['floor']])
        expect(f'{what}: the line, from and to', list(map(round, (one['line'][0], one['line'][2]))), list(map(round, (left, width))))
        x, y, across, up = one['number']
        expect(f'{what}: the number is left of all words and above the line',
               left <= x and x + across < min(box[0] for box in page.boxes['targets']) and y + up / 2 < at, True)
        expect(f'{what}: letters are big enough', round(one['letters'], 1) >= LETTER, True)
        page.tab.click((x + across / 2, y + up / 2), (left + 1, at))
    page.shows('taps on floors')


def touched(page, *picks):
    """A finger on the last of these picks. The tap is told to the page after the finger's events: whether it came to be seen."""
    page.tab.touch(page.place(picks[-1]))
    end = time.monotonic() + 5
    while page.tab.ask(STATE)['said'] != page.chart.said(*picks) and time.monotonic() < end:
        time.sleep(0.01)
    page.stays(f'fingers on {picks}')
    return page.shows(f'fingers on {picks}', *picks)['said'] == page.chart.said(*picks)


def fingers(page):
    """A finger on some words of a phone; nothing moves, however long the line is."""
    for first, second in [*page.chart.pairs[::4], (1, 1)]:
        if not (touched(page, first) and touched(page, first, second)):
            return


def read_aloud(page):
    """What a screen reader is told: words as buttons with names, pressed or not, and a line that speaks up."""
    page.pick(1, 4)
    nodes = page.tab.call('Accessibility.getFullAXTree')['nodes']
    more = lambda node: {one['name']: one['value'].get('value') for one in node.get('properties', [])}
    told = [(node['role']['value'], node.get('name', {}).get('value'), more(node)) for node in nodes if not node['ignored']]
    buttons = [(name, more.get('pressed')) for role, name, more in told if role == 'button' and name != 'Clear']
    toggles = [(page.chart.label(word), 'true' if word in (1, 4) else 'false') for word in range(len(page.chart.words))]
    expect(f'{page.name}: buttons', buttons, toggles)
    expect(f'{page.name}: the button', [role for role, name, more in told if name == 'Clear' and more.get('focusable')], ['button'])
    expect(f'{page.name}: the line', [more.get('live') for role, _, more in told if role == 'status'], ['polite'])
    lines = lambda begin: sorted(name for _, name, _ in told if name and name.startswith(begin))
    expect(f'{page.name}: arrows', lines('arrow from'), sorted(f'arrow from word {tail} to word {head}' for tail, head in page.chart.arrows))
    expect(f'{page.name}: floors', lines('floor '), sorted(f'floor {floor}' for floor in page.chart.levels()))
    page.tab.key('Escape')


def light(colour):
    """How light a colour is, from 0 to 1 (WCAG's relative luminance)."""
    parts = [int(part) / 255 for part in re.findall(r'\d+', colour)[:3]]
    red, green, blue = [part / 12.92 if part <= 0.04045 else ((part + 0.055) / 1.055) ** 2.4 for part in parts]
    return 0.2126 * red + 0.7152 * green + 0.0722 * blue


def dark(page):
    """In the dark paper is darker than ink; letters stand out, floors' numbers too, and what is lit looks lit."""
    style = lambda one, part: light(page.tab.ask(f'getComputedStyle(document.querySelector("{one}")).{part}'))
    numbers = [('.floor text', 'fill')] if page.chart.levels() else []
    for is_dark in (True, False):
        page.tab.dark(is_dark)
        paper = style('body', 'backgroundColor')
        for one, part in [('body', 'color'), *numbers]:
            ink = style(one, part)
            expect(f'{page.name}: paper is darker than {one} where it is dark', paper < ink, is_dark)
            ratio = (max(paper, ink) + 0.05) / (min(paper, ink) + 0.05)
            expect(f'{page.name}: {one} stands out, dark: {is_dark}', ratio >= CONTRAST, True)
        page.pick(1, 9)
        page.shows(f'dark: {is_dark}', 1, 9)


def quickly(page, pairs):
    """Many pairs, by events made in the page."""
    answers = page.tab.ask(f'{QUICK}({[list(pair) for pair in pairs]})')
    for (first, second), (said, lit) in zip(pairs, answers, strict=True):
        expect(f'{page.name}, {first} and {second}: the line', said, page.chart.said(first, second))
        expect(f'{page.name}, {first} and {second}: lit', lit, page.chart.lit(first, second))
    counts['pairs'] += len(pairs)
    return [said for said, _ in answers]


def quiet(tab, pages):
    """The tab asked for its pages' files and nothing else, and nothing went wrong in it."""
    asked = [event['request']['url'] for event in tab.events('Network.requestWillBeSent')]
    expect('requests', sorted(url for url in set(asked) if not url.startswith('data:')), sorted({page.path.as_uri() for page in pages}))
    complaints = tab.events('Runtime.exceptionThrown', 'Log.entryAdded', 'Runtime.consoleAPICalled')
    expect('errors', [str(event)[:300] for event in complaints], [])


def try_all(tab, folder):
    pages = []

    def opened(name, *window, phone=False):
        pages.append(Tried(tab, folder, name, window or (1200, 1000), phone))
        return pages[-1]

    for name in SMALL:
        page = opened(name)
        agrees(page, every_pair(page))
    for name in ('editor', 'house', 'centuries'):
        for test in (tabbing, moving, key_picks, picks_and_clears):
            test(opened(name))
    for name in ('p1', 'p6'):
        key_pairs(opened(name))
    for name in ('editor', 'centuries'):
        for test in (read_aloud, dark, floors):
            test(opened(name))
    for name in SMALL:
        fits(opened(name, 360, 740, phone=True))
    floors(opened('centuries', 360, 740, phone=True))
    for window in ((320, 640), (390, 844)):
        for name in ('editor', 'centuries'):
            fingers(opened(name, *window, phone=True))
    page = opened('large')
    agrees(page, quickly(page, page.chart.pairs))
    for name in ('wide', 'deep', 'tall'):
        page = opened(name)
        quickly(page, page.chart.pairs[::331])
    for window in (320, 372, 712):
        page = opened('tall', window, 844, phone=True)
        quickly(page, [(0, 127)])
        page.stays(f'a long answer in a window of {window}')
    quiet(tab, pages)


def run(command):
    """Tries all pages in a browser, which is ended and whose files are removed in any case."""
    with tempfile.TemporaryDirectory(prefix='page-test-', ignore_cleanup_errors=True) as folder:
        driven = browser.Browser(command, folder)
        try:
            try_all(browser.Tab(driven), folder)
        finally:
            signal.alarm(0)
            driven.close()


def late(number, frame):
    raise TimeoutError(f'not done in {LIMIT} s, or told to end')


def main():
    command = browser.find()
    if '--installed' in sys.argv[1:]:
        return 0 if command else 1
    if command is None:
        print('page: not tried, since no headless browser is installed (chromium, google-chrome)')
        return 0
    for number in (signal.SIGALRM, signal.SIGTERM):
        signal.signal(number, late)
    signal.alarm(LIMIT)
    try:
        run(command)
    except (browser.BrowserError, OSError, ValueError, LookupError, TypeError, subprocess.SubprocessError) as error:
        wrong.append(f'{type(error).__name__}: {error}')
    for line in wrong[:20]:
        print(line)
    compared = 'compared with session' if SESSION_THERE else 'not compared with session, which is not there'
    tried = f'{counts["pairs"]} pairs of words tried in {os.path.basename(command)} with {counts["taps"]} taps'
    print(f'page: {tried}, {compared}: {len(wrong)} wrong')
    return 1 if wrong else 0


if __name__ == '__main__':
    sys.exit(main())

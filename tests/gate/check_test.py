#!/usr/bin/env python3
"""The checks of check.py refuse what they must, and take what keeps the rules: small repositories made in a temporary folder."""
import subprocess
import sys
import tempfile
from pathlib import Path

CHECK = Path(__file__).with_name('check.py')

SIZES = '''#define CEVILONETH_WORD_NUMBERS 6
#define CEVILONETH_ARROW_NUMBERS 5
#define CEVILONETH_BUNDLE_NUMBERS 4
#define CEVILONETH_WORDS 768
#define CEVILONETH_ARROWS 20480
#define CEVILONETH_BUNDLES 1024
#define CEVILONETH_LINES 31
#define CEVILONETH_ROWS 255
#define CEVILONETH_MOST_FLOOR 127
'''
STATED = 'pub words : 768 ≤ length ws\npub arrows : 20480 ≤ length es\npub bundles : 1024 ≤ length bs\n'
NUMBERS = 'word_numbers = 6\narrow_numbers = 5\nbundle_numbers = 4\n'
LIMITS = 'most_vertices = 128\nmost_channels = 31\nmost_floor = 127\nlongest_path = most_vertices\npage_rows = most_floor + longest_path\n'

KEEPS = 'pub fn f(a: &mut [u8]) -> u8\n    ensures none { result ≡ 0 }\n    ensures kept { a.new ≡ a.old }\n{ 0 }\n'

EDIT = '# breaks: proofs/Laws, law: words'
REFUSED = 'refused, as it must be: '
FACT = REFUSED + './proofs/Laws.antt:5:9: error: `law`: types differ'
OPEN = REFUSED + 'note: src/lib.rt:8:9: it is not proved that what the function ensures holds when it returns (`returns`)'
SOURCE = '''pub fn f() -> u8 {
    0
}

impl<'a> Kept for S<'a> {
    #[tactic(auto)]
    pub fn g(self) -> u8 {
        0
    }
}
'''
LAWS = '''-- laws
pub law : one ≡ two
unfolding one
law = trans a
    b

opened : one ≡ 1
unfolding one
opened = refl

table : Table
unfolding one two
table = record {
  one = refl;
  two =
      refl;
}
'''

# a name, the check, crates.txt (of logs: the edit), the source of the crate `one`, its definitions, the page, the header
# or what rt ci said of the edit, and what must be said; nothing where the check must pass
CASES = [
    ('a call that keeps the rules', 'promises', 'one:\n', KEEPS, None),
    ('a private call may require', 'promises', 'one:\n', 'fn f(n: u8)\n    requires { n < 9 }\n{}\n', None),
    ('a call within the crate may require', 'promises', 'one:\n', 'pub(crate) fn f(n: u8)\n    requires { n < 9 }\n{}\n', None),
    ('a call in a comment is none', 'promises', 'one:\n', '// pub fn f() {}\n', None),
    ('a requires', 'promises', 'one:\n', 'pub fn f(n: u8) -> u8\n    requires { n < 9 }\n    ensures { result ≡ n }\n{ n }\n', 'f has a requires'),
    ('no result', 'promises', 'one:\n', 'pub fn f(n: u8)\n    ensures { n ≡ n }\n{}\n', 'f has no result'),
    ('no promise', 'promises', 'one:\n', 'pub fn f() -> u8 { 0 }\n', 'f has no promise about its result'),
    ('a promise that leaves the result out', 'promises', 'one:\n', 'pub fn f(n: u8) -> u8\n    ensures { n ≡ n }\n{ n }\n', 'f has no promise about its result'),
    ('an exported call', 'promises', 'one:\n', '#[unsafe(no_mangle)]\npub extern "C" fn f() -> u8 { 0 }\n', 'f has no promise about its result'),
    ('a method', 'promises', 'one:\n', "impl S { pub fn f<'a>(self, n: &'a [u8]) -> u8 { 0 } }\n", 'f has no promise about its result'),
    ('a lent list left out', 'promises', 'one:\n', 'pub fn f(a: &mut [u8]) -> u8\n    ensures { result ≡ 0 }\n{ 0 }\n', 'contents of a at exit'),
    ('a second lent list left out', 'promises', 'one:\n', KEEPS.replace('a: &mut [u8]', "a: &mut [u8], b: &'b mut [u8]"), 'contents of b at exit'),
    ('a listed crate', 'listed', 'one: # with a comment\n', KEEPS, None),
    ('a listed static library', 'listed', 'one staticlib: two\n', KEEPS, None),
    ('an unlisted crate', 'listed', '# one:\n', KEEPS, 'crates/one is not in crates.txt'),
    ('a listed crate without a folder', 'listed', 'one:\ntwo: one\n', KEEPS, 'crates/ lacks'),
    ('a page that names what is there', 'named', 'one:\n', '`one/wrong`, `one::f`', None),
    ('an edit that the page leaves out', 'named', 'one:\n', '`one::f`', 'names no edit one/wrong'),
    ('an edit that is not there', 'named', 'one:\n', '`one/wrong`, `one/other`', 'names one/other, which is not there'),
    ('a file that is not there', 'named', 'one:\n', '`one/wrong`, `one/specs/No`', 'names one/specs/No, which is not there'),
    ('a call that is not there', 'named', 'one:\n', '`one/wrong`, `one::g`', 'names g in one::g'),
    ("the header's sizes", 'sizes', 'one:\n', SIZES, None),
    ('a size of another number', 'sizes', 'one:\n', SIZES.replace('20480', '20475'), "arrows: the header has ['20475'], the theorem ['20480']"),
    ('a limit of another number', 'sizes', 'one:\n', SIZES.replace('31', '32'), "lines: the header has ['32'], the theorem ['31']"),
    ('a size that is not there', 'sizes', 'one:\n', SIZES.replace('#define CEVILONETH_WORDS 768\n', ''), 'words: the header has []'),
    ('an entry of another length', 'sizes', 'one:\n', SIZES.replace('NUMBERS 6', 'NUMBERS 5'), "word_numbers: the header has ['5'], the theorem ['6']"),
    ('a limit that is a sum', 'sizes', 'one:\n', SIZES.replace('255', '254'), "rows: the header has ['254'], the theorem ['255']"),
    ('a floor of another number', 'sizes', 'one:\n', SIZES.replace('127', '128'), "most_floor: the header has ['128'], the theorem ['127']"),
    ('lines that fit', 'lines', 'one:\n', 'ab\n' + 'λ' * 140 + '\n', None),
    ('a long line', 'lines', 'one:\n', 'ab\n' + 'λ' * 141 + '\n', 'crates/one/specs/Lines.antt:2: 141 characters'),
    ('a refusal by the fact that is named', 'logs', EDIT, FACT, None),
    ('an error that follows from another', 'logs', EDIT, REFUSED + './proofs/A.antt:1:1: error: 1 declaration that depends on `law`, which was rejected', 'breaks proofs/A, ?'),
    ('a row of a record', 'logs', EDIT.replace('law:', 'table.two:'), FACT.replace('5:9', '15:9').replace('law', 'table'), None),
    ('a function without a proof file', 'logs', '# breaks: one::f, returns: words', OPEN.replace(':8:', ':2:'), None),
    ('a method without a proof file', 'logs', '# breaks: one::S::g, returns: words', OPEN, None),
    ('a method by its attribute', 'logs', '# breaks: one::S::g, returns: words', OPEN.replace(':8:', ':6:'), None),
    ('a function of another file', 'logs', '# breaks: one::part::f, returns: words', OPEN.replace('lib.rt:8', 'part.rt:2'), None),
    ('a goal that is cut off', 'logs', '# breaks: one::S::g, returns-then-a: words', OPEN.replace('returns`)', 'returns-th'), None),
    ('another goal', 'logs', '# breaks: one::S::g, returns-then-a: words', OPEN, 'breaks one::S::g, returns, not'),
    ('a goal of another function', 'logs', '# breaks: one::f, returns: words', OPEN, 'breaks one::S::g, returns, not'),
    ('a goal that is cut off, of another function', 'logs', '# breaks: one::f, returns-then-a: words', OPEN.replace('returns`)', 'returns-th'), 'breaks one::S::g'),
    ('an edit that names no fact', 'logs', '# a comment', FACT, 'has no line'),
    ('an edit that was not tried', 'logs', EDIT, None, 'run rt ci first'),
    ('an edit whose check gave no verdict', 'logs', EDIT, 'NOT TRIED: its check was killed', 'is not refused'),
    ('an edit that cannot be applied', 'logs', EDIT, "BAD EDIT: an 'old:' text is in src/lib.rt 0 times", 'is not refused: BAD EDIT'),
    ('an edit that is proved', 'logs', EDIT, 'NOT REFUSED: the crate is still proved with this edit', 'is not refused: NOT REFUSED'),
    ('an edit that takes a name away', 'logs', EDIT, FACT.replace('be:', 'be (only because a proof file names what the edit took away, so this says little: keep the names):'), 'does not fit'),
    ('a limit of the prover', 'logs', EDIT, FACT.replace('be:', 'be (only by a limit of the prover, so this says less: choose another change):'), 'by a limit of the prover'),
    ('another place', 'logs', EDIT, FACT.replace('law', 'other'), 'breaks proofs/Laws, other, not proofs/Laws, law'),
    ('another row', 'logs', EDIT.replace('law:', 'table.one:'), FACT.replace('5:9', '15:9').replace('law', 'table'), 'breaks proofs/Laws, table.two'),
    ('no error at all', 'logs', EDIT, REFUSED + 'logic=not-proved', 'breaks nowhere'),
    ('a need that is not there', 'logs', EDIT, FACT.replace('types differ', 'module `one.Goals` has no `x` that can be named from here'), 'does not fit'),
    ('a field that is not there', 'logs', EDIT, FACT.replace('types differ', 'record `Args` has no field `v`'), 'does not fit'),
    ('a name out of scope', 'logs', EDIT, FACT.replace('types differ', '`x` is not in scope'), 'does not fit'),
    ('a function that is not there', 'logs', EDIT, REFUSED + './proofs/f/Answers.antt: error: `one` has no function `f` for this file', 'does not fit'),
    ('a rewriting that finds nothing', 'logs', EDIT, FACT.replace('types differ', '`simp`: no equation of the list has an instance'), 'does not fit'),
    ('an invariant of other locals', 'logs', EDIT.replace('Laws, law:', 'f/Invariants, invariant-loop:'), FACT.replace('Laws', 'f/Invariants').replace('law', 'invariant-loop'), 'does not fit'),
    ('a definition without a type', 'logs', EDIT.replace('proofs', 'specs'), FACT.replace('proofs', 'specs'), 'is no definition'),
    ('a law that restates', 'logs', EDIT.replace('law:', 'opened:'), FACT.replace('5:9', '9:1').replace('law', 'opened'), 'only restates'),
    ('an answer that restates', 'logs', EDIT.replace('Laws, law:', 'f/Answers, opened:'), FACT.replace('Laws.antt:5:9', 'f/Answers.antt:9:1').replace('law', 'opened'), None),
]


def write_log(root, said):
    for file in ('Laws', 'f/Answers'):
        path = Path(root, f'crates/one/proofs/{file}.antt')
        path.parent.mkdir(parents=True)
        path.write_text(LAWS)
    for file in ('lib', 'part'):
        Path(root, f'crates/one/src/{file}.rt').write_text(SOURCE)
    Path(root, 'target').mkdir()
    Path(root, 'target/ci.log').write_text('rt: one proved\n' + (f'rt: must-fail one/wrong.edit: {said}\n' if said else ''))


def run(check, crates, source):
    with tempfile.TemporaryDirectory() as folder:
        for part in ('crates/one/src', 'crates/one/specs', 'crates/one/must-fail', 'docs', 'include'):
            Path(folder, part).mkdir(parents=True)
        Path(folder, 'crates.txt').write_text(crates)
        Path(folder, 'crates/one/must-fail/wrong.edit').write_text(crates if check == 'logs' else '')
        Path(folder, 'docs/PROMISES.md').write_text(source or '')
        Path(folder, 'crates/one/src/lib.rt').write_text(source if check == 'promises' else KEEPS)
        Path(folder, 'include/ceviloneth.h').write_text(source or '')
        if check == 'sizes':
            Path(folder, 'crates/demands/specs').mkdir(parents=True)
            Path(folder, 'crates/demands/specs/Demands.antt').write_text(STATED)
            Path(folder, 'crates/specification/specs').mkdir(parents=True)
            Path(folder, 'crates/specification/specs/Numbers.antt').write_text(NUMBERS)
            Path(folder, 'crates/specification/specs/Limits.antt').write_text(LIMITS)
        if check == 'lines':
            Path(folder, 'crates/one/specs/Lines.antt').write_text(source)
        if check == 'logs':
            write_log(folder, source)
        done = subprocess.run([sys.executable, CHECK, check, folder], capture_output=True, text=True)
        return done.returncode, done.stdout


def main():
    wrong = 0
    for name, check, crates, source, said in CASES:
        status, output = run(check, crates, source)
        right = (status == 0) if said is None else (status == 1 and said in output)
        if not right:
            wrong += 1
            print(f'{name}: exit status {status}, {output}')
    print(f'{len(CASES)} cases, {wrong} wrong')
    return 1 if wrong else 0


sys.exit(main())

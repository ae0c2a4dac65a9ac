#!/usr/bin/env python3
"""Checks of the repository that the prover does not make.

    check.py listed [ROOT]      every folder under crates/ is in crates.txt
    check.py promises [ROOT]    every public call keeps the rules of a promise
    check.py named [ROOT]       docs/PROMISES.md names files, must-fail edits and names that are there, and every edit
    check.py sizes [ROOT]       the lengths of lists that the header names are those of the theorem that 8 is not answered, the numbers of an
                                entry and the limits those of the definitions
    check.py lines [ROOT]       no line of a definition or a proof (.antt) has more than 140 characters
    check.py logs [ROOT]        by target/ci.log, what rt ci said: every must-fail edit was refused by the fact that its comment names

The rules: a public call (`pub fn`, exported ones and methods too; not `pub(crate)`) has no `requires`, has a result, has an `ensures`
that speaks of the result, and for each `&mut` parameter an `ensures` that speaks of it at exit. Exit status 1 where something is wrong.

An edit has a line `# breaks: FILE, DEFINITION: the fact, in words`: where the prover's first error lies, of which rt ci prints the first
line. FILE is without its ending, from the crate's folder; in a record the row follows the definition, `table.p2`. Of a goal that no proof
file answers the place is `crate::function` and the goal. An edit that rt ci could not try, or that only takes a name away which a proof
file cites, shows nothing of a fact.
"""
import re
import sys
from pathlib import Path

CALL = re.compile(r'\bpub\s+(?:extern\s+"C"\s+)?fn\s+(\w+)\s*(?:<[^>]*>)?\s*\(')
CLAUSE = re.compile(r'\s*(requires|ensures|ghost)\b\*?\s*\w*\s*\{')
WIDTH = 140
LENT = re.compile(r"(\w+)\s*:\s*&\s*(?:'\w+\s+)?mut\b")

BREAKS = re.compile(r'^# breaks: (\S+), (\S+): \S', re.M)
TRIED = re.compile(r'^rt: must-fail (\w+/[\w.-]+)\.edit: (.*)')
REFUSED = re.compile(r'refused, as it must be(?: \((only .*?)\))?: (?:\./)?(.*)')
ERROR = re.compile(r'^(\S+)\.(?:antt|rt)(?::(\d+):\d+)?: error: (?:`([^`]+)`: )?(.*)')
# a goal without an answer; rt cuts a long line off
UNPROVED = re.compile(r'^note: (?:\./)?src/(\S+)\.rt:(\d+):\d+: it is not proved .*?\(`([^`]+)(`?)')
FUNCTION = re.compile(r'^( *)(?:pub(?:\(\w+\))? )?(?:const |unsafe |extern "C" )*fn (\w+)')
IMPL = re.compile(r'^impl(?:<.*?>)? (?:[\w:]+(?:<.*?>)? for )?(\w+)')
# what the prover says where a proof file does not fit the code, or a name is not there: then no fact was tried
UNFIT = re.compile(r'has no (field|function|such)|(not in|in no) scope|can(not)? be named|is not (declared|there)|does not define'
                   r'|no such|no equation of the list has an instance|no occurrence')


def without_comments(text):
    """The text with comments blanked, so that lines keep their numbers."""
    blank = lambda found: re.sub(r'[^\n]', ' ', found.group())
    return re.sub(r'//[^\n]*', blank, re.sub(r'/\*.*?\*/', blank, text, flags=re.S))


def closing(text, start, pair):
    """The place after the bracket that closes the one at `start`."""
    depth = 0
    for place in range(start, len(text)):
        depth += (text[place] == pair[0]) - (text[place] == pair[1])
        if depth == 0:
            return place + 1
    raise ValueError('a bracket is not closed')


def calls(text):
    """Each public call: its name, its line, whether it has a result, its clauses, its `&mut` parameters."""
    text = without_comments(text)
    for found in CALL.finditer(text):
        after = closing(text, found.end() - 1, '()')
        parameters = text[found.end():after - 1]
        body = text.find('{', after)
        first = CLAUSE.search(text, after)
        head = text[after:first.start() if first and first.start() < body else body]
        clauses, place = [], after + len(head)
        while clause := CLAUSE.match(text, place):
            end = closing(text, clause.end() - 1, '{}')
            clauses.append((clause.group(1), text[clause.end():end - 1]))
            place = end
        yield found.group(1), text.count('\n', 0, found.start()) + 1, '->' in head, clauses, LENT.findall(parameters)


def speaks_of_result(promise):
    """Whether a clause uses `result`."""
    return bool(re.search(r"(?<![\w.-])result(?![\w'?-])", promise))


def faults(has_result, clauses, lent):
    """What is wrong with a public call, in words."""
    promises = [text for kind, text in clauses if kind == 'ensures']
    if any(kind == 'requires' for kind, _ in clauses):
        yield 'has a requires'
    if not has_result:
        yield 'has no result'
    if not any(speaks_of_result(promise) for promise in promises):
        yield 'has no promise about its result'
    for name in lent:
        at_exit = re.compile(r'(?<![\w.-])«?' + re.escape(name) + r'»?\.new\b')
        if not any(at_exit.search(promise) for promise in promises):
            yield f'has no promise about the contents of {name} at exit'


def check_promises(root):
    seen, wrong = 0, []
    for path in sorted(root.glob('crates/*/src/**/*.rt')):
        for name, line, has_result, clauses, lent in calls(path.read_text()):
            seen += 1
            wrong += [f'{path.relative_to(root)}:{line}: {name} {fault}' for fault in faults(has_result, clauses, lent)]
    print('\n'.join(wrong + [f'{seen} public calls, {len(wrong)} faults']))
    return not wrong


def check_listed(root):
    lines = (line.split('#')[0] for line in (root / 'crates.txt').read_text().splitlines())
    listed = {line.split(':')[0].split()[0] for line in lines if ':' in line}
    folders = {path.name for path in (root / 'crates').iterdir()}
    wrong = [f'crates/{name} is not in crates.txt' for name in sorted(folders - listed)]
    wrong += [f'crates.txt names {name}, which crates/ lacks' for name in sorted(listed - folders)]
    print('\n'.join(wrong + [f'{len(listed)} crates listed, {len(wrong)} faults']))
    return not wrong


def check_named(root):
    """The page that readers check us by: `crate/specs/File`, `crate/edit`, `a_name`, `Record.field` and `crate::call` in backquotes."""
    page = (root / 'docs' / 'PROMISES.md').read_text()
    quoted = set(re.findall(r'`([^`\n]+)`', page))
    crates = {folder.name: folder for folder in (root / 'crates').iterdir()}
    sources = [path for crate in crates.values() for part in ('src', 'specs', 'proofs') for path in (crate / part).rglob('*')
               if path.suffix in ('.rt', '.antt')]
    known = set(re.split(r'[\s(){}<>;,.:]+', ' '.join(path.read_text() for path in sources)))
    edits = {f'{name}/{edit.stem}' for name, crate in crates.items() for edit in crate.glob('must-fail/*.edit')}
    wrong = [f'names no edit {edit}' for edit in sorted(edits - quoted)]
    for text in sorted(quoted):
        if re.fullmatch(r'\w+/(specs|proofs)/\w+', text):
            if not (root / 'crates' / f'{text}.antt').exists():
                wrong.append(f'names {text}, which is not there')
        elif re.fullmatch(r'\w+/\w+', text) and text.split('/')[0] in crates:
            if text not in edits and not (root / 'crates' / text).is_dir():
                wrong.append(f'names {text}, which is not there')
        elif re.fullmatch(r"[A-Za-z][\w?'-]*(?:(?:\.|::)[A-Za-z][\w?'-]*)*", text):
            wrong += [f'names {part} in {text}, which is not there' for part in re.split(r'\.|::', text) if part not in known and part not in crates]
    for fault in wrong:
        print(f'docs/PROMISES.md {fault}')
    print(f'{len(quoted)} names, {len(wrong)} faults')
    return not wrong


def row_at(source, definition, line):
    """`definition`, and the row where the line stands in a record's row: `table.p2`."""
    row = None
    for text in reversed(source[:line]):
        own = re.match(r'\s*(pub )?' + re.escape(definition) + r'(\s|$)', text)
        found = re.match(r'\s+([^\s(]+) =(\s|$)', text)
        if found and not row and not own:
            row = found.group(1)
        if row and 'record {' in text:
            return f'{definition}.{row}'
        if own:
            break
    return definition


def function_at(source, line, where):
    """The function that a line of a source file stands in, or whose attribute it is, by its path: `crate::module::Type::name`."""
    while line < len(source) and source[line - 1].lstrip().startswith('#['):
        line += 1
    for place in range(line, 0, -1):
        found = FUNCTION.match(source[place - 1])
        if found:
            types = [IMPL.match(text) for text in reversed(source[:place])] if found.group(1) else []
            own = next((impl.group(1) for impl in types if impl), None)
            return '::'.join([*where, *([own] if own else []), found.group(2)])
    return '::'.join([*where, '?'])


def first_error(said, folder):
    """Where the first error lies, as a comment names it, whether the name is whole, and what is said of it."""
    if found := UNPROVED.match(said):
        file, line, goal, end = found.groups()
        modules = [] if file in ('lib', 'main') else file.split('/')
        source = folder / 'src' / f'{file}.rt'
        lines = source.read_text().splitlines() if source.exists() else []
        return (function_at(lines, min(int(line), len(lines)), [folder.name, *modules]), goal), bool(end), ''
    if found := ERROR.match(said):
        file, line, definition, said = found.groups()
        source = folder / f'{file}.antt'
        lines = source.read_text().splitlines() if source.exists() else []
        return (file, row_at(lines, definition or '?', int(line or 0))), True, said
    return ('nowhere', '?'), True, said


def restates(folder, file, definition):
    """Whether a law only opens a definition's clauses: `unfolding`, and by computation alone. Examples and functions' proofs do not."""
    source = folder / f'{file}.antt'
    if not source.exists() or file == 'proofs/Table' or re.match(r'proofs/.+/(Answers|Invariants|Proof)$', file) or '/Examples/' in file:
        return False
    name = re.escape(definition.split('.')[0])
    law = re.search(rf'^[ ]*(?:pub )?{name} :.*?(?=\n\s*\n|\Z)', source.read_text(), re.M | re.S)
    clauses = re.findall(rf'^[ ]*{name}\b[^:\n]* =\s+(.*)', law.group(), re.M) if law else []
    return bool(clauses) and 'unfolding' in law.group() and all(re.match(r'(refl|rw|simp)\b', clause) for clause in clauses)


def edit_faults(edit, folder, said):
    """What is wrong with an edit and with what rt ci said of it, in words."""
    named = BREAKS.search(edit.read_text())
    if not named:
        yield 'has no line `# breaks: FILE, DEFINITION: the fact`'
    if said is None:
        yield 'was not tried: run rt ci first'
        return
    refused = REFUSED.match(said)
    if not refused:
        yield f'is not refused: {said[:200]}'
        return
    place, whole, said = first_error(refused.group(2), folder)
    if (refused.group(1) or '').startswith('only by'):
        yield f'fails by a limit of the prover, no fact: {", ".join(place)}: {said[:200]}'
    elif refused.group(1) or UNFIT.search(said) or place[0].endswith('/Invariants'):
        yield f'fails since a proof does not fit, no fact: {", ".join(place)}: {said[:200]}'
    if place[0].startswith('specs/') and '/Examples/' not in place[0]:
        yield f'is no definition: {", ".join(place)}: {said[:200]}'
    if restates(folder, *place):
        yield f'fails in a law that only restates a definition: {", ".join(place)}'
    if named and named.groups() != place and (whole or named.group(1) != place[0] or not named.group(2).startswith(place[1])):
        yield f'breaks {", ".join(place)}, not {", ".join(named.groups())}'


def check_logs(root):
    log = root / 'target' / 'ci.log'
    tried = dict(found.groups() for found in map(TRIED.match, log.read_text().splitlines()) if found) if log.exists() else {}
    seen, wrong = 0, []
    for edit in sorted(root.glob('crates/*/must-fail/*.edit')):
        seen += 1
        name = f'{edit.parts[-3]}/{edit.stem}'
        wrong += [f'{name} {fault}' for fault in edit_faults(edit, edit.parents[1], tried.get(name))]
    print('\n'.join(wrong + [f'{seen} edits, {len(wrong)} faults']))
    return seen > 0 and not wrong


# names of the header's numbers, and those of the definitions that they must be
ENTRIES = {name: name for name in ('word_numbers', 'arrow_numbers', 'bundle_numbers')}
LIMITS = {'lines': 'most_channels', 'rows': 'page_rows', 'most_floor': 'most_floor'}


def defined(text, name):
    """The numbers that a name is defined by: digits, another name, or a sum of such."""
    found = re.findall(rf'^{name} = ([\w +]+)$', text, re.M)
    return [str(sum(part_of(text, part.strip()) for part in terms.split('+'))) for terms in found]


def part_of(text, part):
    """The number of one part of a sum."""
    return int(part if part.isdecimal() else next(iter(defined(text, part)), 0))


def check_sizes(root):
    header = (root / 'include' / 'ceviloneth.h').read_text()
    stated = (root / 'crates' / 'demands' / 'specs' / 'Demands.antt').read_text()
    proved = {name: re.findall(rf'pub {name} : (\d+) ≤ length', stated) for name in ('words', 'arrows', 'bundles')}
    for file, names in [('Numbers', ENTRIES), ('Limits', LIMITS)]:
        text = (root / 'crates' / 'specification' / 'specs' / f'{file}.antt').read_text()
        proved |= {name: defined(text, definition) for name, definition in names.items()}
    wrong = []
    for name, numbers in proved.items():
        said = re.findall(rf'#define CEVILONETH_{name.upper()} (\d+)', header)
        if len(said) != 1 or said != numbers:
            wrong.append(f'{name}: the header has {said}, the theorem {numbers}')
    print('\n'.join(wrong + [f'{len(proved)} sizes, {len(wrong)} faults']))
    return not wrong


def check_lines(root):
    paths = sorted(path for part in ('specs', 'proofs') for path in root.glob(f'crates/*/{part}/**/*.antt'))
    lines = ((path, number, line) for path in paths for number, line in enumerate(path.read_text().splitlines(), 1))
    wrong = [f'{path.relative_to(root)}:{number}: {len(line)} characters' for path, number, line in lines if len(line) > WIDTH]
    print('\n'.join(wrong + [f'{len(paths)} files, {len(wrong)} lines of more than {WIDTH} characters']))
    return not wrong


def main():
    checks = {
        'listed': check_listed,
        'promises': check_promises,
        'named': check_named,
        'sizes': check_sizes,
        'lines': check_lines,
        'logs': check_logs,
    }
    if len(sys.argv) not in (2, 3) or sys.argv[1] not in checks:
        sys.exit(__doc__)
    root = Path(sys.argv[2]) if len(sys.argv) == 3 else Path(__file__).resolve().parents[2]
    return 0 if checks[sys.argv[1]](root) else 1


if __name__ == '__main__':
    sys.exit(main())

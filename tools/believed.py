#!/usr/bin/env python3
"""How much must be believed: the definitions that the promises of public calls and the demands rest on.

    believed.py [ROOT] [--list]     files and lines of definitions, without imports, comments and blank lines;
                                    --list names each definition with its file and lines

What is right is defined in the crate `specification`. The demands, and the promises of the exported calls, are statements over it, and have to be read
too. Promises of the layers between are proved and used, but nobody has to believe them.

A promise is the `ensures` of a public function of a library; of a demand it is the type of a public theorem of `demands/proofs/Demands.antt`. A
name in it leads to its definition in a `specs/` file by the imports there, and from that on to every definition that it names. What only private
functions' contracts name is not counted.
"""
import re
import sys
from pathlib import Path

NAME = re.compile(r"[^\s(){},;.\[\]«»:λ→×=]+")
HEAD = re.compile(r'^( *)(?:abbrev |unfoldable )?pub (?:record |data )?([^\s(){}:]+)|^( *)(?:abbrev |unfoldable )([^\s(){}:]+) :')
USE = re.compile(r'^use (Rattle\S+?)(?:\.\{(.*)\}| as (\S+))$')
GHOST = re.compile(r'^ghost use (Rattle\S+?)(?:\.\{(.*)\}| as (\S+));$')
CALL = re.compile(r'\bpub\s+(?:extern\s+"C"\s+)?fn\s+(\w+)')
# The crate of definitions, those of the exported calls, and those that no chart needs.
DEFINED = 'specification'
EXPORTED = {'ceviloneth', 'ceviloneth_c'}
SESSIONS = {'editing', 'script', 'page', 'text'}


def module_of(path):
    """The module that an import names: `Rattle.reach.specs.Graph`."""
    found = re.match(r'Rattle\.(\w+)\.specs\.(.*)$', path)
    return (found.group(1), found.group(2)) if found else None


def imports(lines, form):
    """Names and aliases that a file brings in: name -> (crate, module)."""
    names, aliases = {}, {}
    for line in lines:
        found = form.match(line)
        where = found and module_of(found.group(1))
        if not where:
            continue
        if found.group(3):
            aliases[found.group(3)] = where
        for item in (found.group(2) or '').split(','):
            name, _, alias = item.strip().partition(' as ')
            names[alias.strip() or name] = (where, name)
    return names, aliases


class Specs:
    """The definitions of every `specs/` file: (crate, module, name) -> lines of its text."""

    def __init__(self, root):
        self.text, self.imports = {}, {}
        for path in sorted(root.glob('crates/*/specs/**/*.antt')):
            crate = path.relative_to(root / 'crates').parts[0]
            module = '.'.join(path.relative_to(root / 'crates' / crate / 'specs').with_suffix('').parts)
            lines = path.read_text().split('\n')
            self.imports[crate, module] = imports(lines, USE)
            for name, block in definitions(lines):
                self.text.setdefault((crate, module, name), []).extend(block)

    def named_in(self, words, where, names, aliases):
        """The definitions that words of a text name, by what the file has in scope."""
        for word in words:
            if where and (*where, word) in self.text:
                yield (*where, word)
            elif word in names:
                (crate, module), name = names[word]
                yield (crate, module, name)
        for alias, (crate, module) in aliases.items():
            if alias in words:
                yield from ((crate, module, w) for w in words if (crate, module, w) in self.text)

    def rest(self, roots):
        """All that the roots rest on."""
        seen, todo = set(), [r for r in roots if r in self.text]
        while todo:
            one = todo.pop()
            if one in seen:
                continue
            seen.add(one)
            crate, module, _ = one
            names, aliases = self.imports[crate, module]
            words = set(NAME.findall('\n'.join(self.text[one])))
            todo += [d for d in self.named_in(words, (crate, module), names, aliases) if d in self.text]
        return seen


def definitions(lines):
    """Each definition of a file with its lines: its head and all that stands deeper, or is a clause of it."""
    at = 0
    while at < len(lines):
        head = HEAD.match(lines[at])
        if not head:
            at += 1
            continue
        indent = len(head.group(1) if head.group(2) else head.group(3))
        name = head.group(2) or head.group(4)
        end = at + 1
        while end < len(lines):
            line = lines[end]
            deep = len(line) - len(line.lstrip())
            own = line.strip().startswith((name + ' ', name + '\n', 'unfolding ', '}', ')')) or line.strip() == name
            if line.strip() and deep <= indent and not (deep == indent and own):
                break
            end += 1
        yield name, [l for l in lines[at:end] if l.strip() and not l.strip().startswith('--')]
        at = end


def promised(root, specs):
    """The definitions that the public functions of libraries promise by: a set a crate."""
    for path in sorted(root.glob('crates/*/src/**/*.rt')):
        text = re.sub(r'//[^\n]*', '', path.read_text())
        if (path.parent / 'main.rt').exists():
            continue
        names, aliases = imports(path.read_text().split('\n'), GHOST)
        crate = path.relative_to(root / 'crates').parts[0]
        for call in CALL.finditer(text):
            body = text.find('\n{', call.end())
            words = set(NAME.findall(text[call.end():body]))
            yield crate, set(specs.named_in(words, None, names, aliases))


def demanded(root, specs):
    """The definitions that the theorems of the demands speak of."""
    lines = (root / 'crates/demands/proofs/Demands.antt').read_text().split('\n')
    names, aliases = imports(lines, USE)
    words = set()
    for name, block in definitions(lines):
        spelled = block[0].strip().startswith('abbrev ')  # what an abbreviation stands for is part of the types
        for line in block:
            if line.strip().startswith(name + ' ') and ' = ' in line and ' : ' not in line and not spelled:
                break
            words |= set(NAME.findall(line))
    return set(specs.named_in(words, None, names, aliases))


def report(title, specs, found):
    files = {(crate, module) for crate, module, _ in found}
    lines = sum(len(specs.text[one]) for one in found)
    print(f'{title}: {lines} lines of {len(found)} definitions, in {len(files)} files of {len({c for c, _ in files})} crates')


def main():
    words = [w for w in sys.argv[1:] if not w.startswith('--')]
    root = Path(words[0] if words else '.')
    specs = Specs(root)
    chart, exported, every = (set(demanded(root, specs)) for _ in range(3))
    for crate, roots in promised(root, specs):
        every |= roots
        if crate in EXPORTED:
            exported |= roots
        elif crate not in SESSIONS:
            chart |= roots
    of_chart, of_exported, whole = specs.rest(chart), specs.rest(exported), specs.rest(every)
    own = {one for one in whole if one[0] != DEFINED}
    report('what is right, for charts', specs, of_chart - own)
    report('what is right, with sessions and polylines', specs, whole - own)
    report('the demands, and what the exported calls promise by it', specs, of_exported & own)
    report('what the layers promise each other, which nobody has to believe', specs, own - of_exported)
    if '--list' in sys.argv:
        for crate, module, name in sorted(whole):
            print(f'  {crate}/specs/{module}: {name}: {len(specs.text[crate, module, name])}')


main()

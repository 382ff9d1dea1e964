#!/usr/bin/env python3
"""Brings the repository's own definitions and lemmas to today's spelling.

Run once, at the top, after the kit's port.py: words in snake case, types in camel case.
    is-row -> is_row      Border-basis -> BorderBasis
Names that Rattle makes (goals, steps) and names of the library keep theirs, and so do the
functions of src/, strings, inputs and outputs. In pages only what stands in backquotes turns.
"""
import collections
import pathlib
import re
import sys

ROOT = pathlib.Path(sys.argv[1] if len(sys.argv) > 1 else '.')
# aliases of functions that the kit's script gave a capital
ALIASES = {'Line-of': 'line_of', 'Ending-of': 'ending_of', 'Joins-set': 'joins_set'}
DEFINED = re.compile(
    r"^\s*(?:(?:abbrev|unfoldable|pub|record|data)\s+)*([^\s(){}\[\];,.\"«»:]+-[^\s(){}\[\];,.\"«»:]+)\s*(?::|\(|\{|=)")
TOKEN = re.compile(r"[^\s(){}\[\];,.\"«»`]+")
GOAL = re.compile(r"\b(?:goal|need|given)\.([^\s(){}\[\];,.]+)")
FROM_LIBRARY = re.compile(r"use (?:Rattle\.std|borrow|denote|logic|native|mathlib|lib|Prim)[^{};]*\.\{([^}]*)\}")


def sources():
    for crate in sorted((ROOT / 'crates').iterdir()):
        for sort in ('specs', 'proofs', 'src'):
            for path in sorted((crate / sort).rglob('*')):
                if path.suffix in ('.antt', '.rt'):
                    yield path


def respelt(name):
    name = name.replace('getD', 'get_or').replace('eqb', 'nat_eq')
    if name[0].isupper():
        return ''.join(part[0].upper() + part[1:] for part in name.split('-'))
    return name.replace('-', '_')


def own_names():
    made, library, defined = set(), set(), collections.Counter()
    for path in sources():
        text = path.read_text()
        made.update(GOAL.findall(text))
        for names in FROM_LIBRARY.findall(text):
            library.update(n.strip().split(' as ')[0] for n in names.split(','))
        for line in text.split('\n'):
            if path.suffix == '.antt' and not line.lstrip().startswith('--'):
                found = DEFINED.match(line)
                if found:
                    defined[found[1]] += 1
            for alias in re.findall(r"\bas ([^\s(){}\[\];,.]*-[^\s(){}\[\];,.]*)", line):
                defined[alias] += 1
    return {n: respelt(n) for n in defined
            if n not in made and n not in library and re.fullmatch(r"[\w']+(?:-[\w']+)+", n)} | ALIASES


def turn(text, names):
    return TOKEN.sub(lambda t: names.get(t[0], t[0]), text)


def turn_source(text, names):
    lines = []
    for line in text.split('\n'):
        code, mark, note = line.partition('//')
        lines.append(turn(code, names) + mark + note)
    return '\n'.join(lines)


def turn_page(text, names):
    return re.sub(r"`[^`\n]*`", lambda t: turn(t[0], names), text)


def main():
    names = own_names()
    taken = collections.defaultdict(set)
    for old, new in names.items():
        taken[new].add(old)
    for new, olds in taken.items():
        if len(olds) > 1:
            print('fall together:', new, sorted(olds))
    for path in sources():
        text = path.read_text()
        known = set(TOKEN.findall(text))
        for old, new in names.items():
            if old in known and new in known:
                print('also there:', path, old, new)
    for path in sources():
        text = path.read_text()
        new = turn_source(text, names) if path.suffix == '.rt' else turn(text, names)
        if new != text:
            path.write_text(new)
    for path in sorted((ROOT / 'crates').glob('*/must-fail/*.edit')):
        text = path.read_text()
        new = '\n'.join(turn(line, names) if line.startswith(('old:', 'new:')) else line for line in text.split('\n'))
        if new != text:
            path.write_text(new)
    for path in [ROOT / 'README.md'] + sorted((ROOT / 'docs').glob('*.md')):
        if path.exists() and not path.name.startswith('PORT'):
            path.write_text(turn_page(path.read_text(), names))
    print(len(names), 'names turned')


main()

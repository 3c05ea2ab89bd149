#!/usr/bin/env python3
"""Brings the names of definitions and lemmas to snake case, after port.py has run: `isSound` becomes `is_sound`, `row-listed` becomes `row_listed`.

Usage: respell.py   (from the repository's root, once)
The names are those that the files of specs/ and proofs/ declare, but for those in the folder of one function's proof. Types keep their capitals. Where a lemma
and a definition would fall together, the lemma gets `_lem`. Names are written anew in crates/, in the lists of misreadings, and between the backticks of
comments and pages. Functions, exported names, strings, inputs and outputs are left as they are.
"""
import pathlib
import re

ROOT = pathlib.Path('.')
DECLARED = re.compile(r"^ *(?:(?:pub|abbrev|unfoldable|data|record) +)*([a-z][\w'-]*)(?: +[({].*?[)}])* :(?: |$)", re.M)
TOKEN = re.compile(r"(?<![\w'-])[A-Za-z][\w'-]*")
COMMENT = re.compile(r'^(.*?)(//|--)(.*)$')
STRING = re.compile(r'("(?:[^"\\]|\\.)*")')
# A field that a definition would hide once both are in snake case.
BY_HAND = {'no_program': 'no_program_past'}


def snake(name):
    """A name in snake case; `getD` was the older word for `get_or`."""
    name = re.sub(r'([a-z0-9])([A-Z])', lambda found: f'{found[1]}_{found[2].lower()}', name.replace('getD', 'get_or'))
    return name.replace('-', '_')


def table():
    """Every name that changes, with the name that it gets."""
    camel, dashed = set(), set()
    for kind in ('specs', 'proofs'):
        for file in ROOT.glob(f'crates/*/{kind}/*.antt'):
            for name in DECLARED.findall(file.read_text(encoding='utf-8')):
                if '-' in name:
                    dashed.add(name)
                elif re.search(r'[a-z0-9][A-Z]', name):
                    camel.add(name)
    names = {name: snake(name) for name in camel}
    taken = set(names.values())
    for name in dashed:
        names[name] = snake(name) + ('_lem' if snake(name) in taken else '')
    return names | BY_HAND


def renamed(text, names):
    """A text without comments, with its names written anew; what stands in quotes stays."""
    parts = STRING.split(text)
    return ''.join(part if at % 2 else TOKEN.sub(lambda found: names.get(found[0], found[0]), part) for at, part in enumerate(parts))


def quoted(text, names):
    """A comment or a page, with the names between its backticks written anew."""
    parts = text.split('`')
    return '`'.join(TOKEN.sub(lambda found: names.get(found[0], found[0]), part) if at % 2 else part for at, part in enumerate(parts))


def source(text, names):
    """A source file, line by line: its code, and the names that its comments quote."""
    lines = []
    for line in text.split('\n'):
        found = COMMENT.match(line)
        if found and found[1].count('"') % 2 == 0:
            lines.append(renamed(found[1], names) + found[2] + quoted(found[3], names))
        else:
            lines.append(renamed(line, names))
    return '\n'.join(lines)


def listed(text, names):
    """A must-fail edit or a list of misreadings: what is read and written, and the names of those that refuse it."""
    lines = []
    for line in text.split('\n'):
        if line.startswith('#') and not line.startswith('# Refused:'):
            lines.append(quoted(line, names))
        else:
            lines.append(renamed(line, names))
    return '\n'.join(lines)


def main():
    names = table()
    written = 0
    for pattern, change in (
        ('crates/*/*/**/*.antt', source),
        ('crates/*/src/**/*.rt', source),
        ('crates/*/must-fail/*.edit', listed),
        ('tests/misreadings/*.txt', listed),
        ('README.md', quoted),
        ('docs/*.md', quoted),
    ):
        for file in sorted(ROOT.glob(pattern)):
            old = file.read_text(encoding='utf-8')
            new = change(old, names)
            if new != old:
                file.write_text(new, encoding='utf-8')
                written += 1
    print(f'{len(names)} names, {written} files written')


if __name__ == '__main__':
    main()

#!/usr/bin/env python3
"""Says whether every function of the crates states its outcome, which the prover then holds it to.

A program's `fn main(rt: HostRuntime)` is left out: no contract can say what a program writes. A method of an impl of a trait has the trait's clauses:
those of a trait of the crates stand at the trait, where they are asked for too, and for another trait the impl states the outcome in a ghost member
(`ghost from_gives`). Exit status 1 where a function states none.
"""
import pathlib
import re
import sys

FUNCTION = re.compile(r'^[ \t]*(?:pub(?:\([\w ]+\))?\s+)?(?:(?:const|unsafe|extern)\s+)*fn\s+(\w+)', re.M)
# What stands between a signature, or a clause, and the brace of the next clause: `ensures`, `ensures kept`, `requires*`, `ghost g:`.
CLAUSE = re.compile(r'(?<!\w)(requires|ensures|ghost)\b\*?\s*\w*\s*:?\s*$')


def blanked(text):
    """The text with blanks for its comments, strings and characters, in which a brace is none of the code's."""
    return re.sub(r"//[^\n]*|b?\"(?:\\.|[^\"\\])*\"|b?'(?:\\.|[^'\\\n])'", lambda found: re.sub(r'[^\n]', ' ', found[0]), text)


def kinds(text, at):
    """The kinds of the clauses of a function, whose name ends at this place."""
    found, start, depth, inside = [], at, 0, None
    for place in range(at, len(text)):
        sign = text[place]
        if sign in '([{':
            if depth == 0 and sign == '{':
                inside = CLAUSE.search(text, start, place)
                if not inside:
                    return found
                found.append(inside[1])
            depth += 1
        elif sign in ')]}':
            depth -= 1
            if depth == 0 and sign == '}':
                start = place + 1
        elif sign == ';' and depth == 0:
            return found
    return found


def stated(text, at, traits):
    """Whether the function at this place is a method of an impl whose trait, or whose ghost members, state the outcome."""
    header = list(re.finditer(r'^(?:impl(?:<[^>]*>)?\s+(\w+)(?:<[^>]*>)?\s+for\b|impl\b|pub\b|fn\b|trait\b|mod\b)', text[:at], re.M))
    if not header or not header[-1][1]:
        return False
    return header[-1][1] in traits or re.search(r'^\s*ghost\s+(?:try_)?from_gives\s*=', text[header[-1].end():at], re.M) is not None


def main():
    functions = 0
    silent = []
    sources = {source: blanked(source.read_text(encoding='utf-8')) for source in sorted(pathlib.Path('crates').glob('*/src/**/*.rt'))}
    traits = {found for text in sources.values() for found in re.findall(r'^(?:pub\s+)?trait\s+(\w+)', text, re.M)}
    for source, text in sources.items():
        for function in FUNCTION.finditer(text):
            if function[1] == 'main':
                continue
            functions += 1
            if 'ensures' not in kinds(text, function.end()) and not stated(text, function.start(), traits):
                silent.append(f'{source}:{text.count(chr(10), 0, function.start(1)) + 1}: {function[1]}')
    for place in silent:
        print(f'{place} states no outcome')
    print(f'contracts: {functions} functions, {len(silent)} without a stated outcome')
    return 1 if silent else 0


sys.exit(main())

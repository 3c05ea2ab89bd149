#!/usr/bin/env python3
"""Tests documents.py on a small made-up repository: texts that must not be reported, and texts with one fault each that must be.

Usage: documents_test.py   (from anywhere; takes seconds)
"""
import pathlib
import subprocess
import sys
import tempfile
import time

import documents

TREE = {
    'README.md': '# A core\n\nSee `docs/KERNEL.md`.\n',
    'docs/KERNEL.md': '# For kernels\n\n## A turn\n\nOf `begin_turn` (RULES 1.2).\n',
    'docs/RULES.md': '# Rules\n\n## 1. The machine\n\n- **1.1** A page.\n- **1.2** As 1.1 says; section 2 has more.\n\n'
                     '## 2. Calls\n\n- **2.1** A call (1.1, 1.2).\n- **2.2** The end.\n',
    'docs/landings/T-01.md': '# T-01\n\n`gone_name` was removed from crates/gone, which had 12 functions.\n',
    'tests/oracle/README.md': '# Oracle\n\nIts parts stand in `src/cases`.\n',
    'tests/oracle/src/cases/named.rs': '// RULES 2.1\nfn main() { run("cases-input") }\n',
    'tests/refused.py': '',
    'docs/PORT.md': 'Of an older Rattle: `gone_name`, crates/gone, 12 functions, ' + 'x' * 121 + '\n',
    'docs/DESIGN-PASS.md': 'Of an older form: `gone_name`, crates/gone, 12 functions, ' + 'x' * 121 + '\n',
    'crates.txt': 'machine:\nkernel: machine\n',
    'crates/machine/src/lib.rt': '// A machine (RULES 1.1,\n// 1.2).\npub struct Machine { pub number: u8 }\n'
                                 'pub fn zero() -> Machine { .. } // never ghostly_name\npub fn access_lent(right: u8) { .. }\n',
    'crates/machine/specs/Calls.antt': '-- RULES, section 2\nuse lib.Bits.{bitAnd}\nabbrev pub callOf : Machine → Machine\n',
    'crates/machine/proofs/Laws.antt': '-- only-said is said alone\nrefused-zero : Machine\nother-half : Machine\nother-half = callOf\nx\' : Machine\n',
    'crates/machine/must-fail/each_call_once.edit': '# Refused: access_lent\nold: 1\nnew: 2\n',
    'crates/kernel/src/main.rt': 'fn begin_turn() { .. }\n',
    'include/bench.h': '/* RULES 1.1 to 2.2 */\nunsigned bench_run(void);\n',
    'tools/progress.sh': 'echo "$1"\n',
    '.ci/run': 'rt ci\n',
    'Makefile': '.PHONY: run lib\nname := value\nrun:\n\techo run\nlib: target/staticlib/libkernel.a\n\techo lib\n',
    'crates/kernel/out/kernel': '#!/bin/sh\necho "load 0"; echo "1 0 -"; echo "2 9 -"; echo "3 8 -"; echo late >&2\n',
}

SOUND = [
    # paths
    'A file `docs/RULES.md`, docs/KERNEL.md, one below crates, machine/specs/Calls.antt, a name alone, Laws.antt.',
    'A module machine/proofs/Laws, an edit `machine/each_call_once`, a glob `crates/*/specs`.',
    'Any crate, `crates/NAME/must-fail/NAME.edit`; folders `tests/`, `crates/machine`; a file\'s end, specs/Calls.antt.',
    'Built are `crates/kernel/out/kernel`, crates/kernel/out, target/input and\n`target/staticlib/libkernel.a`; any `crates/NAME/out/NAME`.',
    'No path: and/or, 1/2, READ/WRITE, (n - 2) / 6, https://example.org/gone/file.md, `00 01 / 02`.',
    'The toolchain\'s guide `START-HERE.md`.',
    'Links to [a page](docs/KERNEL.md), [a turn](docs/KERNEL.md#a-turn), [there](https://example.org/gone.md),\n[here](#a-core).',
    'A heading: docs/KERNEL.md, "A turn", and `docs/KERNEL.md`, "For kernels".',
    # names
    'Names `callOf`, `refused-zero`, `x\'`, `Machine::zero`, `machine::access_lent`, `bitAnd`, `kernel`, `goal.returns`.',
    'Fields `answer.number`, `Machine.number`, `answer.0`; calls `access_lent(&mut fields, ..)`, `machine::zero()`.',
    'Forms `refused-..`, `..-zero`, `access_..`.',
    'Code `rt check kernel`, `let x = callOf y`, `-mllvm -gone-option=2`, `logic-built=trusted`, `oracle cases-input`.',
    'A pattern: `grep -nE \'some-pattern|a-z\' crates/*/src/*.rt`.',
    'What is printed: `0x0007`, `1 0 -`, `N passed, 0 failed`.',
    'In their files: `refused-zero` (machine/proofs/Laws.antt), `callOf` (Calls), `zero` and `access_lent`\n(`machine`, and so on).',
    'Of a list: `kernel`, `machine`, `callOf`. Said otherwise: `callOf`, machine/specs/Calls.antt, has it.',
    'A span over two lines: `let x =\n callOf y`.',
    # paragraphs
    'RULES 1.1, 1.2 and 2.1; RULES 1 to 2; docs/RULES.md, 2.2; docs/RULES.md, sections 1 and 2.',
    'RULES 1.1, 16 domains; 1.1 to 2.2 of RULES (2.1); RULES and 45 more.',
    'RULES itself, section 2, and what section 2 alone says; RULES, whose section 1 is long.',
    'No paragraph: 9.9 ns a call, (3.14), section 12 of the paper.',
    # targets
    'Say `make run`, `make`, or `make -s lib`; make names what failed.',
    # counts
    'Twelve functions and 16 pages; 3,000 calls; page 7. functions of T-1; `12 functions`; lines 3 to 7.',
    'On 2026-11-17 there were 12 functions.',
    'With T-01 the crates had 1,237 misreadings.',
    'Counted at T-01:\n\n| file | lines |\n|---|---|\n| `Calls.antt` | 12 |',
    '| kind | lines |\n|---|---|\n| a | those of a call |',
    # transcripts, and other blocks
    '    $ crates/kernel/out/kernel\n    load 0\n    1 0 -\n    2 9 -\n    3 8 -\n    late',
    '    $ crates/kernel/out/kernel\n    load 0\n    ..\n    3 8 -\n    late\n    $ x=3\n    $ echo "$x"\n    3',
    '    $ (exit 3)\n    $ echo $?\n    3',
    '```\n$ crates/kernel/out/kernel 2>&1 | head -n 2\nload 0\n1 0 -\n$ printf "no newline"; cd docs\nno newline\n$ ls RULES.md\nRULES.md\n```',
    '```sh\n$ echo one \\\n    two\none two\n$ printf "a\\n\\nb\\n"\na\n\nb\n$ crates/kernel/out/kernel\n..\n```',
    '    some_gone_name crates/gone\n    make gone',
    '```\nsome_gone_name in crates/gone, 12 functions\n```',
    # excerpts
    '    abbrev pub callOf : Machine → Machine',
    # lines
    'x' * 120,
    '| ' + 'x' * 195 + ' |',
]

# The text, and what is to be said of its last line (or of the line that is given).
FAULTY = [
    ('A file `docs/GONE.md`.', 'there is no docs/GONE.md'),
    ('A file machine/specs/Gone.antt here.', 'there is no machine/specs/Gone.antt'),
    ('A file Gone.antt.', 'there is no file Gone.antt'),
    ('A folder `crates/gone/`.', 'there is no crates/gone/'),
    ('A glob crates/*/gone/*.antt.', 'there is no crates/*/gone/*.antt'),
    ('An edit `machine/gone_edit`.', 'there is no machine/gone_edit'),
    ('A program `crates/gone/out/gone`.', 'there is no crates/gone/out/gone'),
    ('A program `crates/kernel/out/gone`.', 'there is no crates/kernel/out/gone'),
    ('A program of the older Rattle, `target/bin/kernel`.', 'there is no target/bin/kernel'),
    ('A library target/staticlib/libgone.a.', 'there is no target/staticlib/libgone.a'),
    ('Any `crates/NAME/gone`.', 'there is no crates/NAME/gone'),
    ('In a command: `cat docs/GONE.md crates.txt`.', 'there is no docs/GONE.md'),
    ('See [a page](docs/GONE.md).', 'the link leads to docs/GONE.md'),
    ('See [a page](docs/KERNEL.md#gone).', 'there is no such heading'),
    ('See docs/KERNEL.md,\n"Gone".', 'docs/KERNEL.md has no heading "Gone"', 3),
    ('A name `gone_name`.', 'the sources have no gone_name'),
    ('A law\n`gone-law`.', 'the sources have no gone-law'),
    ('A part of a law: `half`.', 'the sources have no half'),
    ('In a comment alone: `only-said`.', 'the sources have no only-said'),
    ('At a line\'s end: `ghostly_name`.', 'the sources have no ghostly_name'),
    ('A method `Machine::begin_turn`.', 'the sources have no Machine::begin_turn'),
    ('A crate `kernel::zero`.', 'the sources have no kernel::zero'),
    ('A field `answer.gone`.', 'the sources have no answer.gone'),
    ('A call `gone_call(right, page)`.', 'the sources have no gone_call'),
    ('An argument `access_lent(Gone::One)`.', 'the sources have no Gone::One'),
    ('Some of `..-gone`.', 'no name of the form ..-gone'),
    ('Code `let x = goneOf y`.', 'the sources have no goneOf'),
    ('| a | b |\n|---|---|\n| c | `gone_name` |', 'the sources have no gone_name'),
    ('- An item\n- with `gone_name`', 'the sources have no gone_name'),
    ('In another file: `callOf`, `refused-zero` (machine/proofs/Laws.antt).', 'machine/proofs/Laws.antt has no callOf'),
    ('In another module: `callOf` (Laws).', 'Laws has no callOf'),
    ('A paragraph, RULES 1.9.', 'RULES has no 1.9'),
    ('Several, RULES 1.1, 1.2 and\n2.9.', 'RULES has no 2.9'),
    ('To one that is not there, RULES 1.1 to 1.4.', 'RULES has no 1.4'),
    ('The manual (`docs/RULES.md`, 7.7).', 'RULES has no 7.7'),
    ('The manual docs/RULES.md, section 3.', 'RULES has no 3'),
    ('The manual docs/RULES.md calls it so (2.7).', 'RULES has no 2.7'),
    ('As 3.1 of RULES says.', 'RULES has no 3.1'),
    ('Say `make gone`.', 'the Makefile has no target gone'),
    ('Say `make name`.', 'the Makefile has no target name'),
    ('    $ crates/kernel/out/kernel\n    load 0\n    ..\n    3 9 -\n    late', 'prints something else', 3),
    ('    $ crates/kernel/out/kernel\n    load 0\n    1 0 0\n    ..', 'prints something else: "1 0 -", where the document has "1 0 0"', 3),
    ('    $ echo one', 'prints something else: "one", where the document has nothing'),
    ('    $ true\n    one', 'prints something else: nothing, where the document has "one"', 3),
    ('```\n$ x=1\n$ echo $x\n2\n```', 'prints something else: "1", where the document has "2"', 5),
    ('    $ exit 3\n    $ true', '`exit 3` did not come to its end', 3),
    ('    $ sleep 30', '`sleep 30` did not end within'),
    ('    $ crates/machine/out/machine', 'crates/machine/out/machine is not built'),
    ('    $ gcc target/staticlib/libkernel.a', 'target/staticlib/libkernel.a is not built'),
    ('    $ make test', 'runs the gate'),
    ('    $ cd . && RT_JOBS=1 rt ci', 'runs the gate'),
    ('    $ rt all verdict', 'proves from nothing'),
    ('    abbrev pub callOf : Machine → Bool', 'no file of definitions has "abbrev pub callOf : Machine → Bool" so'),
    ('x' * 121, 'a line of 121 characters'),
    ('    ' + 'x' * 117, 'a line of 121 characters'),
    ('| ' + 'x' * 196 + ' |', 'a row of 200 characters'),
    ('There are 1,237 misreadings.', '"1,237 misreadings" is counted by hand'),
    ('It has 22\nmust-fail edits.', '"22 must-fail edits" is counted by hand', 3),
    ('It tries 12 of the laws.', '"12 of the laws" is counted by hand'),
    ('A proof of 27 `use` lines.', '"27 `use` lines" is counted by hand'),
    ('| file | lines |\n|---|---|\n| `Calls.antt` | 12 |', 'the column "lines" is counted by hand', 3),
    ('| file | what |\n|---|---|\n| `Calls.antt` | 12 theorems |', '"12 theorems" is counted by hand'),
]

# Other files of the tree in place of its own, and what is to be said.
ELSEWHERE = [
    ('docs/landings/T-01.md', '# T-01\n\n' + 'word ' * 20 + '\n' + ('word ' * 20 + '\n') * 29, 'docs/landings/T-01.md:1: a note of 601 words'),
    ('docs/landings/T-01.md', 'x' * 121, 'docs/landings/T-01.md:1: a line of 121 characters'),
    ('docs/RULES.md', TREE['docs/RULES.md'] + '- **2.3** As 2.4 says.\n', 'docs/RULES.md:12: RULES has no 2.4'),
    ('docs/RULES.md', TREE['docs/RULES.md'] + '- **2.3** As section 3 says.\n', 'docs/RULES.md:12: there is no section 3 here'),
    ('docs/TRUST.md', '# Trust\n\n## 1. First\n\nAs section 2 and section 7 say.\n', 'docs/TRUST.md:5: there is no section 7 here'),
    ('docs/TRUST.md', '# Trust\n\n## 1. First\n\n## 4. Last\n\nTRUST, sections 1, 4\nand 5; RULES, section 2.\n',
     'docs/TRUST.md:7: there is no section 5 in TRUST'),
    ('crates/machine/src/lib.rt', TREE['crates/machine/src/lib.rt'] + '// Of RULES 1.1,\n// 1.7.\n', 'crates/machine/src/lib.rt:7: RULES has no 1.7'),
    ('crates/machine/specs/Calls.antt', TREE['crates/machine/specs/Calls.antt'] + '-- RULES, section 9\n', 'Calls.antt:4: RULES has no 9'),
    ('include/bench.h', '/* RULES 1.1\n * to 2.8 */\nunsigned bench_run(void);\n', 'include/bench.h:2: RULES has no 2.8'),
    ('tools/progress.sh', 'echo 1\n# docs/KERNEL.md, "A turn", and docs/GONE.md.\n', 'tools/progress.sh:2: there is no docs/GONE.md'),
    ('Makefile', TREE['Makefile'] + '# README.md,\n# "Gone", says it.\n', 'Makefile:7: README.md has no heading "Gone"'),
    ('tests/oracle/README.md', '# Oracle\n\nIts parts stand in `src/gone`.\n', 'tests/oracle/README.md:3: there is no src/gone'),
]


def written(folder, changed):
    """The made-up repository in a folder, with files that are changed."""
    root = pathlib.Path(folder).resolve()
    for name, text in {**TREE, **changed}.items():
        path = root / name
        path.parent.mkdir(parents=True, exist_ok=True)
        path.write_text(text, encoding='utf-8')
    (root / 'crates/kernel/out/kernel').chmod(0o755)
    return root


def checked(changed):
    """The faults of the made-up repository with files that are changed, as they are printed, and the check itself."""
    with tempfile.TemporaryDirectory() as folder:
        root = written(folder, changed)
        check = documents.Check(root)
        for document in documents.documents_in(root):
            check.document(document)
        check.comments()
        return [f'{place}:{line}: {what}' for place, line, what in check.faults], check


def printed(changed, keep=lambda root: None):
    """Exit status and last line of the program on the made-up repository."""
    with tempfile.TemporaryDirectory() as folder:
        root = written(folder, changed)
        keep(root)
        program = pathlib.Path(__file__).with_name('documents.py')
        ended = subprocess.run([sys.executable, program, root], capture_output=True, text=True, check=False)
        return ended.returncode, ended.stdout.strip().split('\n')[-1]


def main():
    done = []
    documents.SECONDS = 1

    def expect(what, holds):
        done.append(bool(holds))
        if not holds:
            print(f'FAILED: {what}')

    faults, check = checked({})
    expect(f'the made-up repository has no fault: {faults}', faults == [] and check.names > 10)
    for text in SOUND:
        faults, _ = checked({'README.md': f'# A core\n\n{text}\n'})
        expect(f'{text!r} has no fault: {faults}', faults == [])
    faults, check = checked({'README.md': '# A core\n\n' + '\n\nAnd:\n\n'.join(SOUND) + '\n'})
    expect(f'nor have all of them: {faults}', faults == [] and check.transcripts == 5)
    start = time.monotonic()
    for text, due, *lines in FAULTY:
        line = lines[0] if lines else 3 + text.count('\n')
        faults, _ = checked({'README.md': f'# A core\n\n{text}\n\nThe end.\n'})
        expect(f'{text!r} is reported once, in line {line}: {faults}',
               len(faults) == 1 and faults[0].startswith(f'README.md:{line}: ') and due in faults[0])
    expect('what does not end is stopped', time.monotonic() - start < 20)
    for name, text, due in ELSEWHERE:
        faults, _ = checked({name: text})
        expect(f'{due} is reported: {faults}', len(faults) == 1 and due in faults[0])

    status, last = printed({})
    expect(f'no fault, status 0: {last}', status == 0 and last.startswith('5 documents, 0 transcripts, ') and last.endswith(' looked up, 0 faults'))
    status, last = printed({'README.md': '`gone_name`\n\n    $ true\n'})
    expect(f'a fault, status 1: {last}', status == 1 and '1 transcripts, ' in last and last.endswith(', 1 faults'))
    status, last = printed({}, lambda root: [path.unlink() for path in root.rglob('*.md')])
    expect(f'no documents, status 1: {last}', status == 1 and last.startswith('0 documents'))
    print(f'{sum(done)} tests of documents.py passed, {len(done) - sum(done)} failed')
    return 0 if all(done) else 1


if __name__ == '__main__':
    sys.exit(main())

#!/usr/bin/env python3
"""Misreads the definitions, one place at a time, and sees that the law named for each misreading refuses it.

Usage: misread.py [LIST ..]   (from anywhere; without an argument every list in tests/misreadings)
A list has entries with an empty line between them:
    # what is misread, in plain words
    law: the law that refuses it
    file: crates/CRATE/specs/NAME.antt
    old: text that stands there exactly once (a new line is written \\n, a backslash \\\\)
    new: what is read in its place
`file`, `old` and `new` may follow again, where one misreading needs more than one change.

Only laws may refuse. So the crates are copied without their functions and without the proofs of these: types, definitions and laws stay, of
the laws the named one and what it rests on.

One run of the prover tries many misreadings side by side, since to start it takes longer than most laws do. Each misreading has copies of its
own, with its number at the end of their names: of the definitions that it or another misreading of its law changes, of all that rests on
these, and of the law. A copy uses copies of its own number, and beside them what rests on nothing that was changed, which stands once. For each
law of a run there is one copy more, without a change but with a false declaration after the law. That declaration has to be reported there,
and nothing else: so copies are looked at, what was copied is accepted as it stands, and what is reported of another copy comes from its change.

A misreading is refused where the prover reports an error inside the named law, in the copy for that misreading, which says that a fact fails.
That something which the law uses failed is not enough. A misreading that is no definition any more does not count, nor does any where the run
ended without a verdict.

Where no list is named, every law file is also shown to be looked at: a false declaration at the end of each, in the crates as they stand, has
to be reported. What does not hold is said as soon as it is known. The last line says how many misreadings the named laws refuse; the exit status
is 0 where that is all of them, and every law file is looked at.
"""
import concurrent.futures
import pathlib
import re
import shutil
import subprocess
import sys
import tempfile

HERE = pathlib.Path(__file__).resolve().parent
ROOT = HERE.parent
WORKERS = 2
# How many misreadings one run of the prover tries at most.
TOGETHER = 200
# What the prover says where a fact fails, as in refused.py.
FACT = (
    'the two types',
    'the two indices',
    'expected type',
    'give a proof of that as the last argument',
    'the goal does not follow',
    'the missing equation',
    'no proof of',
    'no occurrence of',
    '≟',
)
ERROR = re.compile(r'^(?:(\S+): )?error(?:\[[\w-]+\])?: (?:`([^`]+)`: )?(.*)$', re.M)
PLACE = re.compile(r'/crates/(\w+)/(specs|proofs)/(\w+?)(?:Copy(\d+))?\.antt:\d+:\d+')
USED = re.compile(r'^(use Rattle\.(\w+)\.(specs|proofs)\.(\w+))\.\{(.*)\}$', re.M)
# A module that is named in another way could not be given the name of a copy.
STRAY = re.compile(r'^(?!use Rattle\.\S+\.\{[^{}]*\}$).*Rattle\.\w', re.M)
DECLARED = re.compile(r' *(?:(?:pub|abbrev|unfoldable|data|record) )*([^\s(){}]+)(?: :(?: |$)| \(.*\) : Type)')
LAW = re.compile(r'^ *(?:pub )?(\S+) :(?: |$)', re.M)
FALSE = 'never_shown'
CANARY = f'\n\n{FALSE} : (A : Type 0) → A\n{FALSE} A = nothing_that_is_there\n'


class Fault(Exception):
    """Why a misreading does not count as refused."""


def crates_with_definitions():
    """The crates that have definitions, in order, with those that each uses."""
    found = {}
    for line in (ROOT / 'crates.txt').read_text(encoding='utf-8').splitlines():
        name, colon, uses = line.partition('#')[0].partition(':')
        if colon and (ROOT / 'crates' / name.strip() / 'specs').exists():
            found[name.strip()] = [use for use in uses.split() if use in found]
    return found


def declarations(text):
    """The lines of a source file that declare modules and types, with what each type needs from elsewhere."""
    kept, derived, inside = [], [], False
    for line in text.splitlines():
        if inside or re.match(r'(pub )?(mod|struct|enum)\b', line):
            kept += [*derived, line]
            inside = line != '}' and (inside or line.endswith('{'))
        derived = [line] if line.startswith('#[derive(') else []
    body, needed = '\n'.join(kept), []
    for public, path, names in re.findall(r'^(pub )?use ([\w:]+)::(\w+|\{[^{}]*\});', text, re.M):
        types = [name for name in re.findall(r'\w+', names) if re.match('[A-Z].*[a-z]', name)]
        # A use that is not passed on is kept where a type names it: the prover refuses one without need.
        needed += [f'{public}use {path}::{name};' for name in types if public or re.search(rf'\b{name}\b', body)]
    return '\n'.join(needed + kept) + '\n'


def part(text, wanted):
    """The part of a law file that some of its laws need: their declarations, those of the file that they rest on, and what these use."""
    uses, blocks = [], []
    for paragraph in text.split('\n\n'):
        lines = [line for line in paragraph.split('\n') if line and not line.lstrip().startswith('--')]
        if lines and lines[0].startswith('use '):
            uses += lines
        elif lines and lines[0].startswith(' '):  # more of a module
            blocks[-1] += '\n\n' + '\n'.join(lines)
        elif lines:
            blocks.append('\n'.join(lines))
    declared = [{found.group(1) for line in block.split('\n') if (found := DECLARED.match(line))} for block in blocks]
    words = [set(re.split(r'[\s(){}.,;]+', block)) for block in blocks]
    needed, kept = set(wanted), set()
    while more := {at for at, names in enumerate(declared) if at not in kept and names & needed}:
        kept |= more
        needed.update(*(words[at] for at in more))
    left = []
    for line in uses:
        module, braces, names = line.rstrip('}').partition('.{')
        # A name with marks for its arguments is also used where what stands between the marks is.
        names = [name for name in names.split(', ') if name in needed or all(piece in needed for piece in name.split('◌') if piece)]
        if not braces:  # a module, for names that are written with it before them
            left += [line] if module.rpartition('.')[2] in needed else []
        elif names:
            left.append(f"{module}.{{{', '.join(names)}}}")
    return '\n\n'.join(['\n'.join(left), *(blocks[at] for at in sorted(kept))]) + '\n'


def used_by(text):
    """The modules of the crates that a module uses, with the names that it uses of each."""
    return {tuple(found[1:4]): set(found[4].split(', ')) for found in USED.findall(text)}


def resting(texts, changed):
    """Some of these modules, and those that rest on them."""
    found = set(changed)
    while more := {module for module, text in texts.items() if module not in found and not found.isdisjoint(used_by(text))}:
        found |= more
    return found


class Modules:
    """The definitions and laws: each module, which is a crate, 'specs' or 'proofs', and a name, with its text."""

    def __init__(self):
        self.crates = crates_with_definitions()
        self.texts, self.homes = {}, {}
        for crate in self.crates:
            for kind in ('specs', 'proofs'):
                for file in sorted((ROOT / 'crates' / crate / kind).glob('*.antt')):
                    if file.stem != 'Lib':
                        self.add((crate, kind, file.stem), file.read_text(encoding='utf-8'))

    def add(self, module, text):
        """Takes a module in."""
        if 'Copy' in module[2] or STRAY.search(text):
            sys.exit(f'{"/".join(module)}: called a copy, or names a module in a line that is not `use MODULE.{{NAMES}}`')
        self.texts[module] = text
        if module[1] == 'proofs':
            # The law file of each declaration that stands in one alone.
            for name in set(LAW.findall(text)):
                self.homes[name] = None if name in self.homes else module

    def text(self, module, names):
        """A module, of a law file only the part that these names need."""
        return part(self.texts[module], names) if module[1] == 'proofs' else self.texts[module]

    def under(self, law):
        """The modules that a law is checked with, its own file, the law files that it uses and the definitions that these are about, each with the
        names that are needed of it."""
        found, wanted = {}, {self.homes[law]: {law}}
        while wanted:
            module, names = wanted.popitem()
            names = names | found.get(module, set())
            if names != found.get(module):
                found[module] = names
                for used, more in used_by(self.text(module, names)).items():
                    if used in self.texts:
                        wanted[used] = wanted.get(used, set()) | more
        return found


def misread(modules, law, changes):
    """The modules that a misreading changes, with their new texts."""
    under, texts = modules.under(law), {}
    for file, old, new in changes:
        found = re.fullmatch(r'crates/(\w+)/(specs)/(\w+)\.antt', file)
        module = found and found.groups()
        if module not in under:
            raise Fault(f'{file} has no definition that the law is about')
        text = texts.get(module, modules.texts[module])
        if text.count(old) != 1:
            raise Fault(f'{old!r} stands {text.count(old)} times in {file}')
        texts[module] = text.replace(old, new)
        if STRAY.search(texts[module]):
            raise Fault(f'{new!r} names a module in a line that is not `use MODULE.{{NAMES}}`')
    return texts


def write_crates(modules, texts, folder):
    """The crates with their types and these modules, without functions: so a program is a library. Law files are listed as the crates list them, copies
    beside them."""
    for crate in modules.crates:
        home = ROOT / 'crates' / crate
        for source in home.glob('src/**/*.rt'):
            target = folder / (source.with_name('lib.rt') if source.name == 'main.rt' else source).relative_to(ROOT)
            target.parent.mkdir(parents=True, exist_ok=True)
            target.write_text(declarations(source.read_text(encoding='utf-8')), encoding='utf-8')
        for kind in ('specs', 'proofs'):
            names = [name for *place, name in texts if place == [crate, kind]]
            if names:
                (folder / 'crates' / crate / kind).mkdir(exist_ok=True)
                listed = (home / kind / 'Lib.antt').read_text(encoding='utf-8').splitlines()
                lines = [line for line in listed if line.split()[-1] in names] + [f'pub mod {name}' for name in names if 'Copy' in name]
                (folder / 'crates' / crate / kind / 'Lib.antt').write_text('\n'.join(lines) + '\n', encoding='utf-8')
                for name in names:
                    (folder / 'crates' / crate / kind / f'{name}.antt').write_text(texts[crate, kind, name], encoding='utf-8')


def ask_prover(words):
    """What the prover says, and its exit status, None where it was stopped."""
    program = shutil.which('rt')
    if not program:
        sys.exit('rt is missing: install the Rattle toolchain')
    kit = pathlib.Path(program).resolve().parent.parent
    # Definitions use the prelude of the kit's library std, so that is loaded, as it was built.
    command = [kit / 'bin/rattle', 'check', *words, '--extern', f'std={kit}/rlibs/std.rlib', '-L', f'dependency={kit}/rlibs']
    command += ['--antt-project', kit / 'rattle/logic/antt-project.json', '--logic-built', kit / 'logic_built']
    try:
        done = subprocess.run([str(word) for word in command], stdout=subprocess.PIPE, stderr=subprocess.STDOUT, timeout=900)
        return done.stdout.decode('utf-8', 'replace'), done.returncode
    except subprocess.TimeoutExpired as late:
        return str(late), None


def check(modules, texts):
    """The errors that the prover reports of these modules: the module and the number of the copy that each stands in, the declaration, and what is
    said. A place that is no module has neither. There is always a false declaration, so any other verdict is none."""
    with tempfile.TemporaryDirectory() as folder:
        folder = pathlib.Path(folder)
        write_crates(modules, texts, folder)
        top = folder / 'top/src/lib.rt'
        top.parent.mkdir(parents=True)
        top.write_text('', encoding='utf-8')
        words = ['--crate-name', 'top', top]
        for crate, uses in modules.crates.items():
            words += ['--lib', f"{crate}:{','.join(['std', *uses])}={folder}/crates/{crate}/src/lib.rt"]
        report, status = ask_prover(words)
    if status != 1 or not report.endswith('\nlogic=not-proved\n'):
        raise Fault(f'the prover gives no verdict: {report[-300:]}')
    errors = []
    for place, name, said in ERROR.findall(report):
        found = PLACE.fullmatch(place.removeprefix(str(folder)))
        module, number = (found.groups()[:3], found[4]) if found else (place, None)
        errors.append((module, number and int(number), name, said))
    return errors


def copied_for(texts, home, changed, first):
    """The copies for a law: one without a change but with a false declaration, then one for each misreading, which is the modules that it changes with
    their new texts. They have numbers from a first one on. The modules that have copies, and the copies."""
    moved, written = resting(texts, {home}.union(*changed)), {}
    for number, new in enumerate([{home: texts[home] + CANARY}, *changed], first):
        for crate, kind, name in moved:
            text = new.get((crate, kind, name), texts[crate, kind, name])
            text = USED.sub(lambda use: use[1] + (f'Copy{number}' if use.groups()[1:4] in moved else '') + use[0][len(use[1]) :], text)
            written[crate, kind, f'{name}Copy{number}'] = text
    return moved, written


def judge(law, home, errors):
    """Nothing where the law refuses the misreading whose copy has these errors."""
    refused = set()
    for module, _, declaration, said in errors:
        if module[1] == 'specs':
            raise Fault(f'no definition any more: {module[0]}/{module[2]}: {said}')
        if any(word in said for word in FACT) and 'was not admitted' not in said:
            refused.add((module, declaration))
    if (home, law) not in refused:
        others = ', '.join(sorted(declaration for _, declaration in refused))
        raise Fault(f'{law} does not refuse it' + (f'; of what it rests on, {others} does' if others else ''))


def try_together(modules, batch):
    """Tries misreadings in one run of the prover. Each is where it stands, its law, and the modules that it changes with their new
    texts. The faults, by where."""
    by_law = {}
    for where, law, changed in batch:
        by_law.setdefault(law, {})[where] = changed
    written, shared, first, copies = {}, {}, {}, 0
    for law, group in by_law.items():
        under, first[law] = modules.under(law), copies
        texts = {module: modules.text(module, names) for module, names in under.items()}
        moved, new = copied_for(texts, modules.homes[law], list(group.values()), copies)
        written.update(new)
        copies += 1 + len(group)
        for module in under.keys() - moved:
            shared[module] = shared.get(module, set()) | under[module]
    written.update({module: modules.text(module, names) for module, names in shared.items()})
    try:
        errors = check(modules, written)
    except Fault as none:  # a prover that dies or hangs refuses nothing
        if len(batch) == 1:
            return {batch[0][0]: str(none)}
        half = len(batch) // 2
        return {**try_together(modules, batch[:half]), **try_together(modules, batch[half:])}
    faults, elsewhere = {}, [error for error in errors if error[1] is None]
    for law, group in by_law.items():
        home, unchanged = modules.homes[law], [error for error in errors if error[1] == first[law]]
        accepted = not elsewhere and [(module, name) for module, _, name, _ in unchanged] == [(home, FALSE)]
        for number, where in enumerate(group, first[law] + 1):
            try:
                if not accepted:
                    raise Fault(f'the definitions and laws are not accepted as they stand: {elsewhere or unchanged}')
                judge(law, home, [error for error in errors if error[1] == number])
            except Fault as fault:
                faults[where] = str(fault)
    return faults


def not_looked_at(modules):
    """The law files that are not shown to be looked at: each has a false declaration at its end, which alone has to be reported of it."""
    files = [module for module in modules.texts if module[1] == 'proofs']
    errors = check(modules, {module: text + (CANARY if module in files else '') for module, text in modules.texts.items()})
    found = [(module, name) for module, _, name, _ in errors]
    if extra := [error for error in errors if error[0] not in files or error[2] != FALSE]:
        raise Fault(f'the definitions and laws are not accepted as they stand: {extra}')
    return [module for module in files if (module, FALSE) not in found]


def entries(path):
    """The entries of a list: where each stands, what is misread, the law, and the changes."""
    number = 1
    for block in path.read_text(encoding='utf-8').split('\n\n'):
        where = f'{path.name}:{number + len(block) - len(block.lstrip(chr(10)))}'
        number += block.count('\n') + 2
        what, law, changes, file, old = [], '', [], '', ''
        for line in block.strip('\n').split('\n'):
            word, _, rest = line.partition(': ')
            rest = re.sub(r'\\(.)', lambda mark: '\n' if mark.group(1) == 'n' else mark.group(1), rest)
            if line.startswith('#'):
                what.append(line[1:].strip())
            elif word == 'law':
                law = rest
            elif word == 'file':
                file = rest
            elif word == 'old':
                old = rest
            elif word == 'new' or line == 'new:':
                changes.append((file, old, rest))
            elif line:
                sys.exit(f'{where}: {line!r} is no line of an entry')
        if what or changes:
            yield where, ' '.join(what), law, changes


def faults_in(modules, lists):
    """Tries all entries of some lists, and gives for each, as soon as it is known, where it stands, what is misread, and its fault: nothing where the
    named law refuses it."""
    named, ready = {}, []
    for where, what, law, changes in (entry for path in lists for entry in entries(path)):
        if where in named:
            sys.exit(f'{where}: two lists have one name')
        named[where] = what
        try:
            if not what or not law or not changes:
                raise Fault('an entry says what is misread, which law refuses it, and where')
            if not modules.homes.get(law):
                raise Fault(f'there is no law {law}, or more than one')
            ready.append((where, law, misread(modules, law, changes)))
        except Fault as fault:
            yield where, what, str(fault)
    # Laws of one file use much the same, which then stands once for them.
    ready.sort(key=lambda one: (modules.homes[one[1]], one[1]))
    batches = [ready[at : at + TOGETHER] for at in range(0, len(ready), TOGETHER)]
    with concurrent.futures.ThreadPoolExecutor(WORKERS) as workers:
        running = {workers.submit(try_together, modules, batch): batch for batch in batches}
        for done in concurrent.futures.as_completed(running):
            faults = done.result()
            for where, _, _ in running[done]:
                yield where, named[where], faults.get(where, '')


def main():
    modules = Modules()
    lists = [pathlib.Path(name) for name in sys.argv[1:]]
    refused, unseen, faults = 0, [], 0
    if not lists:
        lists = sorted((HERE / 'misreadings').glob('*.txt'))
        unseen = not_looked_at(modules)
        for module in unseen:
            print(f"crates/{'/'.join(module)}.antt is not looked at", flush=True)
        print(f"{sum(kind == 'proofs' for _, kind, _ in modules.texts)} law files, {len(unseen)} of them not looked at", flush=True)
    for where, what, fault in faults_in(modules, lists):
        if fault:
            faults += 1
            print(f'{where}: {what}: {fault[:1000]}', flush=True)
        else:
            refused += 1
    print(f'{refused} misreadings refused, {faults} not')
    return 1 if unseen or faults or not refused else 0


if __name__ == '__main__':
    sys.exit(main())

#!/usr/bin/env python3
"""Checks why the prover refuses each must-fail edit: every function and law that the edit names is refused by itself.

Usage: refused.py [CRATE ..]   (from anywhere; without an argument the edits of every crate)
An edit names them in a line '# Refused: NAME ..', with the type before the name (`TYPE::NAME`) where the name alone is another's too. `rt ci` says of an edit only what was refused first. So each is tried here once more: the
crate is checked as it stands, and then, in a copy outside the repository, with the edit in it and over what that check kept. Of what the
check of the copy says, this counts:

- A function is refused by itself where `search` does not prove one of its goals, where rattle finds values at which one is false, or where an
  error stands in its own proof files that says that a fact fails: two sides that differ, a goal that does not follow, one that no search
  proves, or one without the term that an equation of the proof rewrites. That a function which it calls is not proved does not count, and
  where an answer no longer fits the code's shape nothing of that file does: it names a goal or a place that is not there.
- A law is refused by itself where such an error stands in it.

Rattle names goals and places after the conditions of the code (`if-size-gt4`). Where the edit changes a condition, its new name is put into the
answers that have the old one, and the copy is checked once more: what counts is what these answers then fail to show.
"""
import concurrent.futures
import os
import pathlib
import re
import shutil
import subprocess
import sys
import tempfile

ROOT = pathlib.Path(__file__).resolve().parent.parent
WORKERS = max(1, len(os.sched_getaffinity(0)) // 2)
FACT = (
    'the two types',
    'the two indices',
    'expected type',
    'give a proof of that as the last argument',
    'does not follow',
    'found no proof',
    'the missing equation',
    'no proof of',
    'no occurrence of',
    '≟',
)
SHAPE = ('that can be named from here', 'not in scope', 'has no field', 'has no `')
NAMES = re.compile(r'^# Refused: (.+)$', re.M)
OUTCOME = re.compile(r'(?:fn|struct|enum|trait|impl) (\S+): ')
# A place, or a goal, that an answer names and that is not there, and what is there in its place.
GONE = (
    re.compile(r'^\./(\S+)/\w+\.antt:\d+:\d+: error: .* has no field `([^`]+)` \(nearest: ([^)]*)\)', re.M),
    re.compile(r'^\./(\S+)/\w+\.antt:\d+:\d+: error: .*\.Goals` has no `([^`]+)` that can be named from here \(did you mean ([^)]*)\?\)', re.M),
)
NO_GOAL = re.compile(r'^fn \w+::(\S+): not proved.*\nhelp: `Goals` has no `([^`]+)`; rattle asks for ((?:`[^`]+`(?:, )?)+)', re.M)
# What of such a name is of the condition, and what stands before it.
CONDITION = re.compile(r'(|.*-)(if|then|else)-(.+)')
UNPROVED = '`search` did not prove'
FALSE = 'allow values at which this goal is false'


def says(errors, words):
    """Whether one of these errors has one of these words."""
    return any(word in error for error in errors for word in words)


def refused(log, name):
    """Whether the function or the law of this name was refused by itself."""
    found, notes = False, []
    for line in log.split('\n'):
        outcome = OUTCOME.match(line)
        if line.startswith('note: src/'):
            # What is said of the goals of a function stands right before its outcome.
            notes.append(line)
        elif outcome:
            if line.startswith('fn ') and f'::{outcome[1]}'.endswith(f'::{name}') and not line.endswith(': proved'):
                found = True
                if UNPROVED in line or says(notes, (FALSE,)):
                    return True
            notes = []
    if found:
        # Functions that call each other, or one that calls itself, have a proof together, in a folder whose name starts with a +.
        where = rf'/\+?{name.replace("::", "/")}/[A-Z]\w*\.antt:\d+:\d+: error: '
    else:
        where = rf'/[A-Z]\w*\.antt:\d+:\d+: error: `{name}`: '
    errors = re.findall(rf'^\S*{where}(.*)', log, re.M)
    return says(errors, FACT) and not says(errors, SHAPE)


def listed():
    """The lines of crates.txt, by crate."""
    lines = [line.partition('#')[0].strip() for line in (ROOT / 'crates.txt').read_text(encoding='utf-8').splitlines()]
    return {re.split(r'[\s:]', line)[0]: line for line in lines if line}


def below(lines, crate):
    """The libraries of the repository that a crate stands on."""
    uses = [use for use in lines[crate].partition(':')[2].split() if use in lines]
    return {name for use in uses for name in (use, *below(lines, use))}


def edited(edit, crate):
    """Changes the files of a crate's copy as the edit says; what of it is not there as it has to be, once."""
    path, old, lost = None, None, []
    for line in edit.read_text(encoding='utf-8').split('\n'):
        kind, _, text = line.partition(':')
        if kind == 'file':
            path = crate / text.strip()
        elif kind == 'old':
            old = text[1:]
        elif kind == 'new':
            whole = path.read_text(encoding='utf-8') if path.exists() else ''
            if whole.count(old) != 1:
                lost.append(f'{path.relative_to(crate)} has "{old.strip()}" {whole.count(old)} times')
                continue
            path.write_text(whole.replace(old, text[1:]), encoding='utf-8')
    return lost


def respell(log, crate):
    """Puts the names that conditions of the edited code have into the answers that name them as before; whether there are any."""
    found = [place for form in GONE for place in form.findall(log)]
    found += [(f'proofs/{function.replace("::", "/")}', old, asked) for function, old, asked in NO_GOAL.findall(log)]
    changed = False
    for folder, old, others in found:
        files = {file: file.read_text(encoding='utf-8') for file in (crate / folder).glob('*.antt')}
        for new in re.findall(r'[^`.,\s]+', others):
            parts = CONDITION.fullmatch(old), CONDITION.fullmatch(new)
            if not all(parts) or parts[0].groups()[:2] != parts[1].groups()[:2]:
                continue
            before, after = parts[0][3], parts[1][3]
            # A name that the answers have already is that of another condition.
            if any(re.search(rf'(?<!\w){re.escape(after)}(?![\w-])', text) for text in files.values()):
                continue
            for file, text in files.items():
                respelled = re.sub(rf'(?<!\w){re.escape(before)}(?![\w-])', after, text)
                if respelled != text:
                    changed = True
                    file.unlink()
                    file.write_text(respelled, encoding='utf-8')
            break
    return changed


def keeps(one, other):
    """Gives what was proved a second name where that can be: a check makes such a file anew, and changes none."""
    if '/out/rlib/' in one or one.endswith('.oantt'):
        try:
            return os.link(one, other)
        except OSError:
            pass
    return shutil.copy2(one, other)


def check(folder, jobs):
    """Checks the crate in a folder; its status and what it says."""
    ran = subprocess.run(['rt', 'check', *jobs], cwd=folder, stdin=subprocess.DEVNULL, stdout=subprocess.PIPE, stderr=subprocess.STDOUT,
                         text=True, errors='replace')
    return ran.returncode, ran.stdout


def attempt(edit, crate, lines, names):
    """Checks a copy of the crate with the edit in it; what says why it did not come to that, and what of these names was not refused by itself."""
    with tempfile.TemporaryDirectory(prefix='refused-') as room:
        room, copied = pathlib.Path(room), [crate, *below(lines, crate)]
        (room / 'crates.txt').write_text(''.join(f'{lines[name]}\n' for name in copied), encoding='utf-8')
        for name in copied:
            for part in ('src', 'specs', 'proofs', 'out/rlib', *(['out/incremental'] if name == crate else [])):
                if (ROOT / 'crates' / name / part).is_dir():
                    shutil.copytree(ROOT / 'crates' / name / part, room / 'crates' / name / part, copy_function=keeps)
        lost = edited(edit, room / 'crates' / crate)
        if lost:
            return f'cannot be applied: {"; ".join(lost)}', []
        status, log = check(room / 'crates' / crate, ['--jobs', '1'])
        if status == 0:
            return 'was not refused', []
        if not re.search(r'^fn ', log, re.M):
            return f'did not reach the prover:\n{log[:1000]}', []
        left = [name for name in names if not refused(log, name)]
        if left and respell(log, room / 'crates' / crate):
            _, log = check(room / 'crates' / crate, ['--jobs', '1'])
            left = [name for name in left if not refused(log, name)]
        return '', left


def main():
    lines, edits, proved = listed(), [], {}
    for edit in sorted(ROOT.glob('crates/*/must-fail/*.edit')):
        if not sys.argv[1:] or edit.parts[-3] in sys.argv[1:]:
            edits.append(edit)
    for crate in lines:
        if any(edit.parts[-3] == crate for edit in edits):
            # What this proves of the crate and of the libraries below is what the copies begin with.
            status, log = check(ROOT / 'crates' / crate, [])
            proved[crate] = status == 0
            if status:
                print('\n'.join(line[:300] for line in log.split('\n')[-12:]))
    names = {edit: found[1].split() if (found := NAMES.search(edit.read_text(encoding='utf-8'))) else [] for edit in edits}
    named, missed = sum(len(found) for found in names.values()), 0
    with concurrent.futures.ThreadPoolExecutor(WORKERS) as pool:
        attempts = {edit: pool.submit(attempt, edit, edit.parts[-3], lines, names[edit]) for edit in edits if proved.get(edit.parts[-3])}
        for edit in edits:
            why, left = attempts[edit].result() if edit in attempts else ('was not tried, since its crate is not proved', [])
            if not names[edit]:
                why = why or 'names nothing that refuses it'
            missed += len(left) + bool(why)
            for told in ([why] if why else []) + [f'{name} was not refused by itself' for name in left]:
                print(f'{edit.parts[-3]}/{edit.stem}: {told}', flush=True)
    print(f'{named} functions and laws named by the edits, {missed} of them or of the edits not refused by themselves')
    return 1 if missed or not named else 0


if __name__ == '__main__':
    sys.exit(main())

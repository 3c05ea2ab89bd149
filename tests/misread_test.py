#!/usr/bin/env python3
"""Tests misread.py: entries that must not count, and reports of the prover that must not be believed, each beside entries that do count.

Usage: misread_test.py   (from anywhere; takes half a minute)
"""
import pathlib
import re
import sys
import tempfile

import misread

# Refused by their laws: where these do not count, nothing is shown by those that do not.
SOUND = """
# COUNTS: a call that nothing refuses is answered 1.
law: first_met
file: crates/rules/specs/Refusals.antt
old: first [] = 0
new: first [] = 1

# COUNTS: there are seventeen domains, and bit s is domain s + 1.
law: bits_changed
file: crates/rules/specs/Domains.antt
old: is_domain s = ltb s 16
new: is_domain s = ltb s 17
old: (2 ^ s) 0
new: (2 ^ (s - 1)) 0

# COUNTS: no mask is refused for being empty.
law: given_number
file: crates/rules/specs/Registers.antt
old: (is_empty_mask r bits ⇒ 19) ∷ []
new: []
"""
# What is due of each stands before the colon.
UNFIT = r"""
# first_met does not refuse it: only a comment is changed.
law: first_met
file: crates/rules/specs/Refusals.antt
old: -- RULES 2.3, 5.8: the number
new: -- the number

# first_met does not refuse it: the same in other words.
law: first_met
file: crates/rules/specs/Refusals.antt
old: pick met number (first rest)
new: pick met (pick met number 0) (first rest)

# domains_held does not refuse it: what it rests on is changed where it does not look.
law: domains_held
file: crates/rules/specs/Domains.antt
old: is_domain s = ltb s 16
new: is_domain s = ltb s 300

# of what it rests on, given_number, not_empty does: the law itself only uses what failed.
law: mask_number_exactly
file: crates/rules/specs/Registers.antt
old: (is_empty_mask r bits ⇒ 19) ∷ []
new: []

# no definition any more: it has no type.
law: first_met
file: crates/rules/specs/Refusals.antt
old: first [] = 0
new: first [] = true

# no definition any more: a name that is not there.
law: first_met
file: crates/rules/specs/Refusals.antt
old: first [] = 0
new: first [] = nought

# no definition any more: it cannot be read.
law: first_met
file: crates/rules/specs/Refusals.antt
old: first [] = 0
new: first [] = ((

# does not refuse it: the definition has another name, so that the law is about nothing.
law: levels
file: crates/rules/specs/Domains.antt
old: abbrev pub is_not_lower : Option ℕ → ℕ → Bool\nis_not_lower None s = true\nis_not_lower (Some domain) s = leb s domain
new: abbrev pub is_not_higher : Option ℕ → ℕ → Bool\nis_not_higher None s = true\nis_not_higher (Some domain) s = leb s domain

# stands 0 times: there is no such text.
law: first_met
file: crates/rules/specs/Refusals.antt
old: first [] = 7
new: first [] = 1

# stands 2 times: the text is not the only one.
law: first_met
file: crates/rules/specs/Refusals.antt
old: pick met
new: pick not_met
old: a b
new: b a

# has no definition that the law is about: the law does not rest on that file.
law: first_met
file: crates/rules/specs/Domains.antt
old: is_domain s = ltb s 16
new: is_domain s = ltb s 17

# has no definition that the law is about: the law's own statement is changed.
law: first_met
file: crates/rules/proofs/Pinned.antt
old: ≡ 0 ∷ 4 ∷ 4 ∷ 5 ∷ 0 ∷ 4 ∷ 5 ∷ []
new: ≡ 1 ∷ 4 ∷ 4 ∷ 5 ∷ 0 ∷ 4 ∷ 5 ∷ []

# has no definition that the law is about: code is changed.
law: first_met
file: crates/rules/src/decisions.rt
old: return 19;
new: return 18;

# names a module in a line: such a name would stay that of the unchanged module.
law: first_met
file: crates/rules/specs/Refusals.antt
old: Bool, true, false, List, [], ◌∷◌, Result, Ok, Err}
new: Bool, true, false, List, [], ◌∷◌, Result, Ok, Err}\nuse Rattle.rules.specs.Registers as registers

# there is no law: nobody has stated it.
law: first_met_never
file: crates/rules/specs/Refusals.antt
old: first [] = 0
new: first [] = 1

# there is no law kept, or more than one: several files have one of that name.
law: kept
file: crates/rules/specs/Refusals.antt
old: first [] = 0
new: first [] = 1

# an entry says: no law is named.
file: crates/rules/specs/Refusals.antt
old: first [] = 0
new: first [] = 1

# an entry says: nothing is changed.
law: first_met
"""


def judged(modules, text):
    """What is misread and the fault, of each entry of a list."""
    with tempfile.TemporaryDirectory() as folder:
        path = pathlib.Path(folder) / 'list.txt'
        path.write_text(text.strip('\n') + '\n', encoding='utf-8')
        return [(what, fault) for _, what, fault in misread.faults_in(modules, [path])]


class Recorded:
    """Stands in for the prover: what that says of a first run is said of each later one, with a change. A list's copies have the same names each time."""

    def __init__(self, ask):
        self.ask, self.change, self.said = ask, lambda report, status: (report, status), None

    def __call__(self, words):
        folder = str(words[2].parents[2])
        if not self.said:
            report, status = self.ask(words)
            self.said = report.replace(folder, 'FOLDER'), status
        report, status = self.change(*self.said)
        return report.replace('FOLDER', folder), status


# What the prover may say that is not to be believed: then no entry counts.
FALSE = re.compile(r'^\S+: error: `never_shown`.*\n', re.M)
UNBELIEVED = {
    'the verdict is missing': lambda report, status: (report.replace('logic=not-proved\n', ''), status),
    'something follows the verdict': lambda report, status: (report + 'stopped\n', status),
    'the prover was killed': lambda report, status: (report, -9),
    'the prover was too slow': lambda report, status: (report, None),
    'all is proved': lambda report, status: (report, 0),
    'no false declaration is reported': lambda report, status: (FALSE.sub('', report), status),
    'something else of the unchanged copies is refused': lambda report, status: (FALSE.sub(lambda line: line[0] + line[0].replace('never_shown', 'bits'), report), status),
    'a module that was not copied is refused': lambda report, status: (FALSE.sub(lambda line: line[0] + re.sub(r'Copy\d+', '', line[0]), report), status),
    'an error has no place': lambda report, status: ('error: out of memory\n' + report, status),
    'no error is a fact that fails': lambda report, status: (re.sub(r'(error: `[^`]*`: ).*', r'\1not in scope', report), status),
    'each error stands in another copy': lambda report, status: (re.sub(r'Copy(\d+)', lambda copy: f'Copy{(int(copy[1]) + 1) % 6}', report), status),
}


def main():
    modules, done = misread.Modules(), []

    def expect(what, holds):
        done.append(bool(holds))
        if not holds:
            print(f'FAILED: {what}')

    # All in one run of the prover, so that what is said of one copy is seen not to count for another.
    found = judged(modules, SOUND + UNFIT)
    expect('each entry is judged once', len(found) == (SOUND + UNFIT).count('\n# '))
    for what, fault in found:
        due = what.partition(':')[0]
        expect(f'{what} It was judged: {fault[:300]}', not fault if due == 'COUNTS' else due in fault)

    misread.ask_prover = recorded = Recorded(misread.ask_prover)
    expect('all count', [fault for _, fault in judged(modules, SOUND)] == [''] * SOUND.count('\n# '))
    for what, change in UNBELIEVED.items():
        recorded.change = change
        faults = [fault for _, fault in judged(modules, SOUND)]
        expect(what, len(faults) == SOUND.count('\n# ') and all(faults))

    # A law file whose false declaration is not reported is named, and it alone. One crate is enough, and quick.
    misread.ask_prover = recorded = Recorded(recorded.ask)
    modules.texts = {module: text for module, text in modules.texts.items() if module[0] == 'rules'}
    expect('every law file is looked at', misread.not_looked_at(modules) == [])
    recorded.change = lambda report, status: (re.sub(r'(?m)^\S+/rules/proofs/Laws\.antt\S+: error: .*\n', '', report), status)
    expect('one law file is not looked at', misread.not_looked_at(modules) == [('rules', 'proofs', 'Laws')])
    print(f'{sum(done)} tests of misread.py passed, {len(done) - sum(done)} failed')
    return 0 if all(done) else 1


if __name__ == '__main__':
    sys.exit(main())

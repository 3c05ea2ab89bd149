#!/usr/bin/env python3
"""Reads the repository's documents and says where they name something that is not there, or show what is not so.

Usage: documents.py [ROOT]   (ROOT is the repository's root, by default the current folder; after `rt ci`, which builds the programs)

The documents are README.md, docs/*.md, docs/landings/*.md and tests/oracle/README.md. docs/PORT.md and
docs/DESIGN-PASS.md are none of them: they set older text beside today's. A fault is:

paths       A file, folder or glob that is not there: in backticks, in a link, or written as a path. A path starts at the root, below
            crates/, or in the document's own folder; one that starts nowhere of these, or is a file's name alone, may end a path anywhere.
            `machine/proofs/Laws` is Laws.antt, `rules/each_helper_once` an edit of that crate. A part in capitals (`crates/NAME/src`)
            stands for any name. What is below target/ and below a crate's out/ is built: of target/staticlib/libNAME.a the crate is looked
            up, of crates/NAME/out/FILE also whether FILE is named after it. There is no target/bin.
            A heading that is named as 'docs/FILE.md, "Heading"' has to start so. Both also where the sources name documents.
names       A name in backticks that is no word of the sources (crates, include, tests, tools, Makefile, .ci/run; comments aside, and
            file and folder names count). Of `crate::name` the name is looked for in that crate, of `Type::name` in a file that has
            both; of `value.field` the field is looked up, of `f(..)` the function; `..` at an end of a name stands for the rest of it.
            A name that stands with its place, `name` (machine/proofs/Laws.antt), `name` (Laws) or `name` (run), has to be in it,
            in definitions and proofs as what is declared there.
            In other code, as a command or a line that is printed, only what is clearly a name is looked up: some_name, some-name,
            someName, Some::name.
paragraphs  A paragraph or section of docs/RULES.md that is not there, also in comments of crates/, include/ and tests/: "RULES 3.4, 3.6",
            "RULES, section 2", "docs/RULES.md, 7.7", "5.14 to 5.17 of RULES"; "(3.2)" where the same paragraph speaks of RULES; each in
            RULES itself. "TRUST, section 3" is that document's; "section 3" alone is the document's own or that of RULES.
targets     `make NAME` in backticks, and the Makefile has no such target.
transcripts A code block, indented by four spaces or fenced, whose first line starts with `$ `, and that prints something else. Each such
            line is a command (a backslash at its end continues it), all of a block are run in one bash from the root in at most
            60 seconds, and what stands below is what it prints, standard error too. A line `..` stands for any lines. What runs the gate
            or proves from nothing is not run, nor is a block that needs a program or a library that is not built: both are faults.
excerpts    A code block of README.md that starts as a definition does, and of which a paragraph stands in no file of definitions.
lines       A line of more than 120 characters, or a row of a table of 200 or more.
landings    A note of docs/landings with more than 600 words.
counts      A number in digits before misreadings, edits, law files, functions, lines, clauses, crates, theorems, laws, definitions,
            entries, stored cases or plans, or tests, with at most one word or "of the" between, or a table's column of numbers with
            such a heading. It is no fault where its paragraph, or the table or the paragraph before the table, says when it was
            counted: a date, or the name of a landing. What stands in backticks is not looked at.

Notes of landings are history: for them only lines and landings count. Code blocks that are no transcripts are not looked at but for the
length of their lines. Each fault is printed as 'file:line: what'. Exit status 1 where there is one, or where nothing was looked at.
"""
import os
import pathlib
import re
import signal
import subprocess
import sys

WIDTH, ROW, WORDS, SECONDS = 120, 200, 600, 60

# Files that are named and are the toolchain's: its guides, and the text of its libraries.
FOREIGN_FILES = {'START-HERE.md', 'FIRST_PROOFS.md', 'SHORTER_PROOFS.md', 'CONTRACTS.md', 'LANGUAGE.md', 'UNSAFE.md', 'logic/Lib/Seq.antt'}
# Names that are no words of the sources: programs of the system; words of the line in which the prover says what it proved. Words of the
# language and names of its libraries (`ensures`, `bitAnd`) need no entry, since the sources use them; nor do commands (`rt ci`), of which
# only what is clearly a name is looked up.
FOREIGN_NAMES = {'clang', 'git', 'hexdump', 'nm', 'objdump', 'od', 'wc', 'xxd',
                 'axioms', 'batches', 'bugs', 'foreign', 'hides', 'holes', 'incremental', 'libraries-built', 'logic-built', 'native', 'statements'}
COUNTED = (r'(?:misreadings|(?:must-fail )?edits|law files|functions|lines|clauses|crates|theorems|laws|definitions|entries'
           r'|stored (?:cases|plans)|tests)')
SUFFIX = r'(?:antt|rt|rs|md|c|h|sh|py|txt|edit|toml|expected)'
# Commands that start from nothing, or start this test again.
WHOLE = re.compile(r'(?m)(?:^|[;&|(] *)(?:\w+=\S* +)*'
                   r'(?:make +(?:-\S+ +)*(?:test|prove|times)\b|rt +(?:ci|verdict|all)\b|(?:(?:ba)?sh +)?(?:\./)?\.ci/run\b)')

SPAN = re.compile(r'(`+)(.+?)(?<!`)\1(?!`)', re.S)
LINK = re.compile(r'\]\(<?([^()\s<>]+)>?\)')
PATH = re.compile(r'(?<![\w./:@=*-])\.?[A-Za-z_*][\w.*-]*(?:/[\w.*-]+)+/?')
FILE = re.compile(rf'(?<![\w./:@*-])[\w*-]+\.{SUFFIX}(?![\w/*-])')
HEADED = re.compile(r'([\w./-]+\.md)`?,\s+"([^"]+)"')
NAME = r"[^\W\d][\w'·-]*"
QUALIFIED = re.compile(rf"{NAME}(?:(?:::|\.){NAME}|\.\d+)*")
CLEAR = re.compile(rf"(?<![\w'·.:-]){QUALIFIED.pattern}")
DECLARED = re.compile(r"(?m)^ *(?:(?:pub|abbrev|unfoldable|record|data) )*([\w'·-]+) (?:[^=\n]* )?:(?= |$)")
RULESET = re.compile(r'(?m)^pub ruleset ([\w-]+) =')
HOME = re.compile(r'((?:`[^`]+`(?:,\s+(?:and\s+)?|\s+and\s+))*`[^`]+`)'
                  r'(?:\s+\(`?((?:[\w-]+/)*[\w-]+(?:\.\w+)?)`?|,\s+((?:[\w-]+/)*[\w-]+\.\w+))(?=[),;])')
NUMBER = r'\d{1,2}(?:\.\d{1,2})?'
LIST = rf'{NUMBER}(?:(?:[,;]\s+(?:and\s+|or\s+)?|\s+(?:and|or|to)\s+)(?:sections?\s+|paragraphs?\s+)?{NUMBER})*'
RULES_LIST = re.compile(rf'\bRULES(?:\.md)?[`)]*,?\s+((?:sections?\s+|paragraphs?\s+)?{LIST})(?![\w%×])(?!\.\d)')
OF_RULES = re.compile(rf'(?<![\w.,])({LIST})\s+of\s+`?(?:docs/)?RULES')
SECTIONS = re.compile(rf'(?:\b([A-Z]{{3,}})(?:\.md)?[`)]*,?\s+)?\b(sections?\s+{LIST})(?![\w%×])(?!\.\d)')
WHEN = re.compile(r'\b\d{4}-\d\d(?:-\d\d)?\b|\b(?:January|February|March|April|May|June|July|August|September|October|November|December)\s+'
                  r'(?:\d{1,2},?\s+)?\d{4}\b|\bT-\d\d\b')
COUNT = re.compile(rf'(?<![\w.,-])(?:\d{{1,3}}(?:,\d{{3}})+|\d+)\s+(?:of\s+the\s+|[\w-]+\s+|`+[^`]*`+\s+)?{COUNTED}\b'.replace(' ', r'\s+'))


class Block:
    """A part of a document: a paragraph or an item of a list ('text'), a heading, a table or a code block, and the line it starts in."""

    def __init__(self, kind, line, lines):
        self.kind, self.line, self.lines, self.text = kind, line, lines, '\n'.join(lines)

    def line_at(self, place):
        """The line of the document in which this place of the text stands."""
        return self.line + self.text.count('\n', 0, place)


def blocks_of(lines):
    """The blocks of a document, in order. The lines of a code block stand without what they are indented by."""
    blocks, at = [], 0
    while at < len(lines):
        line, start = lines[at], at
        fence = re.match(r'( *)(```+|~~~+)', line)
        after_blank = at == 0 or not lines[at - 1].strip() or blocks and blocks[-1].kind in ('heading', 'code')
        if not line.strip():
            at += 1
        elif fence:
            at += 1
            while at < len(lines) and not lines[at].strip().startswith(fence[2]):
                at += 1
            body = [re.sub(rf'^ {{0,{len(fence[1])}}}', '', inside) for inside in lines[start + 1:at]]
            blocks.append(Block('code', start + 2, body))
            at += 1
        elif line.startswith('    ') and after_blank:
            while at < len(lines) and (lines[at].startswith('    ') or not lines[at].strip()):
                at += 1
            while not lines[at - 1].strip():
                at -= 1
            indent = min(len(inside) - len(inside.lstrip(' ')) for inside in lines[start:at] if inside.strip())
            blocks.append(Block('code', start + 1, [inside[indent:] for inside in lines[start:at]]))
        elif re.match(r'#{1,6} ', line):
            blocks.append(Block('heading', start + 1, [line]))
            at += 1
        elif line.lstrip().startswith('|'):
            while at < len(lines) and lines[at].lstrip().startswith('|'):
                at += 1
            blocks.append(Block('table', start + 1, lines[start:at]))
        else:
            at += 1
            while at < len(lines) and lines[at].strip() and not re.match(r'\s*(?:[-*+] |\d+\. |\||#{1,6} |```|~~~)', lines[at]):
                at += 1
            blocks.append(Block('text', start + 1, lines[start:at]))
    return blocks


class Document:
    def __init__(self, root, path):
        self.path, self.name = path, path.relative_to(root).as_posix()
        self.folder = self.name.rpartition('/')[0]
        self.lines = path.read_text(encoding='utf-8').split('\n')
        self.blocks = blocks_of(self.lines)
        self.headings = [block.text.lstrip('#').strip() for block in self.blocks if block.kind == 'heading']
        self.landing = self.name.startswith('docs/landings/')


def without_comments(path, text):
    """A source without the lines and ends of lines that are comments, and with all others."""
    marks = {'.rt': '//', '.antt': '--', '.rs': '//', '.txt': '#', '.edit': '#', '.sh': '#', '.py': '#', '.c': '//', '.h': '//'}
    mark = marks.get(path.suffix)
    if path.suffix in ('.c', '.h'):
        text = re.sub(r'/\*.*?\*/', ' ', text, flags=re.S)
    if mark is None:
        return text
    # A mark counts at a line's start, or with a space on both sides: inside a word or a string it seldom has both.
    return re.sub(rf'(?m)(?:^|(?<= ))[ \t]*{re.escape(mark)}(?:[ /!].*|)$', '', text)


def words_of(path, text):
    """The words of a source. In definitions and proofs a hyphen is part of a name, elsewhere it may also stand between two."""
    words = re.findall(r"[\w'·-]+", text)
    if path.suffix == '.antt':
        return {word.strip('-') for word in words}
    words = {word.strip("-'") for word in words}
    return words | {part for word in words for part in word.split('-')}


class Sources:
    """What stands in the repository: its paths, the words of its sources, the targets of make, the paragraphs of RULES."""

    def __init__(self, root):
        self.root, self.paths, self.words_in, self.declared_in, self.comments = root, set(), {}, {}, {}
        own = {'tests/documents.py', 'tests/documents_test.py'}
        for folder, folders, files in os.walk(root):
            here = pathlib.Path(folder).relative_to(root)
            built = ('.git', 'target', '__pycache__', *(['out'] if here.parts[:1] == ('crates',) else []))
            folders[:] = sorted(name for name in folders if name not in built)
            self.paths.update((here / name).as_posix() for name in folders + files)
            for name in sorted(files):
                path = here / name
                if path.suffix != '.md' and path.as_posix() not in own:
                    self.read(path)
        self.top = {path for path in self.paths if '/' not in path}
        self.crates = {path.split('/')[1] for path in self.paths if re.fullmatch(r'crates/[^/]+', path)}
        self.words = set().union(*self.words_in.values())
        self.words |= {word for path in self.paths for word in (pathlib.Path(path).name, pathlib.Path(path).stem)}
        makefile = root / 'Makefile'
        text = makefile.read_text(encoding='utf-8') if makefile.exists() else ''
        self.targets = set(re.findall(r'(?m)^([\w./-]+)\s*:(?!=)', text)) | set(' '.join(re.findall(r'(?m)^\.PHONY:(.*)$', text)).split())
        rules = root / 'docs' / 'RULES.md'
        text = rules.read_text(encoding='utf-8') if rules.exists() else ''
        self.paragraphs = set(re.findall(r'(?m)^\W*\*\*(\d+\.\d+)\*\*', text)) | set(re.findall(r'(?m)^#+ (\d+)\. ', text))
        self.paragraphs |= {paragraph.split('.')[0] for paragraph in self.paragraphs}

    def read(self, path):
        """Keeps the words of a source, and its text where it may name documents and paragraphs of RULES."""
        if path.parts[0] not in ('crates', 'include', 'tests', 'tools', '.ci', 'Makefile', 'crates.txt'):
            return
        try:
            text = (self.root / path).read_text(encoding='utf-8')
        except UnicodeDecodeError:
            return
        words = self.words_in[path.as_posix()] = words_of(path, without_comments(path, text))
        self.declared_in[path.as_posix()] = {*DECLARED.findall(text), *RULESET.findall(text)} if path.suffix == '.antt' else words
        if path.suffix in ('.rt', '.antt', '.h', '.c', '.rs', '.edit', '.sh', '.py', '.txt') or path.name in ('Makefile', 'run'):
            self.comments[path.as_posix()] = text

    def has_path(self, pattern):
        """Whether there is a path of this form from the root on."""
        if '*' not in pattern:
            return pattern in self.paths
        form = re.compile(re.escape(pattern).replace(r'\*', '[^/]*'))
        return any(form.fullmatch(path) for path in self.paths)

    def has_ending(self, pattern):
        """Whether some path ends so."""
        form = re.compile(r'(?:.*/)?' + re.escape(pattern).replace(r'\*', '[^/]*'))
        return any(form.fullmatch(path) for path in self.paths)

    def has_file(self, name, folder):
        """Whether a file, a folder or a glob that a document of this folder names is there."""
        name = re.sub(r'^\./', '', name.rstrip('/'))
        if name in FOREIGN_FILES:
            return True
        if name == 'target' or name.startswith('target/'):
            built = re.match(r'target/staticlib/lib([\w-]+)\.a$', name)
            return built[1] in self.crates if built else not name.startswith('target/bin')
        built = re.fullmatch(r'(?:crates/)?([\w*-]+)/out(?:/([^/]+)(/.*)?)?', name)
        if built:
            # crates/NAME/out/NAME stands for that of any crate.
            crate, file, inside = built.groups()
            named = not file or inside or re.fullmatch(rf'(?:lib)?{re.escape(crate)}(?:_tests|\.by-rattle|\.stamp|\.a)?|stdout(?:\.by-rattle)?', file)
            return bool(named or file in ('incremental', 'rlib')) and (crate in self.crates or crate in ('NAME', '*'))
        # The documents' own names are in capitals too.
        return self.stands(name, folder) or self.stands(re.sub(r'(?<![\w.-])[A-Z]{2,}(?=/|$|\.(?!md))', '*', name), folder)

    def stands(self, name, folder):
        first, _, rest = name.partition('/')
        if first == '..':
            return self.has_path(os.path.normpath(f'{folder}/{name}'))
        if self.has_path(name) or folder and self.has_path(f'{folder}/{name}'):
            return True
        if first in self.top:
            return False
        tries = (f'crates/{name}', f'crates/{name}.antt', f'crates/{first}/must-fail/{rest}.edit')
        return any(self.has_path(path) for path in tries) or self.has_ending(name) or self.has_ending(f'{name}.antt')

    def is_path(self, name):
        """Whether a text with a slash in it is meant as a path, where it does not stand in backticks."""
        first = name.split('/')[0]
        return first in self.top or first in self.crates or first == 'target' or re.search(rf'\.{SUFFIX}/?$', name)

    def files_named(self, name):
        """The sources that a name of a file, of a module (`Laws`, `machine/proofs/Laws`) or of a crate stands for."""
        crate = re.fullmatch(r'(?:crates/)?([\w-]+)', name)
        if crate and crate[1] in self.crates:
            return [path for path in self.words_in if path.startswith(f'crates/{crate[1]}/')]
        if '/' not in name and '.' not in name and not name[0].isupper():
            return []
        return [path for path in self.words_in if f'/{path}'.endswith((f'/{name}', f'/{name}.antt'))]

    def has_name(self, name):
        """Whether a name is there: a word, a crate's or a type's, a value's field."""
        # What the prover makes of a function's code is named by `goal`, `c` and `l` in answers, and by `tie` in proofs by hand.
        if name in FOREIGN_NAMES or name.startswith(('goal.', 'c.', 'l.', 'tie.')):
            return True
        if '::' in name:
            return self.has_qualified(name.split('::'))
        first, *fields = name.split('.')
        # What stands before a field is often a value of an example's own.
        return (first in self.words or bool(fields) and first.islower()) and all(field in self.words or field.isdigit() for field in fields)

    def has_qualified(self, parts):
        if not all(part in self.words for part in parts):
            return False
        if parts[0] in self.crates:
            return any(all(part in words for part in parts[1:])
                       for path, words in self.words_in.items() if path.startswith(f'crates/{parts[0]}/src/'))
        return any(all(part in words for part in parts) for words in self.words_in.values())

    def has_part(self, form):
        """Whether a word starts or ends as a name does whose other part is left out by two dots."""
        pattern = re.compile('.+'.join(re.escape(part) for part in form.split('..')))
        return any(pattern.fullmatch(word) for word in self.words)


class Check:
    """The faults of all documents, and how much was looked at."""

    def __init__(self, root):
        self.root, self.sources, self.faults = root, Sources(root), []
        self.names = self.transcripts = 0

    def fault(self, place, line, what):
        self.faults.append((place, line, what))

    def look_up(self, place, line, what, there):
        self.names += 1
        if not there:
            self.fault(place, line, what)

    # Paths and names.

    def paths(self, document, block, text):
        """Looks up the paths and the names of files in a text, of the paths those that start as one of the repository's does."""
        for found in PATH.finditer(text):
            name = found[0].rstrip('.')
            if self.sources.is_path(name):
                self.look_up(document.name, block.line_at(found.start()), f'there is no {name}', self.sources.has_file(name, document.folder))
        for found in FILE.finditer(text):
            there = self.sources.has_file(found[0], document.folder)
            self.look_up(document.name, block.line_at(found.start()), f'there is no file {found[0]}', there)

    def links(self, document, block, text):
        for found in LINK.finditer(text):
            target, _, anchor = found[1].partition('#')
            if re.match(r'[a-z]+:', found[1]):
                continue
            path = (document.path.parent / target).resolve() if target else document.path
            line = block.line_at(found.start())
            self.look_up(document.name, line, f'the link leads to {found[1]}, which is not there', path.exists())
            if anchor and path.suffix == '.md' and path.exists():
                headings = document.headings if path == document.path else Document(path.parent, path).headings
                slugs = {re.sub(r'[^\w -]', '', heading.lower()).replace(' ', '-') for heading in headings}
                self.look_up(document.name, line, f'the link leads to {found[1]}, and there is no such heading', anchor in slugs)

    def headings(self, place, block):
        """Looks up the headings that a text names behind the document that has them."""
        for found in HEADED.finditer(block.text):
            paths = [self.root / found[1], (self.root / place).parent / found[1]]
            path = next((path for path in paths if path.exists()), None)
            if path:
                title = ' '.join(found[2].split())
                there = any(heading.startswith(title) for heading in Document(path.parent, path).headings)
                self.look_up(place, block.line_at(found.start()), f'{found[1]} has no heading "{title}"', there)

    def span(self, document, block, place, code):
        """Looks up what stands in backticks."""
        line = block.line_at(place)
        for target in re.findall(r'(?:^|[;&|] *)(?:\w+=\S* +)*make +(?:-\S+ +)*([a-z][\w-]*)', code):
            self.look_up(document.name, line, f'the Makefile has no target {target}', target in self.sources.targets)
        called = re.fullmatch(rf'({QUALIFIED.pattern})\((.*)\)', code)
        if code in FOREIGN_NAMES or re.match(r'make\b', code):
            return
        if re.fullmatch(rf'{PATH.pattern}|{FILE.pattern}|[\w.-]+/', code):
            self.look_up(document.name, line, f'there is no {code}', self.sources.has_file(code, document.folder))
        elif re.fullmatch(rf"\.\.[\w'·-]+|{NAME}\.\.", code):
            self.look_up(document.name, line, f'the sources have no name of the form {code}', self.sources.has_part(code))
        elif QUALIFIED.fullmatch(code):
            self.look_up(document.name, line, f'the sources have no {code}', self.sources.has_name(code))
        elif called:
            self.look_up(document.name, line, f'the sources have no {called[1]}', self.sources.has_name(called[1]))
            self.clear_names(document, line, called[2])
        else:
            self.paths(document, Block('text', line, [code]), code)
            self.clear_names(document, line, FILE.sub(' ', re.sub(r'\S*/\S*', ' ', code)))

    def clear_names(self, document, line, code):
        """Looks up what is clearly a name in code of several words."""
        # What a command has in quotes is a pattern or a text.
        code = re.sub(r"(?<=\s)(?:'[^']*'|\"[^\"]*\")", ' ', code)
        for found in CLEAR.finditer(code):
            name = found[0].rstrip("-'")
            clear = re.search(r'[^\W\d_](?:_|-|·|::)\w|[a-z][A-Z]|^[A-Z]\w*\.', name)
            if clear and not code[found.end():].startswith('='):
                self.look_up(document.name, line, f'the sources have no {name}', self.sources.has_name(name))

    def text(self, document, block):
        """Looks up the paths and names of a paragraph, a heading or a table."""
        prose = list(block.text)
        for found in SPAN.finditer(block.text):
            self.span(document, block, found.start(), ' '.join(found[2].split()))
            prose[found.start():found.end()] = [sign if sign == '\n' else ' ' for sign in found[0]]
        prose = ''.join(prose)
        self.links(document, block, prose)
        self.headings(document.name, block)
        self.homes(document, block)
        self.paths(document, block, LINK.sub(lambda link: ' ' * len(link[0]), prose))

    def homes(self, document, block):
        """Looks for names in the file that is named with them: `name` (machine/proofs/Laws.antt), `name` and `other` (Laws)."""
        for found in HOME.finditer(block.text):
            home = found[2] or found[3]
            files = self.sources.files_named(home)
            for name in SPAN.finditer(found[1]) if files else ():
                parts = re.split(r'::|\.', name[2])
                # What is nowhere is a fault by itself.
                if QUALIFIED.fullmatch(name[2]) and all(part in self.sources.words for part in parts):
                    there = any(parts[-1] in self.sources.declared_in[path] for path in files)
                    self.look_up(document.name, block.line_at(found.start() + name.start()), f'{home} has no {name[2]}', there)

    # Paragraphs of RULES.

    def listed(self, place, line, listing):
        """Looks up each number of a list of paragraphs or sections."""
        sections = '.' not in re.search(NUMBER, listing)[0]
        for found in re.finditer(rf'(sections?\s+)?({NUMBER})', listing):
            # After a paragraph a number without a dot is one of the text's own, but where it is called a section.
            if '.' in found[2] or sections or found[1]:
                line_of = line + listing.count('\n', 0, found.start(2))
                self.look_up(place, line_of, f'RULES has no {found[2]}', found[2] in self.sources.paragraphs)

    def rules_named(self, place, text, first):
        """Looks up the paragraphs that a text names with the word RULES; what of the text these are."""
        seen = []
        for form in (RULES_LIST, OF_RULES):
            for found in form.finditer(text):
                seen.append(found.span())
                self.listed(place, first + text.count('\n', 0, found.start(1)), found[1])
        return seen

    def paragraphs(self, document, block):
        text = SPAN.sub(lambda span: span[0] if 'RULES' in span[0] else re.sub(r'[^\n]', ' ', span[0]), block.text)
        own = document.name == 'docs/RULES.md'
        seen = self.rules_named(document.name, text, block.line)
        bare = rf'(?<![\w.,×*]){NUMBER}(?![\w×%*])(?!\.\d)' if own else rf'(?<=\(){LIST}(?=[),;])'
        for found in re.finditer(bare, text):
            if '.' in found[0] and (own or 'RULES' in text) and not any(start <= found.start() < end for start, end in seen):
                self.listed(document.name, block.line_at(found.start()), found[0])
        for found in SECTIONS.finditer(text):
            if any(start <= found.start(2) < end for start, end in seen):
                continue
            other = self.root / 'docs' / f'{found[1]}.md'
            sections = numbered(Document(self.root, other) if other.exists() else document)
            if sections and not other.exists():
                sections |= self.sources.paragraphs
            where = f'in {found[1]}' if other.exists() else 'here'
            for number in re.findall(NUMBER, found[2]):
                there = not sections or number in sections
                self.look_up(document.name, block.line_at(found.start(2)), f'there is no section {number} {where}', there)

    def comments(self):
        """Looks up the documents, their headings and the paragraphs that the sources name; a comment may go on in the next line."""
        for path, text in self.sources.comments.items():
            text = re.sub(r'(?m)^(\s*)(--|//[/!]?|\*|#)', lambda mark: mark[1] + ' ' * len(mark[2]), text)
            whole = Block('text', 1, text.split('\n'))
            for found in re.finditer(r'(?<![\w./-])(?:docs/[\w/-]+|README)\.md\b', text):
                self.look_up(path, whole.line_at(found.start()), f'there is no {found[0]}', self.sources.has_path(found[0]))
            self.headings(path, whole)
            self.rules_named(path, text, 1)

    # Lines, words and counts.

    def widths(self, document):
        for number, line in enumerate(document.lines, 1):
            if line.lstrip().startswith('|'):
                if len(line) >= ROW:
                    self.fault(document.name, number, f'a row of {len(line)} characters, where {ROW - 1} are the most')
            elif len(line) > WIDTH:
                self.fault(document.name, number, f'a line of {len(line)} characters, where {WIDTH} are the most')

    def length(self, document):
        words = sum(1 for line in document.lines for word in line.split() if re.search(r'\w', word))
        if words > WORDS:
            self.fault(document.name, 1, f'a note of {words} words, where {WORDS} are the most')

    def dated(self, *blocks):
        """Whether one of these blocks says when something was counted."""
        landings = {pathlib.Path(path).stem for path in self.sources.paths if path.startswith('docs/landings/')}
        words = {word for block in blocks for word in re.findall(r'[\w-]+', block.text)}
        return any(WHEN.search(block.text) for block in blocks) or not landings.isdisjoint(words)

    def counts(self, document):
        before = Block('text', 0, [''])
        for block in document.blocks:
            if block.kind == 'table' and not self.dated(before, block):
                rows = [[cell.strip() for cell in row.strip().strip('|').split('|')] for row in block.lines]
                for column, heading in enumerate(rows[0]):
                    cells = [row[column] for row in rows[2:] if column < len(row)]
                    if re.fullmatch(COUNTED, heading) and any(re.fullmatch(r'\d[\d, ]*', cell) for cell in cells):
                        self.fault(document.name, block.line, f'the column "{heading}" is counted by hand, and nothing says when')
            if block.kind != 'code' and not self.dated(*([before, block] if block.kind == 'table' else [block])):
                # What stands in backticks is no count of the text's own.
                text = SPAN.sub(lambda span: span[1] + re.sub(r'[^\n]', 'x', span[2]) + span[1], block.text)
                for found in COUNT.finditer(text):
                    count = ' '.join(block.text[found.start():found.end()].split())
                    self.fault(document.name, block.line_at(found.start()), f'"{count}" is counted by hand, and nothing says when')
            before = block

    # Transcripts.

    def transcript(self, document, block):
        self.transcripts += 1
        commands = commands_of(block)
        text = '\n'.join(command for _, command, _ in commands)
        # A block may build the library itself.
        built = r'crates/[\w-]+/out/[\w.-]+' if re.search(r'\bmake lib\b|\btools/library\.sh\b', text) else \
            r'crates/[\w-]+/out/[\w.-]+|target/staticlib/[\w.-]+'
        missing = sorted({name for name in re.findall(built, text) if not (self.root / name).exists()})
        for name in missing:
            builder = 'make lib' if name.startswith('target/') else 'rt ci'
            self.fault(document.name, block.line, f'{name} is not built, so that this transcript is not run: `{builder}` builds it')
        whole = WHOLE.search(text)
        if whole:
            self.fault(document.name, block.line, f'`{whole[0].strip()}` runs the gate or proves from nothing: this transcript is not run')
        if missing or whole:
            return
        printed, late = run_in_order(self.root, [command for _, command, _ in commands])
        for (line, command, due), said in zip(commands, printed + [None] * (len(commands) - len(printed))):
            command = ' '.join(command.split('\n'))
            if said is None:
                why = f'did not end within {SECONDS} seconds' if late else 'did not come to its end'
                self.fault(document.name, line, f'`{command}` {why}')
                break
            if not fits(due, said):
                self.fault(document.name, line, f'`{command}` prints something else: {difference(due, said)}')

    def document(self, document):
        self.widths(document)
        if document.landing:
            self.length(document)
            return
        for block in document.blocks:
            if block.kind != 'code':
                self.text(document, block)
                self.paragraphs(document, block)
            elif block.text.startswith('$ '):
                self.transcript(document, block)
            elif document.name == 'README.md' and re.match(r'(?:abbrev|unfoldable|pub) ', block.text):
                self.excerpt(document, block)
        self.counts(document)

    def excerpt(self, document, block):
        """Looks for each paragraph of quoted definitions in the files of definitions."""
        definitions = [path.read_text(encoding='utf-8') for path in sorted(self.root.glob('crates/*/specs/*.antt'))]
        for paragraph in block.text.split('\n\n'):
            line = block.line_at(block.text.index(paragraph))
            there = any(paragraph + '\n' in text for text in definitions)
            self.look_up(document.name, line, f'no file of definitions has "{paragraph.splitlines()[0]}" so', there)


def numbered(document):
    """The numbers of a document's sections."""
    return {heading.split('.')[0] for heading in document.headings if re.match(r'\d+\. ', heading)}


def commands_of(block):
    """The commands of a transcript: the line of each, its text, and the lines that it is to print."""
    commands = []
    for number, line in enumerate(block.lines, block.line):
        if commands and not commands[-1][2] and commands[-1][1].endswith('\\'):
            commands[-1][1] += '\n' + re.sub(r'^> ', '', line)
        elif line.startswith('$ '):
            commands.append([number, line[2:], []])
        else:
            commands[-1][2].append(line)
    return commands


def run_in_order(root, commands):
    """Runs commands in one bash. Gives what each printed that came to its end, and whether time ran out."""
    mark = f'documents-{os.urandom(8).hex()}'
    # The mark stands behind what each command printed, whether or not that ends in a newline. The next one finds its status.
    script = '\n'.join(f'{command}\nended=$?; printf %s {mark}; (exit $ended)' for command in commands)
    surroundings = {name: value for name, value in os.environ.items() if not name.startswith('MAKE') and name != 'MFLAGS'}
    # A group of its own, so that all that was started can be stopped.
    bash = subprocess.Popen(['bash', '-c', script], cwd=root, env=surroundings, stdin=subprocess.DEVNULL, stdout=subprocess.PIPE,
                            stderr=subprocess.STDOUT, start_new_session=True)
    late = False
    try:
        said, _ = bash.communicate(timeout=SECONDS)
    except subprocess.TimeoutExpired:
        late = True
        os.killpg(bash.pid, signal.SIGKILL)
        said, _ = bash.communicate()
    *printed, _ = said.decode('utf-8', errors='replace').split(mark)
    return [text.rstrip('\n').split('\n') if text.strip('\n') else [] for text in printed], late


def trimmed(lines):
    """Lines without the blank ones at their end."""
    while lines and not lines[-1].strip():
        lines = lines[:-1]
    return lines


def fits(due, said):
    """Whether lines are those that are due, where a line of two dots stands for any lines."""
    due, said = trimmed(due), trimmed(said)
    reached = {0}
    for line in due:
        if line.strip() == '..':
            reached = set(range(min(reached), len(said) + 1)) if reached else reached
        else:
            reached = {place + 1 for place in reached if place < len(said) and said[place] == line}
    return len(said) in reached


def difference(due, said):
    """The first line that differs, up to where lines are left out."""
    due, said = trimmed(due), trimmed(said)
    for place in range(max(len(due), len(said))):
        expected = due[place] if place < len(due) else None
        printed = said[place] if place < len(said) else None
        if expected is not None and expected.strip() == '..':
            return 'what follows the lines left out'
        if expected != printed:
            shown = ['nothing' if line is None else f'"{line[:200]}"' for line in (printed, expected)]
            return f'{shown[0]}, where the document has {shown[1]}'
    return ''


def documents_in(root):
    """The documents of the repository, in order."""
    paths = [root / 'README.md', *sorted(root.glob('docs/*.md')), *sorted(root.glob('docs/landings/*.md')), root / 'tests/oracle/README.md']
    return [Document(root, path) for path in paths if path.exists() and path.name not in ('PORT.md', 'DESIGN-PASS.md')]


def main():
    root = pathlib.Path(sys.argv[1] if len(sys.argv) > 1 else '.').resolve()
    check, documents = Check(root), documents_in(root)
    for document in documents:
        check.document(document)
    check.comments()
    places = list(dict.fromkeys([document.name for document in documents] + [place for place, _, _ in check.faults]))
    for place, line, what in sorted(check.faults, key=lambda fault: (places.index(fault[0]), fault[1])):
        print(f'{place}:{line}: {what}')
    print(f'{len(documents)} documents, {check.transcripts} transcripts, {check.names} names looked up, {len(check.faults)} faults')
    return 1 if check.faults or not documents or not check.names else 0


if __name__ == '__main__':
    sys.exit(main())

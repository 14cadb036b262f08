#!/usr/bin/env python3
"""Prints an index: for each promise and each public function its clauses, the definitions that they cite, an edit and a test.

usage: make-index.py [--check]

Prints a page in Markdown, with links as from docs/. With --check, prints in its place each public function that has neither an edit,
in must-fail/ or plants/, nor a test nor a line of docs/index-exceptions.txt, each line there that no function needs, each line of docs/promises.txt
that names no clause, each line of docs/wrong-bodies.txt that names no edit in must-fail/ and no test, each edit whose text its file hasn't just
once, each definition that a clause cites and docs/DEFINITIONS.md doesn't name, and each public function
that the head of its crate's sources doesn't name; the status is 1 if there is any.

An edit belongs to the function whose text it changes, or to those that use the constant that it changes. Where that one is
private, it belongs to the public functions that call it through private ones. What C calls has the edits of the function
that it calls. A test calls a function itself, or through the other functions of the tests. A file of
tests/worked is the test of what a module of crates/probe/src/rows calls: tests/worked sees to it that each call of the
module stands in the file. The functions that C calls are tested by those of tests/library/library.c.
"""
import re
import sys
from collections import defaultdict
from fnmatch import fnmatchcase

sys.dont_write_bytecode = True
from names import CRATES, Tree

HEAD = """# Index

First the promises, each with the clauses and laws that make it. Then each public function, with the names of its clauses,
the definitions that they cite, the edits of its code that the prover refuses, and a test that calls it, and each law,
with the definition that states it. The head of each crate's sources explains its promises
([PROOF.md](PROOF.md#crate-by-crate)).

- What is read and written is promised for readers and writers whose bytes are known, and what is placed in a tree, or
  read of one, for trees that tell it ([PROOF.md](PROOF.md#what-isnt-proved)). A failure is one that was counted; the
  count stays at its greatest value. A beginning may be empty.
- `ensures` is a clause without a name.
- A trait's method stands with each type that has it, and its clauses are also the ghost items, as `from_gives`.
- A definition of std, as that of `length`, isn't named. A cell is empty where clauses cite none of this repository.
- Edits stand in `must-fail/` or in `plants/` ([TESTING.md](TESTING.md#wrong-bodies)). A function in which none stands
  has one of a private function that it calls, and that function is named.
- What C calls has the edits of the function that it calls.
- A function may have more tests: the one that calls the fewest other functions is named. Those of `tests/worked` are
  files of rows ([TESTING.md](TESTING.md#tables-of-calls)).
- A function with neither an edit nor a test stands in [index-exceptions.txt](index-exceptions.txt) with the reason.

`tools/make-index.py` prints this page. It looks names up in the sources."""

# The rows, of which each file has calls of a module of crates/probe/src/rows.
ROWS = CRATES.parent / 'tests/worked'

# A test in C, or a function of the tests that returns a status.
C_TESTS = CRATES.parent / 'tests/library/library.c'
C_TEST = r'^static (void|int32_t) (\w+)\([^;]*?\) {\n(.*?)^}'


class Index:
    """The rows of the page: for each public function its edits and its tests."""

    def __init__(self):
        self.tree, self.edits, self.tests = Tree(), defaultdict(dict), defaultdict(list)
        self.public = [f for f in self.tree.functions if f.is_public and (f.is_export or f.module.crate.startswith('zic_'))]
        for path in edits():
            for f, within in self.changed(path):
                self.edits[f].setdefault(path, within)
        for f in (f for f in self.public if f.is_export):
            for called in self.tree.called(f.module, f.body, f):
                self.edits[f] |= self.edits[called]
        tests = [(test, self.reached(f)) for f in self.tree.functions for test in tests_of(f)]
        for test, reached in sorted(tests, key=lambda pair: len(pair[1])):
            for f in reached:
                self.tests[f].append(test)
        for _, called, name in sorted(c_tests()):
            for f in (f for f in self.public if f.is_export and f.name in called):
                self.tests[f].append((name, C_TESTS))

    def reached(self, test):
        """Returns the public functions that a test calls, itself or through other functions of the tests."""
        seen, rest = set(), [test]
        while rest:
            f = rest.pop()
            if f not in seen:
                seen.add(f)
                rest += self.tree.called(f.module, f.head + f.body, f) if f.module.is_test else ()
        return [f for f in seen if f.is_public]

    def changed(self, path):
        """Yields the public functions that an edit changes, each with the private one in which it stands, if any."""
        crate, lines = path.relative_to(CRATES).parts[0], path.read_text().splitlines()
        module = None
        for old in lines:
            if old.startswith('file: '):
                module = self.tree.modules[CRATES / crate / old.removeprefix('file: ')]
            if not old.startswith('old: '):
                continue
            place = module.raw.find(old.removeprefix('old: '))
            constant = re.search(r'const (\w+)', old)
            for f in module.functions:
                if f.start <= place < f.end or constant and re.search(rf'\b{constant[1]}\b', f.body):
                    yield from [(f, None)] if f.is_public else ((caller, f) for caller in self.callers(f))

    def callers(self, f):
        """Yields the public functions that call a private one, also through private ones of its crate."""
        crate = [g for g in self.tree.functions if g.module.crate == f.module.crate and not g.module.is_test]
        seen, rest = {f}, [f]
        while rest:
            at = rest.pop()
            name = rf'\b{at.owner}\b' if at.trait else rf'\b{at.name}(?:::<[^>()]*>)?\('
            near = [g for g in crate if g not in seen and is_in_scope(at, g) and re.search(name, g.head + g.body)]
            seen |= set(near)
            yield from (g for g in near if g.is_public)
            rest += [g for g in near if not g.is_public]

    def lacks(self):
        """Yields what has neither an edit nor a test, and is no exception, and exceptions that nothing needs."""
        lines = (CRATES.parent / 'docs/index-exceptions.txt').read_text().splitlines()
        unused = {line.partition(': ')[0] for line in lines if line and not line.startswith(';')}
        exceptions = sorted(unused)
        for f in [f for f in self.public if not f.is_law and not self.edits[f] and not self.tests[f]]:
            fits = {name for name in exceptions if fnmatchcase(f.key, name)}
            unused -= fits
            if not fits:
                yield f'{f.key} has neither an edit nor a test'
        yield from (f"no function needs the exception '{name}'" for name in sorted(unused))
        yield from (f"no clause makes the promise '{promise}'" for promise, lines in listed('promises') if not lines)
        for words in (words for _, lines in listed('promises') for words in lines):
            f, clauses = self.found(words)
            if not f or len(clauses) != max(len(words) - 1, 1) or f.is_law and len(words) > 1:
                yield f"'{' '.join(words)}' of docs/promises.txt isn't a law, or a function with these clauses"
        yield from self.unrefused()
        yield from self.unlisted()

    def unrefused(self):
        """Yields the lines of docs/wrong-bodies.txt that name no edit in must-fail/ and no test, and the edits that don't fit."""
        tests = {f'{f.module.crate}::{f.module.path.stem}::{f.name}' for f in self.tree.functions if f.is_test}
        for body, lines in listed('wrong-bodies'):
            if not lines:
                yield f"nothing refuses the wrong body '{body}'"
            for words in lines:
                crate, _, name = words[0].partition('/')
                path = CRATES.parent / words[0] if '.' in name else CRATES / crate / f'must-fail/{name}.edit'
                if len(words) > 1 or not path.exists() and words[0] not in tests:
                    yield f"'{' '.join(words)}' of docs/wrong-bodies.txt is no edit in must-fail/ and no test"
        yield from (f'{path.relative_to(CRATES)} {why}' for path in edits() for why in misfits(path))

    def unlisted(self):
        """Yields the definitions that clauses cite and docs/DEFINITIONS.md doesn't name."""
        page = (CRATES.parent / 'docs/DEFINITIONS.md').read_text()
        named = set(re.findall(r'[\w-]+', ' '.join(re.findall('`([^`]*)`', page))))
        cited = {found for f in self.public for _, clause in f.clauses for found in f.module.cited(clause)}
        for name, path in sorted(cited):
            if name not in named:
                yield f'docs/DEFINITIONS.md lacks {name} of {path.relative_to(CRATES)}'
        yield from self.untold()

    def untold(self):
        """Yields the public functions that the head of their crate's sources doesn't name. What a trait asks for is told with
        the trait, and `new`, `len`, `bytes` and `octets` with their type."""
        named = {crate: set(re.findall(r'\w+', ' '.join(re.findall('`([^`]*)`', head)))) for crate, head in heads()}
        with_type = {'new', 'len', 'bytes', 'octets'}
        for f in self.public:
            if not f.is_law and not f.trait and f.name not in named.get(f.module.crate, set()) | with_type:
                yield f'the head of {f.module.crate} lacks {f.key}'

    def page(self):
        yield HEAD
        yield '\n## Promises\n\n| Promise | Clauses | Definitions | Edit | Test |\n|---|---|---|---|---|'
        for promise, clauses in listed('promises'):
            yield from self.promised(promise, clauses)
        for crate in sorted({f.module.crate for f in self.public}):
            yield f'\n## {crate}'
            functions = [f for f in self.public if f.module.crate == crate]
            if rows := [self.row(f) for f in functions if not f.is_law]:
                yield '\n| Function | Clauses | Definitions | Edit | Test |\n|---|---|---|---|---|'
                yield from rows
            if laws := [f for f in functions if f.is_law]:
                yield '\n| Law | Definition |\n|---|---|'
                yield from (f'| {link(f.title, f.module.path)} | {definitions(f)} |' for f in laws)

    def found(self, words):
        """Returns the function, or the law, that a line of promises names, and those of its clauses that stand in it."""
        f = next((f for f in self.public if f.key == words[0]), None)
        return f, [clause for clause in f.clauses if clause[0] in words or f.is_law] if f else []

    def promised(self, promise, lines):
        """Yields the rows of a promise: one for each function or law that makes it."""
        for words in lines:
            f, clauses = self.found(words)
            of = link(words[0], f.module.path) + ''.join(f' `{name}`' for name, _ in clauses if not f.is_law)
            tests = ''.join(link(*test) for test in self.tests[f][:1])
            yield f'| {promise} | {of} | {definitions(f, clauses)} | {self.edit(f)} | {tests} |'
            promise = ''

    def row(self, f):
        name = link(f.title, f.module.path) + (f' of `{f.trait}`' if f.trait else '')
        clauses = ', '.join(f'`{name}`' for name, _ in f.clauses)
        tests = ''.join(link(*test) for test in self.tests[f][:1])
        return f'| {name} | {clauses} | {definitions(f)} | {self.edit(f)} | {tests} |'

    def edit(self, f):
        own = [link(path.stem, path) for path, within in self.edits[f].items() if not within]
        others = [f'{link(path.stem, path)} in `{within.title}`' for path, within in self.edits[f].items() if within]
        return ', '.join(own or others[:1])


def is_in_scope(f, caller):
    """Returns whether a function may call another by its name: a free one is of its module, or is imported."""
    module, other = f.module.path.stem, caller.module
    path = rf'\b{module}(?:::{{[^;]*?\b|::){f.name}\b'
    return f.owner != '' or other is f.module or re.search(path, other.text) is not None


def tests_of(f):
    """Yields the test that a function is, if it is one, or the rows whose calls it answers: a name, and a file."""
    path = f.module.path
    if f.is_test:
        yield f.name, path
    if f.name == 'answer' and path.parent.name == 'rows':
        yield path.stem, ROWS / (path.stem + '.txt')


def c_tests():
    """Yields of each test in C whether it is none, what it calls, and its name."""
    for result, name, body in re.findall(C_TEST, C_TESTS.read_text(), re.M | re.S):
        # A function of the header calls what the library exports.
        called = [call for name in re.findall(r'\bpzic_(\w+)', body) for call in ('pzic_' + name, 'pzic_raw_' + name)]
        yield (result != 'void', len(called)), called, name


def link(name, path):
    return f'[`{name}`](../{path.relative_to(CRATES.parent)})'


def definitions(f, clauses=None):
    clauses = f.clauses if clauses is None else clauses
    return ', '.join(dict.fromkeys(link(*found) for _, clause in clauses for found in f.module.cited(clause)))


def heads():
    """Yields each crate with the comment at the head of its sources, which tells what is proved of it."""
    for path in sorted(CRATES.glob('*/src/*.rt')):
        if path.name in ('lib.rt', 'main.rt'):
            yield path.parts[-3], re.match(r'(?://!.*\n)*', path.read_text())[0].replace('\n//!', '')


def edits():
    """Returns the files of all edits: first those that the gate tries for each change."""
    return [path for folder in ('must-fail', 'plants') for path in sorted(CRATES.glob(f'*/{folder}/*.edit'))]


def misfits(path):
    """Yields why an edit can't be applied: each text that it takes away stands once in its file, as the changes before left it."""
    texts, file, old = {}, None, ''
    for line in path.read_text().splitlines():
        kind, _, rest = line.partition(':')
        if kind == 'file':
            file = path.parent.parent / rest.strip()
            texts.setdefault(file, file.read_text() if file.exists() else '')
        elif kind == 'old':
            old = rest.removeprefix(' ')
        elif kind == 'new' and texts[file].count(old) != 1:
            yield f"changes '{old.strip()}', which stands {texts[file].count(old)} times in {file.name}"
        elif kind == 'new':
            texts[file] = texts[file].replace(old, rest.removeprefix(' '))


def listed(name):
    """Returns the sentences of a list of docs/, as promises.txt, each with the words of the lines below it."""
    found = []
    for line in (CRATES.parent / f'docs/{name}.txt').read_text().splitlines():
        if line.startswith('- '):
            found[-1][1].append(line[2:].split())
        elif line and not line.startswith(';'):
            found.append((line, []))
    return found


if __name__ == '__main__':
    is_check = sys.argv[1:] == ['--check']
    lines = list(Index().lacks() if is_check else Index().page())
    print(*lines, sep='\n', end='\n' if lines else '')
    sys.exit(is_check and lines != [])

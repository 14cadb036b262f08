#!/usr/bin/env python3
"""Makes the calls of tables, and compares what they answer with what stands there.

usage: tables.py TABLE..            prints what differs, and the numbers of calls; the status is 1 if something differs
       tables.py --calls TABLE..    prints the first row of each call of the library, as crates/probe reads it, and makes none

A table is a text of blocks, each of which ends at an empty line. The first characters of a line say what it is:

; a comment
$ a call and its words. Its rows stand below it: for each the text that it is given, and what it answers
< a line of the text, after one blank
<+ what goes on with the line, after one blank
<x what goes on with the line, in hexadecimal digits
<@ NAME, for a text that goes on with the line; after it START..END for a part, and PLACE=BYTE for a byte that is changed
-- the start of another text
> a line of the answer, after one blank; `> ...` stands for any lines from there on
>@ NAME, for a text in hexadecimal digits as a line of the answer
@ a name for the text below it, in all tables of the folder and in those of tests/worked

`<for A..B: LINE` stands for a line for each number n from A to B, `--for A..B:` for a text for each, and `$for A..B: CALL` for
the rows of the call for each. There {n} stands for the number, and braces may have any expression of Python. `<*N` and `>*N` stand
for N such lines. All texts and lines have the escapes of Python, as \\n, \\x20 and \\xff. The last line of a text has no newline.

Who answers the calls is said in the head of the table, after `Calls of`; see ANSWERERS. Calls of the program have more lines:

file NAME TEXT   a file of this text, or one more part of it, with the lines < below it; it lasts until the end of the table
input TEXT       the same for the standard input of the block's calls, which is a file; `input*N` for N such texts
pipe TEXT        the same, where standard input is a pipe
N LINE           of the answer: the status, and the first line of standard error; `0` alone is an answer of nothing
| LINE           of the answer: one more line of standard error; `| ...` stands for any lines from there on
= PATH FILE      of the answer: a file that stands below the folder `tree` then, with the bytes of this other file

In the words of such a call * after an option stands for each value that the option has in VALUES, and {A|B|C} for each of its
parts, in turn; '' is an empty word. The message of status 2 has the text of its line somewhere in it, and nowhere the name of the
program's file, but after `2= LINE`. Each other answer is compared as a whole. All calls begin in a folder of the table's own. Before each call the
folder `tree` is removed, and made anew if files of the block stand in it.
"""
import itertools
import os
import re
import shutil
import subprocess
import sys
import tempfile
from dataclasses import dataclass, field
from difflib import unified_diff
from pathlib import Path

sys.dont_write_bytecode = True
ROOT = Path(__file__).resolve().parent.parent
VALUES = {
    b'--workers': (b'1', b'2', b'8', b'64'),
    b'--zone-piece': (b'1', b'2', b'16', b'65536'),
    b'--row-piece': (b'1', b'2', b'100'),
}


# ------------------------------------------------------------------ lines

def unescaped(text):
    return text.encode().decode('unicode_escape').encode('latin-1')


def filled(text, n):
    """Returns a text with a number in it, if there is one, and without escapes."""
    return unescaped(text if n is None else eval('f' + repr(text), {'n': n}))


def opened(line):
    """Returns the first characters of a line, the numbers for which it stands, and the rest."""
    if match := re.match(r'(\W+)for (\d+)\.\.(\d+): ?', line):
        return match[1], range(int(match[2]), int(match[3]) + 1), line[match.end():]
    word, _, rest = line.partition(' ')
    word, _, times = word.partition('*')
    return word, [None] * int(times or 1), rest


@dataclass
class Text:
    """The lines of texts."""

    lines: list = field(default_factory=list)

    def texts(self, named, n=None):
        """Returns the texts, with a number in them if there is one."""
        texts, lines, numbers = [], [], [n]
        for line in [*self.lines, '--'] if self.lines else []:
            word, following, _ = opened(line)
            if word == '--':
                texts += [text_of(named, lines, i) for i in numbers]
                lines, numbers = [], [n] if following == [None] else following
            else:
                lines.append(line)
        return texts


def text_of(named, lines, n):
    """Returns the text that lines make."""
    text = []
    for line in lines:
        word, numbers, rest = opened(line)
        if word == '<':
            text += [filled(rest, n if i is None else i) for i in numbers]
            continue
        if word == '<@':
            name, *changes = filled(rest, n).decode().split()
            more = cited(named[name], changes)
        else:
            more = filled(rest, n)
        more = bytes.fromhex(more.decode()) if word == '<x' else more
        text[-1:] = [b''.join(text[-1:]) + more * len(numbers)]
    return b'\n'.join(text)


def cited(octets, changes):
    """Returns a text with changes."""
    for change in changes:
        if '..' in change:
            start, end = change.split('..')
            octets = octets[int(start or 0):int(end or len(octets))]
        else:
            place, octet = change.split('=')
            octets = octets[:int(place)] + bytes.fromhex(octet) + octets[int(place) + 1:]
    return octets


# ------------------------------------------------------------------ tables

@dataclass
class Answer:
    """What a call answers: its status, the lines of its output and of standard error, and the files of the folder `tree`."""

    status: int = 0
    out: list = field(default_factory=list)
    told: list = field(default_factory=list)
    tree: dict = field(default_factory=dict)
    is_whole: bool = True

    def fits(self, wanted, name):
        if not wanted.is_whole:
            is_reported = self.told != [] and wanted.told[0] in b'\n'.join(self.told) and name not in b'\n'.join(self.told)
        else:
            is_reported = are_lines(self.told, wanted.told)
        return self.status == wanted.status and are_lines(self.out, wanted.out) and is_reported and self.tree == wanted.tree

    def shown(self):
        lines = [f'> {line!r}'[:300] for line in self.out] + [f'{self.status} {b" | ".join(self.told)!r}'] * (self.status or self.told != [])
        return lines + [f'= {path}: {octets!r}'[:300] for path, octets in self.tree.items()]


def are_lines(lines, wanted):
    """Returns whether lines are these and no others, or any others after them where the last is `...`."""
    if wanted[-1:] == [b'...']:
        return lines[:len(wanted) - 1] == wanted[:-1]
    return lines == wanted


@dataclass
class Row:
    """A call with its text, and the lines of its answer."""

    place: str
    head: str
    text: Text
    answer: list = field(default_factory=list)

    def calls(self, named):
        """Yields the words of the call and its texts for each of its numbers."""
        _, numbers, words = opened(self.head)
        for n in numbers:
            yield words, self.text.texts(named, n)

    def wanted(self, named, folder=None):
        """Returns the answer, by files of a folder."""
        wanted = Answer()
        for line in self.answer:
            word, numbers, rest = opened(line)
            if word == '>':
                wanted.out += [unescaped(rest)] * len(numbers)
            elif word == '>@':
                wanted.out.append(named[rest].hex().encode())
            elif word == '|':
                wanted.told.append(unescaped(rest))
            elif word == '=':
                path, _, name = rest.partition(' ')
                wanted.tree[path] = (folder / name).read_bytes()
            else:
                wanted.status, wanted.is_whole = int(word[0]), word != '2'
                wanted.told = [unescaped(rest)] if wanted.status or rest else []
        return wanted


class Block:
    """The rows of a block, with the files and the standard input of its calls, as texts."""

    def __init__(self):
        self.files, self.input, self.pipe, self.rows, self.named = {}, None, None, [], {}
        self.at = None

    def read(self, line, place):
        """Reads a line."""
        word = re.match(r'\w+|\W', line)[0]
        word = '<' if line.startswith('--') else word
        if word == '$':
            self.rows.append(Row(place, line, Text()))
            self.at = self.rows[-1].text
        elif word == '@':
            self.at = self.named.setdefault(line[2:], Text())
        elif word in ('file', 'input', 'pipe'):
            self.read_file(word, line)
        elif word == '<':
            if self.rows and self.at is self.rows[-1].text and self.rows[-1].answer:
                self.rows.append(Row(place, self.rows[-1].head, Text()))
                self.at = self.rows[-1].text
            self.at.lines.append(line)
        elif word in ('>', '|', '=') or re.fullmatch('[0-9]', word):
            self.rows[-1].answer.append(line)
        else:
            raise ValueError(f'{place}: {line}')

    def read_file(self, word, line):
        _, numbers, rest = opened(line)
        if word == 'file':
            name, _, rest = rest.partition(' ')
            name = os.fsdecode(unescaped(name))
            text = self.files.setdefault(name, Text())
        else:
            text = getattr(self, word) or Text()
            setattr(self, word, text)
        self.at = text
        if rest:
            text.lines.append(f'<+*{len(numbers)} {rest}')


def blocks_of(path):
    """Returns the blocks of a table, and the words after `Calls of` in its head."""
    blocks, head = [Block()], re.match('(;.*\n)*', path.read_text())[0]
    for number, line in enumerate(path.read_text('ascii').split('\n'), 1):
        if line == '':
            blocks.append(Block())
        elif line[0] != ';':
            blocks[-1].read(line, f'{path.parent.name}/{path.name}:{number}')
    return blocks, re.search(r'Calls of ([\w ]+)', head.replace('\n; ', ' '))


def named_texts(paths):
    """Returns the texts that have names, of all tables of these folders and of tests/worked."""
    named = {}
    folders = dict.fromkeys([ROOT / 'tests/worked', *(path.parent for path in paths)])
    for path in (path for folder in folders for path in sorted(folder.glob('*.txt'))):
        for name, text in (pair for block in blocks_of(path)[0] for pair in block.named.items()):
            if name in named:
                raise ValueError(f'{path}: two texts have the name {name}')
            named[name], = text.texts(named)
    return named


# ------------------------------------------------------------------ who answers

def built(name):
    """Returns a program, which is proved and built first if it isn't."""
    subprocess.run(['bash', '-euc', '. tests/common.sh; build "$1"', 'bash', name], cwd=ROOT, check=True)
    return str(ROOT / 'crates' / name / 'out' / name)


def library(table, blocks, named):
    """Yields for each row the answer of the library, which crates/probe calls. The table has the name of a module there."""
    rows = [row for block in blocks for row in block.rows]
    calls = [(row, call_of(table, *call)) for row in rows for call in row.calls(named)]
    run = subprocess.run([built('probe'), 'rows'], input='\n'.join(call for _, call in calls) + '\n', stdout=subprocess.PIPE, encoding='latin-1')
    answers = re.split(r'^\.\n', run.stdout, flags=re.M)[:-1]
    for (row, _), answer in itertools.zip_longest(calls, answers):
        yield row, row.wanted(named), Answer(out=[line.encode('latin-1') for line in answer.splitlines()] if answer else [b'no answer'])
        if answer is None:
            return
    module = (ROOT / f'crates/probe/src/rows/{table.stem}.rt').read_text()
    for call in sorted(set(re.findall(r'^ +"(\w+)" =>', module, re.M)) - {opened(row.head)[2].split()[0] for row in rows}):
        yield Row(table.name, f'no row calls {call}', Text()), Answer(1), Answer()


def call_of(table, words, texts):
    """Returns a call as crates/probe reads it."""
    return ' '.join([table.stem, words, *(':' + text.hex() for text in texts)])


def package(table, blocks, named):
    """Yields for each row the answer of the Python package, which compiles the texts."""
    with tempfile.TemporaryDirectory() as folder:
        if 'PZIC_LIBRARY' not in os.environ:
            subprocess.run([ROOT / 'make-library', folder], check=True, stdout=subprocess.DEVNULL)
            os.environ['PZIC_LIBRARY'] = f'{folder}/lib/libpzic.so'
        sys.path.insert(0, str(ROOT / 'python'))
        import pzic
        for row in (row for block in blocks for row in block.rows):
            for words, texts in row.calls(named):
                yield row, row.wanted(named), Answer(out=[line.encode() for line in compiled(pzic, words.split(), texts)])


def compiled(pzic, words, texts):
    """Returns the lines that tell of texts: `bytes` of the first file, `image N` of another, or `at INSTANT..`."""
    call, *numbers = words[0], *map(int, words[1:])
    try:
        made = pzic.Compiled(*texts)
    except pzic.BadSource as fault:
        return [f'text {fault.text} line {fault.line}: {fault.kind}']
    names = list(made)
    if call == 'at':
        states = [made[names[0]].at(instant) for instant in numbers]
        return [f'{instant} {state.offset} {state.daylight:d} {state.name}' for instant, state in zip(numbers, states)]
    data = made.data(names[numbers[0] if numbers else 0])
    if call == 'bytes':
        return [data.hex()]
    return [f'{len(data)} bytes, version {data[4]:c} and {data[55]:c}', data.split(b'\n')[-2].decode()]


class Folder:
    """A folder in which the program runs."""

    def __init__(self, folder):
        self.program, self.path = built('zic_main'), Path(folder)

    def write(self, files):
        shutil.rmtree(self.path / 'tree', ignore_errors=True)
        for name, octets in files.items():
            (self.path / name).parent.mkdir(parents=True, exist_ok=True)
            (self.path / name).write_bytes(octets)

    def run(self, words, given=b'', is_pipe=False):
        """Runs the program, and returns its answer, without the files of the tree."""
        (self.path / 'input').write_bytes(given)
        with open(self.path / 'input', 'rb') as file:
            standard = {'input': given} if is_pipe else {'stdin': file}
            done = subprocess.run([self.program, *words], cwd=self.path, capture_output=True, timeout=60, **standard)
        return Answer(done.returncode, lines_of(done.stdout), lines_of(done.stderr))

    def tree(self):
        """Returns the files of the tree. An empty one has a file that no answer has."""
        tree = self.path / 'tree'
        if tree.exists() and not any(tree.iterdir()):
            return {'(a folder for no file)': b''}
        return {str(path.relative_to(tree)): path.read_bytes() for path in tree.glob('**/*') if path.is_file()}


def lines_of(octets):
    """Returns the lines of an output. One without its newline has another line that no answer has."""
    lines = octets.split(b'\n')
    return lines[:-1] if lines[-1] == b'' else [*lines, b'(without a newline)']


def each(words):
    """Yields the words of a call of the program with a value for each * and each {}."""
    options = re.split(r'\{(.*?)\}', words)
    for parts in itertools.product(*([text] if i % 2 == 0 else text.split('|') for i, text in enumerate(options))):
        words = [b'' if word == "''" else unescaped(word) for word in ''.join(parts).split()]
        values = [VALUES[before] if word == b'*' else (word,) for before, word in zip([b'', *words], words)]
        yield from itertools.product(*values)


def program(table, blocks, named):
    """Yields for each call the answer of the program."""
    with tempfile.TemporaryDirectory() as path:
        folder = Folder(path)
        for block in blocks:
            files = {name: b''.join(text.texts(named)) for name, text in block.files.items()}
            folder.write(files)
            for row in block.rows:
                wanted = row.wanted(named, folder.path)
                for words, texts in row.calls(named):
                    given = b''.join(texts) if texts else b''.join((block.pipe or block.input or Text()).texts(named))
                    for words in each(words):
                        folder.write(files)
                        answer = folder.run(words, given, block.pipe is not None)
                        answer.tree = folder.tree()
                        yield Row(f'{row.place}: {words}', row.head, row.text), wanted, answer


# ------------------------------------------------------------------ sources

def sources(table, blocks, named):
    """Yields for each row what the program's commands answer to the texts of a source: `source`, what `check` and `build` answer;
    `show NAME INSTANT..`, what `show` answers of a file that is built; and `convert RECORD..`, the rows of a column. A call without a text
    has that of the row before it."""
    with tempfile.TemporaryDirectory() as path:
        folder, last = Folder(path), [b'']
        for row in (row for block in blocks for row in block.rows):
            for words, texts in row.calls(named):
                texts = last = [text + b'\n' * (text != b'') for text in texts] or last
                names = [f'text.{number}' for number in range(1, len(texts) + 1)]
                folder.write(dict(zip(names, texts)))
                command, *rest = words.split()
                ask = {'source': checked, 'show': shown, 'convert': converted}[command]
                yield row, row.wanted(named), ask(folder, names, rest)


def checked(folder, names, _):
    """Returns what `check` answers, or for more texts the list of the files that `build` makes. Other commands must agree with it."""
    built = folder.run(['build', '--workers', '8', '--zone-piece', '1', 'tree', *names])
    listed = [b'%s %d %s' % (name.encode(), len(octets), octets.split(b'\n')[-2]) for name, octets in sorted(folder.tree().items())]
    if len(names) > 1:
        return Answer(built.status, listed, built.told) if built.out == [] else built
    text = (folder.path / names[0]).read_bytes()
    answer = folder.run(['check', names[0]])
    others = [folder.run(['check', '-'], text), folder.run(['convert', names[0]], b'\n'), built]
    wanted = [answer, *[Answer(answer.status, [], answer.told)] * 2]
    if others != wanted or listed != sorted(answer.out):
        return Answer(9, listed, [repr(other).encode() for other in (answer, *others)])
    return answer


def shown(folder, names, words):
    folder.run(['build', 'tree', *names])
    answers = [folder.run(['show', '--', f'tree/{words[0]}', instant]) for instant in words[1:]]
    return Answer(max(answer.status for answer in answers), sum((a.out for a in answers), []), sum((a.told for a in answers), []))


def converted(folder, names, records):
    return folder.run(['convert', names[0]], ''.join(record + '\n' for record in records).encode())


ANSWERERS = {
    'the library': library,
    'the Python package': package,
    'the program': program,
    'commands on sources': sources,
}
OF_FOLDERS = {'worked': 'the library', 'program': 'the program'}


# ------------------------------------------------------------------ running

def run(path, named):
    """Makes the calls of a table, prints what differs and how many calls were made, and returns whether nothing differs."""
    blocks, said = blocks_of(path)
    answerer = next((name for name in ANSWERERS if said and said[1].startswith(name)), OF_FOLDERS.get(path.parent.name))
    count, differences = 0, 0
    for row, wanted, got in ANSWERERS[answerer](path, blocks, named):
        count += 1
        if not got.fits(wanted, b'zic_main'):
            differences += 1
            if differences <= 20:
                print(f'{row.place}: {row.head[:100]}', *list(unified_diff(wanted.shown(), got.shown(), n=0, lineterm=''))[2:], sep='\n', file=sys.stderr)
    print(f'{path.parent.name}/{path.name}: {count} calls, {differences} differences', flush=True)
    return count > 0 and differences == 0


def print_calls(paths, named):
    """Prints the first row of each call."""
    first = {}
    for path in paths:
        for row in (row for block in blocks_of(path)[0] for row in block.rows):
            for words, texts in row.calls(named):
                first.setdefault((path.stem, words.split()[0]), call_of(path, words, texts))
    print('\n'.join(first.values()))


def main():
    words = sys.argv[1:]
    paths = [Path(word).resolve() for word in words if word != '--calls']
    named = named_texts(paths)
    if words[:1] == ['--calls']:
        print_calls(paths, named)
    else:
        sys.exit(not all([run(path, named) for path in paths]))


if __name__ == '__main__':
    main()

#!/usr/bin/env python3
"""Lists the calls on files that the program makes, by strace, which also has one of them fail, and compares them with those that it has to
make.

usage: calls.py PROGRAM

A file is written whole before it has its name; a link is made after all files, and before it has its name. A list has its path once it is
whole. A folder is entered once, and other runs may be in it. What fails is removed, and nothing is made after it.

Calls stand in lines: `open` a path to read it, `change` to write it, `create`, `list`, `folder`, `write` and its bytes, `cut`, `sync`, `rename`,
`link` and `symlink` from and to, `remove`. Temporary names have the numbers 7, 8 and so on, in the order of the names that a run tries.
"""
import re
import shutil
import subprocess
import sys
import tempfile
from dataclasses import dataclass
from pathlib import Path

# Calls and their names here; `?` is before those that some systems lack.
CALLS = {
    'open': 'openat ?open', 'folder': '?mkdir mkdirat', 'write': 'write', 'cut': 'ftruncate', 'sync': 'fsync fdatasync', 'remove': '?unlink unlinkat',
    'rename': '?rename ?renameat renameat2', 'link': '?link linkat', 'symlink': '?symlink symlinkat',
}
NAMES = {call.lstrip('?'): name for name, calls in CALLS.items() for call in calls.split()}
TRACED = ','.join(call for calls in CALLS.values() for call in calls.split())

UTC = 'Zone Etc/UTC 0 - UTC\n'
TWO = 'Zone A 0 - UTC\nZone B 0 - UTC\n'
LINK = 'Link Z/UTC L/M/UTC\nZone Z/UTC 0 - UTC\n'
# Two zones, and a link to the second with a link to it.
LINKS = 'Link East A/East\nZone Etc/UTC 0 - UTC\nLink Z/EST East\nZone Z/EST -5 - EST\n'
FAULTY = 'Etc/UTC,0\nNo/Such,0\nEtc/UTC,x\n'

# What stands in the folder D first: folders, and files of no bytes.
NOTHING, LISTED = '', 'list'


@dataclass
class Case:
    """What the program is run on, and what it does: its words, standard input, what is in D, the call that fails with an error, once or
    always, the calls, and the status and the messages."""

    words: str
    given: str
    calls: str
    inside: str = NOTHING
    fails: str = ''
    error: str = 'EIO'
    always: bool = False
    ends: tuple = (0, '')


def placed(path, folder='', written='write 111', number=7):
    """the calls that place a file in D, after those on its folder"""
    temporary = f'D/{path}'.rpartition('/')[0] + f'/~pzic{number}'
    return f'{folder}create {temporary}\n{written}\nrename {temporary} D/{path}\n'


def removed(number):
    """two of a thousand tries to place the file A in D: another run removes it, and has made another of the same name"""
    return placed('A', number=number) + f'create D/~pzic{number}\n'


def build(given, calls, fails='', error='EIO', sources='-', **more):
    return Case(f'build --workers 1 D {sources}', given, calls, fails=fails, error=error, **more)


def refused(path):
    return 3, f'cannot write {path}\n'


def linked(kind, given, calls, **more):
    return Case(f'build --workers 1 --links {kind} D -', given, calls, inside='Z/ L/M/ Etc/ A/', **more)


def listed(given, calls, inside='list', **more):
    ends = more.pop('ends', None) or (1, 'row 2: RowZone\n2 rows with faults\n')
    # Before all, the program looks whether an earlier list is another file of the command.
    calls = 'open D/list\n' * (inside == 'list') + 'open utc\nchange D/list\n' + calls
    return Case('convert --workers 1 --keep-going --faults D/list utc', given, calls, inside=inside, ends=ends, **more)


def not_listed(calls, before=False, **more):
    ends = refused('D/list') if before else (3, 'cannot write D/list\nrow 2: RowZone\n2 rows with faults\n')
    return listed(FAULTY, calls, ends=ends, **more)


BEFORE = 'list D/Z/\n' + placed('Z/UTC') + 'list D/L/M/\n'
FILES = placed('Etc/UTC', 'list D/Etc/\n') + placed('Z/EST', 'list D/Z/\n')
NEW = 'list D/Etc/\nfolder D/Etc\n'
MADE = 'create D/~pzic7\n'
FAULTS = 'write 23\n'

CASES = [
    # Sources are read from left to right before anything is made.
    build('', 'open a\nopen b\n', sources='a b'),
    build('', 'open a\n', 'open a', sources='a b', ends=(3, 'cannot read a\n')),
    build('', 'open a\nopen b\n', 'open b', sources='a b', ends=(3, 'cannot read b\n')),
    build('Zone A 0 - UTC\n-6:00 - CST\n', 'open a\n', sources='a -', ends=(1, 'text 2 line 2: Keyword\n')),
    build('# No zone.\n', ''),
    # A file of a folder that isn't there and is made, and each call that fails.
    build(UTC, placed('Etc/UTC', NEW)),
    build(UTC, NEW, 'folder D/Etc', ends=refused('D/Etc/UTC')),
    build(UTC, NEW + 'create D/Etc/~pzic7\n', 'create D/Etc/~pzic7', ends=refused('D/Etc/UTC')),
    build(UTC, NEW + 'create D/Etc/~pzic7\nwrite 111\nremove D/Etc/~pzic7\n', 'write 111', ends=refused('D/Etc/UTC')),
    build(UTC, placed('Etc/UTC', NEW) + 'remove D/Etc/~pzic7\n', 'rename D/Etc/~pzic7 D/Etc/UTC', ends=refused('D/Etc/UTC')),
    # A folder is entered once. What another run left there may stay.
    build(TWO, 'list D/\n' + placed('A') + placed('B')),
    build(TWO, 'list D/\nremove D/~pzic12\n' + placed('A') + placed('B'), 'remove D/~pzic12', 'EACCES', inside='~pzic12'),
    # Another run has a file of the same name, or removes the file, once or always: here it stays, and so the next name is free.
    build(TWO, 'list D/\ncreate D/~pzic7\n' + placed('A', number=8) + placed('B', number=8), 'create D/~pzic7', 'EEXIST'),
    build(TWO, 'list D/\n' + removed(7) + placed('A', number=8) + placed('B', number=8), 'rename D/~pzic7 D/A', 'ENOENT'),
    build(TWO, 'list D/\n' + ''.join(map(removed, range(7, 507))), 'rename D/~pzic7 D/A', 'ENOENT', always=True, ends=refused('D/A')),
    # No file is made after one that is refused.
    build(TWO + 'Zone C 0 - UTC\n', 'list D/\n' + placed('A') + placed('B') + 'remove D/~pzic7\n', 'rename D/~pzic7 D/B', ends=refused('D/B')),
    # With --sync a file is synced before it has its name, and the folder at the end.
    Case('build --workers 1 --sync D -', UTC, placed('Etc/UTC', 'list D/Etc/\n', 'write 111\nsync D/Etc/~pzic7') + 'open D/Etc\nsync D/Etc\n',
         inside='Etc/'),
    Case('build --workers 1 --sync D -', UTC, 'list D/Etc/\ncreate D/Etc/~pzic7\nwrite 111\nsync D/Etc/~pzic7\nremove D/Etc/~pzic7\n', inside='Etc/',
         fails='sync D/Etc/~pzic7', ends=refused('D/Etc/UTC')),
    Case('build --workers 1 --sync D -', UTC, placed('Etc/UTC', 'list D/Etc/\n', 'write 111\nsync D/Etc/~pzic7') + 'open D/Etc\n', inside='Etc/',
         fails='open D/Etc', ends=refused('D/Etc')),
    # Links are made after all files, and each before it has its name.
    linked('hard', LINK, BEFORE + 'link D/Z/UTC D/L/M/~pzic7\nrename D/L/M/~pzic7 D/L/M/UTC\nremove D/L/M/~pzic7\n'),
    linked('symlink', LINK, BEFORE + 'symlink ../../Z/UTC D/L/M/~pzic7\nrename D/L/M/~pzic7 D/L/M/UTC\n'),
    linked('hard', LINKS, FILES + 'list D/A/\nlink D/Z/EST D/A/~pzic7\nrename D/A/~pzic7 D/A/East\nremove D/A/~pzic7\n'
           'list D/\nlink D/Z/EST D/~pzic7\nrename D/~pzic7 D/East\nremove D/~pzic7\n'),
    linked('symlink', LINKS, FILES + 'list D/A/\nsymlink ../Z/EST D/A/~pzic7\nrename D/A/~pzic7 D/A/East\n'
           'list D/\nsymlink Z/EST D/~pzic7\nrename D/~pzic7 D/East\n'),
    linked('hard', LINK, BEFORE + 'link D/Z/UTC D/L/M/~pzic7\n', fails='link D/Z/UTC D/L/M/~pzic7', ends=refused('D/L/M/UTC')),
    linked('hard', LINK, BEFORE + 'link D/Z/UTC D/L/M/~pzic7\nrename D/L/M/~pzic7 D/L/M/UTC\nremove D/L/M/~pzic7\n',
           fails='rename D/L/M/~pzic7 D/L/M/UTC', ends=refused('D/L/M/UTC')),
    # Another run replaces the zone's file, or has a file of the same name.
    linked('hard', LINK, BEFORE + 'link D/Z/UTC D/L/M/~pzic7\n' * 2 + 'rename D/L/M/~pzic7 D/L/M/UTC\nremove D/L/M/~pzic7\n',
           fails='link D/Z/UTC D/L/M/~pzic7', error='ENOENT'),
    linked('symlink', LINK, BEFORE + 'symlink ../../Z/UTC D/L/M/~pzic7\nsymlink ../../Z/UTC D/L/M/~pzic8\nrename D/L/M/~pzic8 D/L/M/UTC\n',
           fails='symlink ../../Z/UTC D/L/M/~pzic7', error='EEXIST'),
    # A list in place of an earlier one, of no fault, and where there is none.
    listed(FAULTY, MADE + FAULTS + 'sync D/~pzic7\nrename D/~pzic7 D/list\n'),
    listed('Etc/UTC,0\n', MADE + 'sync D/~pzic7\nrename D/~pzic7 D/list\n', ends=(0, '')),
    listed(FAULTY, MADE + FAULTS + 'sync D/~pzic7\nrename D/~pzic7 D/list\n', inside=NOTHING),
    # Another run has the temporary name; no file may be made in the folder, and the earlier one is emptied by the first write.
    listed('Etc/UTC,0\n', MADE + 'create D/~pzic8\nsync D/~pzic8\nrename D/~pzic8 D/list\n', fails='create D/~pzic7', error='EEXIST', ends=(0, '')),
    listed(FAULTY, MADE + 'cut D/list\n' + FAULTS + 'sync D/list\n', fails='create D/~pzic7', error='EACCES'),
    # A list that isn't whole is removed. What can't be written after the rows is tried again at the end, and counts as lost all the same.
    not_listed('', before=True, fails='change D/list', error='EACCES'),
    not_listed(MADE, before=True, fails='create D/~pzic7'),
    not_listed(MADE + FAULTS * 2 + 'remove D/~pzic7\n', fails='write 23'),
    not_listed(MADE + FAULTS + 'sync D/~pzic7\nremove D/~pzic7\n', fails='sync D/~pzic7'),
    not_listed(MADE + FAULTS + 'sync D/~pzic7\nrename D/~pzic7 D/list\nremove D/~pzic7\n', fails='rename D/~pzic7 D/list'),
]


def make_ready(folder, case):
    """makes the folder D, with what stands there first, and the sources"""
    shutil.rmtree(folder / 'D', ignore_errors=True)
    (folder / 'D').mkdir()
    for path in case.inside.split():
        (folder / 'D' / path).parent.mkdir(parents=True, exist_ok=True)
        (folder / 'D' / path).mkdir(parents=True, exist_ok=True) if path.endswith('/') else (folder / 'D' / path).write_text('')
    for name, text in {'a': '# A source.\n', 'b': '# A source.\n', 'utc': UTC, 'given': case.given}.items():
        (folder / name).write_text(text)


def run(program, folder, case, injected=()):
    """runs the program, and returns its status, its messages, and its calls, each with the system's name of it and the number of calls of
    this name up to it"""
    make_ready(folder, case)
    with open(folder / 'given') as given:
        done = subprocess.run(['strace', '-f', '-y', '-o', 'trace', '-e', f'trace={TRACED}', *injected, program, *case.words.split()], cwd=folder,
                              stdin=given, capture_output=True, text=True, timeout=60)
    calls, counts = [], {}
    for line in (folder / 'trace').read_text().splitlines():
        if found := re.match(r'\d+ +(\w+)\((.*)\) += ', line):
            counts[found[1]] = counts.get(found[1], 0) + 1
            if call := call_of(folder, NAMES[found[1]], found[2]):
                calls.append((call, found[1], counts[found[1]]))
    first = next((int(found[1]) for call, *_ in calls if (found := re.match(r'(?:create|link|symlink) .*~pzic(\d+)$', call))), 0)
    calls = [(re.sub(r'~pzic(\d{3,})', lambda found: f'~pzic{int(found[1]) - first + 7}', call), *rest) for call, *rest in calls]
    return done.returncode, done.stderr, calls


def call_of(folder, name, arguments):
    """a call by its name here, or None where it isn't on a file of the folder"""
    paths = re.findall(r'"((?:[^"\\]|\\.)*)"', arguments)
    opened = re.match(r'\d+<(.*?)>', arguments)
    if name in ('write', 'cut', 'sync'):
        if not opened or not opened[1].startswith(f'{folder}/'):
            return None
        return f'write {arguments.rpartition(" ")[2]}' if name == 'write' else f'{name} {opened[1].removeprefix(f"{folder}/")}'
    if name != 'symlink' and paths[0].startswith('/'):
        return None
    if name == 'open' and 'O_EXCL' in arguments:
        name = 'create'
    elif name == 'open' and 'O_WRONLY' in arguments:
        name = 'change'
    elif name == 'open' and paths[0].endswith('/'):
        name = 'list'
    return ' '.join([name, *paths])


def ends_of(program, folder, case):
    """what the program does in a case"""
    if not case.fails:
        return run(program, folder, case)
    for call, name, number in run(program, folder, case)[2]:
        if call == case.fails:
            return run(program, folder, case, ['-e', f'inject={name}:error={case.error}:when={number}{"+" if case.always else ""}'])
    return None, f'no call {case.fails}', []


def main():
    differences = 0
    with tempfile.TemporaryDirectory() as path:
        folder, program = Path(path).resolve(), str(Path(sys.argv[1]).resolve())
        for case in CASES:
            status, told, calls = ends_of(program, folder, case)
            calls = ''.join(call + '\n' for call, *_ in calls)
            if (status, told) != case.ends or calls != case.calls:
                differences += 1
                print(f'{case.words}, {case.fails} {case.error}:\n{calls}{status} {told}and not\n{case.calls}{case.ends}', file=sys.stderr)
    print(f'{len(CASES)} runs, {differences} differences')
    sys.exit(differences != 0)


if __name__ == '__main__':
    main()

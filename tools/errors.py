#!/usr/bin/env python3
"""Makes of docs/errors.txt the page docs/ERRORS.md and the texts of `pzic explain` and `--explain`, the files
crates/zic_explain/src/{source_texts,other_texts,cases}.rt. It prints

    page            docs/ERRORS.md
    source_texts    the texts of the errors of a source, as source_texts.rt has them
    other_texts     those of all other errors, as other_texts.rt has them
    cases           what `--explain` tells in special cases, as cases.rt has it
    examples        a line of shell for each entry: its name and what its example has, as assignments
    explain         what `pzic explain NAME` prints, where NAME follows

Called without a word it writes the four files.
"""
import re
import sys
from dataclasses import dataclass, field
from pathlib import Path

ROOT = Path(__file__).resolve().parent.parent
DOCS, SOURCES = ROOT / 'docs', ROOT / 'crates/zic_explain/src'
# The number of entries in one constant: the prover writes it out whole.
GROUP = 6
FILES = ('source_texts', 'other_texts', 'cases')
WORDS = ('says', 'expected', 'wrong', 'prints', 'right', 'meant', 'setup')
# The words of a case, and how a line of it marks the place of a word.
CASE_WORDS, PLACE = ('expected', 'meant', 'line'), '{}'

INTRODUCTION = (
    'Every error by name: what it means, what is expected, and the cause. `pzic explain NAME` also prints an example that '
    'causes it and a correct one, and `pzic explain` a list. `tools/errors.py` makes this page of [errors.txt](errors.txt), '
    'and the tests run the examples.'
)


@dataclass
class Entry:
    """A part of the page, an error in it, or a case of one of them: its name, and its texts by their words, each a list of lines."""

    name: str
    part: 'Entry' = None
    texts: dict = field(default_factory=dict)
    cases: list = field(default_factory=list)

    def text(self, word, indent=''):
        return ''.join(f'{indent}{line}\n' for line in self.texts.get(word, []))

    def first_sentence(self):
        text = ' '.join(self.texts['says'])
        return text.split('. ')[0] + '.' if '. ' in text else text


def entries():
    """Returns the parts and errors of errors.txt in their order."""
    found, texts = [], {}
    words, word = WORDS, None
    for number, line in enumerate((DOCS / 'errors.txt').read_text().splitlines(), 1):
        heading = re.fullmatch('(#{1,3}) (.+)', line)
        if line.startswith(';') or not line:
            continue
        if heading and heading[1] == '###':
            found[-1].cases.append(Entry(heading[2]))
            words, texts = CASE_WORDS, found[-1].cases[-1].texts
        elif heading:
            part = next((entry for entry in reversed(found) if not entry.part), None)
            found.append(Entry(heading[2], part if heading[1] == '##' else None))
            words, texts = WORDS, found[-1].texts
        elif line[:-1] in words and line.endswith(':'):
            word = line[:-1]
            texts[word] = []
        elif line.startswith('  ') and '"#' not in line and word in texts:
            texts[word].append(line[2:])
        else:
            sys.exit(f'errors.txt:{number}: {line}')
    return found


def paragraph(title, text):
    return f'\n**{title}** {text}' if text else ''


def page(found):
    """Returns docs/ERRORS.md."""
    text = f'# Errors\n\n{INTRODUCTION}\n'
    for entry in found:
        text += f'\n{"###" if entry.part else "##"} {entry.name}\n'
        text += '\n' + entry.text('says')
        text += paragraph('Expected:', entry.text('expected'))
        text += paragraph('Cause:', entry.text('meant'))
    return text


def quoted(text):
    """Returns a text as the program's source has it."""
    if text.count('\n') <= 1:
        return '"' + text.replace('\\', '\\\\').replace('"', '\\"').replace('\n', '\\n') + '"'
    return f'r#"{text}"#'


def struct(entry, setups):
    """Returns an `Entry` of the program."""
    words = {
        'name': quoted(entry.name),
        'meaning': quoted(entry.first_sentence()),
        'says': quoted(entry.text('says', '  ')),
        'expected': quoted(entry.text('expected', '  ')),
        'setup': setups[entry.part.text('setup', '  ') if 'wrong' in entry.texts else ''],
        'wrong': quoted(entry.text('wrong', '  ')),
        'prints': quoted(entry.text('prints', '  ')),
        'right': quoted(entry.text('right', '  ')),
        'cause': quoted(entry.text('meant', '  ')),
    }
    return '    Entry {\n' + ''.join(f'        {word}: {text},\n' for word, text in words.items()) + '    },\n'


def texts(found, name, what):
    """Returns a file with the texts of these errors."""
    text = f'//! The texts of {what}. This file is made of docs/errors.txt by tools/errors.py.\n\n'
    text += 'use crate::entry::Entry;\nuse std::alloc::AllocError;\n\n'
    setups = {'': '""'}
    for part in [entry.part for entry in found if 'setup' in entry.part.texts]:
        setup = part.text('setup', '  ')
        if setup not in setups:
            setups[setup] = f'SETUP_{len(setups)}'
            text += f'/// Commands that examples use.\nconst {setups[setup]}: &str = {quoted(setup)};\n\n'
    groups = [found[i:i + GROUP] for i in range(0, len(found), GROUP)]
    text += f'/// Adds the texts of {what}, in the order of docs/ERRORS.md.\n'
    text += f'pub(crate) fn {name}(entries: &mut Vec<Entry>) -> Result<(), AllocError> {{\n'
    for i in range(len(groups) - 1):
        text += f'    entries.extend_from_slice(group_{i + 1}())?;\n'
    text += f'    entries.extend_from_slice(group_{len(groups)}())\n}}\n'
    for i, group in enumerate(groups, 1):
        text += f'\nfn group_{i}() -> &\'static [Entry] {{\n    &GROUP_{i}\n}}\n'
    for i, group in enumerate(groups, 1):
        text += f'\nconst GROUP_{i}: [Entry; {len(group)}] = [\n'
        text += ''.join(struct(entry, setups) for entry in group) + '];\n'
    return text


def constant(entry, case):
    """Returns the name of the constant for a case."""
    words = re.sub('(?<=[a-z])(?=[A-Z])', ' ', entry.name).split() + re.findall('[a-z0-9]+', case.name)
    return '_'.join(words).upper()


def literal(kind, **fields):
    """Returns a struct with these texts, as the program's source has it."""
    return f'{kind} {{\n' + ''.join(f'    {name}: {quoted(text)},\n' for name, text in fields.items()) + '}'


def case_value(entry, case):
    """Returns what a case is, the type of its constant, and its value."""
    if 'line' not in case.texts:
        cause = (case if 'meant' in case.texts else entry).text('meant', '  ')
        value = literal('Expectation', expected=case.text('expected', '  '), cause=cause)
        return f'What is expected with `{case.name}`, where the error is `{entry.name}`', 'Expectation', value
    [line] = case.texts['line']
    before, place, after = line.partition(PLACE)
    if not place:
        return f'A line for `{entry.name}`', '&str', quoted(line)
    return f'A line for `{entry.name}`', 'Sentence', literal('Sentence', before=before, after=after)


def cases(found):
    """Returns the file with the texts of the cases."""
    text = '//! What `--explain` tells in special cases. This file is made of docs/errors.txt by tools/errors.py.\n\n'
    text += 'use crate::entry::{Expectation, Sentence};\n'
    for entry, case in [(entry, case) for entry in found for case in entry.cases]:
        what, kind, value = case_value(entry, case)
        text += f'\n/// {what}.\npub const {constant(entry, case)}: {kind} = {value};\n'
    return text


def shell_word(text):
    """Returns a text as a word of bash, on one line."""
    return "$'" + text.replace('\\', '\\\\').replace("'", "\\'").replace('\n', '\\n') + "'"


def examples(found):
    """Returns a line of bash for each entry."""
    lines = []
    for entry in found:
        words = {'name': entry.name} | {word: entry.text(word)[:-1] for word in ('setup', 'wrong', 'prints', 'right')}
        lines.append(' '.join(f'{word}={shell_word(text)}' for word, text in words.items()) + '\n')
    return ''.join(lines)


def explanation(entry):
    """Returns what `pzic explain` prints of an error."""
    text = f'{entry.name}\n\n' + entry.text('says', '  ')
    setup = entry.part.text('setup', '  ') if 'wrong' in entry.texts else ''
    sections = [('Expected', entry.text('expected', '  ')), ('The examples use', setup)]
    for title, word in ('Wrong', 'wrong'), ('It prints', 'prints'), ('Right', 'right'), ('Usual cause', 'meant'):
        sections.append((title, entry.text(word, '  ')))
    return text + ''.join(f'\n{title}:\n{lines}' for title, lines in sections if lines)


def main():
    found = entries()
    errors = [entry for entry in found if entry.part]
    first = errors[0].part
    made = {
        'page': page(found),
        'source_texts': texts([e for e in errors if e.part is first], 'push_source_errors', 'the errors of a source'),
        'other_texts': texts([e for e in errors if e.part is not first], 'push_other_errors', 'the errors of columns, files and runs'),
        'cases': cases(found),
        'examples': examples(found),
    }
    if sys.argv[1:2] == ['explain']:
        sys.stdout.write(next(explanation(entry) for entry in errors if entry.name == sys.argv[2]))
        return
    if sys.argv[1:]:
        sys.stdout.write(made[sys.argv[1]])
        return
    (DOCS / 'ERRORS.md').write_text(made['page'])
    for name in FILES:
        (SOURCES / f'{name}.rt').write_text(made[name])


main()

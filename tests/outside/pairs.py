#!/usr/bin/env python3
"""Writes two random sources that differ in some fields, for the comparison of what `pzic diff` lists for them.

usage: pairs.py SEED OLD NEW

Each source has a few sets of two rules, and zones that follow them, have a fixed saving or none, in one to four lines. In NEW some
days, times, offsets, abbreviations and years of OLD are others, and a zone of each is missing in the other.
"""
import random
import sys

MONTHS = 'Jan Feb Mar Apr May Jun Jul Aug Sep Oct Nov Dec'.split()
DAYS = ['lastSun', 'lastThu', 'Sun>=1', 'Sun>=8', 'Fri>=23', '15', '1']
TIMES = ['0:00', '1:00', '2:00', '2:00s', '1:00u', '3:00', '23:59:59']
SAVES = ['1:00', '0:30', '2:00']


def rules(some, name):
    """Returns the fields of the two rules of a set, of which one starts a saving and the other ends it."""
    first = some.randint(1910, 1990)
    start, end = some.sample([(2, 3), (8, 9)], 2)
    # A set that ends does so in standard time.
    last = str(first + some.randint(1, 60)) if start < end and some.random() < 0.5 else 'max'
    saving = some.choice(SAVES)
    return [['Rule', name, str(first), last, '-', MONTHS[some.choice(months)], some.choice(DAYS), some.choice(TIMES), save, letter]
            for months, save, letter in ((start, saving, 'D'), (end, '0', 'S'))]


def offset(some):
    return f'{some.choice(["", "-"])}{some.randint(0, 8)}:{some.choice(["00", "30", "45"])}'


def line(some, words):
    """Returns the first fields of a line that follows one of these sets, or has one of these savings."""
    rule = some.choice(words)
    return [offset(some), rule, some.choice(['X%sT', 'ABC/DEF', '%z'] if rule.startswith('S') else ['ABC', '%z'])]


def zone(some, name, sets):
    """Returns the fields of the lines of a zone."""
    # zoneinfo takes the first standard time for that before all transitions: so let it be the first.
    lines, year = [[offset(some), '-', 'LMT', '1890']], some.randint(1900, 1940)
    for _ in range(some.randint(0, 3)):
        lines.append([*line(some, sets + ['-', '1:00']), str(year)])
        year += some.randint(2, 40)
    lines.append(line(some, sets + ['-']))
    lines[0] = ['Zone', name, *lines[0]]
    return lines


def changed(some, fields):
    """Returns the fields of a line with one of them changed, now and then."""
    fields = list(fields)
    if some.random() < 0.7:
        return fields
    if fields[0] == 'Rule':
        place, words = some.choice([(6, DAYS), (7, TIMES)])
        fields[place] = some.choice(words)
        return fields
    at = 2 if fields[0] == 'Zone' else 0
    if len(fields) > at + 3 and some.random() < 0.3:
        fields[at + 3] += ' Jan 1 0:00:01'
    elif some.random() < 0.5:
        fields[at] = offset(some)
    else:
        fields[at + 2] = some.choice(['ABC', 'YZY/ZYZ', '%z'])
    return fields


def main(seed, old, new):
    some = random.Random(int(seed))
    sets = [f'S{number}' for number in range(4)]
    lines = [fields for name in sets for fields in rules(some, name)]
    zones = [fields for number in range(12) for fields in zone(some, f'Z/{number}', sets)]
    lone = [['Zone', 'Z/old', '1', '-', 'OLD']], [['Zone', 'Z/new', '2', '-', 'NEW']]
    for path, source in ((old, lines + zones + lone[0]), (new, [changed(some, fields) for fields in lines + zones] + lone[1])):
        with open(path, 'w', encoding='ascii') as file:
            file.writelines(' '.join(fields) + '\n' for fields in source)


if __name__ == '__main__':
    main(*sys.argv[1:])

#!/usr/bin/env python3
"""Compares the files of a release of the tz database with those that the system's zic makes of it, and what Tugboreke's reader
answers with two other readers: Python's zoneinfo and reader.py.

usage: files.py FOLDER

FOLDER has the folders `ours`, `fat` and `slim`, with our files and those of `zic -b fat` and `zic -b slim`. by_library.py asks the
library, which the variable PZIC_LIBRARY names. Prints a line for each comparison, and each difference; the status is 1 if there is one.
"""
import io
import os
import random
import sys
from collections import Counter
from functools import lru_cache
from zoneinfo import ZoneInfo

import footers
import reader
from changes import state_by_footer as state_by_zoneinfo
from definitions import year_second

FIRST, LAST = year_second(2), year_second(2201) - 1                      # what is compared with zoneinfo lies between
FAR = [-2**63, -2**63 + 1, -2**59 - 1, -2**59, -10**12, FIRST - 1, LAST + 1, 2**32, 10**12, 2**59, 2**63 - 1]
# files that are refused: docs/DECISIONS.md, "A footer that disagrees"
KNOWN = {"slim/America/Ojinaga": "Footer"}

found = {"now": 0, "in all": 0}


def differ(line):
    """tells of a difference, and of the first twenty of a comparison in words"""
    found["now"] += 1
    if found["now"] <= 20:
        print(line, file=sys.stderr)


def report(line):
    """ends a comparison"""
    print(f"{line}: {found['now']} differences", flush=True)
    found["in all"] += found["now"]
    found["now"] = 0


# ------------------------------------------------------------------ files

def names_of(folder):
    return sorted(os.path.relpath(os.path.join(at, name), folder) for at, _, names in os.walk(folder) for name in names)


@lru_cache(maxsize=None)
def octets_of(path):
    with open(path, "rb") as file:
        return file.read()


@lru_cache(maxsize=None)
def file_of(octets):
    return reader.read(octets)


def edges_of(file):
    """the edges of a footer from the last transition on, in the years up to 2200"""
    if not file.footer or not file.footer[2]:
        return
    _, offset, (_, ahead, start, stop) = file.footer
    first = 1970 + (file.times[-1] if file.times else 0) // 31556952
    for year in range(first - 1, 2201):
        yield footers.edge_in(year, start, offset)
        yield footers.edge_in(year, stop, ahead)


def instants_of(*files):
    """each transition, each edge of a footer up to 2200, the first of each half year from 1900, and one second before each"""
    at = {t for file in files for t in (*file.times, *edges_of(file))}
    at |= {year_second(year) + half for year in range(1900, 2201) for half in (0, 181 * 86400)}
    return sorted(t for u in at for t in (u - 1, u) if FIRST <= t <= LAST)


@lru_cache(maxsize=None)
def differences_by_zoneinfo(ours, theirs):
    """the number of instants, and those at which zoneinfo shows another state by the one file than by the other"""
    a, b = (ZoneInfo.from_file(io.BytesIO(octets)) for octets in (ours, theirs))
    instants = instants_of(file_of(ours), file_of(theirs))
    return len(instants), [t for t in instants if state_by_zoneinfo(a, t) != state_by_zoneinfo(b, t)]


def compare_names(names):
    for form, theirs in names.items():
        for name in set(names["ours"]) ^ set(theirs):
            differ(f"{name}: not both in ours and in {form}")
    report(f"names of {len(names['ours'])} files, ours and zic's")


def compare_footers(folder, names):
    for name in names:
        ours, theirs = (octets_of(f"{folder}/{form}/{name}").rsplit(b"\n", 2)[1] for form in ("ours", "fat"))
        if ours != theirs:
            differ(f"{name}: footer {ours} and {theirs}")
    report(f"footers of {len(names)} files, ours and zic's, octet for octet")


def compare_with_fat(folder, names):
    total = 0
    for name in names:
        try:
            instants, differing = differences_by_zoneinfo(*(octets_of(f"{folder}/{form}/{name}") for form in ("ours", "fat")))
        except reader.Refused as refused:
            differ(f"{name}: refused by reader.py as {refused.args[0]}")
            continue
        total += instants
        for t in differing:
            differ(f"{name}: not as zic's fat file at {t}")
    report(f"{len(names)} files by zoneinfo, ours and zic's fat ones, at {total} instants")


# ------------------------------------------------------------------ answers

def compare_answers(answers_of, expected):
    """holds the library's answers against these: for each file a name, its octets, and instants with what is to be answered"""
    for name, octets, lines in expected:
        for (t, wanted), answer in zip(lines, answers_of(octets, [t for t, _ in lines])):
            if answer != wanted:
                differ(f"{name} at {t}: {answer}, and not {wanted}")


@lru_cache(maxsize=None)
def expected_of(octets):
    """instants and what is to be answered at them: by zoneinfo and by reader.py, and by reader.py alone at far instants"""
    try:
        file = file_of(octets)
    except reader.Refused as refused:
        return [(0, refused.args[0])]
    zone = ZoneInfo.from_file(io.BytesIO(octets))
    expected = [(t, reader.line(reader.at(file, t))) for t in FAR]
    for t in instants_of(file):
        line = reader.line(reader.at(file, t))
        if line != reader.line(state_by_zoneinfo(zone, t)):
            differ(f"{file.footer}: reader.py says {line} at {t}, and zoneinfo another state")
        expected.append((t, line))
    return expected


def compare_form(answers_of, folder, form, names):
    expected, refused = [], []
    for name in names:
        octets = octets_of(f"{folder}/{form}/{name}")
        lines = expected_of(octets)
        expected.append((f"{form}/{name}", octets, lines))
        if len(lines) == 1:
            refused.append(f"{name} {lines[0][1]}")
            if KNOWN.get(f"{form}/{name}") != lines[0][1]:
                differ(f"{form}/{name}: refused as {lines[0][1]}")
    compare_answers(answers_of, expected)
    but = f" but {', '.join(refused)}" if refused else ""
    total = sum(len(lines) for _, _, lines in expected)
    report(f"all of {len(names)} {form} files{but} read, {total} answers by zoneinfo and reader.py")


# ------------------------------------------------------------------ changed octets

def expected_of_changed(name, octets, changes):
    """what reader.py answers over a file for each octet set to a value, at three instants"""
    instants = 0, 1225605599, 4102444800
    for place, value in changes:
        changed = reader.changed(octets, place, value)
        try:
            file = reader.read(changed)
            lines = [(t, reader.line(reader.at(file, t))) for t in instants]
        except reader.Refused as refused:
            lines = [(t, refused.args[0]) for t in instants]
        yield f"{name} with octet {place} set to {value}", changed, lines


def compare_changed(answers_of, what, expected):
    compare_answers(answers_of, expected)
    first = (lines[0][1] for _, _, lines in expected)
    counts = Counter(line if " " not in line else "accepted" for line in first)
    text = ", ".join(f"{count} {name}" for name, count in sorted(counts.items()))
    report(f"{what}, {len(expected)} files by reader.py ({text})")


def compare_worked(answers_of):
    """each octet of the worked files set to each value"""
    for octets in (reader.worked(), reader.worked_with_indicators()):
        what = f"each of {len(octets)} octets set to each value"
        changes = ((place, value) for place in range(len(octets)) for value in range(256))
        compare_changed(answers_of, what, list(expected_of_changed("the worked file", octets, changes)))


def compare_by_chance(answers_of, folder, names):
    random.seed(1)
    expected = []
    for name in random.choices(names, k=1000):
        octets = octets_of(f"{folder}/slim/{name}")
        changes = [(random.randrange(len(octets)), random.randrange(256)) for _ in range(20)]
        expected += expected_of_changed(name, octets, changes)
    compare_changed(answers_of, "random bytes of slim files", expected)


def main():
    # the scripts that use this file's other functions have no library
    from by_library import answers_of
    folder, = sys.argv[1:]
    names = {form: names_of(f"{folder}/{form}") for form in ("ours", "fat", "slim")}
    compare_names(names)
    both = sorted(set.intersection(*map(set, names.values())))
    compare_footers(folder, both)
    compare_with_fat(folder, both)
    for form in names:
        compare_form(answers_of, folder, form, both)
    compare_worked(answers_of)
    compare_by_chance(answers_of, folder, both)
    sys.exit(found["in all"] != 0)


if __name__ == "__main__":
    main()

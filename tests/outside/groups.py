#!/usr/bin/env python3
"""Compares what `pzic diff --trees --group-links` lists with the lines of each name, and the bytes of the files.

usage: groups.py OLD NEW APART TOGETHER

APART is what `pzic diff --trees OLD NEW` printed, and TOGETHER the same with `--group-links`. Prints the number of names and of
groups. The status is 1 where something differs, or no names share lines.

The names of lines whose files have the same bytes in OLD, and in NEW, or are in neither, stand together.
"""
import sys
from pathlib import Path


def octets(tree, name):
    path = Path(tree, name)
    return path.read_bytes() if path.exists() else None


def main(old, new, apart, together):
    header, *lines = Path(apart).read_text().splitlines()
    lines_of = {}
    for line in lines:
        name, rest = line.split(',', 1)
        lines_of.setdefault(name, []).append(rest)
    groups = {}
    for name in lines_of:
        groups.setdefault((octets(old, name), octets(new, name)), []).append(name)
    wanted = [header]
    for names in groups.values():
        for name in names:
            if lines_of[name] != lines_of[names[0]]:
                sys.exit(f'groups: {name} has other lines than {names[0]}')
        wanted += [f'{" ".join(names)},{rest}' for rest in lines_of[names[0]]]
    if Path(together).read_text().splitlines() != wanted:
        sys.exit('groups: the lines differ')
    if len(groups) == len(lines_of):
        sys.exit('groups: no names share lines')
    print(f'{len(lines_of)} names in {len(groups)} groups')


main(*sys.argv[1:])

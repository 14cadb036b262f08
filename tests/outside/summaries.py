#!/usr/bin/env python3
"""Compares what `pzic diff --summary` lists with what Python's zoneinfo over two trees of the same files answers.

usage: summaries.py OLD NEW NOW LISTING [daylight] [abbreviation]

OLD and NEW are trees that `pzic build` made of the two sources, and LISTING is what `pzic diff --summary --now NOW` printed, or without
`--now`, where NOW is a -. The words after it aren't compared. Prints the number of names and of lines of each kind. The status is 1 where something differs.

The spans at which the files of a name answer differently are found as for `pzic diff`, up to 500 years after the last transition of both:
two files that differ in the last 100 of these are taken to do so for ever.
"""
import sys
from collections import Counter
from pathlib import Path
from time import time

from differences import File, names, spans

HEADER = 'zone,from,until,old_offset,new_offset,kind'
FIRST = -62_135_510_400
YEARS_400, YEARS_100 = 146_097 * 86_400, 36_524 * 86_400


def summary(old, new, since, now):
    """Returns the line of two files from an instant on, without their name, or an empty text."""
    end = max(since, *old.times, *new.times)
    found = list(spans(old, new, since, end + YEARS_400 + YEARS_100))
    if not found:
        return ''
    begin, _, before, _, _, after, *_ = found[0].split(',')
    until = found[-1].split(',')[1]
    if not until or int(until) > end + YEARS_400:
        return f'{begin},,{before},{after},forever'
    return f'{begin},{until},{before},{after},{"past" if int(until) <= now else "future"}'


def main(old_tree, new_tree, now, listing, *ignored):
    old_tree, new_tree = Path(old_tree), Path(new_tree)
    since, now = (FIRST, int(time())) if now == '-' else (int(now), int(now))
    olds, news = names(old_tree), names(new_tree)
    wanted, known = [], {}
    for name in sorted(olds | news):
        if name not in news:
            wanted.append(f'{name},,,,,removed')
        elif name not in olds:
            wanted.append(f'{name},,,,,added')
        else:
            pair = (old_tree / name).read_bytes(), (new_tree / name).read_bytes()
            if pair not in known:
                known[pair] = '' if pair[0] == pair[1] else summary(File(old_tree / name, ignored), File(new_tree / name, ignored), since, now)
            if known[pair]:
                wanted.append(f'{name},{known[pair]}')
    text = Path(listing).read_text().splitlines()
    got = text[1:]
    is_same = (text[:1] == [HEADER] if got else text == []) and sorted(got) == sorted(wanted)
    if not is_same:
        for line in sorted(set(wanted) ^ set(got))[:20]:
            print('zoneinfo' if line in wanted else 'pzic', line, file=sys.stderr)
        print(f'{len(wanted)} lines by zoneinfo, {len(got)} by pzic', file=sys.stderr)
        return 1
    kinds = Counter(line.rsplit(',', 1)[1] for line in got)
    print(f'{len(olds | news)} names,', ', '.join(f'{kinds[kind]} {kind}' for kind in sorted(kinds)))
    return 0


if __name__ == '__main__':
    sys.exit(main(*sys.argv[1:]))

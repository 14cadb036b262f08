#!/usr/bin/env python3
"""Compares what `pzic diff` lists with the spans at which Python's zoneinfo over two trees of the same files answers differently.

usage: differences.py OLD NEW FROM TO LISTING [daylight] [abbreviation]

OLD and NEW are trees that `pzic build` made of the two sources, and LISTING is what `pzic diff --from FROM --to TO` printed. The
words after it aren't compared. Prints the number of names and lines. The status is 1 where something differs.

For each name of both trees the instants at which an answer may change are the transitions that the files list, and from there on
those between two samples of zoneinfo ten days apart that answer otherwise, found by halves.
"""
import struct
import sys
from datetime import datetime, timedelta, timezone
from pathlib import Path
from zoneinfo import ZoneInfo

HEADER = 'zone,from,until,old_offset,old_daylight,old_abbreviation,new_offset,new_daylight,new_abbreviation'
EPOCH = datetime(1970, 1, 1, tzinfo=timezone.utc)
SAMPLE = 10 * 86400


def year_start(year):
    return int((datetime(year, 1, 1, tzinfo=timezone.utc) - EPOCH).total_seconds())


def transitions(octets):
    """Returns the times of the second block of a file."""
    counts = struct.unpack('>6l', octets[20:44])
    second = 44 + counts[3] * 5 + counts[4] * 6 + counts[5] + counts[2] * 8 + counts[1] + counts[0]
    count = struct.unpack('>l', octets[second + 32:second + 36])[0]
    return struct.unpack(f'>{count}q', octets[second + 44:second + 44 + 8 * count])


class File:
    """What zoneinfo answers of a file, without what isn't compared."""

    def __init__(self, path, ignored):
        with open(path, 'rb') as file:
            self.zone = ZoneInfo.from_file(file, 'x')
        self.times = transitions(path.read_bytes())
        self.ignored = ignored

    def local(self, t):
        return (EPOCH + timedelta(seconds=t)).astimezone(self.zone)

    def at(self, t):
        local = self.local(t)
        seconds = int(local.utcoffset().total_seconds())
        sign, rest = '-' if seconds < 0 else '+', abs(seconds)
        offset = f'{sign}{rest // 3600:02}:{rest // 60 % 60:02}:{rest % 60:02}'
        flag = '' if 'daylight' in self.ignored else str(int(bool(local.dst())))
        return offset, flag, '' if 'abbreviation' in self.ignored else local.tzname()

    def whole(self, t):
        """Returns what isn't compared too."""
        local = self.local(t)
        return local.utcoffset(), local.dst(), local.tzname()

    def changes(self, first, last):
        """Returns instants, among them each at which the answer changes."""
        found = [t for t in self.times if first < t <= last]
        t = max(first, self.times[-1] if self.times else first)
        answer = self.whole(t)
        while t < last:
            later = min(t + SAMPLE, last)
            after = self.whole(later)
            if answer != after:
                low, high = t, later
                while high - low > 1:
                    middle = (low + high) // 2
                    low, high = (middle, high) if self.whole(middle) == answer else (low, middle)
                found.append(high)
            t, answer = later, after
        return found


def spans(old, new, first, last):
    """Yields the lines of two files, without their name."""
    edges = sorted({first, *old.changes(first, last), *new.changes(first, last)})
    run = None
    for at in [*edges, None]:
        pair = at is not None and (old.at(at), new.at(at))
        if run and pair != run[1]:
            begin, (one, other) = run
            if one != other:
                yield ','.join(['' if begin == first else str(begin), '' if at is None else str(at), *one, *other])
            run = None
        if at is not None and run is None:
            run = at, pair


def names(tree):
    return {str(path.relative_to(tree)) for path in tree.glob('**/*') if path.is_file()}


def main(old_tree, new_tree, first_year, last_year, listing, *ignored):
    old_tree, new_tree = Path(old_tree), Path(new_tree)
    first, last = year_start(int(first_year)), year_start(int(last_year))
    olds, news = names(old_tree), names(new_tree)
    wanted, known = [], {}
    for name in sorted(olds | news):
        old = File(old_tree / name, ignored) if name in olds else None
        new = File(new_tree / name, ignored) if name in news else None
        if old and new:
            pair = (old_tree / name).read_bytes(), (new_tree / name).read_bytes()
            if pair not in known:
                known[pair] = [] if pair[0] == pair[1] else list(spans(old, new, first, last))
            wanted += [f'{name},{line}' for line in known[pair]]
        else:
            none = ['', '', '']
            wanted.append(','.join([name, '', '', *(old.at(first) if old else none), *(new.at(first) if new else none)]))
    text = Path(listing).read_text().splitlines()
    got = text[1:]
    is_same = (text[:1] == [HEADER] if got else text == []) and sorted(got) == sorted(wanted)
    if not is_same:
        for line in sorted(set(wanted) ^ set(got))[:20]:
            print('zoneinfo' if line in wanted else 'pzic', line, file=sys.stderr)
        print(f'{len(wanted)} lines by zoneinfo, {len(got)} by pzic', file=sys.stderr)
        return 1
    print(f'{len(olds | news)} names, {len(got)} lines')
    return 0


if __name__ == '__main__':
    sys.exit(main(*sys.argv[1:]))

#!/usr/bin/env python3
"""A small reader of TZif files of versions 2 and 3, made from RFC 9636, POSIX.1 and docs/DECISIONS.md alone, with the meaning of a
footer by footers.py. Nothing of the project's code is read.

read(octets) -> File, or raises Refused with the reason of the first check that fails
at(file, t) -> (offset, flag, abbreviation), or None where local time is left open
answer(octets, t) -> the line for a file and an instant: `OFFSET FLAG ABBREVIATION`, `unspecified`, or the reason

usage: reader.py

Prints the table of changed octets: for each octet of worked() how many of the 256 values that it can be set to make a file that
is refused for which reason. Equal neighbouring lines are one.
"""
import bisect
import re
import struct
from collections import Counter, namedtuple
from functools import lru_cache

import footers

File = namedtuple("File", "version times numbers types text footer")     # types: (offset, flag, abbreviation)


class Refused(Exception):
    """Octets are no file. The reason is the first argument."""


def require(is_so, reason):
    if not is_so:
        raise Refused(reason)


# ------------------------------------------------------------------ footer

NAME = r"(?:[A-Za-z]{3,}|<[A-Za-z0-9+-]{3,}>)"
CLOCK = r"\d{1,%d}(?::\d{1,2}(?::\d{1,2})?)?"
DAY = r"(?:J\d{1,3}|\d{1,3}|M\d{1,2}\.\d\.\d)"
TIME = {2: CLOCK % 2, 3: "[+-]?" + CLOCK % 3}
MAX_HOURS = {2: 24, 3: 167}


def pattern(version):
    offset, edge = "[+-]?" + CLOCK % 2, f"({DAY})(?:/({TIME[version]}))?"
    return re.compile(f"({NAME})({offset})(?:({NAME})({offset})?,{edge},{edge})?", re.ASCII)


PATTERNS = {version: pattern(version) for version in (2, 3)}


def in_range(least, n, most):
    if not least <= n <= most:
        raise ValueError(n)
    return n


def seconds(text, most_hours):
    sign = -1 if text[0] == "-" else 1
    hours, *rest = (int(n) for n in text.lstrip("+-").split(":"))
    minute, second = (rest + [0, 0])[:2]
    return sign * (in_range(0, hours, most_hours) * 3600 + in_range(0, minute, 59) * 60 + in_range(0, second, 59))


def day(text):
    if text[0] == "J":
        return "J", in_range(1, int(text[1:]), 365)
    if text[0] == "M":
        month, week, weekday = (int(n) for n in text[1:].split("."))
        return "M", in_range(1, month, 12), in_range(1, week, 5), in_range(0, weekday, 6)
    return "N", in_range(0, int(text), 365)


def edge(day_text, time, version):
    return day(day_text), 7200 if time is None else seconds(time, MAX_HOURS[version])


@lru_cache(maxsize=None)
def parse(text, version):
    """(std, offset, None), or (std, offset, (name, offset, start, stop)) as footers.py has it, or None where it is none"""
    m = PATTERNS[version].fullmatch(text)
    if not m:
        return None
    std, west, name, dst_west, *edges = m.groups()
    try:
        offset = -seconds(west, 24)
        if name is None:
            return std.strip("<>"), offset, None
        ahead = offset + 3600 if dst_west is None else -seconds(dst_west, 24)
        return std.strip("<>"), offset, (name.strip("<>"), ahead, edge(*edges[:2], version), edge(*edges[2:], version))
    except ValueError:
        return None


def means(footer, t):
    offset, daylight, name = footers.means(footer, t)
    return offset, int(daylight), name


# ------------------------------------------------------------------ reading

def counts_at(octets, place):
    return struct.unpack(">6L", octets[place + 20:place + 44])


def block_length(counts, width):
    isut, isstd, _, times, types, chars = counts
    return times * (width + 1) + types * 6 + chars + isstd + isut


def local_type(record, names):
    place = record[2]
    end = names.find(b"\0", place)
    require(place < len(names) and end >= 0 and all(32 <= b <= 126 for b in names[place:end]), "Designation")
    return record[0], record[1], names[place:end].decode("ascii")


def read_block(octets, place, counts):
    isut, isstd, _, timecnt, typecnt, charcnt = counts
    times = struct.unpack_from(f">{timecnt}q", octets, place)
    place += 8 * timecnt
    numbers = octets[place:place + timecnt]
    place += timecnt
    records = [struct.unpack_from(">lBB", octets, place + 6 * k) for k in range(typecnt)]
    place += 6 * typecnt
    names = octets[place:place + charcnt]
    place += charcnt
    require(all(a < b for a, b in zip(times, times[1:])), "TimesNotRising")
    require(all(n < typecnt for n in numbers), "TypeIndex")
    types = [local_type(r, names) for r in records]
    require(all(flag <= 1 and abs(offset) <= 93599 for offset, flag, _ in types), "TypeRecord")
    require(all(b <= 1 for b in octets[place:place + isstd + isut]), "Indicators")
    return times, numbers, types


def read(octets):
    """each check in its turn"""
    require(len(octets) <= 1048576, "TooLarge")
    require(len(octets) >= 44, "Short")
    require(octets[:4] == b"TZif", "Magic")
    require(octets[4:5] in (b"2", b"3"), "Version")
    version = octets[4] - 48
    first = counts_at(octets, 0)
    require(first[2] == 0, "LeapSeconds")
    second = 44 + block_length(first, 4)
    require(len(octets) >= second + 44, "Short")
    require(octets[second:second + 5] == octets[:5], "HeadersDiffer")
    counts = isut, isstd, leap, _, typecnt, charcnt = counts_at(octets, second)
    require(typecnt and charcnt and isstd in (0, typecnt) and isut in (0, typecnt), "Counts")
    require(leap == 0, "LeapSeconds")
    newline = second + 44 + block_length(counts, 8)
    require(len(octets) >= newline, "Short")
    times, numbers, types = read_block(octets, second + 44, counts)
    require(len(octets) > newline, "Short")
    require(octets[newline] == 10, "Footer")
    end = octets.find(b"\n", newline + 1)
    require(end >= 0, "Short")
    text = octets[newline + 1:end].decode("latin-1")
    footer = parse(text, version)
    require(text == "" or footer, "Footer")
    require(not footer or not times or means(footer, times[-1]) == types[numbers[-1]], "Footer")
    require(len(octets) == end + 1, "TrailingBytes")
    return File(version, times, numbers, types, text, footer)


# ------------------------------------------------------------------ answers

def at(file, t):
    count = bisect.bisect_right(file.times, t)
    if count < len(file.times):
        return file.types[file.numbers[count - 1] if count else 0]
    if file.footer:
        return means(file.footer, t)
    return None if count else file.types[0]


def line(state):
    return "unspecified" if state is None else "%d %d %s" % state


def answer(octets, t):
    try:
        return line(at(read(octets), t))
    except Refused as refused:
        return refused.args[0]


# ------------------------------------------------------------------ worked files

def header(times, types, chars, indicators=0):
    return b"TZif2" + bytes(15) + struct.pack(">6L", indicators, indicators, 0, times, types, chars)


TIMES = (1173596400, 1194156000, 1205046000, 1225605600, 1236495600, 1257055200)
REST = bytes.fromhex("010001000100" "ffffb9b00000" "ffffc7c00104" "4553540045445400")
FOOTER = b"\nEST5EDT,M3.2.0,M11.1.0\n"


def worked():
    """the file of 193 octets of a zone of -5:00 by the rules of the United States from 2007 on"""
    return header(0, 1, 1) + bytes(7) + header(6, 2, 8) + struct.pack(">6q", *TIMES) + REST + FOOTER


def worked_with_indicators():
    """the same content in 244 octets: the first block too has it, and both have two standard and two UT indicators"""
    first = header(6, 2, 8, 2) + struct.pack(">6l", *TIMES) + REST + bytes(4)
    return first + header(6, 2, 8, 2) + struct.pack(">6q", *TIMES) + REST + bytes(4) + FOOTER


def changed(octets, place, value):
    return octets[:place] + bytes([value]) + octets[place + 1:]


def reason(octets):
    try:
        read(octets)
        return "accepted"
    except Refused as refused:
        return refused.args[0]


def main():
    octets = worked()
    rows = []
    for place in range(len(octets)):
        counts = Counter(reason(changed(octets, place, value)) for value in range(256))
        row = ", ".join(f"{n} {name}" for name, n in sorted(counts.items()))
        if rows and rows[-1][2] == row:
            rows[-1][1] = place
        else:
            rows.append([place, place, row])
    for first, last, row in rows:
        print(f"{first} to {last}: {row}" if first < last else f"{first}: {row}")


if __name__ == "__main__":
    main()

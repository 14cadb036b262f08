#!/usr/bin/env python3
"""Compares what footers mean with what other readers of POSIX TZ strings show: glibc, by Python's time module, and Python's own
zoneinfo.

usage: readers.py PROGRAM LIST FOLDER

The footers are those of LIST, one a line, and of the TZif files in FOLDER. PROGRAM is that of crates/probe, which is asked by the
call `strings states` of its word `rows`: one second before each edge from 1970 to 2500, at the edge, and one second after it.

A reader may differ only where it is known to, and there has to show just what its own way gives: an instant where it does is left
out. PROGRAM may never differ from the definitions as footers.py has them. Prints the numbers of footers, instants, differences and
instants left out, and the first differences; the status is 1 if there is one. These differences are known:

- Both use only the start and the end of the instant's own UT year. So they differ if an edge falls in another UT year than its own
  (`AAA0BBB,0/-167,J100`), and at the beginning of a year if a start and an end changed their order from one year to the next
  (`AAA0BBB,M2.5.0,M2.5.1`). POSIX doesn't say that edges count in their own year alone.
- glibc shows standard time throughout a year whose start and end are one instant (`AAA0BBB,J60,J60/3`).
- zoneinfo reads a day counted from 0 as one day too early, and takes `J59` for February 29 in leap years.
- zoneinfo chooses the abbreviation by local time: if that is in another year than UT, it may be the wrong one.
- Python has no UT offset of 24 hours or more, so zoneinfo is asked for the local time, from which the offset follows.
- zoneinfo of 3.11.2 and earlier refuses a time with a `+` or with hours of three digits.
- zoneinfo gives no daylight flag where there is no saving, so only offset and abbreviation are compared. Nothing before 1970 is
  compared, since glibc uses the edges of 1970 for every year before it.
"""
import io
import os
import re
import struct
import subprocess
import sys
import time
from collections import Counter
from datetime import datetime, timedelta
from zoneinfo import ZoneInfo

import definitions as d
import footers

EPOCH = datetime(1970, 1, 1)
FIRST, LAST = 1970, 2500


# ------------------------------------------------------------------ footers

NAME = r"(<[^>]*>|[A-Za-z]+)"
CLOCK = r"([+-]?[0-9:]+)"
EDGE = rf",([JM]?[0-9.]+)(?:/{CLOCK})?"
FOOTER = re.compile(f"{NAME}{CLOCK}(?:{NAME}{CLOCK}?{EDGE}{EDGE})?")


def seconds(clock):
    hours, minutes, rest = (clock.lstrip("+-").split(":") + ["0", "0"])[:3]
    size = 3600 * int(hours) + 60 * int(minutes) + int(rest)
    return -size if clock[0] == "-" else size


def edge(day, time):
    kind = day[0] if day[0] in "JM" else "N"
    return (kind, *map(int, day.lstrip("JM").split("."))), seconds(time or "2")


def parse(text):
    """(std, offset, None), or (std, offset, (name, offset, start, stop))"""
    std, west, name, far_west, *edges = FOOTER.fullmatch(text).groups()
    offset = -seconds(west)
    if name is None:
        return std.strip("<>"), offset, None
    ahead = -seconds(far_west) if far_west else offset + 3600
    return std.strip("<>"), offset, (name.strip("<>"), ahead, edge(*edges[:2]), edge(*edges[2:]))


def footers_of(listed, folder):
    """the footers of a list and of the files in a folder, each once"""
    texts = [line.strip() for line in open(listed) if line.strip() and line[0] != "#"]
    for place, _, names in os.walk(folder):
        for name in sorted(names):
            texts.append(open(os.path.join(place, name), "rb").read().rstrip(b"\n").rsplit(b"\n", 1)[1].decode())
    return list(dict.fromkeys(texts))


# ------------------------------------------------------------------ meaning

class Meaning:
    """What a footer means, and what it would if only the edges of one year counted."""

    def __init__(self, footer, day=lambda year, day: day):
        std, offset, dst = footer
        self.standard = offset, 0, std
        self.edges = {}
        if dst:
            name, ahead, start, stop = dst
            self.daylight = ahead, 1, name
            for year in range(FIRST - 3, LAST + 4):
                self.edges[year] = (footers.edge_in(year, (day(year, start[0]), start[1]), offset),
                                    footers.edge_in(year, (day(year, stop[0]), stop[1]), ahead))

    def instants(self):
        if not self.edges:
            return [0, d.year_second(2000), d.year_second(LAST)]
        edges = [u for year in range(FIRST, LAST + 1) for u in self.edges[year]]
        return sorted({t for u in edges for t in (u - 1, u, u + 1) if t >= 0})

    def at(self, year, t):
        """each edge lies within 10 days of its year"""
        if not self.edges:
            return self.standard
        started, stopped = (max(u for u in (self.edges[y][k] for y in range(year - 2, year + 2)) if u <= t) for k in (0, 1))
        return self.daylight if stopped <= started else self.standard

    def by_year(self, year, t, tie):
        """by the edges of this year alone; `tie` all through the year where they are one instant"""
        if not self.edges:
            return self.standard
        start, stop = self.edges[year]
        if start == stop:
            return tie
        saves = start <= t < stop if start < stop else not stop <= t < start
        return self.daylight if saves else self.standard


# ------------------------------------------------------------------ readers

def ask_program(program, meanings):
    """its answers as (offset, flag, abbreviation)"""
    calls = [(text.encode().hex(), [str(t) for t in meaning.instants()]) for text, meaning in meanings.items()]
    lines = "".join(f"strings states {' '.join(instants)} :{digits}\n" for digits, instants in calls)
    answers = subprocess.run([program, "rows"], input=lines, stdout=subprocess.PIPE, text=True, check=True).stdout.splitlines()
    wanted = [t for _, instants in calls for t in [*instants, "."]]
    if [answer.split()[0] for answer in answers] != wanted:
        sys.exit(f"{len(answers)} lines of answers to {len(wanted)} lines of questions, or to others")
    for answer in answers:
        if answer != ".":
            _, offset, flag, name = answer.split()
            yield int(offset), int(flag), name


class Glibc:
    """It judges each instant by the edges of its own UT year alone; where these are one instant, it shows standard time."""
    name = os.confstr("CS_GNU_LIBC_VERSION")

    def __init__(self, text, footer):
        os.environ["TZ"] = text
        time.tzset()
        self.alone = Meaning(footer)

    def at(self, moment, t):
        local = time.localtime(t)
        return local.tm_gmtoff, local.tm_isdst, local.tm_zone

    def told(self, state):
        return state

    @staticmethod
    def may_refuse(text):
        return False

    def may_show(self, shown, moment, t):
        return shown == self.alone.by_year(moment.year, t, tie=self.alone.standard)


class Zoneinfo:
    """It judges each instant by the edges of its own UT year alone, but takes the abbreviation by local time: near the turn of the
    year it may be the other one. It has no flag where nothing is saved, so none is asked for."""
    name = "Python " + sys.version.split()[0]

    def __init__(self, text, footer):
        self.zone = ZoneInfo.from_file(io.BytesIO(tzif(text)))
        self.alone = Meaning(footer, shifted_day)

    def at(self, moment, t):
        self.local = self.zone.fromutc(moment.replace(tzinfo=self.zone))
        offset = (self.local.replace(tzinfo=None) - moment).total_seconds()
        return offset, self.local.tzname()

    def told(self, state):
        return state[0], state[2]

    @staticmethod
    def may_refuse(text):
        """3.11.2 and earlier versions refuse a time with a `+` or with hours of three digits."""
        return re.search("/([+]|-?[0-9]{3})", text)

    def may_show(self, shown, moment, t):
        offset, name = self.told(self.alone.by_year(moment.year, t, tie=self.alone.daylight))
        return shown[0] == offset and (shown[1] == name or self.local.year != moment.year)


def shifted_day(year, day):
    """zoneinfo takes a day counted from 0 one day early, and J59 for February 29 in leap years."""
    kind, number = day[0], day[1]
    if kind == "N":
        return "N", number - 1
    return ("N", 59) if day == ("J", 59) and d.is_leap(year) else day


def tzif(text):
    """a file without transitions"""
    def header(chars):
        return struct.pack(">4sc15x6L", b"TZif", b"3", 0, 0, 0, 0, 1, chars)

    return header(1) + bytes(7) + header(4) + bytes(6) + b"LMT\0\n" + text.encode() + b"\n"


READERS = Glibc, Zoneinfo


# ------------------------------------------------------------------ comparison

def differences_from(kind, text, footer, rows, left_out):
    try:
        reader = kind(text, footer)
    except ValueError:
        if not kind.may_refuse(text):
            raise
        left_out[kind] += len(rows)
        return
    for t, moment, state, meant in rows:
        shown = reader.at(moment, t)
        if shown == reader.told(state):
            continue
        if shown != reader.told(meant) and reader.may_show(shown, moment, t):
            left_out[kind] += 1
        else:
            yield text, t, state, "and by " + kind.name, shown


def differences_of(text, footer, meaning, answers, left_out):
    rows = []
    for t in meaning.instants():
        moment = EPOCH + timedelta(seconds=t)
        rows.append((t, moment, next(answers), meaning.at(moment.year, t)))
    for t, _, state, meant in rows:
        if state != meant:
            yield text, t, state, "and by definition", meant
    for kind in READERS:
        yield from differences_from(kind, text, footer, rows, left_out)


def main():
    program, listed, folder = sys.argv[1:]
    os.environ["TZDIR"] = "/dev/null"
    parsed = {text: parse(text) for text in footers_of(listed, folder)}
    meanings = {text: Meaning(footer) for text, footer in parsed.items()}
    answers = list(ask_program(program, meanings))
    count, answers = len(answers), iter(answers)
    left_out, differences = Counter(), 0
    for text, footer in parsed.items():
        for difference in differences_of(text, footer, meanings[text], answers, left_out):
            differences += 1
            if differences <= 20:
                print(*difference, file=sys.stderr)
    counts = ", ".join(f"{left_out[kind]} of {kind.name} left out" for kind in READERS)
    print(f"{len(parsed)} footers, {count} instants, {differences} differences; {counts}")
    sys.exit(differences != 0)


main()

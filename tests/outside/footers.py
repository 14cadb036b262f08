#!/usr/bin/env python3
"""The footer of a zone: a literal transcription of the definitions of zic_footer/specs/Making and of
zic_posix/specs/{Meaning,Printing} into Python. Nothing of the project's code is read.

usage: footers.py SOURCE FOLDER

Compares the footer of each zone of SOURCE with that of the file that `zic -b fat` made of the same release in FOLDER, octet for
octet, and what it means with what the zone shows by definitions.py: at the last change, round its edges, and at random instants
up to 2110. Prints the numbers of zones and instants, and each difference; the status is 1 if there is one.
"""
import os
import random
import sys
from functools import lru_cache

import definitions as d


# ------------------------------------------------------------------ Making

def week_of(q):
    return max(1, min(4, (q - 1) // 7 + 1))


def week_start(week):
    return 7 * week - 6


def by_week(month, weekday, q):
    shift = q - week_start(week_of(q))
    return ("M", month, week_of(q), (weekday - shift) % 7), shift


def day_of_form(month, on):
    """the day in the terms of POSIX, and how many days after it the day lies that is meant"""
    kind = on[0]
    if kind == "day":
        return ("J", sum(d.month_length(False, m) for m in range(1, month)) + on[1]), 0
    if kind == "last":
        return ("M", month, 5, on[1]), 0
    if kind == "after":
        if on[2] == d.month_length(True, month) - 6 and month != 2:
            return ("M", month, 5, on[1]), 0
        return by_week(month, on[1], on[2])
    if on[2] == d.month_length(True, month):
        return ("M", month, 5, on[1]), 0
    return by_week(month, on[1], on[2] - 6)


def wall_time(form, standard, saved, at):
    return {"w": at, "s": at + saved, "u": at + standard + saved}[form]


def edge_of(standard, rule, saved):
    day, shift = day_of_form(rule.moment.month, rule.moment.on)
    return day, wall_time(rule.moment.form, standard, saved, rule.moment.seconds) + 86400 * shift


def do_alternate(a, b, year):
    """Alternation after 400 years is that of the years before."""
    seconds = sorted((d.nominal_second(y, r.moment), n) for y in range(year + 1, year + 405) for n, r in enumerate((a, b)))
    return all(p[1] != q[1] for p, q in zip(seconds, seconds[1:]))


def last_year(zone):
    i = d.the(k for k, line in enumerate(zone.lines) if line.until is None)
    year = zone.last_named_of(zone.lines[i].rules[1])
    if i == 0:
        return year
    start = zone.ends(i - 1)
    near = 1970 + start // 31556952
    return max(year, d.the(y for y in range(near - 2, near + 3) if d.year_second(y) <= start < d.year_second(y + 1)))


def made(zone):
    """the name of a fault, or (std, offset, None), or (std, offset, (name, offset, start, stop))"""
    line = d.the(x for x in zone.lines if x.until is None)
    rules = [r for r in zone.rules if line.rules[0] == "set" and r.name == line.rules[1] and r.last is None]
    if len(rules) < 2:
        offset, daylight, name = zone.shows(zone.end() - 1)
        return "PermanentDaylight" if daylight else (name, offset, None)
    if len(rules) != 2 or rules[0].daylight == rules[1].daylight or not do_alternate(*rules, last_year(zone)):
        return "NoFooter"
    starting, ending = rules if rules[0].daylight else rules[::-1]
    start = edge_of(line.offset, starting, ending.saving)
    stop = edge_of(line.offset, ending, starting.saving)
    if max(abs(start[1]), abs(stop[1])) >= 168 * 3600:
        return "NoFooter"

    def name(rule):
        return d.abbreviation(line.format, line.offset + rule.saving, rule.daylight, rule.letter)

    return name(ending), line.offset + ending.saving, (name(starting), line.offset + starting.saving, start, stop)


# ------------------------------------------------------------------ Printing

def printed_clock(n):
    h, m, s = n // 3600, n // 60 % 60, n % 60
    return str(h) + ("" if m == s == 0 else ":%02d" % m + ("" if s == 0 else ":%02d" % s))


def printed_signed(n):
    return ("-" if n < 0 else "") + printed_clock(abs(n))


def printed_name(name):
    return name if name.isalpha() else "<" + name + ">"


def printed_edge(edge):
    (kind, *numbers), time = edge
    day = {"J": "J", "N": "", "M": "M"}[kind] + ".".join(map(str, numbers))
    return day + ("" if time == 7200 else "/" + printed_signed(time))


def printed(f):
    std, offset, dst = f
    text = printed_name(std) + printed_signed(-offset)
    if dst:
        name, ahead, start, stop = dst
        text += printed_name(name) + ("" if ahead == offset + 3600 else printed_signed(-ahead))
        text += "," + printed_edge(start) + "," + printed_edge(stop)
    return text


# ------------------------------------------------------------------ Meaning

def day_in(year, day):
    kind, *numbers = day
    if kind == "J":
        n = numbers[0]
        return d.day_number(year, 1, n) if n <= 59 else d.day_number(year, 3, n - 59)
    if kind == "N":
        return d.day_number(year, 1, numbers[0] + 1)
    month, week, weekday = numbers
    return d.form_day(year, month, ("last", weekday) if week == 5 else ("after", weekday, week_start(week)))


@lru_cache(maxsize=None)
def edge_in(year, edge, offset):
    return 86400 * day_in(year, edge[0]) + edge[1] - offset


def means(f, t):
    """by the edges of the years round t: each lies within 10 days of its year"""
    std, offset, dst = f
    if not dst:
        return offset, False, std
    name, ahead, start, stop = dst
    near = 1970 + t // 31556952
    years = range(near - 3, near + 4)
    started = max(u for u in (edge_in(y, start, offset) for y in years) if u <= t)
    stopped = max(u for u in (edge_in(y, stop, ahead) for y in years) if u <= t)
    return (ahead, True, name) if stopped <= started else (offset, False, std)


# ------------------------------------------------------------------ comparison

def instants_of(f, last, end):
    instants = [last, last + 1, end - 1, end] + [random.randrange(last, d.year_second(2110)) for _ in range(20)]
    if f[2]:
        _, ahead, start, stop = f[2]
        for year in range(2030, 2110, 7):
            for u in (edge_in(year, start, f[1]), edge_in(year, stop, ahead)):
                instants += [u - 1, u]
    return [t for t in instants if t >= last]


def main():
    text = open(sys.argv[1]).read()
    source = d.parse(text)
    random.seed(1)
    checked = differences = 0
    for number, lines in enumerate(source.zones):
        zone = d.Listed(source, number)
        f = made(zone)
        ours = f if isinstance(f, str) else printed(f)
        octets = open(os.path.join(sys.argv[2], lines.name), "rb").read()
        theirs = octets.rstrip(b"\n").rsplit(b"\n", 1)[1].decode()
        if ours != theirs:
            differences += 1
            print(lines.name, ours, theirs)
        if isinstance(f, str):
            continue
        changes = zone.changes()[1]
        last = changes[-1][0] if changes else -(10**11)
        far = d.Listed(source, number, horizon=2120)
        for t in instants_of(f, last, zone.end()):
            checked += 1
            if tuple(far.shows(t)) != means(f, t):
                differences += 1
                print(lines.name, t, far.shows(t), means(f, t))
    print(f"{len(source.zones)} zones, {checked} instants, {differences} differences")
    sys.exit(1 if differences else 0)


if __name__ == "__main__":
    main()

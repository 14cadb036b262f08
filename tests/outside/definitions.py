#!/usr/bin/env python3
"""What a zone shows: a literal transcription of the definitions of zic_states/specs/{Occurrence,Order,Listing} and
zic_states/specs/{Until,InForce,Abbreviation,Zone,End,Change,Fault} into Python, with its own parser. Nothing of the project's code
is read. Quantifiers over occurrences are loops over the occurrences of all years up to a horizon that lies after each end.

changes(source_text, zone) -> (first_state, [(instant, offset, flag, abbreviation)])
end(source_text, zone) -> int
state(source_text, zone, t) -> (offset, flag, abbreviation)
fault(source_text, zone) -> None or the name of a kind (24 to 28)

`Literal` has the quantifiers as they stand. `Listed` overrides only the searches (predecessor, next, last of) by sorted lists;
`check_same` compares the two."""
import bisect
import re
import sys
from collections import namedtuple
from fractions import Fraction
from functools import lru_cache

# ------------------------------------------------------------------ calendar

def is_leap(y):
    return y % 4 == 0 and (y % 100 != 0 or y % 400 == 0)

def month_length(leap, m):
    return (29 if leap else 28) if m == 2 else 30 if m in (4, 6, 9, 11) else 31

def day_number(y, m, d):
    """1970-01-01 is 0; every whole year."""
    before = y - 1                                  # years 1 .. y - 1 (or below 0)
    days = 365 * before + before // 4 - before // 100 + before // 400
    days += sum(month_length(is_leap(y), k) for k in range(1, m))
    return days + d - 1 - 719162

def weekday(n):
    return (n + 4) % 7

def form_day(y, m, on):
    kind = on[0]
    if kind == 'day':
        return day_number(y, m, on[1])
    if kind == 'last':
        x = day_number(y, m, month_length(is_leap(y), m))
        while weekday(x) != on[1]:
            x -= 1
        return x
    if kind == 'after':
        x = day_number(y, m, on[2])
        while weekday(x) != on[1]:
            x += 1
        return x
    d = on[2]
    if m == 2 and d == 29:
        d = month_length(is_leap(y), 2)
    x = day_number(y, m, d)
    while weekday(x) != on[1]:
        x -= 1
    return x

# ------------------------------------------------------------------ parser

Moment = namedtuple('Moment', 'month on seconds form')            # form: 'w', 's', 'u'
Rule = namedtuple('Rule', 'name first last moment saving daylight letter')
Until = namedtuple('Until', 'year moment')
Line = namedtuple('Line', 'offset rules format until')            # rules: ('-',) ('amount', s, flag) ('set', name)
ZoneLines = namedtuple('ZoneLines', 'name lines number')          # number: of the Zone line, from 1
Source = namedtuple('Source', 'rules zones links')

MONTHS = 'january february march april may june july august september october november december'.split()
DAYS = 'sunday monday tuesday wednesday thursday friday saturday'.split()

def word(words, text):
    hits = [i for i, w in enumerate(words) if text and w.startswith(text.lower())]
    exact = [i for i, w in enumerate(words) if w == text.lower()]
    hits = exact or hits
    if len(hits) != 1:
        raise ValueError('word %r' % text)
    return hits[0]

def fields(line):
    out, cur, quoted, has = [], '', False, False
    for c in line:
        if c == '"':
            quoted, has = not quoted, True
        elif not quoted and c == '#':
            break
        elif not quoted and c in ' \t\v\f\r':
            if has:
                out.append(cur)
            cur, has = '', False
        else:
            cur, has = cur + c, True
    if quoted:
        raise ValueError('quote')
    if has:
        out.append(cur)
    return [f if f else '-' for f in out]

def seconds(text):
    """[-]h[:m[:s[.f]]], rounded to the nearest second, ties to even."""
    if text == '-':
        return 0
    sign = 1
    if text.startswith('-'):
        sign, text = -1, text[1:]
    m = re.fullmatch(r'(\d{1,9})(?::(\d{1,2})(?::(\d{1,2}(?:\.\d{1,9})?))?)?', text)
    if not m:
        raise ValueError('time %r' % text)
    return sign * (int(m[1]) * 3600 + int(m[2] or 0) * 60 + round(Fraction(m[3] or 0)))

def clock(text):
    form = {'w': 'w', 's': 's', 'u': 'u', 'g': 'u', 'z': 'u'}.get(text[-1].lower())
    if form and text != '-':
        return seconds(text[:-1]), form
    return seconds(text), 'w'

def saving(text):
    flag = {'s': False, 'd': True}.get(text[-1].lower())
    if flag is not None and text != '-':
        return seconds(text[:-1]), flag
    s = seconds(text)
    return s, s != 0

def day_form(text):
    if text.lower().startswith('last'):
        return ('last', word(DAYS, text[4:]))
    for sign, name in (('>=', 'after'), ('<=', 'before')):
        if sign in text:
            w, d = text.split(sign)
            return (name, word(DAYS, w), int(d))
    return ('day', int(text))

def moment(month, day, time):
    s, form = clock(time)
    return Moment(word(MONTHS, month) + 1, day_form(day), s, form)

def zone_line(fs):
    offset, rules, fmt = fs[:3]
    if rules == '-':
        rules = ('-',)
    elif rules[0] in '0123456789-+':
        rules = ('amount',) + saving(rules)
    else:
        rules = ('set', rules)
    until = None
    if len(fs) > 3:
        parts = fs[3:] + ['Jan', '1', '-'][len(fs) - 4:]
        until = Until(int(parts[0]), moment(*parts[1:4]))
    return Line(seconds(offset), rules, '' if fmt == '-' else fmt, until)

@lru_cache(maxsize=4)
def parse(text):
    rules, zones, links, awaited = [], [], [], False
    for number, raw in enumerate(text.split('\n'), 1):
        fs = fields(raw)
        if not fs:
            continue
        if awaited:
            zones[-1].lines.append(zone_line(fs))
            awaited = zones[-1].lines[-1].until is not None
            continue
        keyword = ('rule', 'zone', 'link')[word(('rule', 'zone', 'link'), fs[0])]
        if keyword == 'rule':
            _, name, first, last, reserved, month, on, at, save, letter = fs
            assert reserved == '-'
            first = int(first)
            if last[0].isdigit():
                last = int(last)
            elif 'only'.startswith(last.lower()):
                last = first
            else:
                assert 'maximum'.startswith(last.lower()) and len(last) >= 2
                last = None
            s, flag = saving(save)
            rules.append(Rule(name, first, last, moment(month, on, at), s, flag, '' if letter == '-' else letter))
        elif keyword == 'zone':
            zones.append(ZoneLines(fs[1], [zone_line(fs[2:])], number))
            awaited = zones[-1].lines[-1].until is not None
        else:
            links.append((fs[1], fs[2]))
    return Source(rules, zones, links)

# ------------------------------------------------------------------ occurrences (Occurrence, Order, Listing)

Occurrence = namedtuple('Occurrence', 'number year')              # the rule is rules[number]
InForce = namedtuple('InForce', 'saving daylight letter')               # letter: None where there is none

def the(values):
    values = set(values)
    assert len(values) == 1, 'not exactly one: %r' % (values,)
    return values.pop()

def nominal_second(year, m):
    return 86400 * form_day(year, m.month, m.on) + m.seconds

def year_second(year):
    return 86400 * day_number(year, 1, 1)

def instant_by(form, offset, saved, second):
    return second if form == 'u' else second - offset if form == 's' else second - offset - saved

class Literal:
    """The definitions over one zone. Quantifiers over occurrences run through all years up to the horizon."""

    def __init__(self, source, number, horizon=None):
        self.source, self.rules = source, source.rules
        self.lines = source.zones[number].lines
        named = [l.until.year for l in self.lines if l.until]
        for l in self.lines:
            if l.rules[0] == 'set':
                named += [self.last_named(r) for r in self.rules if r.name == l.rules[1]]
        # each start lies before the year after its UNTIL's; the end's year is at most that + 3; and 5 more
        self.horizon = horizon or max(named, default=1970) + 1 + 3 + 5
        self.cache = {}

    def memo(self, key, make):
        if key not in self.cache:
            self.cache[key] = make()
        return self.cache[key]

    # Occurrence
    def occurs_in(self, rule, year):
        return rule.first <= year and (rule.last is None or year <= rule.last)

    def occurrences(self, name):
        return self.memo(('occ', name), lambda: [
            Occurrence(n, y) for n, rule in enumerate(self.rules) if rule.name == name
            for y in range(rule.first, (self.horizon if rule.last is None else min(rule.last, self.horizon)) + 1)
            if self.occurs_in(rule, y)])

    def nominal(self, o):
        return self.memo(('nom', o), lambda: nominal_second(o.year, self.rules[o.number].moment))

    def rule_of(self, o):
        return self.rules[o.number]

    # Order
    def is_predecessor(self, name, o, p):
        return self.nominal(p) < self.nominal(o) and all(
            self.nominal(q) <= self.nominal(p) for q in self.occurrences(name) if self.nominal(q) < self.nominal(o))

    def is_first(self, name, o):
        return all(self.nominal(o) <= self.nominal(q) for q in self.occurrences(name))

    def predecessors(self, name, o):
        return [p for p in self.occurrences(name) if self.is_predecessor(name, o, p)]

    def saved_before(self, name, o):
        return self.memo(('saved', name, o), lambda: set(
            ([0] if self.is_first(name, o) else []) + [self.rule_of(p).saving for p in self.predecessors(name, o)]))

    def instants(self, name, offset, o):
        return {instant_by(self.rule_of(o).moment.form, offset, saved, self.nominal(o)) for saved in self.saved_before(name, o)}

    def instant(self, name, offset, o):
        return self.memo(('instant', name, offset, o), lambda: the(self.instants(name, offset, o)))

    def judged(self, o):
        """an occurrence, its predecessor and that one's predecessor are in the list only some years before the horizon"""
        return o.year <= self.horizon - 3

    def is_out_of_order(self, name, offset):
        occ = self.occurrences(name)
        tied = any(o != p and self.nominal(o) == self.nominal(p) for o in occ for p in occ)
        return tied or any(min(self.instants(name, offset, o)) <= max(self.instants(name, offset, p))
                           for o in occ if self.judged(o) for p in self.predecessors(name, o))

    # Listing
    @staticmethod
    def last_named(rule):
        return rule.first if rule.last is None else rule.last

    def last_named_of(self, name):
        return max(self.last_named(r) for r in self.rules if r.name == name)

    # Until
    def is_next(self, name, b, following):
        return self.is_first(name, following) if b is None else self.is_predecessor(name, following, b)

    def nexts(self, name, b):
        return [o for o in self.occurrences(name) if self.is_next(name, b, o)]

    def saved_after(self, b):
        return 0 if b is None else self.rule_of(b).saving

    def comes_before(self, c, b):
        return b is not None and (c is None or self.nominal(c) < self.nominal(b))

    def until_by(self, offset, until, saved):
        return instant_by(until.moment.form, offset, saved, nominal_second(until.year, until.moment))

    def stops(self, name, offset, until, b):
        read = self.until_by(offset, until, self.saved_after(b))
        return all(read <= u for n in self.nexts(name, b) for u in self.instants(name, offset, n))

    def read_after(self, name, offset, until):
        stages = [None] + self.occurrences(name)
        stopping = [b for b in stages if self.stops(name, offset, until, b)]
        return [b for b in stopping if not any(self.comes_before(c, b) for c in stopping)]

    def until(self, line):
        """the instants of the line's UNTIL"""
        if line.rules[0] == '-':
            savings = [0]
        elif line.rules[0] == 'amount':
            savings = [line.rules[1]]
        else:
            savings = [self.saved_after(b) for b in self.read_after(line.rules[1], line.offset, line.until)]
        return {self.until_by(line.offset, line.until, s) for s in savings}

    def ends(self, i):
        return self.memo(('ends', i), lambda: the(self.until(self.lines[i])))

    # InForce
    def last_of(self, name, offset, t, bound):
        """the occurrences that are last of those whose instants are not after t, and before the bound if there is one"""
        such = [(self.instant(name, offset, o), o) for o in self.occurrences(name)]
        such = [(u, o) for u, o in such if u <= t and (bound is None or u < bound)]
        return [o for u, o in such if all(v <= u for v, q in such)]

    def letter_before(self, name):
        standard = [o for o in self.occurrences(name) if not self.rule_of(o).daylight]
        firsts = [o for o in standard if all(self.nominal(o) <= self.nominal(q) for q in standard)]
        return the(self.rule_of(o).letter for o in firsts) if firsts else None

    # Zone
    def bound(self, i):
        return None if self.lines[i].until is None else self.ends(i)

    def has_begun(self, i, t):
        return i == 0 or self.ends(i - 1) <= t

    def is_not_over(self, i, t):
        return self.lines[i].until is None or t < self.ends(i)

    def governing(self, t):
        return [i for i in range(len(self.lines)) if self.has_begun(i, t) and self.is_not_over(i, t)]

    def in_force_by(self, i, t):
        line = self.lines[i]
        if line.rules[0] == '-':
            return InForce(0, False, None)
        if line.rules[0] == 'amount':
            return InForce(line.rules[1], line.rules[2], None)
        name = line.rules[1]
        last = self.last_of(name, line.offset, t, self.bound(i))
        if last:
            r = the(self.rule_of(o) for o in last)
            return InForce(r.saving, r.daylight, r.letter)
        return InForce(0, False, self.letter_before(name))

    def window_end(self, i):
        """of line i, which follows another"""
        def make():
            start = self.ends(i - 1)
            P = self.lines[i - 1].offset + self.in_force_of(i - 1, start - 1).saving
            O = self.lines[i].offset + self.in_force_by(i, start).saving
            return start + max(0, P - O)
        return self.memo(('window', i), make)

    def in_force_of(self, i, t):
        return self.in_force_by(i, t if i == 0 else max(t, self.window_end(i)))

    def zone_has_in_force(self, t):
        i = the(self.governing(t))
        return self.lines[i], self.in_force_of(i, t)

    def shows(self, t):
        line, in_force = self.zone_has_in_force(t)
        offset = line.offset + in_force.saving
        return (offset, in_force.daylight, abbreviation(line.format, offset, in_force.daylight, in_force.letter))

    # End
    def end(self):
        i = the(k for k, l in enumerate(self.lines) if l.until is None)
        line = self.lines[i]
        if line.rules[0] != 'set':
            return 0 if i == 0 else self.ends(i - 1) + 1
        year = self.last_named_of(line.rules[1])
        if i > 0:
            start = self.ends(i - 1)
            y = 1970 + start // 31556952
            y = the(z for z in range(y - 2, y + 3) if year_second(z) <= start < year_second(z + 1))
            year = max(year, y)
        return year_second(year + 3)

    # Change
    def candidates(self):
        """All instants at which what is shown can differ from a second before: it depends on t only by comparison of t with a
        line's start and of max(t, window end) with instants of occurrences."""
        ts = {self.ends(i) for i, l in enumerate(self.lines) if l.until is not None}
        for l in self.lines:
            if l.rules[0] == 'set':
                ts |= {self.instant(l.rules[1], l.offset, o) for o in self.occurrences(l.rules[1])}
        return sorted(ts)

    def changes(self):
        E = self.end()
        ts = [t for t in self.candidates() if t < E]
        first = self.shows(min(ts + [E]) - 1)
        return first, [(t,) + self.shows(t) for t in ts if self.shows(t) != self.shows(t - 1)]

    # Fault
    def savings_of(self, line):
        if line.rules[0] == '-':
            return [0]
        if line.rules[0] == 'amount':
            return [line.rules[1]]
        return [r.saving for r in self.rules if r.name == line.rules[1]]

    def fault(self):
        if any(abs(l.offset + s) > 86400 for l in self.lines for s in self.savings_of(l)):
            return 'OffsetRange'
        for l in self.lines:
            if l.rules[0] == 'set' and self.disorder(l.rules[1], l.offset):
                return 'RulesOutOfOrder'
        ends = [self.ends(i) for i, l in enumerate(self.lines) if l.until is not None]
        if any(later <= earlier for earlier, later in zip(ends, ends[1:])):
            return 'UntilNotRising'
        ts = self.candidates() + [self.end()]
        names = {self.shows(t)[2] for t in [min(ts) - 1] + ts}
        if None in names:
            return 'NoLetter'
        if any(not re.fullmatch(r'[A-Za-z0-9+-]{3,16}', n) for n in names):
            return 'BadAbbreviation'
        return None

    def disorder(self, name, offset):
        """in any year: a disorder in a year above L + 403 stands 400 years before it too"""
        far = type(self)(self.source, 0, horizon=self.last_named_of(name) + 406)
        return far.is_out_of_order(name, offset)

# ------------------------------------------------------------------ FORMAT (Abbreviation)

def offset_text(offset):
    h, rest = divmod(abs(offset), 3600)
    m, s = divmod(rest, 60)
    return ('-' if offset < 0 else '+') + '%02d' % h + ('%02d%02d' % (m, s) if s else '%02d' % m if m else '')

def abbreviation(fmt, offset, daylight, letter):
    if '%s' in fmt:
        return None if letter is None else fmt.replace('%s', letter)
    if '%z' in fmt:
        return fmt.replace('%z', offset_text(offset))
    if '/' in fmt:
        return fmt.split('/')[1 if daylight else 0]
    return fmt

# ------------------------------------------------------------------ the same with sorted lists

class Listed(Literal):
    """Overrides the searches alone; the occurrences of a set are listed and sorted once."""

    def in_order(self, name):
        def make():
            occ = sorted(self.occurrences(name), key=self.nominal)
            return occ, {o: k for k, o in enumerate(occ)}
        return self.memo(('order', name), make)

    def is_first(self, name, o):
        return self.in_order(name)[1][o] == 0

    def predecessors(self, name, o):
        occ, place = self.in_order(name)
        return [occ[place[o] - 1]] if place[o] else []

    def nexts(self, name, b):
        occ, place = self.in_order(name)
        k = 0 if b is None else place[b] + 1
        return occ[k:k + 1]

    def read_after(self, name, offset, until):
        for b in [None] + self.in_order(name)[0]:
            if self.stops(name, offset, until, b):
                return [b]

    def last_of(self, name, offset, t, bound):
        occ = self.in_order(name)[0]
        us = self.memo(('us', name, offset), lambda: [self.instant(name, offset, o) for o in occ])
        k = bisect.bisect_right(us, t)
        if bound is not None:
            k = min(k, bisect.bisect_left(us, bound))
        return occ[k - 1:k] if k else []

    def letter_before(self, name):
        for o in self.in_order(name)[0]:
            if not self.rule_of(o).daylight:
                return self.rule_of(o).letter
        return None

    def is_out_of_order(self, name, offset):
        occ = self.in_order(name)[0]
        for p, o in zip(occ, occ[1:]):
            if self.nominal(o) == self.nominal(p):
                return True
            if self.judged(o) and self.instant(name, offset, o) <= self.instant(name, offset, p):
                return True
        return False

# ------------------------------------------------------------------ calls

def zone_of(text, zone, how=Listed):
    source = parse(text)
    name, seen = zone, set()
    while name not in {z.name for z in source.zones}:
        assert name not in seen, 'no such zone'
        seen.add(name)
        name = the(t for t, l in source.links if l == name)
    return how(source, the(i for i, z in enumerate(source.zones) if z.name == name))

def changes(source_text, zone, how=Listed):
    return zone_of(source_text, zone, how).changes()

def end(source_text, zone, how=Listed):
    return zone_of(source_text, zone, how).end()

def state(source_text, zone, t, how=Listed):
    return zone_of(source_text, zone, how).shows(t)

def fault(source_text, zone, how=Listed):
    return zone_of(source_text, zone, how).fault()

if __name__ == '__main__':
    text = open(sys.argv[1]).read()
    print('end', end(text, sys.argv[2]))
    first, rest = changes(text, sys.argv[2])
    print('first', first)
    for c in rest:
        print(*c)

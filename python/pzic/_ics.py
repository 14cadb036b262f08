"""Zones for calendars: the component VTIMEZONE of iCalendar (RFC 5545, 3.6.5)."""

from __future__ import annotations

import calendar
import datetime
import re
import struct
from typing import TYPE_CHECKING, Dict, List, NamedTuple, Optional, Tuple

if TYPE_CHECKING:
    from pzic._zone import State, Zone

_EPOCH = datetime.datetime(1970, 1, 1)
_DAY = 86400
#: The days after which the calendar repeats, with its weekdays.
_CYCLE = 146097 * _DAY
#: The start of the year 1601, and that of 9500: 400 years after it have years of four digits.
SINCE = -11644473600
_LATEST = 237623846400
_WEEKDAYS = ("SU", "MO", "TU", "WE", "TH", "FR", "SA")
#: The most bytes of a line.
_LINE = 75
#: The control characters: RFC 5545, 3.1.
_CONTROL = re.compile(r"[\x00-\x1f\x7f]")


class _Onset(NamedTuple):
    """An instant from which a local time applies, the UT offset before it, and the local time."""

    instant: int
    before: int
    state: State

    @property
    def local(self) -> datetime.datetime:
        """The date and time by the clocks before it."""
        return _EPOCH + datetime.timedelta(seconds=self.instant + self.before)


class _Days(NamedTuple):
    """Days of each year, as an RRULE names them: those of these numbers in the month, or without one in the year, from
    its end where they are negative, and of the weekday if there is one."""

    month: Optional[int]
    numbers: Tuple[int, ...]
    weekday: Optional[int]

    def of(self, year: int) -> List[datetime.date]:
        """Return the days of a year."""
        first = datetime.date(year, self.month or 1, 1)
        length = calendar.monthrange(year, self.month)[1] if self.month else 365 + calendar.isleap(year)
        places = [number - 1 if number > 0 else length + number for number in self.numbers]
        days = [first + datetime.timedelta(days=place) for place in places if 0 <= place < length]
        return [day for day in days if self.weekday in (None, day.isoweekday() % 7)]

    def text(self) -> str:
        """Return the RRULE."""
        parts = ["FREQ=YEARLY"]
        weekday = "" if self.weekday is None else _WEEKDAYS[self.weekday]
        if self.month:
            parts.append(f"BYMONTH={self.month}")
        week = (self.numbers[0] + 6) // 7
        weeks = self.month and self.weekday is not None and self.numbers[0] > 0
        if weeks and self.numbers == tuple(range(7 * week - 6, 7 * week + 1)):
            return ";".join([*parts, f"BYDAY={week}{weekday}"])
        if self.month and self.weekday is not None and self.numbers == tuple(range(-7, 0)):
            return ";".join([*parts, f"BYDAY=-1{weekday}"])
        parts.append(f"BY{'MONTH' if self.month else 'YEAR'}DAY={','.join(map(str, self.numbers))}")
        return ";".join([*parts, f"BYDAY={weekday}"] if weekday else parts)


def vtimezone(zone: Zone, since: int, until: Optional[int], key: str) -> str:
    """Return the component of a zone: its observances from ``since``, up to just before ``until`` or for ever."""
    if until is not None and until <= since:
        raise ValueError("the end isn't after the start")
    if not key or _CONTROL.search(key):
        raise ValueError("a TZID isn't empty, and has no control characters")
    last = max(_last_transition(zone.data, since), since)
    stop = last + 1 if until is None else until
    listed = [_onset(zone, since), *_onsets(zone, since + 1, stop)]
    lines = ["BEGIN:VTIMEZONE", f"TZID:{_escaped(key)}"]
    for onsets in _alike(listed):
        lines += _observance(onsets[0], _dates(onsets))
    if until is None:
        for onset, days in _repeated(zone, last + 1):
            lines += _observance(onset, [f"RRULE:{days.text()}"])
    return "".join(map(_folded, [*lines, "END:VTIMEZONE"]))


def _observance(onset: _Onset, more: List[str]) -> List[str]:
    """Return the lines of an observance that begins at an onset, with the line that says when else it does."""
    kind = "DAYLIGHT" if onset.state.daylight else "STANDARD"
    return [
        f"BEGIN:{kind}",
        f"DTSTART:{_date_time(onset.local)}",
        f"TZOFFSETFROM:{_offset(onset.before)}",
        f"TZOFFSETTO:{_offset(onset.state.offset)}",
        f"TZNAME:{_escaped(onset.state.name)}",
        *more,
        f"END:{kind}",
    ]


def _dates(onsets: List[_Onset]) -> List[str]:
    """Return the line of the dates and times of several onsets, with the first: libical knows it by this line alone."""
    return [f"RDATE:{','.join(_date_time(onset.local) for onset in onsets)}"] if len(onsets) > 1 else []


# ------------------------------------------------------------------ what a zone answers


def _onset(zone: Zone, instant: int) -> _Onset:
    """Return the onset at an instant, which needn't be a change."""
    before, state = zone.at(instant - 1), zone.at(instant)
    if before is None or state is None:
        raise ValueError("a VTIMEZONE can't say that local time is left open")
    return _Onset(instant, before.offset, state)


def _onsets(zone: Zone, start: int, stop: int) -> List[_Onset]:
    """Return the onsets at the changes from one instant to just before another."""
    return [_onset(zone, instant) for instant in zone.changes(start, stop)]


def _alike(onsets: List[_Onset]) -> List[List[_Onset]]:
    """Return onsets with the same offset before them and the same local time together, in order."""
    made: Dict[Tuple[int, State], List[_Onset]] = {}
    for onset in onsets:
        made.setdefault((onset.before, onset.state), []).append(onset)
    return list(made.values())


def _last_transition(data: bytes, since: int) -> int:
    """Return the last transition that a TZif file has, or else this instant."""
    # The first block is that of version 1: RFC 9636, 3.1 and 3.2.
    utc, standard, leaps, transitions, types, letters = struct.unpack_from(">6L", data, 20)
    start = 44 + 5 * transitions + 6 * types + letters + 8 * leaps + standard + utc
    count = struct.unpack_from(">L", data, start + 32)[0]
    if count == 0:
        return since
    last: int = struct.unpack_from(">q", data, start + 44 + 8 * (count - 1))[0]
    return last


# ------------------------------------------------------------------ rules


def _repeated(zone: Zone, start: int) -> List[Tuple[_Onset, _Days]]:
    """Return the first onset of each rule that applies from ``start`` on, with the days of the RRULE.

    All changes of 400 years, after which the calendar repeats, are compared with the days of the RRULEs.
    """
    if start > _LATEST:
        raise ValueError("the rules of the file begin after the year 9500")
    onsets = _onsets(zone, start, start + _CYCLE)
    made: List[Tuple[_Onset, _Days]] = []
    for rule, alike in zip(_rules(zone.data, onsets), _alike(onsets)):
        wanted = {onset.local.date() for onset in alike}
        years = range(min(wanted).year, max(wanted).year + 1)
        found = {day for days in rule for year in years for day in days.of(year)}
        found = {day for day in found if min(wanted) <= day <= max(wanted)}
        if found != wanted or len({onset.local.time() for onset in alike}) > 1:
            raise ValueError("no RRULE says what the file's TZ string does")
        for days in rule:
            own = [onset for onset in alike if onset.local.date() in days.of(onset.local.year)]
            made += [(own[0], days)] if own else []
    return made


def _rules(data: bytes, onsets: List[_Onset]) -> List[List[_Days]]:
    """Return for each kind of onsets, in their order, the days that the TZ string of a file has for it."""
    kinds = [alike[0].state.daylight for alike in _alike(onsets)]
    if not kinds:
        return []
    footer = data.rsplit(b"\n", 2)[1].decode("ascii")
    found = _RULES.fullmatch(footer)
    if found is None or sorted(kinds) != [False, True]:
        raise ValueError(f"no RRULE says what the TZ string {footer!r} does")
    begin, end = (_days_of(found[i], _seconds_of(found[i + 1]) // _DAY) for i in (1, 3))
    return [begin if daylight else end for daylight in kinds]


#: A TZ string with rules: that of the start of daylight saving time and its time, and that of its end.
_NAME = r"(?:<[^>]+>|[A-Za-z]+)"
_RULES = re.compile(rf"{_NAME}[-+:0-9]+{_NAME}[-+:0-9]*,([^,/]+)(?:/([^,]+))?,([^,/]+)(?:/([^,]+))?")


def _seconds_of(text: Optional[str]) -> int:
    """Return the time of a rule, in seconds; by default 2:00."""
    if text is None:
        return 2 * 3600
    hours, minutes, seconds = ([int(part) for part in text.lstrip("+-").split(":")] + [0, 0])[:3]
    return (-1 if text.startswith("-") else 1) * (3600 * hours + 60 * minutes + seconds)


def _days_of(text: str, shift: int) -> List[_Days]:
    """Return the days that are this number of days after those of a rule, as ``M10.4.4``, ``J60`` or ``59``."""
    if text.startswith("M"):
        month, week, weekday = map(int, text[1:].split("."))
        return _days_of_month(month, week, (weekday + shift) % 7, shift)
    day = int(text.lstrip("J"))
    if not text.startswith("J"):
        return [_year_day(day + 1 + shift)]
    if shift == 0:
        date = datetime.date(2001, 1, 1) + datetime.timedelta(days=day - 1)
        return [_Days(date.month, (date.day,), None)]
    # February 29 isn't counted: later days are counted from the end of the year.
    return [_year_day(day + shift) if day < 60 else _Days(None, (day - 366 + shift + (day + shift >= 366),), None)]


def _year_day(number: int) -> _Days:
    """Return the day of a number, of which 0 is the last of the year before."""
    return _Days(None, (number if number > 0 else number - 1,), None)


def _days_of_month(month: int, week: int, weekday: int, shift: int) -> List[_Days]:
    """Return the days that are this number of days after those of a week of a month, and have this weekday."""
    by_month: Dict[int, List[int]] = {}
    following, earlier = month % 12 + 1, (month - 2) % 12 + 1
    if week == 5:
        for number in range(shift - 7, shift):
            by_month.setdefault(month if number < 0 else following, []).append(number if number < 0 else number + 1)
    else:
        numbers = range(7 * week - 6 + shift, 7 * week + 1 + shift)
        length = calendar.monthrange(2001, month)[1]
        if month == 2 and numbers[-1] > length:
            # By the days of the year, which are the same with a February 29 and without.
            return [_Days(None, tuple(31 + number for number in numbers), weekday)]
        for number in numbers:
            if number < 1:
                by_month.setdefault(earlier, []).append(number - 1)
            elif number > length:
                by_month.setdefault(following, []).append(number - length)
            else:
                by_month.setdefault(month, []).append(number)
    return [_Days(of, tuple(numbers), weekday) for of, numbers in by_month.items()]


# ------------------------------------------------------------------ text


def _date_time(local: datetime.datetime) -> str:
    return f"{local.year:04}{local.month:02}{local.day:02}T{local.hour:02}{local.minute:02}{local.second:02}"


def _offset(seconds: int) -> str:
    minutes, rest = divmod(abs(seconds), 60)
    return f"{'-' if seconds < 0 else '+'}{minutes // 60:02}{minutes % 60:02}{f'{rest:02}' if rest else ''}"


def _escaped(text: str) -> str:
    """Return a text as a value has it: RFC 5545, 3.3.11."""
    return re.sub(r"([\\;,])", r"\\\1", text)


def _folded(line: str) -> str:
    """Return a line with its end, in lines of no more than 75 bytes: RFC 5545, 3.1."""
    made, used = [], 0
    for letter in line:
        width = len(letter.encode())
        if used + width > _LINE:
            made.append("\r\n ")
            used = 1
        made.append(letter)
        used += width
    return "".join(made) + "\r\n"

"""When a zone's clocks show a time of day."""

from __future__ import annotations

import ctypes
import datetime
import re
from operator import index
from typing import TYPE_CHECKING, Iterable, Iterator, Optional, TypeVar, Union

from pzic import _library as c
from pzic._words import POLICIES, WEEKDAYS, number_of

if TYPE_CHECKING:
    from pzic._zone import Zone

#: A time of day on clocks: ``"HH:MM"`` or ``"HH:MM:SS"``, or a time without fractions and without a tzinfo.
TimeOfDay = Union[str, datetime.time]
#: An instant: seconds from 1970, or a datetime with a tzinfo.
Moment = TypeVar("Moment", int, datetime.datetime)

#: How long a time of day is looked for without a last instant, and then from each that is found: 366 days.
_WINDOW = 366 * 86400
#: The most instants that are requested at once.
_MOST = 64
#: The end of 9999-12-30, UT: the last day whose local times are all datetimes.
_LAST_DAY = 253402214399
_EPOCH = datetime.datetime(1970, 1, 1, tzinfo=datetime.timezone.utc)
_SECOND = datetime.timedelta(seconds=1)
_TIME = re.compile("([01][0-9]|2[0-3]):([0-5][0-9])(?::([0-5][0-9]))?")


def next_local(
    zone: Zone, after: Moment, time: TimeOfDay, weekdays: Iterable[str], policy: str, until: Optional[Moment]
) -> Optional[Moment]:
    """Return the next instant at which clocks show a time of day, as :meth:`Zone.next_local` tells."""
    asked = _asked(time, weekdays, policy, _second(after))
    asked.until = min(_end(asked.after), _last(after)) if until is None else _second(until)
    found = ctypes.c_int64()
    if c.zone_next_local(zone._owned.lend(), asked, found) == c.NO_SUCH:
        return None
    return _like(after, zone, found.value)


def schedule(
    zone: Zone, time: TimeOfDay, weekdays: Iterable[str], after: Moment, until: Optional[Moment], policy: str
) -> Iterator[Moment]:
    """Return all of them, as :meth:`Zone.schedule` tells."""
    asked = _asked(time, weekdays, policy, _second(after))
    last = _last(after) if until is None else _second(until)
    return (_like(after, zone, found) for found in _all(zone, asked, last))


def _all(zone: Zone, asked: c.CSchedule, last: int) -> Iterator[int]:
    room = (ctypes.c_int64 * _MOST)()
    count = ctypes.c_size_t(1)
    while count.value:
        asked.until = min(_end(asked.after), last)
        c.zone_next_locals(zone._owned.lend(), asked, room, _MOST, count)
        found = room[: count.value]
        asked.after = found[-1] if found else last
        yield from found


def _end(after: int) -> int:
    """Return the last instant of the window after an instant."""
    return min(after + _WINDOW, c.MAX_INSTANT)


def _last(after: Union[int, datetime.datetime]) -> int:
    """Return the last instant there is, of the kind of another."""
    return _LAST_DAY if isinstance(after, datetime.datetime) else c.MAX_INSTANT


def _asked(time: TimeOfDay, weekdays: Iterable[str], policy: str, after: int) -> c.CSchedule:
    """Return what the library is asked, but for the last instant."""
    bits = 0
    if isinstance(weekdays, str):
        raise ValueError(f"weekdays are several names, as ['mon'], and not {weekdays!r}")
    for day in weekdays:
        if day not in WEEKDAYS:
            raise ValueError(f"no weekday {day!r}: it is one of {', '.join(WEEKDAYS)}")
        bits |= 1 << WEEKDAYS.index(day)
    return c.CSchedule(after, after, _seconds(time), bits, number_of(policy, POLICIES, "policy"))


def _seconds(time: TimeOfDay) -> int:
    """Return the seconds from midnight to a time of day."""
    if isinstance(time, datetime.time):
        if time.tzinfo is not None or time.microsecond:
            raise ValueError("a time of day has no tzinfo and no fractions of a second")
        return 3600 * time.hour + 60 * time.minute + time.second
    parts = _TIME.fullmatch(time)
    if parts is None:
        raise ValueError(f"no time of day {time!r}: it is as '02:30' or '02:30:00'")
    hour, minute, second = (int(part or 0) for part in parts.groups())
    return 3600 * hour + 60 * minute + second


def _second(moment: Union[int, datetime.datetime]) -> int:
    """Return the second that an instant is in."""
    if isinstance(moment, datetime.datetime):
        if moment.tzinfo is None:
            raise ValueError("an instant is a datetime with a tzinfo, or seconds from 1970")
        return (moment - _EPOCH) // _SECOND
    second = index(moment)
    if not c.MIN_INSTANT <= second <= c.MAX_INSTANT:
        raise OverflowError("an instant has 64 bits with a sign")
    return second


def _like(after: Moment, zone: Zone, found: int) -> Moment:
    """Return an instant as another came: seconds, or a datetime, in the zone."""
    if isinstance(after, datetime.datetime):
        return (_EPOCH + datetime.timedelta(seconds=found)).astimezone(zone.tzinfo())
    return found

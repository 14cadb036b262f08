"""Zones for :mod:`datetime`."""

from __future__ import annotations

import threading
import weakref
from datetime import datetime, timedelta
from typing import TYPE_CHECKING, Any, Dict, List, NamedTuple, Optional, Tuple, Type

from pzic._cache import UT, Moved, Parts, Answer, Years
from pzic._library import MAX_INSTANT, MIN_INSTANT

if TYPE_CHECKING:
    from pzic._zone import State, Zone
    from pzic._zoneinfo import ZoneInfo

_EPOCH = datetime(1970, 1, 1)
_SECOND = timedelta(seconds=1)
#: More than any UT offset, in seconds.
_FARTHEST = 26 * 3600
_ZERO = timedelta(0)
_HOUR = timedelta(hours=1)
#: The abbreviation of local time that isn't known: RFC 9636, 3.2.
_UNKNOWN = "-00"
#: The most spans that are looked through for another state.
_MOST_SPANS = 1000


def _seconds(dt: datetime) -> int:
    """Return the seconds from 1970 of the date and time that are shown, as if they were UT."""
    return (dt - _EPOCH) // _SECOND


#: The answer for no local time, where the zone has several.
_NOTHING = Answer(None, None, None)


class _Stretch(NamedTuple):
    """The instants from the first to the last with one state, and the offset before them."""

    state: Optional[State]
    first: int
    last: int
    offset: int
    before: int


def _bounds(year: int) -> Tuple[int, int]:
    """Return the first and the last second of a year."""
    return _seconds(datetime(year, 1, 1)), _seconds(datetime(year, 12, 31, 23, 59, 59))


def _end_of(second: int) -> datetime:
    """Return the last microsecond of a second of the years that there are."""
    return _EPOCH.replace(microsecond=999_999) + timedelta(seconds=second)


_Key = Tuple[Type["TimeZone"], bytes, Optional[str]]

#: All that are in use, by class, bytes of the file, and name.
_all: weakref.WeakValueDictionary[_Key, TimeZone] = weakref.WeakValueDictionary()
_all_lock = threading.RLock()


class TimeZone(Years):
    """A zone for :mod:`datetime`, with the fold of PEP 495.

    From an instant to local time the answers are the file's. For a local time they are those of
    :meth:`Zone.instants`: a time that comes twice is the first one with ``fold=0`` and
    the last with ``fold=1``; a time that is left out is read by the offset before with
    ``fold=0``, and by the one after with ``fold=1``. Where the file leaves local time open, it is
    UT, under the abbreviation ``-00``. The answers of each year are kept.

    Of each class, one object has the same bytes of a file and the same name, so dates and times of
    one zone are compared and subtracted as they are shown, also once they were copied or pickled.

    pandas doesn't know it: columns of its datetimes are of objects, and other calls raise :class:`TypeError`. But
    ``tz_convert`` of a ``Timestamp`` or an index gives UT: give pandas a :class:`ZoneInfo`.
    """

    __module__ = "pzic"

    _zone: Zone
    _key: Optional[str]
    #: The answer for all local times, once it was looked up.
    _fixed: Optional[Answer]
    #: Earlier answers, so that equal ones are one object.
    _same: Dict[Any, Any]

    def __new__(cls, zone: Zone, key: Optional[str] = None) -> TimeZone:
        if key is None:
            key = zone.key
        with _all_lock:
            made = _all.get((cls, zone.data, key))
            if made is None:
                made = _all[cls, zone.data, key] = cls._make(zone, key)
        return made

    @classmethod
    def _make(cls, zone: Zone, key: Optional[str]) -> TimeZone:
        """Return one more object."""
        made = super().__new__(cls)
        made._zone = zone
        made._key = key
        made._fixed = None
        made._same = {}
        return made

    @property
    def key(self) -> Optional[str]:
        """The name of the zone."""
        return self._key

    def __repr__(self) -> str:
        name = f"{type(self).__module__}.{type(self).__qualname__}"
        return f"{name}(key={self._key!r})" if self._key is not None else f"{name}({self._zone!r})"

    def __str__(self) -> str:
        return repr(self) if self._key is None else self._key

    def __reduce__(self) -> Tuple[Any, ...]:
        return type(self), (self._zone, self._key)

    def to_zoneinfo(self) -> ZoneInfo:
        """Return the :class:`ZoneInfo` of the same file and name, which pandas knows."""
        return self._zone.to_zoneinfo(self._key)

    @property
    def _utcoffset(self) -> timedelta:
        # pandas asks a zone for this first, and takes one that it doesn't know for one of a fixed UT offset.
        raise TypeError("pandas doesn't know a pzic.TimeZone: give it its to_zoneinfo(), or Tree.zoneinfo(name)")

    def _parts(self, kind: int, year: int) -> Parts:
        """Return the parts of a year, with the answer in each."""
        parts = self._parts_of_ut(year) if kind == UT else self._parts_of_local(kind, year)
        return tuple((_end_of(last), self._same.setdefault(answer, answer)) for last, answer in parts)

    def _parts_of_ut(self, year: int) -> List[Tuple[int, Any]]:
        begin, end = _bounds(year)
        parts: List[Tuple[int, Moved]] = []
        for stretch in self._stretches(begin, end):
            offset = timedelta(seconds=stretch.offset)
            again = stretch.first + stretch.before - stretch.offset
            if stretch.first < again:
                parts.append((min(again - 1, stretch.last), Moved(offset, True)))
            if again <= stretch.last:
                parts.append((stretch.last, Moved(offset, False)))
        return [(min(last, end), moved) for last, moved in parts if begin <= last]

    def _parts_of_local(self, fold: int, year: int) -> List[Tuple[int, Any]]:
        # The library tells the instants of a local time. What it tells is of one kind between the local
        # times that clocks show right before and right after changes.
        begin, end = _bounds(year)
        starts = {begin}
        for stretch in self._stretches(begin - _FARTHEST, end + _FARTHEST):
            for offset in (stretch.before, stretch.offset):
                if begin < stretch.first + offset <= end:
                    starts.add(stretch.first + offset)
        ordered = sorted(starts)
        lasts = [start - 1 for start in ordered[1:]] + [end]
        return [(last, self._answer_of(start, fold)) for start, last in zip(ordered, lasts)]

    def _always(self) -> Answer:
        """Return the answer for all local times, if that is the same."""
        if self._fixed is None:
            self._fixed = self._look_for_fixed()
        return self._fixed

    def _look_for_fixed(self) -> Answer:
        span = first = self._zone.span(MIN_INSTANT)
        for _ in range(_MOST_SPANS):
            if span.state != first.state or span.state is None:
                return _NOTHING
            if span.last == MAX_INSTANT:
                return self._answer_at(span.state, MIN_INSTANT, MAX_INSTANT)
            span = self._zone.span(span.last + 1)
        return _NOTHING

    def _stretches(self, first: int, last: int) -> List[_Stretch]:
        """Return what the zone says from one instant to another, with the offset before."""
        found: List[_Stretch] = []
        instant = first
        while instant <= last:
            span = self._zone.span(instant)
            offset = span.state.offset if span.state else 0
            before = found[-1].offset if found else self._offset_before(span.first, offset)
            found.append(_Stretch(span.state, span.first, span.last, offset, before))
            instant = span.last + 1
        return found

    def _offset_before(self, first: int, offset: int) -> int:
        """Return the offset before the first instant of a span with this offset."""
        if first == MIN_INSTANT:
            return offset
        state = self._zone.at(first - 1)
        return state.offset if state else 0

    def _answer_of(self, local: int, fold: int) -> Answer:
        """Return the answer for a local time: of its first instant or its last, or of the side of the
        gap that it is in. PEP 495 says which."""
        found = self._zone.instants(local)
        if found.gap is not None:
            instant: Optional[int] = found.gap.change if fold else found.gap.change - 1
        else:
            instant = found.last if fold else found.first
        if instant is None:
            return self._answer_at(None, MIN_INSTANT, MAX_INSTANT)
        span = self._zone.span(instant)
        return self._answer_at(span.state, span.first, span.last)

    def _answer_at(self, state: Optional[State], first: int, last: int) -> Answer:
        """Return the answer at the instants from the first to the last, with one state."""
        if state is None:
            return Answer(_ZERO, _ZERO, _UNKNOWN)
        saved = self._saved(state, first, last) if state.daylight else _ZERO
        return Answer(timedelta(seconds=state.offset), saved, state.name)

    def _saved(self, state: State, first: int, last: int) -> timedelta:
        near = []
        if first != MIN_INSTANT:
            near.append(self._zone.at(first - 1))
        if last != MAX_INSTANT:
            near.append(self._zone.at(last + 1))
        for other in near:
            is_standard = other and not other.daylight and other.name != _UNKNOWN
            if other and is_standard and other.offset != state.offset:
                return timedelta(seconds=state.offset - other.offset)
        return _HOUR

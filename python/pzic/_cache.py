"""Caches answers.

Each class has a form in C with the same answers, of ``_fast.c``. That is taken if it was built, unless
the variable ``PZIC_PURE_PYTHON`` is set. Neither knows anything of time zones: what isn't cached yet, they
look up.
"""

from __future__ import annotations

import os
from datetime import datetime, timedelta, tzinfo
from operator import index
from typing import TYPE_CHECKING, Any, Dict, List, NamedTuple, Optional, Tuple, Type, TypeVar

if TYPE_CHECKING:
    from pzic._zone import Span, State

#: What the answers of a year are about: local times with ``fold=0`` and with ``fold=1``, or UT.
FIRST, LAST, UT = range(3)

#: A span is kept for the instants near the one at which it was looked up: those with the same bits
#: above these, 48 days.
_SLOT_BITS = 22
#: The most spans that are kept.
_MOST_SPANS = 1024


class Answer(NamedTuple):
    """The answer for a local time."""

    offset: Optional[timedelta]
    saved: Optional[timedelta]
    name: Optional[str]


class Moved(NamedTuple):
    """The answer for a UT: what to add, and whether the time that is shown comes for the second time."""

    offset: timedelta
    again: bool


#: The parts of a year: the last time of each, without a tzinfo, and the answer up to then.
Parts = Tuple[Tuple[datetime, Any], ...]
#: The same, with the day of the last time first.
_Days = List[Tuple[int, datetime, Any]]


_Self = TypeVar("_Self", bound="PureYears")


class PureYears(tzinfo):
    """A tzinfo that answers for each time by its part of its year."""

    __slots__ = ("_years",)

    _years: Tuple[Dict[int, _Days], Dict[int, _Days], Dict[int, _Days]]

    def __new__(cls: Type[_Self]) -> _Self:
        made = super().__new__(cls)
        made._years = ({}, {}, {})
        return made

    def utcoffset(self, dt: Optional[datetime], /) -> Optional[timedelta]:
        """Return the UT offset at a local time. Without one, return it if it is always the same."""
        return self._local(dt).offset

    def dst(self, dt: Optional[datetime], /) -> Optional[timedelta]:
        """Return 0 in standard time, and else by how much the offset differs from that before or
        after. Files don't tell it, so this is a guess, and 1 hour where neither is standard time.
        """
        return self._local(dt).saved

    def tzname(self, dt: Optional[datetime], /) -> Optional[str]:
        """Return the abbreviation at a local time."""
        return self._local(dt).name

    def fromutc(self, dt: datetime, /) -> datetime:
        """Return local time at a UT, with its fold."""
        if not isinstance(dt, datetime):
            raise TypeError("fromutc: a datetime is wanted")
        if dt.tzinfo is not self:
            raise ValueError("fromutc: dt.tzinfo is not self")
        moved: Moved = self._find(UT, dt)
        shown = dt + moved.offset
        return shown.replace(fold=1) if moved.again else shown

    def _local(self, dt: Optional[datetime]) -> Answer:
        if isinstance(dt, datetime):
            answer: Answer = self._find(dt.fold, dt)
            return answer
        if dt is None:
            return self._always()
        raise TypeError("a datetime is wanted")

    def _find(self, kind: int, dt: datetime) -> Any:
        """Return the answer in the part of a year that a time is in."""
        try:
            days = self._years[kind][dt.year]
        except KeyError:
            days = self._keep(kind, dt.year)
        day = dt.toordinal()
        for last_day, last, answer in days:
            if day < last_day or (day == last_day and dt.replace(tzinfo=None) <= last):
                return answer
        raise AssertionError("a year has an end")

    def _keep(self, kind: int, year: int) -> _Days:
        """Ask for the parts of a year, and keep them."""
        parts = [(last.toordinal(), last, answer) for last, answer in self._parts(kind, year)]
        self._years[kind][year] = parts
        return parts

    def _parts(self, kind: int, year: int) -> Parts:
        """Return the parts of a year."""
        raise NotImplementedError

    def _always(self) -> Answer:
        """Return the answer for all local times, if that is the same."""
        raise NotImplementedError


class PureSpans:
    """What tells of an instant what its span tells."""

    __slots__ = ("_spans",)

    def __init__(self) -> None:
        #: Spans that were looked up, by the highest bits of an instant in them.
        self._spans: Dict[int, Span] = {}

    def at(self, instant: int) -> Optional[State]:
        """Return local time at an instant, or ``None`` where the file leaves it open."""
        return self.span(instant).state

    def utcoffset(self, instant: int) -> int:
        """Return the UT offset in seconds, positive east.

        Raises :class:`LookupError` where the file leaves local time open.
        """
        state = self.span(instant).state
        if state is None:
            raise LookupError(f"local time is left open at {instant}")
        return state.offset

    def span(self, instant: int) -> Span:
        """Return local time at an instant, and the instants round it at which it is the same."""
        instant = index(instant)
        span = self._spans.get(instant >> _SLOT_BITS)
        if span is not None and span.first <= instant <= span.last:
            return span
        span = self._look_up(instant)
        if len(self._spans) >= _MOST_SPANS:
            self._spans.clear()
        self._spans[instant >> _SLOT_BITS] = span
        return span

    def _look_up(self, instant: int) -> Span:
        """Ask the library for a span."""
        raise NotImplementedError


Years = PureYears
Spans = PureSpans
if not TYPE_CHECKING and not os.environ.get("PZIC_PURE_PYTHON"):
    try:
        from pzic._fast import Spans, Years
    except ImportError:
        pass

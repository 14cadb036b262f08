"""Zones, and what they say at an instant."""

from __future__ import annotations

import ctypes
import datetime
from operator import index
from typing import TYPE_CHECKING, Any, Callable, Iterable, Iterator, List, NamedTuple, Optional, Tuple, Union

from pzic import _calls as calls
from pzic import _library as c
from pzic._array import convert_array, instant_array
from pzic._errors import BadFile, NoInstant
from pzic._handle import Owned, bytes_of
from pzic._ics import SINCE, vtimezone
from pzic._cache import Spans
from pzic._schedule import Moment, TimeOfDay, next_local, schedule
from pzic._timezone import TimeZone
from pzic._words import AMBIGUOUS, ERRORS, WEEKDAYS, Ambiguous, Errors, Policy, Weekday, number_of

if TYPE_CHECKING:
    from pzic._zoneinfo import ZoneInfo

#: The most changes that are requested at once.
_MOST_CHANGES = 256

_EPOCH = datetime.datetime(1970, 1, 1)
_SECOND = datetime.timedelta(seconds=1)


class State(NamedTuple):
    """Local time at an instant."""

    #: Total UT offset in seconds, positive east.
    offset: int
    #: Whether it is daylight saving time.
    daylight: bool
    #: The abbreviation; no more than its first 16 bytes.
    name: str


class Span(NamedTuple):
    """Local time, and the instants from the first to the last at which it is the same."""

    #: ``None`` where the file leaves local time open.
    state: Optional[State]
    first: int
    last: int


class Gap(NamedTuple):
    """A change at which clocks pass over local times."""

    #: The instant of the change.
    change: int
    #: The UT offset before it, in seconds, positive east.
    before: int
    #: The UT offset from it on.
    after: int


class Instants(NamedTuple):
    """The instants at which clocks show a local time."""

    #: How many there are: 0, 1, or 2 and more in a fold.
    number: int
    #: The first and the last, or ``None`` where there is none.
    first: Optional[int]
    last: Optional[int]
    #: The first change that passes over the local time, where no instant is one of it. ``None`` then
    #: too where the file leaves local time open.
    gap: Optional[Gap]


#: Pickles name these by the package, so that its modules may change.
State.__module__ = Span.__module__ = Gap.__module__ = Instants.__module__ = "pzic"


#: A local time: a naive datetime, or seconds from 1970-01-01T00:00:00 on the zone's clocks.
Local = Union[int, datetime.datetime]

#: A function that makes a zone, and its words.
_Source = Tuple[Callable[..., "Zone"], Tuple[Any, ...]]


class Zone(Spans):
    """A zone, read from the bytes of a TZif file of version 2 or 3.

    Raises :class:`BadFile` where they are no such file, and :class:`MemoryError`. A zone never
    changes, and may be used by any number of threads. Zones of the same bytes are equal.
    """

    __module__ = "pzic"
    __slots__ = ("_owned", "_data", "_key", "_source", "__weakref__")

    def __init__(self, data: bytes) -> None:
        super().__init__()
        self._data = bytes_of(data)
        self._owned = _read(self._data)
        self._key: Optional[str] = None
        #: How another process makes the zone.
        self._source: _Source = (type(self), (self._data,))

    @property
    def data(self) -> bytes:
        """The bytes of the file."""
        return self._data

    @property
    def posix(self) -> str:
        """The ``TZ`` string at the end of the file, which tells of the time after its last transition, as
        ``"GMT0IST,M3.5.0/1,M10.5.0"``. It is empty where the file leaves that time open."""
        return self._data.rsplit(b"\n", 2)[1].decode("ascii")

    @property
    def key(self) -> Optional[str]:
        """The name under which a tree has the zone."""
        return self._key

    def __repr__(self) -> str:
        what = f"of {len(self._data)} bytes" if self._key is None else repr(self._key)
        return f"<pzic.Zone {what}>"

    def __eq__(self, other: object) -> bool:
        if not isinstance(other, Zone):
            return NotImplemented
        return self._data == other._data

    def __hash__(self) -> int:
        return hash(self._data)

    def __copy__(self) -> Zone:
        return self

    def __deepcopy__(self, memo: object) -> Zone:
        return self

    def __reduce__(self) -> _Source:
        return self._source

    def _look_up(self, instant: int) -> Span:
        """Ask the library for a span."""
        state = c.CState()
        first = ctypes.c_int64()
        last = ctypes.c_int64()
        shown = None
        if c.zone_span(self._owned.lend(), _instant(instant), state, first, last) != c.UNSPECIFIED:
            shown = State(state.offset, bool(state.daylight), state.name.decode("ascii"))
        return Span(shown, first.value, last.value)

    def next_change(self, instant: int) -> Optional[int]:
        """Return the first change of local time after an instant, or ``None`` where there is none.

        A change is an instant at which the offset, the flag or the abbreviation isn't that of a second
        before, or local time begins or ceases to be left open.
        """
        return calls.next_change(self._owned, _instant(instant))

    def previous_change(self, instant: int) -> Optional[int]:
        """Return the last change of local time before an instant, or ``None`` where there is none."""
        return calls.previous_change(self._owned, _instant(instant))

    def changes(self, start: int, stop: int) -> List[int]:
        """Return the changes of local time from ``start`` to just before ``stop``, in order."""
        # The library tells those after an instant and up to another.
        first = _instant(max(index(start) - 1, c.MIN_INSTANT))
        last = _instant(max(index(stop) - 1, c.MIN_INSTANT))
        made: List[int] = []
        room = (ctypes.c_int64 * _MOST_CHANGES)()
        count = ctypes.c_size_t(_MOST_CHANGES)
        while count.value == _MOST_CHANGES:
            c.zone_changes(self._owned.lend(), first, last, room, _MOST_CHANGES, count)
            made += room[: count.value]
            first = made[-1] if made else first
        return made

    def next_local(
        self,
        after: Moment,
        time: TimeOfDay,
        weekdays: Iterable[Weekday] = WEEKDAYS,
        policy: Policy = "compatible",
        until: Optional[Moment] = None,
    ) -> Optional[Moment]:
        """Return the next instant after another at which clocks show a time of day, or ``None`` where there is none up to
        ``until``, by default within 366 days.

        Instants are seconds from 1970, or where ``after`` is a datetime with a tzinfo, datetimes in the zone. ``time`` is
        ``"HH:MM"``, ``"HH:MM:SS"`` or a :class:`datetime.time`, and ``weekdays`` are some of ``"mon"`` to
        ``"sun"``, by the date on the clocks. In a gap and in a fold the policies ``"earlier"``, ``"later"`` and
        ``"compatible"``, which RFC 5545 has, take what :meth:`instant` does; ``"skip"`` leaves out a day
        on which clocks pass over the time, and takes the first of a fold. The ``fold`` of ``time`` doesn't count.
        """
        return next_local(self, after, time, weekdays, policy, until)

    def schedule(
        self,
        time: TimeOfDay,
        weekdays: Iterable[Weekday] = WEEKDAYS,
        *,
        after: Moment,
        until: Optional[Moment] = None,
        policy: Policy = "compatible",
    ) -> Iterator[Moment]:
        """Return an iterator of all these instants, in order: the first is that of :meth:`next_local`, and each other one is
        the next after the one before. It ends at ``until``, or where there is none within 366 days.
        """
        return schedule(self, time, weekdays, after, until, policy)

    def vtimezone(self, since: int = SINCE, until: Optional[int] = None, key: Optional[str] = None) -> str:
        """Return the zone as a component ``VTIMEZONE`` of iCalendar (RFC 5545), with ``\\r\\n`` at the ends of lines.

        It has the observances from the instant ``since``, by default the start of 1601, up to just before
        ``until``, each by its date. By ``None`` they go on for ever: after the last transition of the file by
        an RRULE for each rule of its TZ string, whose days were compared with all changes of 400 years.
        ``key`` is the TZID, by default the zone's name. Raises :class:`ValueError` where the file leaves local
        time open, no RRULE says what the TZ string does, or ``key`` has a control character.
        """
        name = key or self._key
        if name is None:
            raise ValueError("a VTIMEZONE needs a name")
        return vtimezone(self, _instant(since), None if until is None else _instant(until), name)

    def instants(self, local: Local) -> Instants:
        """Return the instants at which the zone's clocks show a local time, or the gap that it is in.

        ``local`` is a naive :class:`~datetime.datetime`, or seconds from 1970-01-01T00:00:00 on these
        clocks. Raises :class:`OverflowError` within 25:59:59 of an end of 64 bits.
        """
        found = calls.local_time(self._owned, _local_second(local))
        if found is None:
            raise OverflowError("an instant has 64 bits with a sign")
        count, first, last, change, before, after = found
        if count:
            return Instants(count, first, last, None)
        # No change of the offset is from 0 to 0.
        return Instants(0, None, None, Gap(change, before, after) if before != after else None)

    def instant(self, local: Local, ambiguous: Ambiguous = "reject") -> int:
        """Return the instant that is meant by a local time.

        ``ambiguous`` says what to take in a gap or in a fold, as ``disambiguation`` of ECMAScript's
        Temporal does. ``"reject"`` raises :class:`NoInstant` for both. ``"earlier"`` and ``"later"`` are the
        first and the last instant of a fold; in a gap the local time is read by the UT offset after
        it, and by the one before it. ``"compatible"`` is the first of a fold, and ``"later"`` in a
        gap. Where the file leaves local time open, each of them raises :class:`NoInstant`.

        A datetime with ``fold=1`` is the last instant of a fold by ``"reject"`` and ``"compatible"``, and in a
        gap it is read by the UT offset after it by ``"compatible"``: PEP 495.
        """
        choice = number_of(ambiguous, AMBIGUOUS, "ambiguous")
        second = _local_second(local)
        folded = isinstance(local, datetime.datetime) and local.fold == 1
        if folded and ambiguous in ("reject", "compatible"):
            return self._folded(second, ambiguous)
        instant, status = calls.meant(self._owned, choice, second)
        if status != c.OK:
            raise _no_instant(second, status)
        return instant

    def _folded(self, second: int, ambiguous: Ambiguous) -> int:
        """Return the instant of a local time with ``fold=1``."""
        instant, status = calls.meant(self._owned, AMBIGUOUS["reject"], second)
        if status == c.FOLD:
            instant, status = calls.meant(self._owned, AMBIGUOUS["later"], second)
        elif status == c.GAP and ambiguous == "compatible":
            instant, status = calls.meant(self._owned, AMBIGUOUS["earlier"], second)
        if status != c.OK:
            raise _no_instant(second, status)
        return instant

    def instant_array(
        self,
        locals: Any,
        ambiguous: Ambiguous = "reject",
        instants: Any = None,
        statuses: Any = None,
        errors: Errors = "coerce",
    ) -> Tuple[Any, Any]:
        """Return the instant that is meant by each of many local times, in any order, and its status.

        ``locals`` are of the types that :meth:`convert_array` takes, and have no time zone; a number is seconds
        on the zone's clocks. Instants are ``datetime64`` in the unit that came, with fractions of a
        second, or else seconds, of 8 bytes with a sign. Statuses are single bytes: 0, or :data:`GAP`,
        :data:`FOLD`, :data:`UNSPECIFIED` or :data:`OUT_OF_RANGE`, where the instant is 0, or ``NaT``. A
        missing local time is :data:`UNSPECIFIED`. ``ambiguous`` is that of :meth:`instant`, with the
        ``fold`` of datetimes. By the ``errors`` ``"raise"`` the first local time that isn't missing and has no
        instant raises :class:`NoInstant` with its row, or :class:`OverflowError`.
        """
        number_of(ambiguous, AMBIGUOUS, "ambiguous")
        coerce = bool(number_of(errors, ERRORS, "errors"))
        return instant_array(self._owned, ambiguous, locals, instants, statuses, coerce)

    def convert_array(
        self, instants: Any, offsets: Any = None, flags: Any = None
    ) -> Tuple[Any, Any]:
        """Return the UT offset and the flags at each of many instants, in any order.

        ``instants`` are a list or another sequence, a buffer, an array of numpy, or a column or an
        index of pandas: of integers of any size, floats of whole seconds, ``datetime64`` of any unit, or datetimes,
        which are UT where they have no time zone. An item of numpy's gives two items. All but integers
        need numpy. The offsets are written to ``offsets``, which has items of 4 bytes with a sign, as a
        numpy array of ``int32``, and the flags to ``flags``, of single bytes: 0, :data:`DAYLIGHT` or
        :data:`OPEN`. Each is made where it is left out. A missing instant (``NaT``, NaN, ``NA`` or
        ``None``) has offset 0 and :data:`OPEN`.

        Other threads of Python can run in the meantime; none may write to the three. Raises
        :class:`TypeError` for items of another kind, and :class:`ValueError` where the three differ
        in length, overlap or aren't aligned.
        """
        return convert_array(self._owned, instants, offsets, flags)

    def tzinfo(self, key: Optional[str] = None) -> TimeZone:
        """Return the zone for :mod:`datetime`. ``key`` is the name that it shows, by default the
        one in the tree."""
        return TimeZone(self, key)

    def to_zoneinfo(self, key: Optional[str] = None) -> ZoneInfo:
        """Return a :class:`zoneinfo.ZoneInfo` of the same file, which is Python's own reading of
        it, for what knows no other zones, as pandas: each time the same :class:`ZoneInfo`. Needs
        Python 3.9."""
        from pzic._zoneinfo import ZoneInfo

        return ZoneInfo._of(self._data, key or self._key)


def _instant(instant: int) -> int:
    """Return an instant, if it has 64 bits."""
    instant = index(instant)
    if not c.MIN_INSTANT <= instant <= c.MAX_INSTANT:
        raise OverflowError("an instant has 64 bits with a sign")
    return instant


def _no_instant(second: int, status: int) -> Exception:
    """Return the error of a local time that has this status."""
    if status == c.OUT_OF_RANGE:
        return OverflowError("an instant has 64 bits with a sign")
    return NoInstant(second, c.REASONS[status])


def _local_second(local: Local) -> int:
    """Return a local time in seconds."""
    if isinstance(local, datetime.datetime):
        if local.tzinfo is not None:
            raise ValueError("a local time has no tzinfo")
        return (local - _EPOCH) // _SECOND
    second = index(local)
    if not c.MIN_INSTANT <= second <= c.MAX_INSTANT:
        raise OverflowError("a local time has 64 bits with a sign")
    return second


def zone_named(data: bytes, key: str, source: Optional[_Source] = None) -> Zone:
    """Return the zone of these bytes under a name. The source is how another process makes it, by
    default from the same."""
    zone = Zone(data)
    zone._key = key
    zone._source = source or (zone_named, (data, key))
    return zone


def _read(data: bytes) -> Owned:
    """Read a zone."""
    handle = c.Handle()
    reason = ctypes.c_uint32()
    if c.zone_read(data, len(data), handle, reason) == c.BAD_FILE:
        name = c.text_of(c.name_of_reason, reason.value).decode("ascii")
        footer = b"".join(data.rsplit(b"\n", 2)[1:2]) if name == "Footer" else b""
        raise BadFile(name, footer[:100].decode("ascii", "backslashreplace"))
    return Owned(handle)

"""Columns of instants with a zone for each."""

from __future__ import annotations

from typing import TYPE_CHECKING, Any, Dict, Iterable, Iterator, List, Mapping, NamedTuple, Protocol, Tuple, Union

from pzic import _calls as calls
from pzic import _library as c
from pzic._array import DAYLIGHT, OPEN, OUT_OF_RANGE, UNSPECIFIED, finish, meant, most_seconds, with_rest
from pzic._errors import NoSuchZone
from pzic._given import Given, some, take
from pzic._handle import Owned
from pzic._progress import Progress, teller

if TYPE_CHECKING:
    from pzic._zone import Zone

#: The status of a row for whose name there is no zone.
NO_ZONE = c.NO_SUCH
#: The rows that are converted at once: an interrupt waits for them.
_PIECE = 1 << 16
#: The rows that are put into groups of one name at once: an interrupt waits for these too.
_GROUPED = 1 << 18
#: The number of no file: for a zone that the library has none for.
NO_FILE = (1 << 32) - 1
#: The number of a category that no row had so far.
_NEW = NO_FILE - 1


class Columns(NamedTuple):
    """Local time in numpy arrays, one item for each row.

    ``offsets`` are UT offsets in seconds, positive east (``int32``), ``flags`` are 0,
    :data:`DAYLIGHT` or :data:`OPEN` (``uint8``), ``local`` is the date and time that is shown
    (``datetime64`` in the unit of the instants, with fractions of a second, or in seconds), and
    ``abbreviations`` are texts (``object``). ``statuses`` are 0, or why a row has no local time
    (``uint8``): :data:`UNSPECIFIED` where the file leaves it open or the instant is missing,
    :data:`NO_ZONE`, or :data:`OUT_OF_RANGE`. The others are then 0, :data:`OPEN`, ``NaT`` and an
    empty text.
    """

    offsets: Any
    flags: Any
    local: Any
    abbreviations: Any
    statuses: Any


Columns.__module__ = "pzic"


class Zones(Protocol):
    """What has zones by name, and files of them."""

    def __getitem__(self, name: str) -> Zone:
        """Return the zone of a name."""

    def _require(self, name: Any) -> object:
        """Raise :class:`NoSuchZone` if no zone has the name."""

    def _numbers(self, names: Iterable[str]) -> Tuple[Owned, Mapping[Any, int]]:
        """Return files, and the number of each name that is known so far and of these, or ``NO_FILE`` where
        the files haven't the zone's."""


def convert_columns(zones: Zones, names: Any, instants: Any, coerce: bool, progress: Progress) -> Columns:
    """Convert instants by a zone for each, as :meth:`Tree.convert_columns` tells."""
    given = take(instants, "instants")
    rows = _Rows(_Known(zones, coerce), _pair(names, given, instants), given)
    tell = teller(progress)
    count = len(rows.times)
    for start in range(0, count, _PIECE):
        end = min(start + _PIECE, count)
        rows.convert(start, end)
        tell(end - start)
    return rows.columns()


def instant_columns(
    zones: Zones, names: Any, locals: Any, ambiguous: str, coerce: bool, progress: Progress
) -> Tuple[Any, Any]:
    """Tell the instants of local times by a zone for each, as :meth:`Tree.instant_columns` tells."""
    import numpy

    given = take(locals, "local times", are_local=True)
    held = _pair(names, given, locals)
    given = given._replace(seconds=numpy.asarray(given.seconds))
    made, marks = numpy.zeros(len(given.seconds), "int64"), numpy.zeros(len(given.seconds), "uint8")
    tell = teller(progress)
    for start in range(0, len(made), _GROUPED):
        for name, group in _groups(held.names(start, min(start + _GROUPED, len(made)))):
            rows = group + start
            try:
                made[rows], marks[rows] = meant(zones[name]._owned, ambiguous, some(given, rows))
            except NoSuchZone as error:
                if not coerce:
                    raise type(error)(name, int(rows[0])) from None
                marks[rows] = NO_ZONE
            tell(len(rows))
    return finish(given, made, marks, coerce), marks


def _groups(names: List[Any]) -> Iterator[Tuple[Any, Any]]:
    """Return each name, in the order of their first places, with its places."""
    import numpy

    numbers = {name: number for number, name in enumerate(dict.fromkeys(names))}
    codes = numpy.fromiter(map(numbers.__getitem__, names), "uint16" if len(numbers) < 1 << 16 else "int64", len(names))
    ends = numpy.bincount(codes, minlength=1).cumsum()
    return zip(numbers, numpy.split(codes.argsort(kind="stable"), ends[:-1]))


class _Listed:
    """The names of rows, in a sequence or an array."""

    def __init__(self, held: Any) -> None:
        self._held = held

    def __len__(self) -> int:
        return len(self._held)

    def names(self, start: int, end: int) -> List[Any]:
        """Return the names of the rows from one to just before another."""
        held = self._held[start:end]
        return held if type(held) is list else list(held.tolist() if hasattr(held, "tolist") else held)

    def numbers(self, known: _Known, start: int, end: int) -> Tuple[Owned, Any]:
        """Return files, and the number of the file of each of these rows."""
        import numpy

        names = self.names(start, end)
        numbers = numpy.empty(len(names), "uint32")
        files, by_name = known.numbers()
        if not calls.numbers(by_name, names, numbers):
            files, by_name = known.look_up(names, start)
            if not calls.numbers(by_name, names, numbers):
                raise RuntimeError("the list of names changes")
        return files, numbers


class _Categories:
    """The names of rows, as the categories of pandas: a number of a category for each."""

    def __init__(self, held: Any) -> None:
        import numpy

        #: The last is that of the number -1.
        self._texts = [*held.categories, None]
        self._codes = numpy.asarray(held.codes)
        #: The number of the file of each category that a row had, of these files.
        self._table = numpy.full(len(self._texts), _NEW, "uint32")
        self._files: Any = None

    def __len__(self) -> int:
        return len(self._codes)

    def names(self, start: int, end: int) -> List[Any]:
        """Return the names of the rows from one to just before another."""
        return list(map(self._texts.__getitem__, self._codes[start:end].tolist()))

    def numbers(self, known: _Known, start: int, end: int) -> Tuple[Owned, Any]:
        """Return files, and the number of the file of each of these rows."""
        import numpy

        codes = self._codes[start:end]
        numbers = self._table[codes]
        if (numbers == _NEW).any():
            # All at once, so that the numbers are of the same files.
            earlier = numpy.flatnonzero(self._table != _NEW).tolist()
            names = self.names(start, end)
            self._files, by_name = known.look_up(names + [self._texts[code] for code in earlier], start)
            for code in {*earlier, *codes.tolist()}:
                self._table[code] = by_name[self._texts[code]]
            numbers = self._table[codes]
        return self._files, numbers


_Names = Union[_Listed, _Categories]


def _pair(names: Any, given: Given, times: Any) -> _Names:
    """Return the names of rows, if there are as many as times, under the same labels."""
    held = _names_of(names)
    if given.is_one or len(held) != len(given.seconds):
        raise ValueError(f"the columns differ in length: {len(held)} names and {len(given.seconds)} times")
    own: Any = getattr(names, "index", None)
    other: Any = getattr(times, "index", None)
    if hasattr(own, "equals") and hasattr(other, "equals") and not own.equals(other):
        raise ValueError("the columns have different indexes")
    return held


def _names_of(names: Any) -> _Names:
    """Return the names of rows."""
    if isinstance(names, (list, tuple)):
        return _Listed(names)
    if isinstance(names, (str, bytes)):
        raise TypeError(f"names are {type(names).__name__}: wanted is a column of texts")
    if not hasattr(names, "dtype"):
        return _Listed(list(names))
    import numpy

    if hasattr(names.dtype, "categories"):
        return _Categories(getattr(names, "cat", names))
    column = numpy.asarray(getattr(names, "values", names))
    if column.ndim != 1:
        raise TypeError(f"names have {column.ndim} dimensions: wanted is one")
    return _Listed(column)


class _Known:
    """The numbers of the files of zones, by name."""

    def __init__(self, zones: Zones, coerce: bool) -> None:
        self.zones, self.coerce = zones, coerce
        #: The names that no zone has.
        self.unknown: Dict[Any, int] = {}

    def numbers(self, names: Iterable[Any] = ()) -> Tuple[Owned, Mapping[Any, int]]:
        """Return files, and the number of each name that was met and of these, or ``NO_FILE``."""
        files, known = self.zones._numbers(names)
        return files, {**known, **self.unknown} if self.unknown else known

    def look_up(self, names: List[Any], start: int) -> Tuple[Owned, Mapping[Any, int]]:
        """Return the same, where these names are those of the rows from one on. The first that no zone has is an error,
        unless it is told by the status."""
        wanted = dict.fromkeys(names)
        _, known = self.numbers()
        for name in wanted:
            if name not in known:
                self._require(name, names, start)
        return self.numbers([name for name in wanted if name not in self.unknown])

    def _require(self, name: Any, names: List[Any], start: int) -> None:
        try:
            self.zones._require(name)
        except NoSuchZone as error:
            if not self.coerce:
                row = next(row for row, other in enumerate(names) if other is name)
                raise type(error)(name, start + row) from None
            self.unknown[name] = NO_FILE


class _Rows:
    """Local time of rows, which are converted piece by piece."""

    def __init__(self, known: _Known, names: _Names, given: Given) -> None:
        import numpy

        self._known, self._names, self._given = known, names, given
        self.times = numpy.asarray(given.seconds)
        count = len(self.times)
        self.offsets = numpy.empty(count, "int32")
        self.flags = numpy.empty(count, "uint8")
        self.local = numpy.empty(count, "int64")
        self.texts = numpy.empty(count, "object")
        self.statuses = numpy.zeros(count, "uint8")
        self._most = most_seconds(given)
        #: What may be among the rows, and whether some are open.
        self._seen, self._is_open = 0, False

    def convert(self, start: int, end: int) -> None:
        """Convert the rows from one to just before another."""
        files, numbers = self._names.numbers(self._known, start, end)
        seen = calls.rows(
            files, self._most, start, numbers, self.times, self.offsets, self.flags, self.local, self.texts
        )
        if seen & calls.LOST:
            self._write_lost((numbers == NO_FILE).nonzero()[0].tolist(), start, end)
        self._seen |= seen

    def _write_lost(self, lost: List[int], start: int, end: int) -> None:
        """Write the rows whose zones the files haven't."""
        import numpy

        names = self._names.names(start, end)
        by_name: Dict[Any, List[int]] = {}
        for row in lost:
            by_name.setdefault(names[row], []).append(start + row)
        for name, rows in by_name.items():
            if name in self._known.unknown:
                self._clear(rows, NO_ZONE)
            else:
                self._write(self._known.zones[name], numpy.array(rows))

    def _write(self, zone: Zone, rows: Any) -> None:
        """Write what a zone that isn't of the files gives at the times of some rows."""
        rows = rows[self.times[rows].argsort(kind="stable")]
        rising = self.times[rows]
        at = 0
        while at < len(rising):
            span = zone.span(int(rising[at]))
            end = int(rising.searchsorted(span.last, "right"))
            own = rows[at:end]
            if span.state is None:
                self._clear(own, UNSPECIFIED)
            else:
                self.offsets[own], self.flags[own] = span.state.offset, DAYLIGHT * span.state.daylight
                self.texts[own] = span.state.name
            at = end
        self.local[rows] = rising + self.offsets[rows]
        self._seen |= calls.FAR

    def _clear(self, rows: Any, status: int) -> None:
        """Write that some rows have no local time, and why."""
        self.offsets[rows] = 0
        self.flags[rows] = OPEN
        self.texts[rows] = ""
        self.statuses[rows] = status
        self._is_open = True

    def columns(self) -> Columns:
        """Return the columns of all rows."""
        if self._given.missing is not None:
            self._clear(self._given.missing, UNSPECIFIED)
        if self._seen & calls.FAR:
            self._refuse_far()
        local = with_rest(self._given, self.local)
        if self._is_open:
            local[self.flags == OPEN] = "NaT"
        return Columns(self.offsets, self.flags, local, self.texts, self.statuses)

    def _refuse_far(self) -> None:
        """Refuse rows whose local time has no room, or write that they have none."""
        is_over = (self.local < self.times) != (self.offsets < 0)
        far = (is_over | (self.local > self._most) | (self.local < -self._most)) & (self.flags != OPEN)
        if not far.any():
            return
        if not self._known.coerce:
            raise OverflowError(f"row {far.argmax()}: local time has 64 bits with a sign")
        self._clear(far, OUT_OF_RANGE)

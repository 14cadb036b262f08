"""Arrays of instants, and of local times."""

from __future__ import annotations

import array
from sys import byteorder
from typing import Any, List, NamedTuple, Tuple

from pzic import _calls as calls
from pzic import _library as c
from pzic._errors import NoInstant
from pzic._given import PER_SECOND, Given, take, type_of
from pzic._handle import Owned
from pzic._words import AMBIGUOUS

#: The flag of daylight saving time.
DAYLIGHT = 1
#: The flag of an instant at which the file leaves local time open, or that is missing.
OPEN = 2

#: Why no instant is meant by a local time: it is in a gap or in a fold, the file leaves local time open,
#: or the local time is within 25:59:59 of an end of 64 bits.
GAP = c.GAP
FOLD = c.FOLD
UNSPECIFIED = c.UNSPECIFIED
OUT_OF_RANGE = c.OUT_OF_RANGE

#: What the buffer protocol calls the items of a kind, and their size.
_ITEMS = {"int32": ("il", 4), "int64": ("ql", 8), "uint8": ("B", 1)}

#: How the buffer protocol marks the byte order of this machine.
_MARKS = ("", "@", "=", "<" if byteorder == "little" else ">")


class _Room(NamedTuple):
    """An array for answers: its name, its kind, and the one that was given, or ``None``."""

    name: str
    kind: str
    given: Any


def convert_array(owned: Owned, instants: Any, offsets: Any, flags: Any) -> Tuple[Any, Any]:
    """Convert instants by a zone, as :meth:`Zone.convert_array` tells."""
    given = take(instants, "instants")
    rooms = _Room("offsets", "int32", offsets), _Room("flags", "uint8", flags)
    made, marks = _tell(calls.zone_offsets, owned, given.seconds, rooms)
    if given.missing is not None:
        _write_missing(given.missing, made, marks, OPEN)
    return _answer(given, offsets, made), _answer(given, flags, marks)


def instant_array(
    owned: Owned, ambiguous: str, locals: Any, instants: Any, statuses: Any, coerce: bool
) -> Tuple[Any, Any]:
    """Tell the instants of local times by a zone, as :meth:`Zone.instant_array` tells."""
    given = take(locals, "local times", are_local=True)
    if instants is not None and given.rest is not None:
        raise ValueError("local times have fractions of a second, and the array for instants has none")
    made, marks = meant(owned, ambiguous, given, instants, statuses)
    times = finish(given if instants is None else given._replace(unit=None), made, marks, coerce)
    return _answer(given, instants, times), _answer(given, statuses, marks)


def meant(owned: Owned, ambiguous: str, given: Given, instants: Any = None, statuses: Any = None) -> Tuple[Any, Any]:
    """Return the instants of local times by a zone, and their statuses, also of missing ones."""
    rooms = _Room("instants", "int64", instants), _Room("statuses", "uint8", statuses)
    made, marks = _tell(calls.zone_instants_array, owned, given.seconds, rooms, AMBIGUOUS[ambiguous])
    if given.folded is not None:
        _write_folded(owned, ambiguous, given, made, marks)
    return made, marks


def finish(given: Given, made: Any, marks: Any, coerce: bool) -> Any:
    """Return instants as they came: seconds, or dates and times. Write which are missing, and unless they are told by
    their statuses, raise the error of the first without an instant."""
    if given.missing is not None:
        _write_missing(given.missing, made, marks, UNSPECIFIED)
    if not coerce:
        _raise_first(given, marks)
    return _times(given, made, marks) if given.unit else made


def _tell(call: calls.Ask, owned: Owned, seconds: Any, rooms: Tuple[_Room, _Room], choice: int = -1) -> Tuple[Any, Any]:
    """Return what a call tells of each time in two arrays, which are made where none is given."""
    count = len(memoryview(seconds))
    first, second = rooms
    numbers = _made(seconds, first.kind, count) if first.given is None else first.given
    marks = _made(seconds, second.kind, count) if second.given is None else second.given
    is_own = isinstance(seconds, array.array) or hasattr(seconds, "dtype")
    if not is_own or first.given is not None or second.given is not None:
        _look_at([_view(seconds, "int64", "times"), _view(numbers, first.kind, first.name), _view(marks, second.kind, second.name)])
    call(owned, choice, count, seconds, numbers, marks)
    return numbers, marks


def _answer(given: Given, room: Any, made: Any) -> Any:
    """Return an array, or the only item of one that was made."""
    return made[0] if given.is_one and room is None else made


def _times(given: Given, seconds: Any, statuses: Any) -> Any:
    """Return instants as dates and times in the unit that came."""
    import numpy

    most = most_seconds(given)
    if len(seconds) and not -most <= seconds.min() <= seconds.max() <= most:
        raise OverflowError(f"datetime64[{given.unit}] has 64 bits with a sign")
    times = with_rest(given, seconds)
    times[numpy.asarray(statuses) != 0] = "NaT"
    return times


#: The most seconds that have room in each unit, either way.
_MOST_SECONDS = {unit: (2**63 - 1) // count - 1 for unit, count in PER_SECOND.items()}


def most_seconds(given: Given) -> int:
    """Return the most seconds that have room in the unit that came, either way."""
    return _MOST_SECONDS[given.unit or "s"]


def with_rest(given: Given, seconds: Any) -> Any:
    """Return seconds as ``datetime64`` in the unit that came, with what each time was above its second."""
    unit = given.unit or "s"
    counts = seconds if unit == "s" else seconds * PER_SECOND[unit]
    if given.rest is not None:
        counts += given.rest
    return counts.view(type_of(unit))


def _write_folded(owned: Owned, ambiguous: str, given: Given, instants: Any, statuses: Any) -> None:
    """Write the instants of local times with ``fold=1``, as :meth:`Zone.instant` tells them."""
    import numpy

    if ambiguous not in ("reject", "compatible"):
        return
    rows = numpy.flatnonzero(given.folded)
    some, rooms = given.seconds[rows], (_Room("instants", "int64", None), _Room("statuses", "uint8", None))
    found, marks = _tell(calls.zone_instants_array, owned, some, rooms, AMBIGUOUS["reject"])
    for status, word in (FOLD, "later"), (GAP, "earlier"):
        again = numpy.flatnonzero(marks == status)
        if len(again) and (status == FOLD or ambiguous == "compatible"):
            found[again], marks[again] = _tell(calls.zone_instants_array, owned, some[again], rooms, AMBIGUOUS[word])
    numpy.asarray(instants)[rows] = found
    numpy.asarray(statuses)[rows] = marks


def _raise_first(given: Given, statuses: Any) -> None:
    """Raise the error of the first local time without an instant that isn't missing."""
    marks = bytearray(statuses)
    if given.missing is not None:
        import numpy

        numpy.asarray(marks)[given.missing] = 0
    row = len(marks) - len(marks.lstrip(b"\0"))
    if row == len(marks):
        return
    if marks[row] == OUT_OF_RANGE:
        raise OverflowError(f"row {row}: an instant has 64 bits with a sign")
    raise NoInstant(int(memoryview(given.seconds)[row]), c.REASONS[marks[row]], row)


def _made(seconds: Any, kind: str, count: int) -> Any:
    """Return an array for answers: numpy's for one of numpy, and else what Python itself has."""
    if hasattr(seconds, "dtype"):
        import numpy

        return numpy.empty(count, kind)
    if kind == "uint8":
        return bytearray(count)
    return array.array("i", bytes(4 * count)) if kind == "int32" else array.array("q", bytes(8 * count))


def _write_missing(missing: Any, made: Any, marks: Any, mark: int) -> None:
    """Write the results for times that are missing."""
    import numpy

    numpy.asarray(made)[missing] = 0
    numpy.asarray(marks)[missing] = mark


def _view(values: Any, kind: str, name: str) -> memoryview:
    """Return a view of a buffer, once its items are of a kind."""
    codes, size = _ITEMS[kind]
    try:
        view = memoryview(values)
        is_one = view.itemsize == size and view.format in [mark + code for mark in _MARKS for code in codes]
        if is_one and view.ndim == 1 and view.c_contiguous:
            return view
        came = f"items {view.format!r} of {view.itemsize} bytes"
    except (TypeError, ValueError):
        came = str(getattr(values, "dtype", type(values).__name__))
    raise TypeError(f"{name} are {came}: wanted are those of {kind}, one after another")


def _look_at(views: List[memoryview]) -> None:
    """Refuse buffers that aren't as long as the first, aligned and apart, or that can't be written to but for the
    first."""
    if any(view.readonly for view in views[1:]):
        raise TypeError("the buffer can't be written to")
    if any(len(view) != len(views[0]) for view in views):
        raise ValueError("the arrays differ in length")
    places = [calls.address(view) for view in views]
    if any(view.nbytes and place % view.itemsize for place, view in zip(places, views)):
        raise ValueError("the arrays aren't aligned")
    ends = [place + view.nbytes for place, view in zip(places, views)]
    extents = sorted((place, end) for place, end in zip(places, ends) if place < end)
    if any(end > begin for (_, end), (begin, _) in zip(extents, extents[1:])):
        raise ValueError("the arrays overlap")

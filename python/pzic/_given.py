"""What array calls are given: instants or local times of many types."""

from __future__ import annotations

import array
import datetime
from functools import lru_cache
from operator import index
from typing import Any, List, NamedTuple, Optional

_WANTED = "wanted are integers, floats of whole seconds, datetime64 or datetimes"
_EPOCH = datetime.datetime(1970, 1, 1)
_MICROSECOND = datetime.timedelta(microseconds=1)
#: How many of a unit are a second, of those that are shorter.
PER_SECOND = {"s": 1, "ms": 10**3, "us": 10**6, "ns": 10**9, "ps": 10**12, "fs": 10**15, "as": 10**18}
#: The codes of integers in the buffer protocol.
_INTEGERS = "bBhHiIlLqQ"


class Given(NamedTuple):
    """Times that were given, in whole seconds."""

    #: What has the buffer protocol with items of 8 bytes with a sign, one after another.
    seconds: Any
    #: Which are missing, or ``None`` where none is. Their seconds are 0.
    missing: Any = None
    #: The unit of what has been given as dates and times, and is no longer than a second.
    unit: Optional[str] = None
    #: What each time is above its second, in this unit, or ``None`` where that is nothing.
    rest: Any = None
    #: Which datetimes have ``fold=1``, or ``None`` where none has.
    folded: Any = None
    #: Whether it is a single time.
    is_one: bool = False


def some(given: Given, rows: Any) -> Given:
    """Return the times of some rows, missing ones as 0."""
    folded = None if given.folded is None else given.folded[rows]
    return Given(given.seconds[rows], folded=folded if folded is not None and folded.any() else None)


def take(values: Any, what: str, are_local: bool = False) -> Given:
    """Return times in seconds. Local times have no time zone."""
    kind = getattr(values, "dtype", None)
    if kind is None:
        made = _without_numpy(values, what)
        if made is not None:
            return made
    try:
        import numpy
    except ImportError:
        raise TypeError(f"{what} are a {type(values).__name__}: without numpy, wanted are integers") from None
    if type(values) is numpy.ndarray and kind == "=i8" and values.ndim == 1:
        if values.flags.c_contiguous and values.flags.aligned:
            return Given(values)
    return _by_numpy(values, what, are_local)


def _without_numpy(values: Any, what: str) -> Optional[Given]:
    """Return integers of a sequence or a buffer as they are in Python, or ``None`` where numpy is needed."""
    if values is None or isinstance(values, (str, bytes, bytearray)):
        raise _refused(what, type(values).__name__)
    try:
        if isinstance(values, (list, tuple, range)):
            return Given(array.array("q", values))
        view = memoryview(values)
    except TypeError:
        return None
    code = view.format.lstrip("@=")
    if view.ndim != 1 or len(code) != 1 or code not in _INTEGERS:
        return None
    if view.itemsize == 8 and code in "ql" and view.c_contiguous:
        return Given(values)
    return Given(array.array("q", view.tolist()))


def _refused(what: str, came: Any) -> TypeError:
    return TypeError(f"{what} are {came}: {_WANTED}")


def _by_numpy(values: Any, what: str, are_local: bool) -> Given:
    """Return what numpy or pandas has, or makes of a sequence."""
    import numpy

    kind = getattr(values, "dtype", None)
    missing = None
    if getattr(kind, "tz", None) is not None:
        if are_local:
            raise ValueError("a local time has no time zone")
        # pandas gives UT where it is asked for numpy's times.
        values = values.to_numpy(f"datetime64[{getattr(kind, 'unit', 'ns')}]")
    elif kind is not None and not isinstance(kind, numpy.dtype) and kind.kind in "iuf":
        missing = numpy.asarray(values.isna())
        values = values.to_numpy({"i": "int64", "u": "uint64", "f": "float64"}[kind.kind], na_value=0)
    # What pandas holds in an array of numpy's is quicker to have from it.
    made = numpy.asarray(values if kind is None else getattr(values, "values", values))
    if made.ndim > 1:
        raise TypeError(f"{what} have {made.ndim} dimensions: wanted is one")
    given = _of_kind(made if made.ndim else made.reshape(1), what, are_local)
    if missing is not None and missing.any():
        given = given._replace(missing=missing if given.missing is None else missing | given.missing)
    return given if made.ndim else given._replace(is_one=True)


def _of_kind(values: Any, what: str, are_local: bool) -> Given:
    """Return the times of a numpy array."""
    import numpy

    kind = values.dtype.kind
    if kind in "iu":
        if kind == "u" and len(values) and int(values.max()) >= 2**63:
            raise OverflowError(f"{what} have 64 bits with a sign")
        return Given(numpy.require(values, "int64", ["C", "A"]))
    if kind == "f":
        return _of_floats(values, what)
    if kind == "M":
        return _of_times(values, what)
    if kind == "O":
        return _of_objects(values.tolist(), what, are_local)
    raise _refused(what, values.dtype)


def _of_floats(values: Any, what: str) -> Given:
    import numpy

    missing = numpy.isnan(values)
    whole = numpy.where(missing, 0, values)
    odd = numpy.flatnonzero(whole != numpy.floor(whole))
    if len(odd):
        raise ValueError(f"row {odd[0]}: {values[odd[0]]} isn't a whole second")
    if len(whole) and not -(2.0**63) <= whole.min() <= whole.max() < 2.0**63:
        raise OverflowError(f"{what} have 64 bits with a sign")
    return Given(whole.astype("int64"), missing if missing.any() else None)


def _of_times(values: Any, what: str) -> Given:
    """Return the times of a numpy array of ``datetime64``."""
    import numpy

    unit = _unit_of(values.dtype)
    times = numpy.ascontiguousarray(values, type_of(unit))
    missing = numpy.isnat(times)
    some = missing if numpy.count_nonzero(missing) else None
    if times is not values and times.dtype != values.dtype and (times.astype(values.dtype) != values)[~missing].any():
        raise OverflowError(f"{what} have 64 bits with a sign")
    counts = times.view(numpy.int64)
    if some is not None:
        counts = numpy.where(missing, 0, counts)
    if unit == "s":
        return Given(counts, some, unit)
    seconds, rest = numpy.divmod(counts, PER_SECOND[unit])
    return Given(seconds, some, unit, rest if numpy.count_nonzero(rest) else None)


@lru_cache(maxsize=64)
def _unit_of(kind: Any) -> str:
    """Return the unit in which times of a type of numpy are read."""
    import numpy

    unit: str = numpy.datetime_data(kind)[0]
    return unit if unit in PER_SECOND else "s"


@lru_cache(maxsize=16)
def type_of(unit: str) -> Any:
    """Return numpy's type of times in a unit."""
    import numpy

    return numpy.dtype(f"datetime64[{unit}]")


def is_missing(value: Any) -> bool:
    """Return whether an object stands for nothing, as ``None``, NaN, ``NaT`` and ``NA`` do."""
    name = type(value).__name__
    return value is None or name == "NAType" or name in ("float", "float64", "NaTType", "datetime64") and value != value


def _of_objects(values: List[Any], what: str, are_local: bool) -> Given:
    """Return the times of integers, or of datetimes."""
    import numpy

    missing = numpy.array([is_missing(value) for value in values], bool)
    there = [value for value in values if not is_missing(value)]
    if there and isinstance(there[0], (datetime.datetime, numpy.datetime64)):
        return _of_datetimes(values, missing, what, are_local)
    try:
        seconds = [0 if lost else index(value) for value, lost in zip(values, missing)]
    except TypeError:
        odd = next(value for value in there if not hasattr(value, "__index__"))
        raise _refused(what, f"objects, one a {type(odd).__name__}") from None
    return Given(numpy.array(seconds, "int64"), missing if missing.any() else None)


def _of_datetimes(values: List[Any], missing: Any, what: str, are_local: bool) -> Given:
    import numpy

    counts = [0 if lost else _nanoseconds(value, what, are_local) for value, lost in zip(values, missing)]
    unit, step = ("us", 1000) if all(count % 1000 == 0 for count in counts) else ("ns", 1)
    times = numpy.array([count // step for count in counts], "int64").view(f"datetime64[{unit}]")
    times[missing] = "NaT"
    folded = numpy.array([getattr(value, "fold", 0) == 1 for value in values], bool)
    return _of_times(times, what)._replace(folded=folded if folded.any() else None)


def _nanoseconds(value: Any, what: str, are_local: bool) -> int:
    """Return the nanoseconds from 1970 of a datetime, which is UT if it has no time zone."""
    if hasattr(value, "astype"):
        import numpy

        # An item of numpy.
        is_fine = numpy.datetime_data(value.dtype)[0] == "ns"
        value = value.astype("datetime64[ns]" if is_fine else "datetime64[us]").item()
        if isinstance(value, int):
            return value if is_fine else 1000 * value
    if not isinstance(value, datetime.datetime):
        raise _refused(what, f"objects, one a {type(value).__name__}")
    if value.tzinfo is not None:
        if are_local:
            raise ValueError("a local time has no time zone")
        value = value.astimezone(datetime.timezone.utc).replace(tzinfo=None)
    return (value - _EPOCH) // _MICROSECOND * 1000 + getattr(value, "nanosecond", 0)

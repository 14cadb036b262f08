"""The calls of zones that are made often.

Each function has a form in C with the same answers, of ``_fast.c``, which is taken as the classes of
:mod:`pzic._cache` are.
"""

from __future__ import annotations

import array
import ctypes
import os
from functools import partial
from sys import intern
from types import SimpleNamespace
from typing import TYPE_CHECKING, Any, Callable, List, Mapping, Optional, Tuple

from pzic import _library as c
from pzic._handle import Owned

#: The most items that a call is given at once: an interrupt waits for one call.
PIECE = 1 << 17

#: What may be among rows: one whose zone has no file, and one whose local time is too far from 1970.
LOST, FAR = 1, 2
#: The flag of a row whose zone has no file.
_NO_ZONE = 4
#: More than any UT offset, in seconds.
_FARTHEST = 26 * 3600
#: The rows from which on a table of 65,536 numbers is quicker than a look at each.
_MANY = 1 << 13

#: What a zone tells of a local time: the number of its instants, the first and the last, the change that passes over
#: it, and the UT offsets before and after that.
LocalTime = Tuple[int, int, int, int, int, int]


def _change(call: Any, owned: Owned, instant: int) -> Optional[int]:
    """Return the change that a call tells, or ``None``."""
    change = ctypes.c_int64()
    status = call(owned.lend(), instant, change)
    return change.value if status == c.OK else None


def _local_time(call: Any, owned: Owned, local: int) -> Optional[LocalTime]:
    """Return what a call tells of a local time, or ``None`` near an end of 64 bits."""
    found = c.CLocalTime()
    if call(owned.lend(), local, found) == c.OUT_OF_RANGE:
        return None
    return found.count, found.first, found.last, found.change, found.before, found.after


def _meant(call: Any, owned: Owned, choice: int, local: int) -> Tuple[int, int]:
    """Return the instant of a local time, and its status."""
    local_time, instant, status = ctypes.c_int64(local), ctypes.c_int64(), ctypes.c_uint8()
    arrays = (word for one in (local_time, instant, status) for word in (ctypes.addressof(one), 1))
    call(owned.lend(), choice, *arrays)
    return instant.value, status.value


def _ask(call: Any, owned: Owned, choice: int, count: int, *arrays: Any) -> None:
    """Have a call read and write arrays, in pieces. A choice below 0 is none."""
    words = (choice,) if choice >= 0 else ()
    places = [(address(made), memoryview(made).nbytes // count) for made in arrays] if count else []
    for start in range(0, count, PIECE):
        length = min(PIECE, count - start)
        given = [word for place, size in places for word in (place + start * size, length)]
        call(owned.lend(), *words, *given)


def _numbers(known: Mapping[Any, int], names: List[Any], numbers: Any) -> bool:
    """Write the number of each name. Return whether all are known."""
    import numpy

    try:
        numbers[:] = numpy.fromiter(map(known.__getitem__, names), "uint32", len(names))
    except KeyError:
        return False
    return True


def _rows(
    offsets_call: Any,
    abbreviations_call: Any,
    owned: Owned,
    most: int,
    start: int,
    numbers: Any,
    *arrays: Any,
) -> int:
    """Write local time of rows from one on, by the number of a file for each: of times, their offsets, flags, local
    seconds and texts. Return what may be among them: ``LOST`` and ``FAR``, more seconds from 1970 than ``most``."""
    import numpy

    count = len(numbers)
    times, offsets, flags, local, texts = (made[start : start + count] for made in arrays)
    found = numpy.empty(count, "S16")
    _ask(offsets_call, owned, -1, count, numbers, times, offsets, flags)
    _ask(abbreviations_call, owned, -1, count, numbers, times, found)
    local[:] = times + offsets
    texts[:] = _texts(found)
    near = most - _FARTHEST
    is_near = not count or -near <= times.min() <= times.max() <= near
    return (0 if is_near else FAR) | (LOST if (flags == _NO_ZONE).any() else 0)


def _texts(found: Any) -> Any:
    """Return abbreviations as texts, one object for all that are the same."""
    import numpy

    if len(found) < _MANY:
        return _texts_of(found)
    # The number of an abbreviation is a hash of 16 bits. Of each number one row is known.
    halves, odd = found.view("uint64").reshape(-1, 2), numpy.uint64(0x9E3779B97F4A7C15)
    numbers = ((halves[:, 0] + halves[:, 1] * odd) * odd >> numpy.uint64(48)).astype("intp")
    row = numpy.zeros(1 << 16, "intp")
    row[numbers] = numpy.arange(len(numbers))
    if (found[row[numbers]] != found).any():
        # Two have the same number.
        return _texts_of(found)
    used = numpy.flatnonzero(numpy.bincount(numbers))
    texts = numpy.empty(1 << 16, "object")
    texts[used] = _texts_of(found[row[used]])
    return texts[numbers]


def _texts_of(found: Any) -> List[str]:
    """Return the text of each abbreviation."""
    names = found.tolist()
    known = {name: intern(name.decode("ascii")) for name in set(names)}
    return list(map(known.__getitem__, names))


class _PyBuffer(ctypes.Structure):
    _fields_ = (
        ("buf", ctypes.c_void_p),
        ("obj", ctypes.py_object),
        ("len", ctypes.c_ssize_t),
        ("itemsize", ctypes.c_ssize_t),
        ("readonly", ctypes.c_int),
        ("ndim", ctypes.c_int),
        ("format", ctypes.c_char_p),
        ("shape", ctypes.c_void_p),
        ("strides", ctypes.c_void_p),
        ("suboffsets", ctypes.c_void_p),
        ("internal", ctypes.c_void_p),
    )


_get_buffer = ctypes.pythonapi.PyObject_GetBuffer
_get_buffer.argtypes = (ctypes.py_object, ctypes.POINTER(_PyBuffer), ctypes.c_int)
_release = ctypes.pythonapi.PyBuffer_Release
_release.argtypes = (ctypes.POINTER(_PyBuffer),)
_release.restype = None


def address(buffer: Any) -> int:
    """Return where a buffer lies."""
    if hasattr(buffer, "__array_interface__"):
        return int(buffer.__array_interface__["data"][0])
    if isinstance(buffer, array.array):
        return buffer.buffer_info()[0]
    raw = _PyBuffer()
    _get_buffer(buffer, raw, 0)
    at: int = raw.buf or 0
    _release(raw)
    return at


forms: Any = SimpleNamespace(
    change=_change, local_time=_local_time, meant=_meant, ask=_ask, numbers=_numbers, rows=_rows
)
if not TYPE_CHECKING and not os.environ.get("PZIC_PURE_PYTHON"):
    try:
        from pzic import _fast as forms
    except ImportError:
        pass


def _form(form: str, *made: Any) -> Any:
    """Return a function that makes calls of the library. The part in C has their addresses."""
    is_pure = isinstance(forms, SimpleNamespace)
    return partial(getattr(forms, form), *(call if is_pure else ctypes.cast(call, ctypes.c_void_p).value for call in made))


#: The next and the previous change of a zone, what it tells of a local time, and the instant that is meant.
next_change: Callable[[Owned, int], Optional[int]] = _form("change", c.zone_next_change)
previous_change: Callable[[Owned, int], Optional[int]] = _form("change", c.zone_previous_change)
local_time: Callable[[Owned, int], Optional[LocalTime]] = _form("local_time", c.zone_instants)
meant: Callable[[Owned, int, int], Tuple[int, int]] = _form("meant", c.zone_instants_array)

#: The calls of arrays are given who owns the handle, the number of a choice or -1, the number of items, and the arrays.
Ask = Callable[..., None]
zone_offsets: Ask = _form("ask", c.zone_offsets)
zone_instants_array: Ask = _form("ask", c.zone_instants_array)

#: Names are given their numbers, and rows local time.
numbers: Callable[[Mapping[Any, int], List[Any], Any], bool] = forms.numbers
rows: Callable[..., int] = _form("rows", c.files_offsets, c.files_abbreviations)

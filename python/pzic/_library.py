"""The calls of the library, as the end of ``pzic.h`` declares them: what the library exports."""

from __future__ import annotations

import ctypes
import os
from typing import Any, Tuple

#: The least and the greatest instant.
MIN_INSTANT = -(2**63)
MAX_INSTANT = 2**63 - 1

OK, UNSPECIFIED, NO_MEMORY, BAD_FILE, NO_HANDLE, LENGTHS, BAD_SOURCE, NO_SUCH, BAD_ROW = range(9)
OUT_OF_RANGE, GAP, FOLD = range(9, 12)
BAD_NAME, UNFIT, TAKEN = range(13, 16)

#: Why no instant is meant by a local time, by the status.
REASONS = {GAP: "Gap", FOLD: "Fold", UNSPECIFIED: "Unspecified"}

#: The shared library whose calls are these.
_NAME = "libpzic.so.0"


class Handle(ctypes.Structure):
    """``pzic_handle``: what the library holds for a caller."""

    _fields_ = (("at", ctypes.c_void_p), ("kind", ctypes.c_uint32))


class CState(ctypes.Structure):
    """``pzic_state``: local time at an instant."""

    _fields_ = (
        ("offset", ctypes.c_int32),
        ("daylight", ctypes.c_uint32),
        ("name_length", ctypes.c_size_t),
        ("name", ctypes.c_char * 17),
    )


class CLocalTime(ctypes.Structure):
    """``pzic_local_time``: what a zone tells of a local time."""

    _fields_ = (
        ("first", ctypes.c_int64),
        ("last", ctypes.c_int64),
        ("change", ctypes.c_int64),
        ("before", ctypes.c_int32),
        ("after", ctypes.c_int32),
        ("count", ctypes.c_uint32),
    )


class CSchedule(ctypes.Structure):
    """``pzic_schedule``: a time of day on days of the week, and the time in which it is looked for."""

    _fields_ = (
        ("after", ctypes.c_int64),
        ("until", ctypes.c_int64),
        ("seconds", ctypes.c_uint32),
        ("weekdays", ctypes.c_uint32),
        ("policy", ctypes.c_uint32),
    )


class CFault(ctypes.Structure):
    """``pzic_fault``: the first fault of a source."""

    _fields_ = (("text", ctypes.c_uint64), ("line", ctypes.c_uint64), ("kind", ctypes.c_uint32))


class CRowFault(ctypes.Structure):
    """``pzic_row_fault``: the first row that has a fault."""

    _fields_ = (("row", ctypes.c_uint64), ("kind", ctypes.c_uint32))


class CLayout(ctypes.Structure):
    """``pzic_layout``: how a column is read, and what its rows are."""

    _fields_ = (
        ("zone", ctypes.c_size_t),
        ("time", ctypes.c_size_t),
        ("fields", ctypes.c_size_t),
        ("more_fields", ctypes.c_uint32),
        ("source", ctypes.c_uint32),
        ("unit", ctypes.c_uint32),
        ("delimiter", ctypes.c_uint32),
        ("records", ctypes.c_uint32),
        ("header", ctypes.c_uint32),
        ("start", ctypes.c_uint32),
        ("at_fault", ctypes.c_uint32),
        ("style", ctypes.c_uint32),
        ("quotes", ctypes.c_uint32),
        ("max_record", ctypes.c_uint64),
    )


class CRowLayout(ctypes.Structure):
    """``pzic_row_layout``: the same with more that rows may have."""

    _fields_ = (
        ("column", CLayout),
        ("empty", ctypes.c_uint32),
        ("line_end", ctypes.c_uint32),
        ("reserved", ctypes.c_uint32 * 6),
        ("only", ctypes.c_uint8 * 8),
        ("prefix", ctypes.c_char * 65),
    )


class CDiffOptions(ctypes.Structure):
    """``pzic_diff_options``: what is listed of two lists of files."""

    _fields_ = (
        ("first", ctypes.c_int64),
        ("last", ctypes.c_int64),
        ("present", ctypes.c_int64),
        ("listed", ctypes.c_uint32),
        ("ignore_daylight", ctypes.c_uint32),
        ("ignore_abbreviation", ctypes.c_uint32),
    )


def _path() -> str:
    """Return the path that ``PZIC_LIBRARY`` names, or that of the library in the package, or the
    name that the system's loader looks for."""
    named = os.environ.get("PZIC_LIBRARY")
    if named:
        return named
    own = os.path.join(os.path.dirname(os.path.abspath(__file__)), _NAME)
    return own if os.path.exists(own) else _NAME


try:
    #: A call through this one keeps Python's lock: it is short.
    short = ctypes.PyDLL(_path())
    #: A call through this one lets other threads of Python run meanwhile.
    long = ctypes.CDLL(_path())
except OSError as error:
    raise ImportError(f"{error}: the variable PZIC_LIBRARY may name the library") from error


def _look(status: int, call: Any, words: Tuple[Any, ...]) -> int:
    """Raise the error of a status that says nothing of what a call was given; return any other."""
    if status == NO_MEMORY:
        raise MemoryError
    if status in (NO_HANDLE, LENGTHS):
        raise RuntimeError(f"{call.__name__} answers {status}")
    return status


def declare(library: Any, name: str, *words: Any) -> Any:
    """Return a call whose every status is looked at."""
    call = getattr(library, name)
    call.argtypes = words
    call.errcheck = _look
    return call


_SIZE = ctypes.c_size_t
_COUNT = ctypes.POINTER(_SIZE)
_HANDLE = ctypes.POINTER(Handle)
_INSTANT = ctypes.POINTER(ctypes.c_int64)
_TEXT = (ctypes.c_char_p, _SIZE)
_ROOM = (ctypes.c_char_p, _SIZE, _COUNT)
_ARRAY = (ctypes.c_void_p, _SIZE)

zone_read = declare(short, "pzic_raw_zone_read", *_TEXT, _HANDLE, ctypes.POINTER(ctypes.c_uint32))
zone_span = declare(
    short, "pzic_raw_zone_span", _HANDLE, ctypes.c_int64, ctypes.POINTER(CState), _INSTANT, _INSTANT
)
zone_next_change = declare(short, "pzic_raw_zone_next_change", _HANDLE, ctypes.c_int64, _INSTANT)
zone_previous_change = declare(
    short, "pzic_raw_zone_previous_change", _HANDLE, ctypes.c_int64, _INSTANT
)
zone_changes = declare(
    short, "pzic_raw_zone_changes", _HANDLE, ctypes.c_int64, ctypes.c_int64, _INSTANT, _SIZE, _COUNT
)
zone_offsets = declare(long, "pzic_raw_zone_offsets", _HANDLE, *_ARRAY, *_ARRAY, *_ARRAY)
zone_instants = declare(
    short, "pzic_raw_zone_instants", _HANDLE, ctypes.c_int64, ctypes.POINTER(CLocalTime)
)
zone_instants_array = declare(
    long, "pzic_raw_zone_instants_array", _HANDLE, ctypes.c_uint32, *_ARRAY, *_ARRAY, *_ARRAY
)
zone_next_local = declare(short, "pzic_raw_zone_next_local", _HANDLE, ctypes.POINTER(CSchedule), _INSTANT)
zone_next_locals = declare(
    short, "pzic_raw_zone_next_locals", _HANDLE, ctypes.POINTER(CSchedule), _INSTANT, _SIZE, _COUNT
)
compile_texts = declare(
    long, "pzic_raw_compile", *_TEXT, _COUNT, _SIZE, _HANDLE, ctypes.POINTER(CFault)
)
files_of = declare(long, "pzic_raw_files_of", *_TEXT, _COUNT, _SIZE, *_TEXT, _HANDLE)
files_len = declare(short, "pzic_raw_files_len", _HANDLE, _COUNT)
files_find = declare(short, "pzic_raw_files_find", _HANDLE, *_TEXT, _COUNT)
files_name = declare(short, "pzic_raw_files_name", _HANDLE, _SIZE, *_ROOM)
files_bytes = declare(short, "pzic_raw_files_bytes", _HANDLE, _SIZE, *_ROOM)
files_offsets = declare(long, "pzic_raw_files_offsets", _HANDLE, *_ARRAY, *_ARRAY, *_ARRAY, *_ARRAY)
files_abbreviations = declare(
    long, "pzic_raw_files_abbreviations", _HANDLE, *_ARRAY, *_ARRAY, *_ARRAY
)
rows = declare(long, "pzic_raw_rows", _HANDLE, *_TEXT, _HANDLE, ctypes.POINTER(CRowFault))
rows_text = declare(long, "pzic_raw_rows_text", _HANDLE, *_ROOM)
rows_with = declare(
    long, "pzic_raw_rows_with", _HANDLE, ctypes.POINTER(CRowLayout), *_TEXT, *_TEXT, _HANDLE
)
rows_len = declare(short, "pzic_raw_rows_len", _HANDLE, ctypes.POINTER(ctypes.c_uint64))
rows_faults = declare(
    long, "pzic_raw_rows_faults", _HANDLE, ctypes.POINTER(CRowFault), _SIZE, _COUNT
)
files_diff = declare(
    long, "pzic_raw_files_diff", _HANDLE, _HANDLE, ctypes.POINTER(CDiffOptions), _HANDLE
)
name_of_fault = declare(short, "pzic_raw_name_of_fault", ctypes.c_uint32, *_ROOM)
name_of_reason = declare(short, "pzic_raw_name_of_reason", ctypes.c_uint32, *_ROOM)
release = short.pzic_raw_free
release.argtypes = (_HANDLE,)
release.restype = None


def require_ok(status: int) -> None:
    """Raise an error unless a call did what it is for."""
    if status != OK:
        raise RuntimeError(f"libpzic answers {status}")


def text_of(call: Any, *words: Any) -> bytes:
    """Return what a call copies, at its whole length. ``words`` come before the room."""
    length = ctypes.c_size_t()
    require_ok(call(*words, ctypes.create_string_buffer(1), 0, length))
    room = ctypes.create_string_buffer(max(1, length.value))
    require_ok(call(*words, room, length.value, length))
    return room.raw[: length.value]

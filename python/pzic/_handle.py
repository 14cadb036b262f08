"""Handles with one owner."""

from __future__ import annotations

import weakref
from typing import NoReturn

from pzic import _library as c


class Owned:
    """A zone, files or rows of the library, which are freed with this object.

    It owns the only handle of these. Whoever holds the object may read, in any thread, and nothing
    copies it.
    """

    __slots__ = ("_at", "_kind", "__weakref__")

    def __init__(self, handle: c.Handle) -> None:
        self._at = handle.at
        self._kind = handle.kind
        # At the end of the process other threads may still read: the system frees what is left.
        weakref.finalize(self, _free, self._at, self._kind).atexit = False

    def lend(self) -> c.Handle:
        """Return a handle for reading calls of one thread, while the caller holds this object.

        A reading call writes to its handle, and leaves it and what it reads as they were. So calls with
        handles of their own may read the same at once.
        """
        return c.Handle(self._at, self._kind)

    def __reduce__(self) -> NoReturn:
        raise TypeError("a handle has one owner")


def _free(at: int, kind: int) -> None:
    c.release(c.Handle(at, kind))


def bytes_of(data: object) -> bytes:
    """Return the bytes of an object that has some, such as a ``bytearray``."""
    return data if type(data) is bytes else memoryview(data).tobytes()  # type: ignore[arg-type]

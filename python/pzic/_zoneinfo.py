"""Zones for what knows Python's own class of zones alone, as pandas."""

from __future__ import annotations

import io
import os
import sys
import threading
import weakref
from datetime import tzinfo
from typing import TYPE_CHECKING, Any, Dict, Iterable, Iterator, Optional, Tuple, Type, TypeVar

from pzic._errors import BadName, NoSuchZone

if sys.version_info >= (3, 9):
    import zoneinfo
    from zoneinfo import ZoneInfo as _Base, ZoneInfoNotFoundError

    def _tzpath() -> Iterable[str]:
        return zoneinfo.TZPATH

else:
    ZoneInfoNotFoundError = NoSuchZone

    def _tzpath() -> Iterable[str]:
        raise ImportError("zoneinfo comes with Python 3.9")

    class _Base(tzinfo):
        """Stands for the class that Python 3.8 hasn't."""

        key: Optional[str]

        @classmethod
        def from_file(cls, fobj: Any, /, key: Optional[str] = None) -> Any:
            return _tzpath()


if TYPE_CHECKING:
    from pzic._tree import Tree

_Self = TypeVar("_Self", bound="ZoneInfo")
_Key = Tuple[Type["ZoneInfo"], bytes, Optional[str]]

#: All that are in use, by class, bytes of the file, and name.
_all: weakref.WeakValueDictionary[_Key, Any] = weakref.WeakValueDictionary()
_all_lock = threading.RLock()
#: The folders in which names were looked up.
_trees: Dict[str, Tree] = {}


class ZoneInfo(_Base):
    """A :class:`zoneinfo.ZoneInfo` for what knows no other zones, as pandas.

    It is Python's own reading of the file. Of each class, one object has the same bytes of a file and
    the same name, so columns of one zone have one type, whichever tree the zone is of, also once they
    were copied or pickled. A pickle has the bytes of the file.

    ``ZoneInfo(key)`` is the zone of this name in the folders of ``zoneinfo.TZPATH`` or in the package
    ``tzdata``, and :meth:`Tree.zoneinfo` that of a tree. Needs Python 3.9.
    """

    __module__ = "pzic"

    _data: bytes

    def __new__(cls: Type[_Self], key: str) -> _Self:
        return cls._of(_data_of(key), key)

    @classmethod
    def _of(cls: Type[_Self], data: bytes, key: Optional[str]) -> _Self:
        """Return the one object of these bytes and this name."""
        with _all_lock:
            made: Optional[_Self] = _all.get((cls, data, key))
            if made is None:
                made = super().from_file(io.BytesIO(data), key=key)
                made._data = data
                _all[cls, data, key] = made
        return made

    @classmethod
    def from_file(cls: Type[_Self], fobj: Any, /, key: Optional[str] = None) -> _Self:
        """Return the zone of the bytes of a file."""
        return cls._of(fobj.read(), key)

    @classmethod
    def no_cache(cls: Type[_Self], key: str) -> _Self:
        """Return the zone of a name by the file that is there now. It is the same object if the bytes are
        the same."""
        cls.clear_cache()
        return cls(key)

    @classmethod
    def clear_cache(cls, *, only_keys: Optional[Iterable[str]] = None) -> None:
        """Read the file of each name anew when it is wanted the next time."""
        _trees.clear()

    @property
    def data(self) -> bytes:
        """The bytes of the file."""
        return self._data

    def __repr__(self) -> str:
        name = f"{type(self).__module__}.{type(self).__qualname__}"
        return f"<{name} of {len(self._data)} bytes>" if self.key is None else f"{name}(key={self.key!r})"

    def __str__(self) -> str:
        return repr(self) if self.key is None else self.key

    def __reduce__(self) -> Tuple[Any, ...]:
        return zoneinfo_of, (type(self), self._data, self.key)


def zoneinfo_of(kind: Type[_Self], data: bytes, key: Optional[str]) -> _Self:
    """Return the object of a class, of the bytes of a file, and a name."""
    return kind._of(data, key)


def _folders() -> Iterator[str]:
    """Yield the folders in which Python looks for zones."""
    yield from _tzpath()
    import importlib.util

    package = importlib.util.find_spec("tzdata")
    for folder in (package and package.submodule_search_locations) or ():
        yield os.path.join(folder, "zoneinfo")


def _data_of(key: str) -> bytes:
    """Return the bytes of the first file of a name in these folders."""
    from pzic._tree import Tree

    for folder in filter(os.path.isdir, _folders()):
        if folder not in _trees:
            _trees[folder] = Tree(folder)
        try:
            return _trees[folder].data(key)
        except BadName:
            raise
        except NoSuchZone:
            pass
    raise ZoneInfoNotFoundError(f"no zone has the name {key!r}")

"""Trees of zones."""

from __future__ import annotations

import ctypes
import errno
import hashlib
import os
import pickle
import stat
from functools import lru_cache
from types import MappingProxyType
from typing import TYPE_CHECKING, Any, Dict, Iterable, Iterator, List, Mapping, Optional, Sequence, Tuple, Type, TypeVar, Union

from pzic import _library as c
from pzic._columns import NO_FILE, Columns, convert_columns, instant_columns
from pzic._diff import DiffOptions, diff
from pzic._errors import BadFile, BadName, BadSource, NoSuchZone
from pzic._handle import Owned, bytes_of
from pzic._progress import Progress
from pzic._rows import Layout, Rows, fault_name, rows_by, takes_words_of, text_by, text_of_column, words_of_rows
from pzic._timezone import TimeZone
from pzic._words import AMBIGUOUS, ERRORS, Ambiguous, Errors, Part, number_of
from pzic._zone import Zone, zone_named

if TYPE_CHECKING:
    from pzic._zoneinfo import ZoneInfo

_Path = Union[str, "os.PathLike[str]"]
_Self = TypeVar("_Self", bound="_InMemory")

#: The most bytes of a file of a zone.
_MOST_BYTES = 1 << 20
#: Why a file cannot be opened that isn't there, or isn't one.
_NOT_THERE = (errno.ENOENT, errno.ENOTDIR, errno.ENAMETOOLONG, errno.ELOOP, errno.ENXIO)


class _Zones(Mapping[str, Zone]):
    """Zones by name, each made when it is first looked up."""

    def __init__(self) -> None:
        self._zones: Dict[str, Zone] = {}
        self._tzinfos: Dict[str, TimeZone] = {}
        #: The numbers of the files that columns were converted by.
        self._known: Dict[Any, int] = {}

    def _make(self, name: str) -> Zone:
        """Return the zone of a name, or raise :class:`NoSuchZone`."""
        raise NotImplementedError

    def __getitem__(self, name: str) -> Zone:
        if not isinstance(name, str) or not name.isascii():
            raise NoSuchZone(name)
        zone = self._zones.get(name)
        return self._zones.setdefault(name, self._make(name)) if zone is None else zone

    def data(self, name: str) -> bytes:
        """Return the bytes of the TZif file of a name."""
        return self[name].data

    def tzinfo(self, name: str) -> TimeZone:
        """Return the zone of a name for :mod:`datetime`, each time the same object."""
        made = self._tzinfos.get(name)
        return self._tzinfos.setdefault(name, self[name].tzinfo()) if made is None else made

    def aliases(self, name: str) -> List[str]:
        """Return the other names whose files have the same bytes, in order. Of a folder all files are
        read."""
        data = self.data(name)
        return sorted(other for other in self if other != name and self.data(other) == data)

    def canonical(self, name: str) -> str:
        """Return the name of the Zone line that a name is linked to by the Link lines of the source: of
        these texts, or of the file ``tzdata.zi`` of the folder, as distributions have it.

        Raises :class:`NoSuchZone`, and :class:`LookupError` where there is no source.
        """
        self[name]
        links = self._links()
        seen = {name}
        while name in links and links[name] not in seen:
            name = links[name]
            seen.add(name)
        return name

    def _links(self) -> Dict[str, str]:
        """Return the target of each link."""
        raise LookupError("these files have no source, which would tell their links")

    def zoneinfo(self, name: str) -> ZoneInfo:
        """Return the zone of a name for pandas, each time the same object."""
        return self[name].to_zoneinfo()

    def convert_columns(
        self, names: Any, instants: Any, errors: Errors = "raise", progress: Progress = None
    ) -> Columns:
        """Return local time at many instants, with a zone for each.

        ``names`` are a list, or a column of numpy or pandas, of texts or categories, and ``instants`` are of
        the types that :meth:`Zone.convert_array` takes. Two columns of pandas have the same index.
        Raises :class:`NoSuchZone` for the first name that no file has or that is missing, with its
        row, and :class:`OverflowError` where local time hasn't room; by the ``errors`` ``"coerce"`` such rows
        have no local time, and ``statuses`` tell why. ``progress`` is told how many more rows are done, every
        65,536 rows: a function, or what has a method ``update``, as ``tqdm``. Needs numpy.
        """
        return convert_columns(self, names, instants, bool(number_of(errors, ERRORS, "errors")), progress)

    def instant_columns(
        self,
        names: Any,
        locals: Any,
        ambiguous: Ambiguous = "reject",
        errors: Errors = "raise",
        progress: Progress = None,
    ) -> Tuple[Any, Any]:
        """Return the instant that is meant by each of many local times, with a zone for each, and its status.

        ``names`` are those of :meth:`convert_columns`, and ``locals`` and ``ambiguous`` those of
        :meth:`Zone.instant_array`. Instants are ``datetime64`` in the unit that came, or else seconds (``int64``), and
        statuses are those of :meth:`Zone.instant_array`, or :data:`NO_ZONE` (``uint8``). Raises
        :class:`NoSuchZone` for the first name that no file has or that is missing, with its row, and then
        :class:`NoInstant` or :class:`OverflowError` for the first local time that isn't missing and has no instant;
        by the ``errors`` ``"coerce"`` such rows have the instant 0 or ``NaT``, and their statuses tell why.
        ``progress`` is told how many more rows are done, after those of each zone. Needs numpy.
        """
        number_of(ambiguous, AMBIGUOUS, "ambiguous")
        return instant_columns(self, names, locals, ambiguous, bool(number_of(errors, ERRORS, "errors")), progress)

    def diff(
        self,
        new: Union[Tree, Files, Compiled],
        first: Optional[int] = None,
        last: Optional[int] = None,
        ignore: Sequence[Part] = (),
        summary: bool = False,
        now: Optional[int] = None,
    ) -> bytes:
        """Return when the zones of another tree answer otherwise than these: the lines that ``pzic diff``
        writes, and no bytes where none does. :class:`DiffOptions` tells of the words. Of a folder all
        files are read, once. Other threads of Python can run in the meantime.
        """
        return diff(self._held(), new._held(), DiffOptions(first, last, ignore, summary, now))

    def _held(self) -> Owned:
        """Return all files, as the library holds them."""
        raise NotImplementedError

    def _require(self, name: Any) -> object:
        """Raise :class:`NoSuchZone` if no zone has the name."""
        return self[name]

    def _numbers(self, names: Iterable[str]) -> Tuple[Owned, Mapping[Any, int]]:
        """Return files, and the number of each name that is known so far and of these, or ``NO_FILE`` where
        the files haven't the zone's."""
        raise NotImplementedError


class _InMemory(_Zones):
    """Zones of files that the library holds, which make rows of columns."""

    _owned: Owned

    def __copy__(self: _Self) -> _Self:
        return self

    def __deepcopy__(self: _Self, memo: object) -> _Self:
        return self

    def _held(self) -> Owned:
        return self._owned

    def _make(self, name: str) -> Zone:
        return zone_named(c.text_of(c.files_bytes, self._owned.lend(), self._number(name)), name)

    def _number(self, name: object) -> int:
        """Return the number of the file of a name."""
        if not isinstance(name, str) or not name.isascii():
            raise NoSuchZone(name)
        wanted = name.encode("ascii")
        number = ctypes.c_size_t()
        if c.files_find(self._owned.lend(), wanted, len(wanted), number) == c.NO_SUCH:
            raise NoSuchZone(name)
        return number.value

    def _require(self, name: Any) -> object:
        return self._number(name)

    def _numbers(self, names: Iterable[str]) -> Tuple[Owned, Mapping[Any, int]]:
        for name in names:
            if name not in self._known:
                self._known[name] = self._number(name)
        return self._owned, self._known

    @takes_words_of(words_of_rows)
    def convert(self, column: bytes, *words: Any, progress: Progress = None, **layout: Any) -> bytes:
        """Return the rows of a column, as ``pzic convert`` writes them. Each record of the column is
        a zone's name, a comma and an instant, or what :class:`Layout` says by the words that are given.
        Other threads of Python can run in the meantime. ``progress`` is told how many more bytes of the column are
        done, after each MiB: a function, or what has a method ``update``, as ``tqdm``.

        Raises :class:`BadRow` at the first row that has a fault (with ``keep_going`` such rows are
        written, without local time), and :class:`MemoryError`.
        """
        if not words and not layout:
            return text_of_column(self._owned, column, progress)
        return text_by(self._owned, column, Layout(*words, **layout), progress)

    @takes_words_of(words_of_rows)
    def rows(self, column: bytes, *words: Any, progress: Progress = None, **layout: Any) -> Rows:
        """Return the rows of a column as :meth:`convert`, and how many there are, with their
        faults."""
        return rows_by(self._owned, column, Layout(*words, **layout), progress)

    def __iter__(self) -> Iterator[str]:
        for number in range(len(self)):
            yield c.text_of(c.files_name, self._owned.lend(), number).decode("ascii")

    def __len__(self) -> int:
        count = ctypes.c_size_t()
        c.require_ok(c.files_len(self._owned.lend(), count))
        return count.value


#: Why a file is none of these: the status of the library.
_LEFT_OUT = {c.BAD_NAME: "BadName", c.BAD_FILE: "BadFile", c.UNFIT: "Unfit"}


class Files(_InMemory):
    """The zones of TZif files that were read: of a mapping from names to bytes, in its order.

    ``left_out`` tells why others of the mapping are none of them: ``"BadName"`` for a name that no zone can
    have, ``"BadFile"`` for bytes that are no TZif file of version 2 or 3, and ``"Unfit"`` for a file of
    which no rows can be made: its footer is empty, or it has an offset beyond 24 hours or an abbreviation
    other than 3 to 16 letters, digits, ``+`` and ``-``.
    """

    __module__ = "pzic"

    def __init__(self, files: Mapping[str, bytes]) -> None:
        super().__init__()
        given = {name: bytes_of(octets) for name, octets in files.items()}
        self._owned, statuses = _take(given)
        #: Of each name whose file is left out the reason.
        self.left_out: Mapping[str, str] = MappingProxyType(
            {name: _LEFT_OUT[status] for name, status in zip(given, statuses) if status != c.OK}
        )

    def __reduce__(self) -> Tuple[Type[Files], Tuple[Dict[str, bytes]], Dict[str, str]]:
        return type(self), ({name: self.data(name) for name in self},), dict(self.left_out)

    def __setstate__(self, left_out: Dict[str, str]) -> None:
        self.left_out = MappingProxyType(left_out)


class Tree(_Zones):
    """The zones of a folder of TZif files, by name: ``tree["Europe/Dublin"]``.

    A file is read when its zone is looked up, and once. :class:`NoSuchZone`, a :class:`KeyError`,
    says that no file has the name, :class:`BadName` that no file can have it, and :class:`BadFile`
    that the file isn't a TZif file of version 2 or 3. The names that are listed are those of the files that can be opened; folders that are
    links aren't looked through.

    A pickle of a tree, or of a zone of one, has the checksum of the files that were read, and not their bytes. Where
    the folder has other files, reading the pickle raises :class:`pickle.UnpicklingError`.
    """

    __module__ = "pzic"

    def __init__(self, folder: _Path) -> None:
        super().__init__()
        self._folder = os.path.abspath(os.fsdecode(folder))
        if not stat.S_ISDIR(os.stat(self._folder).st_mode):
            raise NotADirectoryError(errno.ENOTDIR, os.strerror(errno.ENOTDIR), self._folder)
        #: All files, once they were wanted.
        self._all: Optional[Files] = None
        #: The files that columns were converted by, and their numbers.
        self._of_columns: Tuple[Optional[Files], Dict[Any, int]] = None, {}

    @classmethod
    def open(cls, folder: _Path) -> Tree:
        """Return the zones of a folder, such as the system's ``/usr/share/zoneinfo``.

        Raises :class:`FileNotFoundError` or :class:`NotADirectoryError` where there is none.
        """
        return cls(folder)

    @staticmethod
    def compile(*paths: _Path) -> Compiled:
        """Return the zones of a source: of the texts of Rule, Zone, continuation and Link lines in
        these files, one after another.

        Raises :class:`BadSource` with the first fault, and :class:`MemoryError`.
        """
        texts = []
        for path in paths:
            with open(path, "rb") as file:
                texts.append(file.read())
        return Compiled(*texts)

    @property
    def folder(self) -> str:
        """The absolute path of the folder."""
        return self._folder

    @property
    def version(self) -> Optional[str]:
        """The release of the tz database that the folder is of, as ``"2025b"``: the first line of its
        file ``+VERSION``, or without that file what follows ``# version`` in the first line of its
        ``tzdata.zi``, as distributions have it. ``None`` where there is no such file or it names none."""
        line = self._first_line("+VERSION")
        if line is None:
            line = self._first_line("tzdata.zi")
            start = "# version "
            line = line[len(start) :] if line and line.startswith(start) else None
        return line if line and len(line) <= 64 and all("!" <= c <= "~" for c in line) else None

    def _first_line(self, name: str) -> Optional[str]:
        """Return the first line of a file of the folder, an empty one if it has no end, or ``None`` without
        the file."""
        try:
            with open(os.path.join(self._folder, name), encoding="ascii", errors="replace", newline="\n") as file:
                line = file.readline(100)
        except FileNotFoundError:
            return None
        return line[:-1] if line.endswith("\n") else ""

    def __repr__(self) -> str:
        return f"pzic.Tree({self._folder!r})"

    def __reduce__(self) -> Tuple[Any, ...]:
        read = tuple(sorted(self._zones))
        return _tree_of_pickle, (type(self), self._folder, read, self._all is not None, self._checksum(read))

    def _checksum(self, names: Iterable[str]) -> str:
        """Return the checksum of the files of these names, and of all names that were listed if all files were read."""
        listed = () if self._all is None else tuple(sorted({*self._all, *self._all.left_out}))
        return checksum(*(part for name in names for part in (name.encode(), self.data(name))), repr(listed).encode())

    def files(self, names: Optional[Iterable[str]] = None) -> Files:
        """Return the files of these names, by default of all that are listed, as they are now or were
        when their zones were made. Raises :class:`NoSuchZone` for a name that no file has."""
        return Files({name: self.data(name) for name in (self if names is None else names)})

    @takes_words_of(words_of_rows)
    def convert(self, column: bytes, *words: Any, progress: Progress = None, **layout: Any) -> bytes:
        """Return the rows of a column, as :meth:`Compiled.convert`: by all files of the folder, which are
        read once, or by that of the one zone that is named. ``pzic convert --tree`` writes the same, and also finds names through folders that are links."""
        return self._files_for(Layout(*words, **layout).zone).convert(column, *words, progress=progress, **layout)

    @takes_words_of(words_of_rows)
    def rows(self, column: bytes, *words: Any, progress: Progress = None, **layout: Any) -> Rows:
        """Return the rows of a column as :meth:`convert`, and how many there are, with their
        faults."""
        return self._files_for(Layout(*words, **layout).zone).rows(column, *words, progress=progress, **layout)

    def _files_for(self, zone: Optional[str]) -> Files:
        if zone is not None:
            return self.files([zone])
        if self._all is None:
            self._all = self.files()
        return self._all

    def _held(self) -> Owned:
        return self._files_for(None)._owned

    def _links(self) -> Dict[str, str]:
        try:
            with open(os.path.join(self._folder, "tzdata.zi"), "rb") as file:
                return _links_of([file.read()])
        except FileNotFoundError:
            return super()._links()

    def _make(self, name: str) -> Zone:
        data = self._read(name)
        return zone_named(data, name, (zone_of_folder, (self._folder, name, checksum(data))))

    def _numbers(self, names: Iterable[str]) -> Tuple[Owned, Mapping[Any, int]]:
        files, known = self._of_columns
        new = [name for name in names if name not in known]
        if new or files is None:
            files = self.files([*known, *new])
            known = {name: NO_FILE if name in files.left_out else files._number(name) for name in [*known, *new]}
            self._of_columns = files, known
        return files._owned, known

    def _read(self, name: str) -> bytes:
        parts = name.split("/")
        if "\0" in name or any(part in ("", ".", "..") for part in parts):
            raise BadName(name)
        try:
            # To open a pipe would wait for its writer.
            path = os.path.join(self._folder, *parts)
            number = os.open(path, os.O_RDONLY | os.O_NONBLOCK | os.O_NOCTTY)
        except OSError as error:
            if error.errno not in _NOT_THERE:
                raise
            raise NoSuchZone(name) from None
        try:
            if not stat.S_ISREG(os.fstat(number).st_mode):
                raise NoSuchZone(name)
            with open(number, "rb", closefd=False) as file:
                return file.read(_MOST_BYTES + 1)
        finally:
            os.close(number)

    def __iter__(self) -> Iterator[str]:
        for folder, folders, names in os.walk(self._folder):
            folders.sort()
            within = os.path.relpath(folder, self._folder)
            for name in sorted(names):
                path = os.path.normpath(os.path.join(within, name))
                if path in self:
                    yield path

    def __len__(self) -> int:
        return sum(1 for _ in self)

    def __contains__(self, name: object) -> bool:
        try:
            self[name]  # type: ignore[index]
        except (KeyError, BadFile, OSError):
            return False
        return True


def _links_of(texts: Iterable[bytes]) -> Dict[str, str]:
    """Return the target of each Link line of a source."""
    lines = (line.partition("#")[0].split() for text in texts for line in text.decode("utf-8", "replace").split("\n"))
    links = (words for words in lines if len(words) == 3 and "link".startswith(words[0].lower()))
    return {name: target for _, target, name in links}


def checksum(*parts: bytes) -> str:
    """Return a checksum of byte strings, each with its length."""
    made = hashlib.sha256()
    for part in parts:
        made.update(b"%d:" % len(part) + part)
    return made.hexdigest()


@lru_cache(maxsize=4096)
def zone_of_folder(folder: str, name: str, wanted: Optional[str] = None) -> Zone:
    """Return a zone of a pickle. A process reads a file for its pickles once.

    ``wanted`` is the checksum of the file's bytes when the zone was pickled; earlier versions pickled none.
    Raises :class:`pickle.UnpicklingError` where the file has other bytes.
    """
    zone = Tree(folder)[name]
    if wanted is not None and checksum(zone.data) != wanted:
        raise pickle.UnpicklingError(f"{os.path.join(folder, name)} isn't the file that was pickled")
    return zone


def _tree_of_pickle(kind: Type[Tree], folder: str, read: Tuple[str, ...], whole: bool, wanted: str) -> Tree:
    """Return a tree of a pickle: its class, its folder, the names whose files were read, whether all files were
    read at once, and the checksum of these. Raises :class:`pickle.UnpicklingError` where the folder has other files."""
    try:
        tree = kind(folder)
        if whole:
            tree._files_for(None)
        same = tree._checksum(read) == wanted
    except (KeyError, BadFile, FileNotFoundError, NotADirectoryError):
        same = False
    if not same:
        raise pickle.UnpicklingError(f"{folder} hasn't the files that were pickled")
    return tree


class Compiled(_InMemory):
    """The zones of a source, by name, in the order of its texts and their lines."""

    __module__ = "pzic"

    def __init__(self, *texts: bytes) -> None:
        super().__init__()
        self._texts = tuple(map(bytes_of, texts))
        self._owned = _compile(self._texts)

    @property
    def texts(self) -> Tuple[bytes, ...]:
        """The texts of the source."""
        return self._texts

    def _links(self) -> Dict[str, str]:
        return _links_of(self._texts)

    def __reduce__(self) -> Tuple[Type[Compiled], Tuple[bytes, ...]]:
        return type(self), self._texts


def _take(files: Mapping[str, bytes]) -> Tuple[Owned, bytes]:
    """Return files of names and bytes, and the status of each."""
    texts = [text for name, octets in files.items() for text in (os.fsencode(name), octets)]
    handle = c.Handle()
    statuses = ctypes.create_string_buffer(len(files) + 1)
    lengths = (ctypes.c_size_t * (len(texts) + 1))(*map(len, texts))
    whole = b"".join(texts)
    c.files_of(whole, len(whole), lengths, len(texts), statuses, len(files), handle)
    return Owned(handle), statuses.raw[: len(files)]


def _compile(texts: Tuple[bytes, ...]) -> Owned:
    """Compile texts."""
    handle = c.Handle()
    fault = c.CFault()
    # No pointer may be NULL: so the array has an item more than there are texts.
    lengths = (ctypes.c_size_t * (len(texts) + 1))(*map(len, texts))
    whole = b"".join(texts)
    status = c.compile_texts(whole, len(whole), lengths, len(texts), handle, fault)
    if status == c.BAD_SOURCE:
        raise BadSource(fault.text, fault.line, fault_name(fault.kind))
    return Owned(handle)

"""Rows of columns."""

from __future__ import annotations

import ctypes
import re
from typing import TYPE_CHECKING, Any, Callable, Iterator, List, NamedTuple, Optional, Sequence, Tuple, TypeVar

from pzic import _library as c
from pzic._errors import BadRow
from pzic._handle import Owned, bytes_of
from pzic._progress import Progress, teller
from pzic._words import (
    AMBIGUOUS,
    EMPTIES,
    FIELDS,
    LINE_ENDS,
    QUOTES,
    RECORDS,
    STYLES,
    UNITS,
    Ambiguous,
    Empty,
    Field,
    LineEnd,
    Quotes,
    Records,
    Source,
    Style,
    Unit,
    number_of,
)

if TYPE_CHECKING:
    from typing_extensions import Concatenate, ParamSpec

    _Words = ParamSpec("_Words")

_Answer = TypeVar("_Answer")

_SOURCES = {"count": 0, "seconds": 7, "rfc3339": 1, "utc": 6}
#: The most bytes of a column.
MOST_BYTES = 1 << 32
#: The least bytes of a piece of a longer column.
PIECE = 1 << 20
#: What names of added fields may begin with.
_PREFIX = re.compile(r"[A-Za-z0-9+\-./:_]{0,64}")
#: A byte order mark, and what may be before the first record.
_MARK = b"\xef\xbb\xbf"
_BEFORE_RECORDS = re.compile(b"(?:" + _MARK + rb")?[\r\n]*")


class RowFault(NamedTuple):
    """A row that has a fault: its number, from 1, or 0 for the header, and the name of the fault's kind."""

    row: int
    kind: str


class Layout(NamedTuple):
    """How a column is read, and what its rows are: the options of ``pzic convert``.

    Fields count from 1. ``zone`` is the name of a zone for all rows; without it field ``zone_field``
    has each row's. Field ``time_field`` is an instant or a local time: ``source`` is ``"count"`` for a count of
    ``unit`` (``"s"``, ``"ms"``, ``"us"`` or ``"ns"``), ``"seconds"`` for those with perhaps a
    fraction, ``"rfc3339"``, ``"utc"``, or ``"local"``, and ``ambiguous`` says what to take in a gap or a
    fold. A record has ``fields`` fields, or by ``None`` at least those that are named; ``records`` are
    those of ``"csv"`` or ``"lines"``. With ``header`` the first record is one and one is written, with
    ``skip_header`` none is; ``prefix``, of up to 64 letters, digits and ``+ - . / : _``, begins the names that are
    added. Rows begin with their records by ``append``, and by ``replace`` with these, in which the first of the
    row's fields stands in the place of the time's, alone or, by ``only``, with the others after the record; rows with
    faults are written by ``keep_going``. Each row ends with ``line_end``. By the ``style`` ``"iso"`` local time and
    the UT offset are one field, and else two; by it the instant of a local time stands before it as
    ``2007-03-11T07:00:00Z``. ``only`` has the fields of rows, in their order, in the place of those of a style:
    ``"local"``, ``"time"`` (local time and offset in one), ``"instant"`` (a count), ``"utc"``, ``"offset"``,
    ``"daylight"``, ``"abbreviation"`` and, with ``source="local"``, ``"ambiguous"``, which is ``gap``, ``fold`` or
    empty. By the ``empty`` ``"keep"`` an empty time is no fault, and gives empty fields. A record has at most
    ``max_record`` bytes, without its line end; a longer one has the fault ``RowTooLong``, which ends the run unless
    records are lines and ``keep_going`` is set, and a longer header is row 0. By the
    ``quotes`` ``"strict"`` a record has the fault ``RowQuote`` whose double quotes are open at its end, or in which a
    byte follows those of a field, and by ``"lenient"`` the field goes on; ``None`` is lenient for the layout of no
    words, and else strict.
    """

    zone: Optional[str] = None
    zone_field: Optional[int] = None
    time_field: Optional[int] = None
    source: Source = "count"
    ambiguous: Ambiguous = "reject"
    unit: Unit = "s"
    delimiter: str = ","
    records: Records = "csv"
    fields: Optional[int] = None
    header: bool = False
    skip_header: bool = False
    append: bool = False
    keep_going: bool = False
    style: Style = "fields"
    max_record: Optional[int] = None
    quotes: Optional[Quotes] = None
    only: Sequence[Field] = ()
    prefix: str = ""
    empty: Empty = "fault"
    replace: bool = False
    line_end: LineEnd = "\n"

    @property
    def time(self) -> int:
        """The index of the field of the time."""
        if self.time_field is not None:
            return self.time_field - 1
        return 1 if self.zone is None else 0

    @property
    def place(self) -> int:
        """The index of the field of the zone's name."""
        return 0 if self.zone_field is None else self.zone_field - 1

    @property
    def own_quotes(self) -> Quotes:
        """What stray double quotes are."""
        if self.quotes is not None:
            return self.quotes
        return "lenient" if self == Layout() else "strict"

    def numbers(self) -> c.CRowLayout:
        """Return the layout as the library has it, or raise :class:`ValueError`."""
        only = [number_of(field, FIELDS, "field") for field in self._fields_of_rows()]
        if len(set(only)) < len(only) or ("ambiguous" in self.only and self.source != "local"):
            raise ValueError("a field stands once in only, and ambiguous with the source local alone")
        if self.only and self.style != "fields":
            raise ValueError("a style has no meaning with only")
        if self.append and self.replace:
            raise ValueError("rows begin with their records or with these replaced")
        if self.line_end not in LINE_ENDS:
            raise ValueError(r"rows end with \n or \r\n")
        if not _PREFIX.fullmatch(self.prefix):
            raise ValueError("a prefix is at most 64 letters, digits and + - . / : _")
        return c.CRowLayout(
            self._column(),
            number_of(self.empty, EMPTIES, "empty"),
            LINE_ENDS[self.line_end],
            (),
            (ctypes.c_uint8 * 8)(*only),
            self.prefix.encode(),
        )

    def _fields_of_rows(self) -> Sequence[Field]:
        """Return the list of the fields of rows, if they have one: by ``replace`` at least the first of the usual."""
        if self.only or not self.replace:
            return self.only
        first: Field
        if self.source == "local":
            first = "utc" if self.style == "iso" else "instant"
        else:
            first = "time" if self.style == "iso" else "local"
        return (first,)

    def _column(self) -> c.CLayout:
        """Return how the column is read, and the rest of what its rows are."""
        if self.header and self.skip_header:
            raise ValueError("a header can't be both written and skipped")
        named = [self.time] if self.zone is not None else [self.time, self.place]
        if self.zone == "" or min(named) < 0 or len(set(named)) < len(named):
            raise ValueError("zone and time need a field each, from 1")
        by_field = self.zone_field is not None or self.time_field is not None or self.append or self.replace
        fields = self.fields
        more = fields is None and by_field
        if fields is None:
            fields = max(named) + 1
        if fields <= max(named) or len(self.delimiter.encode()) != 1:
            raise ValueError("a record needs the fields that are named, and the delimiter one byte")
        if self.max_record is not None and not 1 <= self.max_record <= MOST_BYTES:
            raise ValueError("the most bytes of a record are 1 to 4,294,967,296")
        style = number_of(self.style, STYLES, "style")
        source = _SOURCES.get(self.source)
        if self.source == "local":
            source = 2 + number_of(self.ambiguous, AMBIGUOUS, "ambiguous")
        if source is None:
            raise ValueError(f"no source {self.source!r}")
        return c.CLayout(
            self.place,
            self.time,
            fields,
            int(more),
            source,
            number_of(self.unit, UNITS, "unit"),
            ord(self.delimiter),
            number_of(self.records, RECORDS, "records"),
            1 if self.header else 2 if self.skip_header else 0,
            2 if self.replace else int(self.append),
            int(self.keep_going),
            0 if self.replace else style,
            number_of(self.own_quotes, QUOTES, "quotes"),
            self.max_record or 0,
        )


def words_of_rows(
    zone: Optional[str] = None,
    zone_field: Optional[int] = None,
    time_field: Optional[int] = None,
    source: Source = "count",
    ambiguous: Ambiguous = "reject",
    unit: Unit = "s",
    delimiter: str = ",",
    records: Records = "csv",
    fields: Optional[int] = None,
    header: bool = False,
    skip_header: bool = False,
    append: bool = False,
    keep_going: bool = False,
    style: Style = "fields",
    max_record: Optional[int] = None,
    quotes: Optional[Quotes] = None,
    only: Sequence[Field] = (),
    prefix: str = "",
    empty: Empty = "fault",
    replace: bool = False,
    line_end: LineEnd = "\n",
    *,
    progress: Progress = None,
) -> None:
    """Take the words of a method that makes rows: those of :class:`Layout`, and ``progress``."""


def takes_words_of(
    words: Callable[_Words, None]
) -> Callable[[Callable[..., _Answer]], Callable[Concatenate[Any, bytes, _Words], _Answer]]:
    """Give a method of a column the types of these words."""
    return lambda method: method


class Rows(NamedTuple):
    """The rows of a column: their text, with the header if one is written, their number, and
    their faults. ``ended`` says that the last fault is that of the row after them, or of the header,
    row 0, which ended the run."""

    text: bytes
    number: int
    faults: Tuple[RowFault, ...]
    ended: bool


def fault_name(kind: int) -> str:
    """Return the name of a fault's kind, as the program prints it."""
    return c.text_of(c.name_of_fault, kind).decode("ascii")


def _faults_of(rows: Owned) -> List[RowFault]:
    count = ctypes.c_size_t()
    nothing = (c.CRowFault * 1)()
    c.require_ok(c.rows_faults(rows.lend(), nothing, 0, count))
    found = (c.CRowFault * max(1, count.value))()
    c.require_ok(c.rows_faults(rows.lend(), found, count.value, count))
    return [RowFault(found[i].row, fault_name(found[i].kind)) for i in range(count.value)]


def _cuts(column: bytes, layout: Layout) -> Iterator[Tuple[int, int]]:
    """Yield the ends of pieces whose rows together are those of the column."""
    start, end = 0, 0
    # Only the start of a column may have a byte order mark, and the header is of the first piece.
    least = _BEFORE_RECORDS.match(column).end()  # type: ignore[union-attr]
    is_cut = layout.records == "lines" or b'"' not in column
    while is_cut and len(column) - start > PIECE:
        end = column.find(b"\n", max(start + PIECE, least)) + 1
        while end and column[end : end + 1] == _MARK[:1]:
            end = column.find(b"\n", end) + 1
        if not end:
            break
        yield start, end
        start = end
    if start < len(column) or not column:
        yield start, len(column)


def _in_pieces(
    make: Callable[[bytes, Layout], Rows], column: bytes, layout: Layout, progress: Progress
) -> Rows:
    """Return the rows of a column, which are made of one piece after another. An interrupt waits for a piece."""
    column = bytes_of(column)
    if len(column) > MOST_BYTES:
        raise ValueError("a column has at most 4,294,967,296 bytes")
    tell = teller(progress)
    texts: List[bytes] = []
    faults: List[RowFault] = []
    number, is_ended = 0, False
    for start, end in _cuts(column, layout):
        rows = make(column[start:end], layout)
        texts.append(rows.text)
        faults += [RowFault(fault.row + number, fault.kind) for fault in rows.faults]
        number += rows.number
        tell(end - start)
        if rows.ended:
            is_ended = True
            break
        layout = layout._replace(header=False, skip_header=False, quotes=layout.own_quotes)
    return Rows(b"".join(texts), number, tuple(faults), is_ended)


def rows_by(files: Owned, column: bytes, layout: Layout, progress: Progress = None) -> Rows:
    """Return the rows of a column by a layout, up to the first that ends the run."""
    return _in_pieces(lambda piece, own: _rows_of(files, piece, own), column, layout, progress)


def _rows_of(files: Owned, column: bytes, layout: Layout) -> Rows:
    name = (layout.zone or "").encode("utf-8", "surrogateescape")
    handle = c.Handle()
    status = c.rows_with(files.lend(), layout.numbers(), name, len(name), column, len(column), handle)
    if status == c.NO_SUCH:
        raise ValueError(f"no layout: {layout}")
    rows = Owned(handle)
    return Rows(_text_of(rows), _number_of_rows(rows), tuple(_faults_of(rows)), status == c.BAD_ROW)


def _text_of(rows: Owned) -> bytes:
    return c.text_of(c.rows_text, rows.lend())


def _number_of_rows(rows: Owned) -> int:
    count = ctypes.c_uint64()
    c.require_ok(c.rows_len(rows.lend(), count))
    return count.value


def text_by(files: Owned, column: bytes, layout: Layout, progress: Progress = None) -> bytes:
    """Return the text of the rows of a column, or raise :class:`BadRow` at the row that ends the run."""
    return _text_or_fault(rows_by(files, column, layout, progress))


def text_of_column(files: Owned, column: bytes, progress: Progress = None) -> bytes:
    """Return the rows of a column of zones' names and instants."""
    return _text_or_fault(_in_pieces(lambda piece, _: _plain_rows_of(files, piece), column, Layout(), progress))


def _plain_rows_of(files: Owned, column: bytes) -> Rows:
    handle = c.Handle()
    fault = c.CRowFault()
    status = c.rows(files.lend(), column, len(column), handle, fault)
    rows = Owned(handle)
    faults = (RowFault(fault.row, fault_name(fault.kind)),) if status == c.BAD_ROW else ()
    return Rows(_text_of(rows), _number_of_rows(rows), faults, status == c.BAD_ROW)


def _text_or_fault(rows: Rows) -> bytes:
    if rows.ended:
        raise BadRow(rows.faults[-1].row, rows.faults[-1].kind, rows.text)
    return rows.text

"""What the calls refuse."""

from __future__ import annotations

from typing import Optional


def _at(row: Optional[int]) -> str:
    """Return the words before an error of a row."""
    return "" if row is None else f"row {row}: "


class BadFile(ValueError):
    """Bytes that are no TZif file. ``reason`` names the first check that they fail, and ``footer``
    is the text that failed it if that is the one of footers."""

    __module__ = "pzic"

    def __init__(self, reason: str, footer: str = "") -> None:
        super().__init__(reason, footer)
        self.reason = reason
        self.footer = footer

    def __str__(self) -> str:
        return f"no TZif file: {self.reason}" + (f" {self.footer!r}" if self.footer else "")


class NoSuchZone(KeyError):
    """No file has the name ``key``. Of a column ``row`` is the first row with the name, counted from 0, and
    else ``None``."""

    __module__ = "pzic"

    def __init__(self, key: object, row: Optional[int] = None) -> None:
        super().__init__(key, row)
        self.key = key
        self.row = row

    def __str__(self) -> str:
        return _at(self.row) + f"no zone has the name {self.key!r}"


class BadName(NoSuchZone, ValueError):
    """No file can have the name ``key``, such as ``../Dublin``."""

    __module__ = "pzic"

    def __str__(self) -> str:
        return _at(self.row) + f"no zone can have the name {self.key!r}"


class NoInstant(ValueError):
    """No instant is meant by the local time ``local``, in seconds from 1970-01-01T00:00:00 on the zone's
    clocks. ``reason`` is ``"Gap"`` or ``"Fold"``, where that was refused, or ``"Unspecified"`` where
    the file leaves local time open. Of an array ``row`` is the index of the local time, and else ``None``."""

    __module__ = "pzic"

    def __init__(self, local: int, reason: str, row: Optional[int] = None) -> None:
        super().__init__(local, reason, row)
        self.local = local
        self.reason = reason
        self.row = row

    def __str__(self) -> str:
        return _at(self.row) + f"no instant of the local time {self.local}: {self.reason}"


class BadSource(ValueError):
    """Texts that are no source. ``text`` and ``line`` are the numbers of the text and of its line
    where the first fault is, both from 1, and ``kind`` the name of the fault's kind."""

    __module__ = "pzic"

    def __init__(self, text: int, line: int, kind: str) -> None:
        super().__init__(text, line, kind)
        self.text = text
        self.line = line
        self.kind = kind

    def __str__(self) -> str:
        return f"text {self.text}, line {self.line}: {self.kind}"


class BadRow(ValueError):
    """A column with a row that has a fault. ``row`` is the number of the first, from 1, or 0 of a
    header, ``kind`` the name of the fault's kind, and ``rows`` are the rows before it."""

    __module__ = "pzic"

    def __init__(self, row: int, kind: str, rows: bytes) -> None:
        super().__init__(row, kind, rows)
        self.row = row
        self.kind = kind
        self.rows = rows

    def __str__(self) -> str:
        return f"row {self.row}: {self.kind}"

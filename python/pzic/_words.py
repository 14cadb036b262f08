"""The words that calls may be given."""

from __future__ import annotations

from typing import Dict, Literal, Tuple

#: What to take for a local time in a gap or in a fold.
Ambiguous = Literal["reject", "earlier", "later", "compatible"]
#: What the field of a time is.
Source = Literal["count", "seconds", "rfc3339", "utc", "local"]
#: What a count of time is of.
Unit = Literal["s", "ms", "us", "ns"]
#: What ends a record.
Records = Literal["csv", "lines"]
#: How local time is written.
Style = Literal["fields", "iso"]
#: What stray double quotes are.
Quotes = Literal["strict", "lenient"]
#: A field of rows.
Field = Literal["local", "time", "instant", "utc", "offset", "daylight", "abbreviation", "ambiguous"]
#: What an empty time is.
Empty = Literal["fault", "keep"]
#: How rows end, and the header.
LineEnd = Literal["\n", "\r\n"]
#: A part of local time that isn't compared.
Part = Literal["daylight", "abbreviation"]
#: What becomes of a row that has no answer.
Errors = Literal["raise", "coerce"]
#: What to take for a time of day in a gap or in a fold.
Policy = Literal["compatible", "earlier", "later", "skip"]
#: A day of the week.
Weekday = Literal["mon", "tue", "wed", "thu", "fri", "sat", "sun"]

#: The numbers of the words, as the library has them.
AMBIGUOUS: Dict[str, int] = {"reject": 0, "earlier": 1, "later": 2, "compatible": 3}
POLICIES: Dict[str, int] = {"compatible": 3, "earlier": 1, "later": 2, "skip": 4}
ERRORS: Dict[str, int] = {"raise": 0, "coerce": 1}
UNITS: Dict[str, int] = {"s": 0, "ms": 1, "us": 2, "ns": 3}
RECORDS: Dict[str, int] = {"csv": 0, "lines": 1}
STYLES: Dict[str, int] = {"fields": 0, "iso": 1}
QUOTES: Dict[str, int] = {"strict": 0, "lenient": 1}
FIELDS: Dict[str, int] = {
    "local": 1, "time": 2, "instant": 3, "utc": 4, "offset": 5, "daylight": 6, "abbreviation": 7, "ambiguous": 8
}
EMPTIES: Dict[str, int] = {"fault": 0, "keep": 1}
LINE_ENDS: Dict[str, int] = {"\n": 0, "\r\n": 1}

#: The days of the week, in the order of their bits.
WEEKDAYS: Tuple[Weekday, ...] = ("mon", "tue", "wed", "thu", "fri", "sat", "sun")


def number_of(word: str, numbers: Dict[str, int], what: str) -> int:
    """Return the number of a word, or raise :class:`ValueError`."""
    number = numbers.get(word)
    if number is None:
        raise ValueError(f"no {what} {word!r}: it is one of {', '.join(numbers)}")
    return number

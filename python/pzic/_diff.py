"""What differs in the zones of two trees."""

from __future__ import annotations

import time
from operator import index
from typing import NamedTuple, Optional, Sequence

from pzic import _library as c
from pzic._handle import Owned
from pzic._words import Part

_PARTS: Sequence[Part] = ("daylight", "abbreviation")
#: The first instant that is looked at, by whether it is for a summary, and the last.
_FIRST = {False: -2208988800, True: -62135510400}
_LAST = 16725225600


class DiffOptions(NamedTuple):
    """What is listed of two trees: the options of ``pzic diff``, with instants in the place of years.

    Spans are those from the instant ``first`` to ``last``, by default from the start of 1900 to that of
    2500. With ``summary`` there is one line for each zone that differs from ``first`` on, by default the
    first instant of rows, and an end of differences that isn't after ``now``, by default the clock's, is
    past. ``ignore`` has the parts that aren't compared: ``"daylight"`` and ``"abbreviation"``.
    """

    first: Optional[int] = None
    last: Optional[int] = None
    ignore: Sequence[Part] = ()
    summary: bool = False
    now: Optional[int] = None

    def numbers(self) -> c.CDiffOptions:
        """Return the options as the library has them, or raise :class:`ValueError`."""
        unknown = set(self.ignore) - set(_PARTS)
        if unknown:
            raise ValueError(f"no part {min(unknown)!r}: it is one of {', '.join(_PARTS)}")
        if self.now is not None and not self.summary or self.last is not None and self.summary:
            raise ValueError("now is for a summary, and last for spans")
        first = _FIRST[bool(self.summary)] if self.first is None else self.first
        last = _LAST if self.last is None else self.last
        now = int(time.time()) if self.summary and self.now is None else self.now or 0
        return c.CDiffOptions(
            _instant(first),
            _instant(last),
            _instant(now),
            int(bool(self.summary)),
            *(int(part in self.ignore) for part in _PARTS),
        )


def _instant(instant: int) -> int:
    """Return an instant, if it has 64 bits."""
    if not c.MIN_INSTANT <= index(instant) <= c.MAX_INSTANT:
        raise OverflowError("an instant has 64 bits with a sign")
    return instant


def diff(old: Owned, new: Owned, options: DiffOptions) -> bytes:
    """Return the lines of two lists of files."""
    handle = c.Handle()
    if c.files_diff(old.lend(), new.lend(), options.numbers(), handle) == c.NO_SUCH:
        raise ValueError("the last instant is before the first")
    rows = Owned(handle)
    return c.text_of(c.rows_text, rows.lend())

"""Local time by the files of the time zone database.

The calls of the library ``libpzic``, over :mod:`ctypes`. Instants are seconds from
1970-01-01T00:00:00 UT, without leap seconds: any signed 64-bit integer. UT offsets are seconds,
positive east.

    >>> import pzic
    >>> tree = pzic.Tree.open("/usr/share/zoneinfo")
    >>> dublin = tree["Europe/Dublin"]
    >>> dublin.utcoffset(1_720_000_000)
    3600

The library is looked for under the path that the variable ``PZIC_LIBRARY`` names, then in the
package, and then where the system has its libraries.
"""

from typing import TYPE_CHECKING

from pzic._array import (
    DAYLIGHT,
    FOLD,
    GAP,
    OPEN,
    OUT_OF_RANGE,
    UNSPECIFIED,
)
from pzic._columns import NO_ZONE, Columns
from pzic._diff import DiffOptions
from pzic._errors import BadFile, BadName, BadRow, BadSource, NoInstant, NoSuchZone
from pzic._library import MAX_INSTANT, MIN_INSTANT
from pzic._plot import plot, plot_diff
from pzic._rows import Layout, RowFault, Rows
from pzic._timezone import TimeZone
from pzic._tree import Compiled, Files, Tree
from pzic._zone import Gap, Instants, Span, State, Zone

if TYPE_CHECKING:
    from pzic._zoneinfo import ZoneInfo
else:

    def __getattr__(name: str) -> object:
        """Load Python's zoneinfo when it is wanted."""
        if name == "ZoneInfo":
            from pzic._zoneinfo import ZoneInfo

            return ZoneInfo
        raise AttributeError(f"module {__name__!r} has no attribute {name!r}")


__version__ = "0.1.0"

__all__ = [
    "DAYLIGHT",
    "FOLD",
    "GAP",
    "MAX_INSTANT",
    "MIN_INSTANT",
    "NO_ZONE",
    "OPEN",
    "OUT_OF_RANGE",
    "UNSPECIFIED",
    "BadFile",
    "BadName",
    "BadRow",
    "BadSource",
    "Columns",
    "Compiled",
    "DiffOptions",
    "Files",
    "Gap",
    "Instants",
    "Layout",
    "NoInstant",
    "NoSuchZone",
    "RowFault",
    "Rows",
    "Span",
    "State",
    "TimeZone",
    "Tree",
    "Zone",
    "ZoneInfo",
    "plot",
    "plot_diff",
]

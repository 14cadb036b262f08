"""A page that shows what changes from one release of the time zone database to another.

    python3 -m pzic.report OLD NEW --out report.html

OLD and NEW are each a folder of TZif files, or a source as ``tzdata.zi``. The page needs no other file and no network.
"""

from __future__ import annotations

import argparse
import csv
import datetime
import html
import json
import os
import sys
import time
from array import array
from typing import Any, Dict, Iterable, List, NamedTuple, Optional, Tuple, Union

from pzic._array import OPEN
from pzic._errors import BadFile, BadSource, NoSuchZone
from pzic._plot import Step, offset_text, steps
from pzic._tree import Compiled, Tree
from pzic._zone import Zone

_Zones = Union[Tree, Compiled]

_PAGE = os.path.join(os.path.dirname(os.path.abspath(__file__)), "report.html")
#: The first instant that is looked at: the first of a row.
_FIRST = -62135510400
#: The last second of the year 9999.
_LAST = 253402300799
#: How far a picture shows the time before the first difference and after the last.
_BESIDE = 2 * 366 * 86400
#: The most steps of a zone in a picture, and the most spans and moved rows of a zone that are shown.
_MOST_STEPS = 4000
_MOST_SPANS = 2000
_MOST_ROWS = 20
#: What follows a state of daylight saving time.
_DAYLIGHT = ", daylight saving time"
_EPOCH = datetime.datetime(1970, 1, 1)


class Layout(NamedTuple):
    """How a column of stored times is read. Fields count from 1."""

    path: str
    zone_field: int = 1
    time_field: int = 2
    delimiter: str = ","
    skip_header: bool = False
    is_local: bool = False


class Stored(NamedTuple):
    """The stored times of a zone: the numbers of their rows, and instants or local times in seconds."""

    rows: List[int]
    seconds: array[int]


def report(
    old: _Zones, new: _Zones, names: Tuple[str, str], last: int, now: int, column: Optional[Layout] = None
) -> str:
    """Return the page of what differs in two trees up to the instant ``last``. ``names`` are what the page calls them,
    and ``now`` is the instant by which a difference is past."""
    spans = _spans_by_name(old, new, last)
    stored, unread = ({}, 0) if column is None else _read_column(column)
    zones: List[Dict[str, Any]] = []
    changes: List[Dict[str, Any]] = []
    numbers: Dict[Tuple[Optional[bytes], Optional[bytes]], int] = {}
    for name, begin, until, kind in _summary(old, new, now):
        was = None if kind == "added" else old[name]
        will = None if kind == "removed" else new[name]
        # Links have the files of their zones.
        same = (was.data if was else None, will.data if will else None)
        if same not in numbers:
            numbers[same] = len(changes)
            changes.append(_change(was, will, spans.get(name, []), last, now))
        zone = {"name": name, "from": begin, "until": until, "kind": kind, "change": numbers[same]}
        reason = _refused(new if will is None else old, name) if was is None or will is None else None
        if reason is not None:
            zone.update(kind="refused", reason=reason)
        if column is not None:
            zone.update(_moved(was, will, stored.get(name), column.is_local))
        zones.append(zone)
    data = {"old": names[0], "new": names[1], "last": last, "now": now, "zones": zones, "changes": changes}
    if column is not None:
        data.update(column=os.path.basename(column.path), unread=unread, local=column.is_local)
    return _page(data, names)


def _page(data: Dict[str, Any], names: Tuple[str, str]) -> str:
    """Return the page of these data."""
    with open(_PAGE, encoding="utf-8") as file:
        page = file.read()
    # In a script no text may look like a tag.
    text = json.dumps(data, separators=(",", ":")).replace("<", "\\u003c")
    title = html.escape(f"Local time from {names[0]} to {names[1]}")
    return page.replace("<!--title-->", title).replace("/*data*/", text)


# ------------------------------------------------------------------ differences


def _lines(text: bytes) -> Iterable[List[str]]:
    """Return the records of a list, without its header."""
    return list(csv.reader(text.decode("ascii").splitlines()))[1:]


def _number(text: str) -> Optional[int]:
    return int(text) if text else None


def _summary(old: _Zones, new: _Zones, now: int) -> Iterable[Tuple[str, Optional[int], Optional[int], str]]:
    """Return of each zone that differs its name, from when on and until when it does, and the kind of this."""
    for name, begin, until, *_offsets, kind in _lines(old.diff(new, summary=True, now=now)):
        yield name, _number(begin), _number(until), kind


def _spans_by_name(old: _Zones, new: _Zones, last: int) -> Dict[str, List[List[Any]]]:
    """Return the spans at which zones differ, by name: two instants, and what was and will be shown."""
    made: Dict[str, List[List[Any]]] = {}
    for name, begin, until, *states in _lines(old.diff(new, first=_FIRST, last=last)):
        span = [_number(begin), _number(until), _state_text(states[:3]), _state_text(states[3:])]
        made.setdefault(name, []).append(span)
    return made


def _state_text(fields: List[str]) -> str:
    """Return a state of a list as it is shown, as ``+01:00 IST, daylight saving time``."""
    offset, daylight, abbreviation = fields
    if not offset:
        return abbreviation
    shown = offset[:-3] if offset.endswith(":00") else offset
    return f"{shown} {abbreviation}{_DAYLIGHT if daylight == '1' else ''}"


def _change(old: Optional[Zone], new: Optional[Zone], spans: List[List[Any]], last: int, now: int) -> Dict[str, Any]:
    """Return what the page has of the differences of two zones: the spans, and the steps of both for the picture."""
    only = new if old is None else old if new is None else None
    if only is not None:
        # The one span of such a name is that of all time.
        spans = []
    edges = [edge for span in spans for edge in span[:2] if edge is not None] or [now]
    start = max(edges[0] - _BESIDE, _FIRST)
    stop = max(min(edges[-1] + _BESIDE, last), start + 1)
    made: Dict[str, Any] = {"spans": spans[:_MOST_SPANS], "number": len(spans), "start": start, "stop": stop}
    for side, zone in (("old", old), ("new", new)):
        found: List[Step] = [] if zone is None else steps(zone, start, stop)
        made[side] = found[:_MOST_STEPS]
        if len(found) > _MOST_STEPS:
            made["stop"] = min(made["stop"], found[_MOST_STEPS][0])
    if only is not None:
        made["shown"] = _shown(only, now)
    return made


def _shown(zone: Zone, instant: int) -> str:
    """Return what a zone shows at an instant, as the states of spans are written."""
    state = zone.at(instant)
    if state is None:
        return "local time left open"
    return f"{offset_text(state.offset)} {state.name}{_DAYLIGHT if state.daylight else ''}"


def _refused(zones: _Zones, name: str) -> Optional[str]:
    """Return why a folder's file of a name is none of its zones, or ``None`` where it has no such file."""
    if isinstance(zones, Compiled):
        return None
    try:
        return zones.files([name]).left_out.get(name)
    except BadFile as error:
        return error.reason
    except NoSuchZone:
        return None


# ------------------------------------------------------------------ stored rows


def _read_column(layout: Layout) -> Tuple[Dict[str, Stored], int]:
    """Return the times of a column by the names of their zones, and the number of records that can't be read."""
    made: Dict[str, Stored] = {}
    unread = 0
    with open(layout.path, encoding="utf-8-sig", errors="replace", newline="") as file:
        records = csv.reader(file, delimiter=layout.delimiter)
        if layout.skip_header:
            next(records, None)
        for row, record in enumerate((record for record in records if record), 1):
            try:
                second = _stored_second(record[layout.time_field - 1], layout.is_local)
                name = record[layout.zone_field - 1]
            except (IndexError, ValueError, OverflowError):
                unread += 1
                continue
            stored = made.setdefault(name, Stored([], array("q")))
            stored.rows.append(row)
            stored.seconds.append(second)
    return made, unread


def _stored_second(text: str, is_local: bool) -> int:
    """Return an instant, or a local time in seconds."""
    if not is_local:
        second = int(text)
    else:
        local = datetime.datetime.fromisoformat(text)
        if local.tzinfo is not None:
            raise ValueError("a local time has no offset")
        second = (local - _EPOCH) // datetime.timedelta(seconds=1)
    if not _FIRST <= second <= _LAST:
        raise ValueError("an instant is one of the years 1 to 9999")
    return second


def _moved(old: Optional[Zone], new: Optional[Zone], stored: Optional[Stored], is_local: bool) -> Dict[str, Any]:
    """Return how many stored times a zone has, how many of them move, and the first of these."""
    if stored is None:
        return {"stored": 0, "moved": 0, "rows": []}
    if old is None or new is None:
        return {"stored": len(stored.rows), "moved": len(stored.rows), "rows": []}
    before, after = (_answers(zone, stored.seconds, is_local) for zone in (old, new))
    moved = [i for i, (was, will) in enumerate(zip(before, after)) if was != will]
    shown = [[stored.rows[i], stored.seconds[i], before[i], after[i]] for i in moved[:_MOST_ROWS]]
    return {"stored": len(stored.rows), "moved": len(moved), "rows": shown}


def _answers(zone: Zone, seconds: array[int], is_local: bool) -> List[Optional[int]]:
    """Return of each instant the UT offset, or of each local time the instant that is meant; ``None`` where a file
    leaves local time open."""
    if is_local:
        instants, statuses = zone.instant_array(seconds, "compatible")
        return [None if status else instant for instant, status in zip(instants, statuses)]
    offsets, flags = zone.convert_array(seconds)
    return [None if flag & OPEN else offset for offset, flag in zip(offsets, flags)]


# ------------------------------------------------------------------ the command line


def _open(path: str) -> Tuple[_Zones, str]:
    """Return the zones of a folder or of a source, and what the page calls them."""
    if os.path.isdir(path):
        tree = Tree.open(path)
        return tree, tree.version or path
    with open(path, "rb") as file:
        text = file.read()
    first, version = text[:80].partition(b"\n")[0].decode("ascii", "replace"), "# version "
    return Compiled(text), first[len(version) :].strip() if first.startswith(version) else path


def _year(text: str) -> int:
    year = int(text)
    if not 1 <= year <= 9998:
        raise argparse.ArgumentTypeError("a year is one of 1 to 9998")
    return year


def _parser() -> argparse.ArgumentParser:
    parser = argparse.ArgumentParser(
        prog="python3 -m pzic.report", description="Writes a page of what differs in two releases."
    )
    add = parser.add_argument
    add("old", metavar="OLD", help="a folder of TZif files, or a source")
    add("new", metavar="NEW", help="another one")
    add("--out", metavar="FILE", required=True, help="the page")
    add("--to", metavar="YEAR", type=_year, default=2100, help="the last year whose spans are listed (default 2100)")
    add("--now", metavar="SECONDS", type=int, help="the instant by which a difference is past (default: the clock)")
    add("--column", metavar="FILE", help="stored times as CSV, whose rows that move are shown")
    add("--zone-field", metavar="N", type=int, default=1, help="the field of the zone's name (default 1)")
    add("--time-field", metavar="N", type=int, default=2, help="the field of the time (default 2)")
    add("--delimiter", metavar="C", default=",", help="the byte between fields (default: a comma)")
    add("--skip-header", action="store_true", help="pass over the first record of the column")
    add("--from", dest="form", choices=("count", "local"), default="count", help="seconds from 1970, or local times")
    return parser


def main(words: Optional[List[str]] = None) -> int:
    """Write the page that a command line asks for, and return the status."""
    given = _parser().parse_args(words)
    if min(given.zone_field, given.time_field) < 1 or given.zone_field == given.time_field or len(given.delimiter) != 1:
        _parser().error("zone and time need a field each, from 1, and the delimiter is one character")
    column = None
    if given.column is not None:
        column = Layout(
            given.column, given.zone_field, given.time_field, given.delimiter, given.skip_header, given.form == "local"
        )
    last = (datetime.datetime(given.to + 1, 1, 1) - _EPOCH) // datetime.timedelta(seconds=1)
    now = int(time.time()) if given.now is None else given.now
    try:
        (old, old_name), (new, new_name) = _open(given.old), _open(given.new)
        page = report(old, new, (old_name, new_name), last, now, column)
        with open(given.out, "w", encoding="utf-8") as file:
            file.write(page)
    except (OSError, BadFile, BadSource) as error:
        print(f"pzic.report: {error}", file=sys.stderr)
        return 1
    return 0


if __name__ == "__main__":
    sys.exit(main())

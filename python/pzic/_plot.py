"""Pictures of UT offsets over time, by matplotlib where it is there."""

from __future__ import annotations

import datetime
import importlib
from typing import TYPE_CHECKING, Any, List, Optional, Tuple, Union

if TYPE_CHECKING:
    from pzic._zone import Zone

_EPOCH = datetime.datetime(1970, 1, 1, tzinfo=datetime.timezone.utc)
_SECOND = datetime.timedelta(seconds=1)

#: An instant: seconds from 1970, or a datetime with a tzinfo.
Instant = Union[int, datetime.datetime]
#: An instant, and the UT offset from it on, or ``None`` where a file leaves local time open.
Step = Tuple[int, Optional[int]]

_OLD = {"color": "#e8a33d", "linewidth": 5, "solid_capstyle": "butt"}
_NEW = {"color": "#0b57d0", "linewidth": 1.8}


def steps(zone: Zone, start: int, stop: int) -> List[Step]:
    """Return the UT offset at ``start``, and each change of it up to just before ``stop``."""
    made: List[Step] = []
    for instant in [start, *zone.changes(start + 1, stop)]:
        state = zone.at(instant)
        offset = None if state is None else state.offset
        if not made or offset != made[-1][1]:
            made.append((instant, offset))
    return made


def offset_text(seconds: int) -> str:
    """Return a UT offset as ``+05:30``, with seconds where it has some."""
    minutes, rest = divmod(abs(seconds), 60)
    text = f"{'-' if seconds < 0 else '+'}{minutes // 60:02}:{minutes % 60:02}"
    return f"{text}:{rest:02}" if rest else text


def plot(zone: Zone, start: Instant, end: Instant, axes: Any = None) -> Any:
    """Draw the UT offset of a zone from one instant to another, and return the axes.

    Instants are seconds from 1970 or datetimes with a tzinfo, in the years 1 to 9999. Without ``axes`` those of
    :mod:`matplotlib.pyplot` are drawn to. Needs matplotlib.
    """
    first, last = _bounds(start, end)
    axes = _axes(axes)
    offsets = _draw(axes, zone, first, last, _NEW, zone.key or "zone")
    _label(axes, offsets, zone.key or "")
    return axes


def plot_diff(old: Zone, new: Zone, start: Instant, end: Instant, axes: Any = None) -> Any:
    """Draw the UT offsets of two zones, as those of two releases, and return the axes.

    Where the two differ the background is coloured. The words are those of :func:`plot`.
    """
    first, last = _bounds(start, end)
    axes = _axes(axes)
    offsets = _draw(axes, old, first, last, _OLD, "old") + _draw(axes, new, first, last, _NEW, "new")
    for begin, stop in differing(steps(old, first, last), steps(new, first, last), last):
        axes.axvspan(_date(begin), _date(stop), color="#ffe9b8", linewidth=0, zorder=0)
    _label(axes, offsets, new.key or old.key or "")
    axes.legend(loc="lower right", bbox_to_anchor=(1, 1), ncol=2, frameon=False)
    return axes


def differing(old: List[Step], new: List[Step], stop: int) -> List[Tuple[int, int]]:
    """Return the longest spans at which two lists of steps, from the same instant on, have other offsets."""
    made: List[Tuple[int, int]] = []
    instants = sorted({instant for instant, _ in old + new})
    before, after = dict(old), dict(new)
    was = now = None
    for instant, until in zip(instants, [*instants[1:], stop]):
        was, now = before.get(instant, was), after.get(instant, now)
        if was == now:
            continue
        if made and made[-1][1] == instant:
            made[-1] = (made[-1][0], until)
        else:
            made.append((instant, until))
    return made


def _draw(axes: Any, zone: Zone, first: int, last: int, style: Any, label: str) -> List[int]:
    """Draw a line of steps, and return the offsets that it has."""
    made = steps(zone, first, last)
    made.append((last, made[-1][1]))
    hours = [float("nan") if offset is None else offset / 3600 for _, offset in made]
    axes.step([_date(instant) for instant, _ in made], hours, where="post", label=label, **style)
    return [offset for _, offset in made if offset is not None]


def _label(axes: Any, offsets: List[int], title: str) -> None:
    """Give the axes their marks and their title."""
    marks = _apart(sorted(set(offsets)))
    axes.set_yticks([offset / 3600 for offset in marks], [offset_text(offset) for offset in marks])
    axes.margins(x=0, y=0.25)
    axes.set_title(f"UT offset of {title}" if title else "UT offset", loc="left")


def _apart(offsets: List[int]) -> List[int]:
    """Return offsets of which no two are so close that their marks would overlap."""
    least = (offsets[-1] - offsets[0]) / 12 if offsets else 0
    made: List[int] = []
    for offset in offsets:
        if not made or offset - made[-1] >= least:
            made.append(offset)
    return made


def _axes(axes: Any) -> Any:
    """Return these axes, or those of pyplot."""
    if axes is not None:
        return axes
    try:
        pyplot = importlib.import_module("matplotlib.pyplot")
    except ImportError as error:
        raise ImportError("plot and plot_diff need matplotlib") from error
    return pyplot.gca()


def _bounds(start: Instant, end: Instant) -> Tuple[int, int]:
    """Return two instants in seconds, the second after the first."""
    first, last = _seconds(start), _seconds(end)
    if last <= first:
        raise ValueError("the end isn't after the start")
    return first, last


def _seconds(instant: Instant) -> int:
    if isinstance(instant, datetime.datetime):
        if instant.tzinfo is None:
            raise ValueError("an instant is seconds from 1970, or a datetime with a tzinfo")
        return (instant - _EPOCH) // _SECOND
    return instant


def _date(instant: int) -> datetime.datetime:
    """Return an instant as matplotlib takes it."""
    return _EPOCH + datetime.timedelta(seconds=instant)

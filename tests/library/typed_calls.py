"""Calls of the Python package, for mypy alone: each error that is ignored here must be one."""

from datetime import datetime, timezone
from typing import Iterator, List, Optional

import pzic

tree = pzic.Tree.open("zones")
zone: pzic.Zone = tree["Europe/Dublin"]
instant: int = zone.instant(0, "later")
rows: bytes = tree.convert(b"", unit="ms", keep_going=True)
chosen: bytes = tree.convert(b"", only=["utc", "offset"], prefix="p_", empty="keep", replace=True, line_end="\r\n")
told: pzic.Rows = pzic.Compiled().rows(b"", source="local", ambiguous="compatible")
lines: bytes = tree.diff(tree, ignore=["daylight"], summary=True)
names: List[str] = tree.aliases("Europe/Dublin")
due: Optional[int] = zone.next_local(0, "02:30", ["mon", "fri"], "skip")
moments: Iterator[datetime] = zone.schedule("02:30", after=datetime(2024, 1, 1, tzinfo=timezone.utc))
of_pandas: pzic.ZoneInfo = tree.zoneinfo("Europe/Dublin")

zone.instant(0, "rejct")  # type: ignore[arg-type]
zone.instant_array([0], ambiguous="first")  # type: ignore[arg-type]
tree.convert(b"", unit="h")  # type: ignore[arg-type]
tree.convert(b"", uint="ms")  # type: ignore[call-arg]
tree.rows("", keep_going=True)  # type: ignore[arg-type]
pzic.Compiled().rows(b"", ambiguous="rejct")  # type: ignore[arg-type]
pzic.Layout(style="isso")  # type: ignore[arg-type]
pzic.Layout(records="rows", quotes="none", source="time")  # type: ignore[arg-type]
tree.convert(b"", only=["zone"])  # type: ignore[list-item]
pzic.Layout(empty="skip", line_end="\r")  # type: ignore[arg-type]
tree.diff(tree, ignore=["offset"])  # type: ignore[list-item]
tree.diff(tree, year=1900)  # type: ignore[call-arg]
tree.instant_columns([], [], "rejct")  # type: ignore[arg-type]
zone.next_local(0, "02:30", ["monday"])  # type: ignore[list-item]
zone.next_local(0, "02:30", policy="reject")  # type: ignore[arg-type]
zone.schedule("02:30", after="now")  # type: ignore[type-var]

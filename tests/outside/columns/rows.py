#!/usr/bin/env python3
"""Converts the column on standard input, of plain lines, as `pzic convert` does, by Python's zoneinfo.

usage: PYTHONTZPATH=TREE rows.py
"""
import sys
from datetime import datetime, timedelta, timezone
from functools import lru_cache
from zoneinfo import ZoneInfo

EPOCH = datetime(1970, 1, 1, tzinfo=timezone.utc)


@lru_cache(maxsize=None)
def zone_of(name):
    """kept, since ZoneInfo itself keeps eight"""
    return ZoneInfo(name)


@lru_cache(maxsize=None)
def offset_text(offset):
    seconds = offset.days * 86400 + offset.seconds
    size = abs(seconds)
    return "%s%02d:%02d:%02d" % ("-" if seconds < 0 else "+", size // 3600, size // 60 % 60, size % 60)


def row(name, zone, instant):
    """the text of a row, without its newline"""
    local = (EPOCH + timedelta(seconds=instant)).astimezone(zone)
    time = local.replace(tzinfo=None).isoformat()
    return f"{name},{instant},{time},{offset_text(local.utcoffset())},{int(bool(local.dst()))},{local.tzname()}"


def main():
    for line in sys.stdin:
        name, instant = line.split(",")
        sys.stdout.write(row(name, zone_of(name), int(instant)) + "\n")


if __name__ == "__main__":
    main()

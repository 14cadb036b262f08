"""For `bench/local.sh`: tells the instants of the first ROWS local times on standard input as `pzic convert
--from local --ambiguous compatible` does, with csv and zoneinfo: `local.py ROWS`."""

import csv
import functools
import itertools
import sys
from datetime import datetime, timedelta, timezone
from zoneinfo import ZoneInfo

EPOCH = datetime(1970, 1, 1, tzinfo=timezone.utc)


@functools.lru_cache(maxsize=None)
def offset_text(offset):
    seconds = int(offset.total_seconds())
    minutes, second = divmod(abs(seconds), 60)
    return f"{'-' if seconds < 0 else '+'}{minutes // 60:02}:{minutes % 60:02}:{second:02}"


rows = csv.writer(sys.stdout, lineterminator="\n")
zone_of = functools.lru_cache(maxsize=None)(ZoneInfo)
for name, local in itertools.islice(csv.reader(sys.stdin), int(sys.argv[1])):
    instant = datetime.fromisoformat(local).replace(tzinfo=zone_of(name)).astimezone(timezone.utc)
    shown = instant.astimezone(zone_of(name))
    seconds = (instant - EPOCH) // timedelta(seconds=1)
    rows.writerow((name, local, seconds, offset_text(shown.utcoffset()), int(bool(shown.dst())), shown.tzname()))

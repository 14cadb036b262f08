"""For `bench/convert.sh`: converts the first ROWS rows of the column on standard input as `pzic
convert` does, with csv and zoneinfo: `convert.py ROWS`."""

import csv
import functools
import itertools
import sys
from datetime import datetime
from zoneinfo import ZoneInfo


@functools.lru_cache(maxsize=None)
def offset_text(offset):
    seconds = int(offset.total_seconds())
    minutes, second = divmod(abs(seconds), 60)
    return f"{'-' if seconds < 0 else '+'}{minutes // 60:02}:{minutes % 60:02}:{second:02}"


rows = csv.writer(sys.stdout, lineterminator="\n")
zone_of = functools.lru_cache(maxsize=None)(ZoneInfo)
for name, instant in itertools.islice(csv.reader(sys.stdin), int(sys.argv[1])):
    local = datetime.fromtimestamp(int(instant), zone_of(name))
    time = local.replace(tzinfo=None).isoformat()
    offset = offset_text(local.utcoffset())
    rows.writerow((name, instant, time, offset, int(bool(local.dst())), local.tzname()))

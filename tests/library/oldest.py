"""Tests the Python package under a Python that has no zoneinfo, as 3.8: `oldest.py TREE`."""

import array
import copy
import pickle
import sys
from datetime import datetime, timedelta, timezone

import pzic


def check(holds, *what):
    if not holds:
        sys.exit(f"library: Python {sys.version.split()[0]}: not so: {what}")


tree = pzic.Tree.open(sys.argv[1])
dublin = tree["Europe/Dublin"]
check(dublin.at(1_720_000_000) == pzic.State(3600, False, "IST"), "at")
check(copy.deepcopy(dublin) is dublin and pickle.loads(pickle.dumps(dublin)) == dublin, "copies")
offsets, flags = dublin.convert_array(array.array("q", [1_704_067_200, 1_720_000_000]))
check(list(offsets) == [0, 3600] and list(flags) == [pzic.DAYLIGHT, 0], "array")
offsets, flags = dublin.convert_array([1_704_067_200, 1_720_000_000])
check(list(offsets) == [0, 3600] and list(flags) == [pzic.DAYLIGHT, 0], "list")
for given in ["a"], b"1", None:
    try:
        check(False, given, dublin.convert_array(given))
    except TypeError as error:
        check("instants" in str(error), error)
instants, statuses = dublin.instant_array(array.array("q", [1_711_848_600]), "reject")
check(list(instants) == [0] and list(statuses) == [pzic.GAP], "local times")
check(dublin.next_change(1_720_000_000) == 1_729_990_800, "next change")
check(dublin.changes(1_700_000_000, 1_740_000_000) == [1_711_846_800, 1_729_990_800], "changes")
zone = tree.tzinfo("Europe/Dublin")
check(datetime(2024, 7, 3, 9, tzinfo=timezone.utc).astimezone(zone).utcoffset() == timedelta(hours=1), "datetime")
check(pickle.loads(pickle.dumps(zone)) is zone, "one object")
made = pzic.Compiled(b"Zone A 1:00 - AAA\n")
check(made.convert(b"A,0\n") == b"A,0,1970-01-01T01:00:00,+01:00:00,0,AAA\n", "rows")
for call, word in (tree.zoneinfo, "Europe/Dublin"), (pzic.ZoneInfo, "Europe/Dublin"), (dublin.to_zoneinfo, None):
    try:
        call(word)
    except ImportError:
        check(sys.version_info < (3, 9), call)
print(f"library: Python {sys.version.split()[0]}")

"""Tests VTIMEZONE components: `calendars.py TREE PROGRAM`.

Reads those of all zones of a tree, and of TZ strings of many kinds, by icalendar with dateutil and by libical, and compares them with
the library, and those of the tree with zoneinfo too, at every change, from 1601 on, and a second before: for each TZ string up to 400
years after the last transition. The program must print the same components.
"""

import bisect
import ctypes
import ctypes.util
import datetime
import io
import random
import re
import struct
import subprocess
import sys
import tempfile
from pathlib import Path
from zoneinfo import ZoneInfo

import dateutil.rrule
import icalendar
import pzic

EPOCH = datetime.datetime(1970, 1, 1, tzinfo=datetime.timezone.utc)
NAIVE = datetime.datetime(1970, 1, 1)
SINCE = -11644473600
#: 400 years, and the end of what the readers are asked.
CYCLE = 146097 * 86400
#: The last year that libical looks at is 2582.
LIBICAL_LAST = 19_313_000_000
random.seed(6)

FOOTERS = """
UTC0
EST5EDT,M3.2.0,M11.1.0
IST-1GMT0,M10.5.0,M3.5.0/1
EST5EDT,0/0,J365/25
EET-2EEST,M3.4.4/50,M10.4.4/50
<-02>2<-01>,M3.5.0/-1,M10.5.0/0
AAA1BBB,M2.4.0/30,M9.1.0/-30
AAA1BBB,M2.4.3/24,M9.4.6/167
AAA1BBB,M2.5.0/49,M8.5.0/-49
AAA1BBB,M3.1.0/-1,M10.1.1/-167
AAA1BBB,M3.5.0/-130,M10.5.3/-160
AAA1BBB,M1.1.6/-150,M8.4.2/140
AAA1BBB,M12.5.0/100,M6.1.0/-100
AAA1BBB,M1.1.0/-50,M7.5.6/167
AAA1BBB,J59/24,J300
AAA1BBB,J60/-1,J300/26
AAA1BBB,J60,J365/24
AAA1BBB,J1/-1,J200/-167
AAA1BBB,59/24,300/-25
AAA1BBB,0,200/12
AAA1BBB,0/-1,364/10
AAA-1:30:15BBB-2:45:30,M3.5.0/2:03:04,M10.5.0
<+1030>-10:30<+11>-11,M10.1.0,M4.1.0
""".split()


def tzif(footer):
    """Return a file of a TZ string alone."""
    name, offset = re.match(r"(<[^>]+>|[A-Za-z]+)([-+:0-9]+)", footer).groups()
    parts = [int(part) for part in offset.lstrip("+-").split(":")] + [0, 0]
    seconds = (3600 * parts[0] + 60 * parts[1] + parts[2]) * (1 if offset.startswith("-") else -1)
    letters = name.strip("<>").encode() + b"\0"
    block = b"TZif3" + bytes(15) + struct.pack(">6L", 0, 0, 0, 0, 1, len(letters)) + struct.pack(">lBB", seconds, 0, 0) + letters
    return block + block + b"\n" + footer.encode() + b"\n"


# ------------------------------------------------------------------ readers


def unfolded(text):
    """Return the lines of a component, of which each has at most 75 bytes."""
    assert text.endswith("\r\n") and "\n" not in text.replace("\r\n", "")
    assert all(len(line.encode()) <= 75 for line in text.split("\r\n"))
    return text.replace("\r\n ", "").split("\r\n")[:-1]


def by_icalendar(text, stop):
    """Return the onsets that icalendar and dateutil read, as (instant, offset, name, daylight)."""
    made = []
    if "BEGIN:STANDARD" not in text:
        # icalendar 4 makes no zone of daylight saving time alone, and makes none at all by a name that pytz has.
        text = re.sub(r"TZID:[^\r]*", "TZID:Europe/Dublin", text)
    for part in icalendar.Timezone.from_ical(text).subcomponents:
        start, before, offset = part["DTSTART"].dt, part["TZOFFSETFROM"].td, part["TZOFFSETTO"].td
        lists = part.get("RDATE", [])
        onsets = {start} | {one.dt for dates in (lists if isinstance(lists, list) else [lists]) for one in dates.dts}
        if "RRULE" in part:
            found = dateutil.rrule.rrulestr(part["RRULE"].to_ical().decode(), dtstart=start)
            onsets |= set(found.between(start, NAIVE + datetime.timedelta(seconds=stop), inc=True))
            assert min(onsets) == start == found[0], "the first onset is one of the rule"
        for local in onsets:
            instant = round((local - before - NAIVE).total_seconds())
            made.append((instant, round(offset.total_seconds()), str(part["TZNAME"]), part.name == "DAYLIGHT"))
    return sorted(made)


class IcalTime(ctypes.Structure):
    _fields_ = [(name, ctypes.c_int) for name in "year month day hour minute second is_date is_daylight".split()]
    _fields_ += [("zone", ctypes.c_void_p)]


class Libical:
    """A component, as libical reads it."""

    library = ctypes.CDLL(ctypes.util.find_library("ical") or "libical.so.3")
    for name in ("icalparser_parse_string", "icaltimezone_new"):
        getattr(library, name).restype = ctypes.c_void_p
    library.icalparser_parse_string.argtypes = [ctypes.c_char_p]
    library.icaltimezone_set_component.argtypes = [ctypes.c_void_p, ctypes.c_void_p]
    library.icaltimezone_get_utc_offset_of_utc_time.argtypes = [ctypes.c_void_p, ctypes.POINTER(IcalTime), ctypes.POINTER(ctypes.c_int)]

    def __init__(self, text):
        component = self.library.icalparser_parse_string(text.encode())
        self._zone = self.library.icaltimezone_new()
        assert component and self.library.icaltimezone_set_component(self._zone, component) == 1

    def at(self, instant):
        moment = NAIVE + datetime.timedelta(seconds=instant)
        daylight = ctypes.c_int()
        asked = IcalTime(*moment.timetuple()[:6])
        offset = self.library.icaltimezone_get_utc_offset_of_utc_time(self._zone, asked, daylight)
        return offset, bool(daylight.value)


def shown(info, instant):
    """Return what zoneinfo shows: the offset and the abbreviation."""
    local = (EPOCH + datetime.timedelta(seconds=instant)).astimezone(info)
    return int(local.utcoffset().total_seconds()), local.tzname()


# ------------------------------------------------------------------ comparisons


def compare(zone, name, since=SINCE, until=None, after=CYCLE):
    """Compare a component with zoneinfo and the library, up to some seconds after the year 2100 or the last change, and return at how
    many instants."""
    text = zone.vtimezone(since, until, key=name)
    lines = unfolded(text)
    assert lines[0] == "BEGIN:VTIMEZONE" and lines[1].startswith("TZID:") and lines[-1] == "END:VTIMEZONE"
    rules = [line for line in lines if line.startswith("RRULE")]
    assert until is None or not rules, rules
    # zoneinfo reads some TZ strings of the list otherwise.
    info = ZoneInfo.from_file(io.BytesIO(zone.data)) if zone.key else None
    last = max([since, *zone.changes(since, 4_133_980_800)])
    stop = until or last + after
    onsets = by_icalendar(text, stop + 86400 * 400)
    times = [onset[0] for onset in onsets]
    assert times == sorted(set(times)), "two observances begin at once"
    assert until is None or times[-1] < until
    libical = Libical(text)
    changes = zone.changes(since + 1, stop)
    assert [time for time in times if since < time < stop] == changes, (name, "other changes")
    instants = [instant for change in [since + 86400 * 30, *changes, stop - 1] for instant in (change - 1, change)]
    for instant in (instant for instant in instants if since <= instant < stop):
        _, offset, abbreviation, daylight = onsets[bisect.bisect_right(times, instant) - 1]
        assert info is None or (offset, abbreviation) == shown(info, instant), (name, instant)
        assert zone.at(instant) == (offset, daylight, abbreviation), (name, instant)
        assert instant > LIBICAL_LAST or libical.at(instant) == (offset, daylight), (name, instant, libical.at(instant), offset)
    return len(instants)


def at_start(year):
    """Return the instant at which a year starts in UT."""
    return round((datetime.datetime(year, 1, 1) - NAIVE).total_seconds())


def printed(file, name, *years):
    """Return the status of the program, and the component that it prints of a file from one year, or up to another."""
    words = [word for option, year in zip(("--since", "--until"), years) for word in (option, str(year))]
    ended = subprocess.run([sys.argv[2], "export", "--ics", "--name", name, *words, file], capture_output=True, check=False)
    return ended.returncode, ended.stdout.decode()


def compare_printed(zone, file, name, *years):
    """Compare what the program prints with what the library makes."""
    wanted = zone.vtimezone(*map(at_start, years), key=name)
    assert printed(file, name, *years) == (0, wanted), (name, years)
    unfolded(wanted)


def compare_program(tree, names):
    """Compare the components of the program with those of the library, and return how many."""
    counted = 0
    for name in names:
        first = random.randrange(2, 9999)
        for years in [(), (random.randrange(2, 9400),), (first, random.randrange(first + 1, 10000))]:
            compare_printed(tree[name], f"{sys.argv[1]}/{name}", name, *years)
            counted += 1
    with tempfile.TemporaryDirectory() as folder:
        file = Path(folder, "file")
        for footer in FOOTERS + shifted():
            file.write_bytes(tzif(footer))
            zone = pzic.Zone(file.read_bytes())
            for name in [f"Test: {footer}", "Zürich " * 20 + "A;B,C\\"]:
                compare_printed(zone, str(file), name)
                counted += 1
        file.write_bytes(tzif("AAA0BBB,100,365"))
        assert printed(str(file), "Test")[0] != 0
    dublin = f"{sys.argv[1]}/Europe/Dublin"
    assert all(printed(dublin, name)[0] != 0 for name in ("", "A\nB", "A\x7f"))
    return counted


def shifted():
    """Return TZ strings whose rules name days of a month up to a week before or after."""
    made = []
    for hours in range(-167, 168, 24):
        for week in (1, 2, 3, 4, 5):
            month = random.randrange(1, 13)
            other = (month + 5) % 12 + 1
            made.append(f"AAA1BBB,M{month}.{week}.{random.randrange(7)}/{hours},M{other}.{6 - week}.{random.randrange(7)}/{-hours}")
    return made


def refused(call, *words):
    try:
        call(*words)
    except ValueError:
        return
    raise AssertionError(words)


def main():
    tree = pzic.Tree.open(sys.argv[1])
    by_bytes = {tree[name].data: name for name in sorted(tree, reverse=True)}
    names = sorted(by_bytes.values())
    footers, counted = set(), 0
    for name in names:
        footer = tree[name].data.rsplit(b"\n", 2)[1]
        counted += compare(tree[name], name, after=400 * 86400 if footer in footers else CYCLE)
        footers.add(footer)
    print(f"calendars: {len(names)} zones at {counted} instants, as icalendar and libical read them")
    footers = FOOTERS + random.sample(shifted(), 8)
    counted = sum(compare(pzic.Zone(tzif(footer)), f"Test: {footer}") for footer in footers)
    print(f"calendars: {len(footers)} TZ strings at {counted} instants")
    for name in ("Europe/Dublin", "America/New_York", "Asia/Tokyo", "Africa/Casablanca", "Asia/Gaza"):
        for _ in range(4):
            since = random.randrange(-2**31, 2**32)
            compare(tree[name], name, since, since + random.randrange(1, 2**32))
            compare(tree[name], name, since, after=400 * 86400)
    dublin = tree["Europe/Dublin"]
    change = dublin.next_change(1_700_000_000)
    compare(dublin, "Europe/Dublin", change, after=400 * 86400)
    compare(dublin, "Europe/Dublin", change - 1, change)
    compare(dublin, "Europe/Dublin", change, change + 1)
    assert "TZID:Europe/Dublin\r\n" in dublin.vtimezone(0) and dublin.vtimezone(0).count("RRULE") == 2
    assert "TZID:A\\;B\\,C\\\\" in dublin.vtimezone(key="A;B,C\\")
    refused(dublin.vtimezone, 5, 5)
    refused(lambda: pzic.Zone(tzif("AAA0BBB,100,365")).vtimezone(key="Test"))
    refused(pzic.Zone(dublin.data).vtimezone)
    refused(dublin.vtimezone, 0, None, "A\nB")
    print("calendars: parts of zones, and refusals")
    print(f"calendars: {compare_program(tree, names)} components of the program are those of the library")


main()

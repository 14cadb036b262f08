"""Compares when clocks show a time of day with Python's zoneinfo: `schedules.py TREE`.

Each policy over two years of zones with gaps and folds of an hour, of half an hour and of a day, instants of both kinds, and what is refused.
"""

import sys
import zoneinfo
from datetime import datetime, time, timedelta, timezone
from itertools import islice

import pzic

tree = pzic.Tree.open(sys.argv[1])
zoneinfo.reset_tzpath([sys.argv[1]])
UTC = timezone.utc
DAYS = ["mon", "tue", "wed", "thu", "fri", "sat", "sun"]
NAMES = ["America/New_York", "Europe/Dublin", "Australia/Lord_Howe", "Pacific/Apia", "Africa/Casablanca", "Asia/Tokyo"]
TIMES = ["00:00", "01:30", "02:00", "02:30", "12:00:59", "23:59:59"]
START, END = datetime(2010, 7, 1, tzinfo=UTC), datetime(2012, 7, 1, tzinfo=UTC)
checks = 0


def expect(got, want, *what):
    global checks
    checks += 1
    if got != want:
        sys.exit(f"schedules: {what}: got {got!r}, and not {want!r}")


def refuses(error, call, *words, **named):
    global checks
    checks += 1
    try:
        got = call(*words, **named)
    except error:
        return
    sys.exit(f"schedules: {words} {named}: got {got!r}")


def meant(zone, local, policy):
    """Return the instant that a policy means by a local time, as PEP 495 tells the sides of gaps and folds."""
    first, last = (local.replace(tzinfo=zone, fold=fold).astimezone(UTC) for fold in (0, 1))
    is_gap = first.astimezone(zone).replace(tzinfo=None) != local
    if policy == "skip":
        return None if is_gap else first
    if policy == "earlier":
        return last if is_gap else first
    return last if policy == "later" and not is_gap else first


def due(name, text, days, policy):
    """Return the seconds of all instants between the start and the end at which a schedule is due."""
    zone, at = zoneinfo.ZoneInfo(name), time.fromisoformat(text)
    made = set()
    for day in range(-3, (END - START).days + 3):
        local = datetime.combine(START.date() + timedelta(days=day), at)
        moment = meant(zone, local, policy) if DAYS[local.weekday()] in days else None
        if moment is not None and START < moment <= END:
            made.add(int(moment.timestamp()))
    return sorted(made)


def compare():
    start, end = int(START.timestamp()), int(END.timestamp())
    for number, name in enumerate(NAMES):
        zone = tree[name]
        for policy in "compatible", "earlier", "later", "skip":
            for text in TIMES:
                days = DAYS if number % 2 else [DAYS[6], DAYS[number]]
                want = due(name, text, days, policy)
                expect(list(zone.schedule(text, days, after=start, until=end, policy=policy)), want, name, text, policy)
                for other in want[:: max(1, len(want) // 5)]:
                    expect(zone.next_local(other - 1, text, days, policy), other, name, text, policy)


def take_datetimes():
    zone = tree["America/New_York"]
    after = datetime(2024, 3, 9, 12, tzinfo=UTC)
    shown = [str(moment) for moment in zone.schedule("02:30", after=after, until=after + timedelta(days=3))]
    expect(shown, ["2024-03-10 03:30:00-04:00", "2024-03-11 02:30:00-04:00", "2024-03-12 02:30:00-04:00"], "datetimes")
    expect(zone.next_local(after, time(2, 30), ["sun"], "skip").isoformat(), "2024-03-17T02:30:00-04:00", "a day that is left out")
    expect(zone.next_local(after, "02:30").tzinfo is zone.tzinfo(), True, "the zone")
    for fraction, day in (-1, 9), (0, 10), (1, 10):
        expect(zone.next_local(after + timedelta(microseconds=fraction), "07:00").day, day, "fractions", fraction)
    # Samoa had no 30 December 2011.
    moments = tree["Pacific/Apia"].schedule("12:00", after=datetime(2011, 12, 29, tzinfo=UTC), policy="skip")
    expect([moment.day for moment in islice(moments, 3)], [29, 31, 1], "Samoa")
    moments = zone.schedule("12:00", after=datetime(9999, 12, 29, tzinfo=UTC))
    expect([moment.day for moment in moments], [29, 30], "the last days")


def refuse():
    zone = tree["Europe/Dublin"]
    for text in "", "2:30", "24:00", "02:60", "02:30:60", "02:30 ", "02:30:00.5", "0２:30":
        refuses(ValueError, zone.next_local, 0, text)
    refuses(ValueError, zone.next_local, 0, time(1, 2, 3, 4))
    refuses(ValueError, zone.next_local, 0, time(1, tzinfo=UTC))
    refuses(ValueError, zone.next_local, 0, "02:30", ["monday"])
    refuses(ValueError, zone.next_local, 0, "02:30", "mon")
    refuses(ValueError, zone.schedule, "02:30", after=0, policy="reject")
    refuses(ValueError, zone.schedule, "02:30", after=datetime(2024, 1, 1))
    refuses(OverflowError, zone.next_local, 2**63, "02:30")
    expect(zone.next_local(0, "02:30", []), None, "no days")
    expect(list(zone.schedule("02:30", [], after=0)), [], "no days")
    expect(zone.next_local(0, "02:30", until=5399), None, "none up to an instant")
    expect(zone.next_local(0, "02:30", until=5400), 5400, "the last instant")
    expect(list(zone.schedule("02:30", after=0, until=-1)), [], "a last instant before the first")
    expect(zone.next_local(pzic.MAX_INSTANT - 5, "02:30"), None, "the end")


compare()
take_datetimes()
refuse()
print(f"schedules: {checks} checks")

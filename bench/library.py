"""Measures the Python package beside zoneinfo, numpy and pandas: `library.py TREE NAME FOLDER`.

Each figure is the best of five runs, in nanoseconds for one instant. The folder has the instants of
the large arrays, and the offsets that all have to give for them, as `library.c` keeps them. numpy and
pandas are left out where they are missing.
"""

import array
import os
import random
import sys
import time
import timeit
import zoneinfo
from datetime import datetime, timedelta, timezone

import pzic

tree, name, folder = sys.argv[1:]
zoneinfo.reset_tzpath([os.path.abspath(tree)])
theirs = zoneinfo.ZoneInfo(name)
zone = pzic.Tree.open(tree)[name]
ours = zone.tzinfo(name)


def measure(what, count, work, share_of_others=None):
    """Print what the best run takes for one instant and, if told how to find it, the share of other
    offsets. Return what is answered."""
    answers = []
    best = min(timeit.repeat(lambda: answers.append(work()), answers.clear, number=1, repeat=5))
    others = share_of_others(answers[0]) if share_of_others else 0
    note = f", {others:.1%} other offsets" if others else ""
    print(f"{what} {best * 1e9 / count:.2f} ns{note}", flush=True)
    return answers[0]


def single_answers():
    """Ask for single instants, and for an array as Python has them."""
    random.seed(1)
    instants = array.array("q", (random.randrange(0, 4_102_444_800) for _ in range(1_000_000)))
    some = instants[:20_000]
    utc = [datetime.fromtimestamp(t, timezone.utc) for t in some]
    local = [t.replace(tzinfo=None) for t in utc]

    def both(what, work):
        """Return the answers of both, which are to be the same. They take turns, in processor time."""
        answers, least = [None, None], [float("inf"), float("inf")]
        for _ in range(9):
            for i, tz in enumerate((ours, theirs)):
                begun = time.process_time()
                answers[i] = work(tz)
                least[i] = min(least[i], time.process_time() - begun)
        told = " and ".join(f"{seconds * 1e9 / len(some):.0f}" for seconds in least)
        print(f"Python, {what}: pzic and zoneinfo {told} ns, {least[0] / least[1]:.2f} of it", flush=True)
        return answers

    shown, wanted = both("astimezone from UT", lambda tz: [t.astimezone(tz) for t in utc])
    assert [t.replace(tzinfo=None) for t in shown] == [t.replace(tzinfo=None) for t in wanted]
    told, wanted = both(
        "utcoffset from local time", lambda tz: [t.replace(tzinfo=tz).utcoffset() for t in local]
    )
    assert told == wanted
    shown = {tz: [t.replace(tzinfo=tz) for t in local] for tz in (ours, theirs)}
    for call in datetime.utcoffset, datetime.tzname, datetime.dst:
        told, wanted = both(f"{call.__name__} alone", lambda tz: [call(t) for t in shown[tz]])
        assert told == wanted

    what = "Python, the offset of one instant:"
    singly = measure(f"{what} pzic", len(some), lambda: [zone.utcoffset(t) for t in some])
    wanted = measure(
        f"{what} zoneinfo", len(some), lambda: [t.astimezone(theirs).utcoffset() for t in utc]
    )
    assert [timedelta(seconds=offset) for offset in singly] == wanted
    measure("Python, the state of one instant: pzic", len(some), lambda: [zone.at(t) for t in some])
    what = "Python, an array of 1 million:"
    offsets, _ = measure(f"{what} pzic", len(instants), lambda: zone.convert_array(instants))
    assert list(offsets[: len(some)]) == singly


def large_arrays(numpy, pandas, order):
    """Measure on the instants of a file: numpy's search in a table of all changes, and pandas."""
    instants = numpy.fromfile(f"{folder}/{order}", "int64")
    wanted = numpy.fromfile(f"{folder}/{order}.offsets", "int32")
    spans = [zone.span(pzic.MIN_INSTANT)]
    while spans[-1].last < 5_000_000_000:
        spans.append(zone.span(spans[-1].last + 1))
    starts = numpy.array([span.first for span in spans], "int64")
    after = numpy.array([span.state.offset for span in spans], "int32")
    found, flags = numpy.empty(len(instants), "int32"), numpy.empty(len(instants), "uint8")
    what = f"Python, an array, {order}:"

    measure(f"{what} pzic", len(instants), lambda: zone.convert_array(instants, found, flags))
    assert (found == wanted).all()
    offsets = measure(
        f"{what} numpy.searchsorted",
        len(instants),
        lambda: after.take(starts.searchsorted(instants, "right") - 1),
    )
    assert (offsets == wanted).all()

    def by_pandas(library, tz, apart):
        """Convert some of the instants to local time, and subtract them."""
        times = instants[::apart].astype("datetime64[s]").astype("datetime64[ns]")
        utc = pandas.DatetimeIndex(times).tz_localize("UTC")

        def share_of_others(offsets):
            share = (offsets // numpy.timedelta64(1, "s") != wanted[::apart]).mean()
            assert share == 0 or tz is name
            return share

        measure(
            f"{what} {library}",
            len(times),
            lambda: utc.tz_convert(tz).tz_localize(None).to_numpy() - times,
            share_of_others,
        )

    # pandas knows a zone by its name from pytz, which reads no footers.
    by_pandas("pandas", name, 1)
    by_pandas("pandas with zoneinfo, every tenth", theirs, 10)


def columns(numpy, pandas):
    """Measure a column with a zone for each row beside pandas, which converts it zone by zone."""
    import pytz

    ours = pzic.Tree.open(tree)
    names = sorted(name for name in ours if name in pytz.all_timezones_set)
    random_rows = numpy.random.default_rng(1)
    codes = random_rows.integers(0, len(names), 1_000_000)
    zones = pandas.Series(pandas.Categorical.from_codes(codes, names))
    times = pandas.Series(random_rows.integers(0, 1 << 31, len(codes)).astype("datetime64[s]").astype("datetime64[ns]"))
    what = f"Python, a column of 1 million rows in {len(names)} zones:"

    def by_pandas(abbreviations=None):
        """Return local times, and write abbreviations if there is room for them."""
        local = times.to_numpy().copy()
        for name, rows in zones.groupby(zones, observed=True).indices.items():
            shown = pandas.DatetimeIndex(local[rows]).tz_localize("UTC").tz_convert(name)
            local[rows] = shown.tz_localize(None).to_numpy()
            if abbreviations is not None:
                abbreviations[rows] = shown.strftime("%Z")
        return local

    told = measure(f"{what} pzic", len(codes), lambda: ours.convert_columns(zones, times))
    room = numpy.empty(len(codes), "object")
    measure(f"{what} pandas, by groups", len(codes), lambda: by_pandas(room))
    local = measure(f"{what} pandas, by groups, without abbreviations", len(codes), by_pandas)
    others = (told.local != local.astype("datetime64[s]")).mean(), (told.abbreviations != room).mean()
    print(f"{what} {others[0]:.2%} other local times, {others[1]:.2%} other abbreviations")


single_answers()
try:
    import numpy
    import pandas
except ImportError as missing:
    print(f"{missing}: large arrays in Python are left out")
else:
    for order in "random", "sorted":
        large_arrays(numpy, pandas, order)
    columns(numpy, pandas)

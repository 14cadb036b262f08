"""Tests the package's zones in pandas: `pandas_day.py TREE`.

What a program does with columns of dates and times over a day is done by `pzic.ZoneInfo` and by zoneinfo's own class. What is
made, printed, written and refused must be the same, and columns of one zone have one type, whatever they were read from.
"""

import copy
import datetime
import io
import os
import pickle
import subprocess
import sys
import tempfile
import zoneinfo

import numpy
import pandas

import pzic

NAMES = "America/New_York", "Europe/Dublin", "Australia/Lord_Howe", "Asia/Kathmandu", "UTC"
#: Near the changes of 2024 of two zones, in March and in the autumn.
DAYS = "2024-03-10", "2024-03-31", "2024-10-06", "2024-10-27", "2024-11-03"


def check(holds, *what):
    if not holds:
        sys.exit(f"library: pandas: not so: {what}")


def hours(day, zone=None):
    """Return the half hours round the start of a day."""
    start = pandas.Timestamp(day) - pandas.Timedelta("3h")
    return pandas.Series(pandas.date_range(start, periods=20, freq="30min", tz=zone))


def local_times(zone):
    """Yield what local times are, where they come twice and where they are left out."""
    for day in DAYS:
        shown = hours(day)
        for ambiguous in "raise", "NaT", "infer", numpy.arange(20) % 2 == 0:
            for nonexistent in "raise", "NaT", "shift_forward", "shift_backward", pandas.Timedelta("1h"):
                yield lambda: shown.dt.tz_localize(zone, ambiguous=ambiguous, nonexistent=nonexistent)
        for stamp in shown[::3]:
            yield lambda: stamp.tz_localize(zone, ambiguous=True)
            yield lambda: stamp.tz_localize(zone, ambiguous="NaT", nonexistent="shift_forward")
            yield lambda: pandas.Timestamp(stamp, tz=zone)


def instants(zone):
    """Yield what is shown at instants, and what is told of it."""
    for day in DAYS:
        column = hours(day, "UTC").dt.tz_convert(zone)
        yield lambda: column
        for what in "hour", "date", "time", "day_name", "dayofyear", "is_month_end", "tz":
            told = getattr(column.dt, what)
            yield lambda: told() if callable(told) else str(told)
        for call in "normalize", "tz_localize", "tz_convert", "round", "floor", "ceil":
            words = {"tz_localize": [None], "tz_convert": ["UTC"], "normalize": []}.get(call, ["D"])
            yield lambda: getattr(column.dt, call)(*words)
        yield lambda: column.dt.strftime("%Y-%m-%d %H:%M %Z %z")
        yield lambda: column.max() - column.min()
        yield lambda: (column.iloc[0], column.iloc[-1].isoformat(), column.iloc[3].utcoffset(), column.iloc[3].fold)
        yield lambda: column + pandas.Timedelta("1D")
        yield lambda: column + pandas.DateOffset(days=1)
        yield lambda: column.iloc[5] + pandas.offsets.BusinessDay(1)
        yield lambda: column.shift(2).diff()
        yield lambda: column.astype(str)
        yield lambda: [stamp.to_pydatetime().isoformat() for stamp in column]


def ranges(zone):
    """Yield ranges of times over changes."""
    for day in DAYS:
        for freq in "D", "12h", "W", "MS", "B", "45min":
            yield lambda: pandas.date_range(day, periods=5, freq=freq, tz=zone)
        yield lambda: pandas.interval_range(pandas.Timestamp(day, tz=zone), periods=3, freq="D")


def tables(zone):
    """Yield what is made of a table whose rows have a time each."""
    for day in DAYS:
        table = pandas.DataFrame({"time": hours(day, "UTC").dt.tz_convert(zone), "value": range(20), "key": list("ab") * 10})
        by_time = table.set_index("time")
        yield lambda: table
        yield lambda: by_time["value"].resample("D").sum()
        yield lambda: by_time["value"].resample("2h", origin="start_day").mean()
        yield lambda: by_time["value"].rolling("90min").sum()
        yield lambda: table.groupby(table["time"].dt.date)["value"].sum()
        yield lambda: table.groupby(pandas.Grouper(key="time", freq="3h"))["value"].count()
        yield lambda: table.groupby("key")["time"].agg(["min", "max", "first"])
        yield lambda: table.pivot_table(index="time", columns="key", values="value")
        yield lambda: by_time.loc[day:]
        yield lambda: by_time.between_time("01:00", "03:00")
        yield lambda: by_time.asfreq("15min", method="ffill")
        yield lambda: pandas.merge_asof(table, table[::3], on="time", by="key", tolerance=pandas.Timedelta("1h"))
        yield lambda: table.merge(table[::2], on="time")
        yield lambda: pandas.concat([table, table[:3]], ignore_index=True)
        yield lambda: table.sort_values("time", ascending=False).drop_duplicates("key")
        yield lambda: table["time"].isin(table["time"][::2])
        yield lambda: table["time"].astype("category")
        yield lambda: table["time"].astype("category").cat.categories
        yield lambda: table.to_csv(index=False)
        yield lambda: table.to_json(date_format="iso")
        yield lambda: pandas.read_csv(io.StringIO(table.to_csv(index=False)), parse_dates=["time"])["time"].map(str)


def shown(call):
    """Return what a call makes, as it is printed and with its types, or how it is refused."""
    try:
        made = call()
    except Exception as error:
        return type(error), str(error)
    kinds = getattr(made, "dtypes", getattr(made, "dtype", None))
    index = getattr(made, "index", None)
    return repr(made), str(kinds), str(getattr(index, "dtype", None)), made.to_csv() if isinstance(made, pandas.DataFrame) else None


def compare(name, ours, theirs):
    """Compare all that is made by two zones. Return how much that is."""
    count = 0
    for work in local_times, instants, ranges, tables:
        for number, (call, other) in enumerate(zip(work(ours), work(theirs))):
            got, want = shown(call), shown(other)
            check(got == want, name, work.__name__, number, got, want)
            # Only local times that come twice or are left out are refused.
            check(work is local_times or isinstance(got[0], str), name, work.__name__, number, got)
            count += 1
    return count


def is_one_type(column, other):
    return column.dtype == other.dtype and pandas.concat([column, other]).dtype == column.dtype


def keep_one_type(tree, name):
    """Columns of one zone have one type, also once they were copied, pickled and written."""
    zone = tree.zoneinfo(name)
    check(zone is tree[name].to_zoneinfo() is tree.tzinfo(name).to_zoneinfo() is pzic.ZoneInfo(name), "one object", name)
    check(zone is pzic.Tree(tree.folder).zoneinfo(name) and hash(zone) == hash(pzic.ZoneInfo(name)), "one object of two trees", name)
    check(all(made is zone for made in (copy.copy(zone), copy.deepcopy(zone), pzic.ZoneInfo.no_cache(name))), "copies", name)
    column = hours("2024-03-10", "UTC").dt.tz_convert(zone)
    other = hours("2024-03-10", "UTC").dt.tz_convert(pzic.Files({name: tree.data(name)}).zoneinfo(name))
    check(is_one_type(column, other), "of files", name)
    for number in range(2, pickle.HIGHEST_PROTOCOL + 1):
        made = pickle.loads(pickle.dumps(column, number))
        check(made.equals(column) and is_one_type(column, made) and made.dt.tz is zone, "a pickle", name)
    check(is_one_type(column, copy.deepcopy(column)) and is_one_type(column, column.copy()), "a copy", name)
    left, right = pandas.DataFrame({"t": column}), pandas.DataFrame({"t": other, "v": range(20)})
    check(pandas.merge_asof(left, right, on="t")["v"].tolist() == list(range(20)), "merge_asof", name)
    check(len({zone: 1, pzic.ZoneInfo(name): 2}) == 1, "hashes", name)


def write_and_read(tree):
    """A column is written and read by another process, and as a table of Parquet where that is there."""
    zone = tree.zoneinfo("Europe/Dublin")
    table = pandas.DataFrame({"time": hours("2024-10-27", "UTC").dt.tz_convert(zone)})
    with tempfile.TemporaryDirectory() as folder:
        path = os.path.join(folder, "table")
        table.to_pickle(path)
        program = "import pandas, pzic, sys; t = pandas.read_pickle(sys.argv[1]); z = t.time.dt.tz; print(repr(z), t.time.dt.hour.sum()); t.to_pickle(sys.argv[1])"
        words = sys.executable, "-c", program, path
        got = subprocess.run(words, stdout=subprocess.PIPE, cwd="/tmp", check=True).stdout.decode()
        check(got == f"pzic.ZoneInfo(key='Europe/Dublin') {table.time.dt.hour.sum()}\n", "another process", got)
        made = pandas.read_pickle(path)
        check(made.equals(table) and made["time"].dt.tz is zone, "from another process")
        try:
            table.to_parquet(path)
        except ImportError:
            print("skipped: tables of Parquet: pyarrow isn't there")
            return
        made = pandas.read_parquet(path)["time"]
        check((made == table["time"]).all() and str(made.dt.tz) == "Europe/Dublin", "Parquet", made)


def be_a_zoneinfo(tree):
    """The class has the constructors of Python's own and its errors."""
    zone = tree.zoneinfo("Europe/Dublin")
    data = tree.data("Europe/Dublin")
    check(isinstance(zone, zoneinfo.ZoneInfo) and zone.data == data and zone.key == str(zone) == "Europe/Dublin", "a ZoneInfo")
    check(pzic.ZoneInfo.from_file(io.BytesIO(data), key="Europe/Dublin") is zone, "from a file")
    bare = pzic.ZoneInfo.from_file(io.BytesIO(data))
    check(bare is pzic.Zone(data).to_zoneinfo() is pickle.loads(pickle.dumps(bare)) is not zone, "without a name")
    check(bare.key is None and str(bare) == repr(bare) == f"<pzic.ZoneInfo of {len(data)} bytes>", "without a name", bare)
    for call in pzic.ZoneInfo, pzic.ZoneInfo.no_cache:
        for name, kind in ("No/Such", zoneinfo.ZoneInfoNotFoundError), ("../Dublin", ValueError), ("/Dublin", ValueError):
            try:
                check(False, "no name", call(name))
            except kind as error:
                check(isinstance(error, KeyError), "no name", error)


def keep_what_a_timezone_shows(tree):
    """pandas, which doesn't know a TimeZone, doesn't show UT for its datetimes."""
    zone = tree.tzinfo("America/New_York")
    moment = datetime.datetime(2024, 7, 3, 10, tzinfo=zone)
    table = pandas.DataFrame({"time": [moment, moment]})
    check(table.to_csv(index=False) == "time\n" + 2 * "2024-07-03 10:00:00-04:00\n", "a TimeZone's column", table.time.dtype)
    check(table.time.tolist() == [moment, moment], "a TimeZone's datetimes")
    for call in pandas.Timestamp, lambda moment: pandas.date_range(moment, periods=2), lambda _: pandas.Timestamp.now(zone):
        try:
            check(False, "a TimeZone", call(moment))
        except TypeError as error:
            check("to_zoneinfo" in str(error), "a TimeZone", error)


def main():
    folder = os.path.abspath(sys.argv[1])
    zoneinfo.reset_tzpath([folder])
    pandas.set_option("display.max_rows", 100, "display.width", 300)
    tree = pzic.Tree.open(folder)
    count = 0
    for name in NAMES:
        count += compare(name, tree.zoneinfo(name), zoneinfo.ZoneInfo.no_cache(name))
        keep_one_type(tree, name)
    write_and_read(tree)
    be_a_zoneinfo(tree)
    keep_what_a_timezone_shows(tree)
    print(f"library: pandas {pandas.__version__}: {count} results in {len(NAMES)} zones")


if __name__ == "__main__":
    main()

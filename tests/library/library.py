"""Compares the Python package with Python's zoneinfo: `library.py TREE [STEP]`.

Every zone of the tree, or one of STEP, is asked from 1900 to 2100: at each change, one second before
and one after, from an instant to local time and back, at either fold; and a column of random
instants. The witness reads the same files.
"""

import array
import copy
import os
import pickle
import random
import re
import sys
import threading
import zoneinfo
from datetime import datetime, timedelta, timezone

import pzic
from pzic import _library as c

UTC = timezone.utc
EPOCH = datetime(1970, 1, 1, tzinfo=UTC)
FIRST = int((datetime(1900, 1, 1, tzinfo=UTC) - EPOCH).total_seconds())
LAST = int((datetime(2100, 1, 1, tzinfo=UTC) - EPOCH).total_seconds())


def check(holds, *what):
    if not holds:
        sys.exit(f"library: Python: not so: {what}")


def changes(zone):
    """Yield the first instants of the spans from 1900 to 2100."""
    instant = FIRST
    while True:
        last = zone.span(instant).last
        if last >= LAST:
            return
        instant = last + 1
        yield instant


def compare_instant(name, ours, theirs, instant):
    utc = EPOCH + timedelta(seconds=instant)
    got, want = utc.astimezone(ours), utc.astimezone(theirs)
    check(got.replace(tzinfo=None) == want.replace(tzinfo=None), name, utc, got, want)
    check(got.fold == want.fold, name, utc, "fold", got.fold)
    check(got.utcoffset() == want.utcoffset(), name, utc, got.utcoffset(), want.utcoffset())
    check(got.tzname() == want.tzname(), name, utc, got.tzname(), want.tzname())
    check(got.astimezone(UTC) == utc, name, utc, "and back")


def compare_local(name, ours, theirs, local):
    for fold in 0, 1:
        got = local.replace(tzinfo=ours, fold=fold)
        want = local.replace(tzinfo=theirs, fold=fold)
        check(got.utcoffset() == want.utcoffset(), name, local, fold, got.utcoffset())
        check(got.tzname() == want.tzname(), name, local, fold, got.tzname())


def shown(theirs, instant):
    """Return what zoneinfo shows at an instant."""
    time = (EPOCH + timedelta(seconds=instant)).astimezone(theirs)
    return time.utcoffset(), bool(time.dst()), time.tzname()


def compare_changes(name, zone, theirs):
    """Compare the changes with the transitions at which zoneinfo shows something else."""
    want = [change for change in changes(zone) if shown(theirs, change - 1) != shown(theirs, change)]
    check(zone.changes(FIRST + 1, LAST + 1) == want, name, "changes")
    for before, change in zip(want, want[1:]):
        check(zone.next_change(before) == zone.next_change(change - 1) == change, name, change, "next")
        check(zone.previous_change(change) == zone.previous_change(before + 1) == before, name, change, "previous")


def compare_zone(name, zone, theirs):
    ours = zone.tzinfo(name)
    count = 0
    compare_changes(name, zone, theirs)
    for change in changes(zone):
        for instant in change - 1, change, change + 1:
            compare_instant(name, ours, theirs, instant)
            utc = (EPOCH + timedelta(seconds=instant)).replace(tzinfo=None)
            for state in zone.at(change - 1), zone.at(change):
                compare_local(name, ours, theirs, utc + timedelta(seconds=state.offset))
        count += 1
    return count


def compare_column(name, zone, theirs, count):
    instants = array.array("q", (random.randrange(FIRST, LAST) for _ in range(count)))
    offsets, flags = zone.convert_array(instants)
    for instant, offset, flag in zip(instants, offsets, flags):
        want = (EPOCH + timedelta(seconds=instant)).astimezone(theirs)
        check(offset == want.utcoffset().total_seconds(), name, instant, offset)
        check(flag == bool(want.dst()), name, instant, flag)


def compare_numpy(tree):
    """Compare a million instants over twenty zones with zoneinfo, where numpy is."""
    try:
        import numpy
    except ImportError:
        return "no numpy"
    for name in random.sample(sorted(tree), 20):
        theirs = zoneinfo.ZoneInfo(name)
        times = numpy.random.randint(FIRST, LAST, 50_000).astype("datetime64[s]")
        offsets, flags = numpy.empty(50_000, dtype=numpy.int32), numpy.empty(50_000, dtype=numpy.uint8)
        tree[name].convert_array(times.view("int64"), offsets, flags)
        for time, offset, flag in zip(times.tolist(), offsets.tolist(), flags.tolist()):
            want = time.replace(tzinfo=UTC).astimezone(theirs)
            check(offset == want.utcoffset().total_seconds(), name, time, offset)
            check(flag == bool(want.dst()), name, time, flag)
    return "a million instants in numpy arrays"


def refuses(error, call, *words):
    """Return the error with which a call refuses these words."""
    try:
        call(*words)
    except error as caught:
        return caught
    sys.exit(f"library: Python: {words} isn't refused")


def refuse(tree):
    refuses(KeyError, tree.__getitem__, "No/Such")
    refuses(KeyError, tree.__getitem__, "../zones/Europe/Dublin")
    check("No/Such" not in tree and "Europe/Dublin" in tree, "contains")
    check(refuses(pzic.BadFile, pzic.Zone, b"").reason == "Short", "Short")
    check(refuses(pzic.BadFile, pzic.Zone, b"x" * 50).reason == "Magic", "Magic")
    zone = tree["Europe/Dublin"]
    refuses(OverflowError, zone.at, 2**63)
    refuses(OverflowError, zone.next_change, 2**63)
    refuses(TypeError, zone.changes, 0.5, 1)
    fixed = tree["Etc/UTC"]
    check(fixed.next_change(0) is None and fixed.previous_change(0) is None, "no change")
    check(fixed.changes(pzic.MIN_INSTANT, pzic.MAX_INSTANT + 1) == [], "no changes")
    refuses(TypeError, zone.convert_array, array.array("q", [1]), array.array("h", [1]))
    refuses(TypeError, zone.convert_array, array.array("q", [1]), b"1234")
    refuses(ValueError, zone.convert_array, array.array("q", [1]), array.array("i"))
    check(zone.convert_array(array.array("q")) == (array.array("i"), bytearray()), "nothing")


def compile_texts(folder):
    made = pzic.Compiled(b"Zone A 1:00 - AAA", b"", b"Link A B\n")
    check(list(made) == ["A", "B"] and made["B"].utcoffset(0) == 3600, "texts")
    check(made.convert(b"B,0\n") == b"B,0,1970-01-01T01:00:00,+01:00:00,0,AAA\n", "rows")
    caught = refuses(pzic.BadRow, made.convert, b"A,0\nA,x\n")
    check((caught.row, caught.kind) == (2, "RowInstant"), caught)
    check(caught.rows == b"A,0,1970-01-01T01:00:00,+01:00:00,0,AAA\n", caught.rows)
    rows = made.rows(b"t\n5000;x\n?;y\n", zone="A", unit="ms", delimiter=";", header=True, append=True, keep_going=True)
    check(rows.text == b"t;local;offset;daylight;abbreviation\n5000;x;1970-01-01T01:00:05.000;+01:00:00;0;AAA\n?;y;;;;\n", rows)
    check(rows.number == 2 and rows.faults == (pzic.RowFault(2, "RowInstant"),) and not rows.ended, rows)
    check(made.convert(b"A,0\n", style="iso") == b"A,0,1970-01-01T01:00:00+01:00,0,AAA\n", "iso")
    check(made.convert(b"1970-01-01T01:00:00\n", zone="A", source="local").endswith(b",0,+01:00:00,0,AAA\n"), "local")
    check(made.convert(b"A,1970-01-01T01:00:00\n", source="local", style="iso").endswith(b",1970-01-01T00:00:00Z,1970-01-01T01:00:00+01:00,0,AAA\n"), "UT")
    check(made.convert(b"A,7.25\n", source="seconds", unit="ms") == b"A,7250,1970-01-01T01:00:07.250,+01:00:00,0,AAA\n", "seconds")
    for source, text in ("seconds", b"60.0"), ("utc", b"1970-01-01 00:01"), ("rfc3339", b"1970-01-01t02:01+02"):
        check(made.convert(b"A," + text + b"\n", source=source) == b"A,60,1970-01-01T01:01:00,+01:00:00,0,AAA\n", source)
    caught = refuses(pzic.BadRow, lambda: made.convert(b"0,A\n0,C\n", zone_field=2, time_field=1))
    check((caught.row, caught.kind) == (2, "RowZone"), caught)
    caught = refuses(pzic.BadRow, lambda: made.convert(b"A,0\nA,10\nA,1\n", max_record=3, keep_going=True))
    check((caught.row, caught.kind, len(caught.rows)) == (2, "RowTooLong", len(b"A,0,1970-01-01T01:00:00,+01:00:00,0,AAA\n")), caught, caught.rows)
    check(made.convert(b'A,"1"2\n') == made.rows(b'A,"1"2\n').text == b"A,12,1970-01-01T01:00:12,+01:00:00,0,AAA\n", "plain quotes")
    check(made.convert(b'A,"1"2\n', time_field=2, quotes="lenient") == made.convert(b"A,12\n"), "lenient quotes")
    for words in {"time_field": 2}, {"quotes": "strict"}, {"records": "lines"}:
        caught = refuses(pzic.BadRow, lambda: made.convert(b'A,0\nA,"1"2\n', **words))
        check((caught.row, caught.kind) == (2, "RowQuote"), caught)
    refuses(ValueError, lambda: made.convert(b"", quotes="none"))
    check(made.convert(b"A,0\n", max_record=3) == b"A,0,1970-01-01T01:00:00,+01:00:00,0,AAA\n", "max_record")
    caught = refuses(pzic.BadRow, lambda: made.convert(b"zone,time\nA,0\n", header=True, max_record=8))
    check((caught.row, caught.kind, caught.rows) == (0, "RowTooLong", b"zone,instant,local,offset,daylight,abbreviation\n"), caught, caught.rows)
    caught = refuses(pzic.BadRow, lambda: made.convert(b"A,5\nA,0\n", skip_header=True))
    check((caught.row, caught.kind, caught.rows) == (0, "HeaderIsRow", b""), caught, caught.rows)
    refuses(ValueError, lambda: made.convert(b"", max_record=0))
    refuses(ValueError, lambda: made.convert(b"", max_record=(1 << 32) + 1))
    refuses(ValueError, lambda: made.convert(b"", delimiter="a"))
    refuses(ValueError, lambda: made.convert(b"", unit="h"))
    caught = refuses(pzic.BadSource, pzic.Compiled, b"Zone A 0 - UTC\n", b"# none\nWord\n")
    check((caught.text, caught.line, caught.kind) == (2, 2, "Keyword"), caught)
    check(list(pzic.Compiled()) == [], "no texts")
    path = os.path.join(os.path.dirname(folder), "source")
    with open(path, "wb") as file:
        file.write(b"Zone A 0 - UTC\n")
    check(list(pzic.Tree.compile(path)) == ["A"], "a path")


def choose_rows():
    """Which fields rows have, their ends, the names of added fields, and empty times."""
    made = pzic.Compiled(b"Rule R 1971 only - Jan 1 0:00 1:00 -\nRule R 1972 only - Jan 1 0:00 0 -\nZone A 1:00 R AAA\nZone B -5:30 - BBB\n")
    sent = b"zone,sent,who\nA,0,x\nB,,y\n"
    rows = made.convert(sent, only=["utc", "offset"], prefix="s_", empty="keep", append=True, header=True)
    check(rows == b"zone,sent,who,s_utc,s_offset\nA,0,x,1970-01-01T00:00:00Z,+01:00:00\nB,,y,,\n", rows)
    rows = made.convert(sent, only=("time", "abbreviation"), empty="keep", replace=True, header=True, line_end="\r\n")
    check(rows == b"zone,sent,who,abbreviation\r\nA,1970-01-01T01:00:00+01:00,x,AAA\r\nB,,y,\r\n", rows)
    rows = made.convert(b'0,"B"\n"86400","A"\n', zone_field=2, time_field=1, replace=True)
    check(rows == b'1969-12-31T18:30:00,"B"\n1970-01-02T01:00:00,"A"\n', rows)
    rows = made.convert(b"A,0,x\n", replace=True, style="iso")
    check(rows == b"A,1970-01-01T01:00:00+01:00,x\n", rows)
    rows = made.convert(b"A,1970-01-01T01:00,x\n", replace=True, source="local", style="iso")
    check(rows == b"A,1970-01-01T00:00:00Z,x\n", rows)
    rows = made.convert(b"A,1970-01-01T01:00,x\n", replace=True, source="local")
    check(rows == b"A,0,x\n", rows)
    rows = made.convert(b"A,1971-01-01T00:30\n", source="local", ambiguous="later", only=["ambiguous", "instant", "daylight", "local"])
    check(rows == b"A,1971-01-01T00:30:00,gap,31534200,1,1971-01-01T01:30:00\n", rows)
    caught = refuses(pzic.BadRow, lambda: made.convert(sent, append=True, header=True))
    check((caught.row, caught.kind) == (2, "RowInstant"), caught)
    told = made.rows(b"A,0\nA,\nA,x\n", empty="keep", keep_going=True, line_end="\r\n")
    check(told.text == b"A,0,1970-01-01T01:00:00,+01:00:00,0,AAA\r\nA,,,,,\r\nA,x,,,,\r\n" and told.faults == (pzic.RowFault(3, "RowInstant"),), told)
    check(made.convert(b"A,0\n", prefix="p" * 64) == made.convert(b"A,0\n"), "a prefix without a header")
    for words in ({"only": "local"}, {"only": ["local", "local"]}, {"only": ["ambiguous"]}, {"only": ["utc"], "style": "iso"}, {"prefix": "p" * 65},
                  {"prefix": "a,"}, {"prefix": "a\0"}, {"empty": "skip"}, {"append": True, "replace": True}, {"line_end": "\r"}):
        refuses(ValueError, lambda: made.convert(b"A,0\n", **words))


def take_files(tree):
    """Files of names and of bytes that were read, and rows by a folder."""
    dublin, fixed = tree.data("Europe/Dublin"), pzic.Compiled(b"Zone A 1 - AAA").data("A")
    two = fixed.replace(b"AAA\0", b"AA\0\0")
    files = pzic.Files({"B/Dublin": dublin, "A": bytearray(fixed), "../A": fixed, "\u00e9": fixed, "None": b"", "Two": two})
    check(list(files) == ["B/Dublin", "A"] and len(files) == 2, list(files))
    want = {"../A": "BadName", "\u00e9": "BadName", "None": "BadFile", "Two": "Unfit"}
    check(files.left_out == want, files.left_out)
    check(files["B/Dublin"].data == dublin and "Two" not in files, "files")
    check(files.convert(b"A,0\n") == b"A,0,1970-01-01T01:00:00,+01:00:00,0,AAA\n", "rows of files")
    again = pickle.loads(pickle.dumps(files))
    check(copy.copy(files) is files and list(again) == list(files) and again.data("A") == fixed, "pickled files")
    check(len(pzic.Files({})) == 0 and pzic.Files({}).convert(b"") == b"", "no files")
    column = b"Europe/Dublin,1720000000\nAsia/Tokyo,0\n"
    rows = b"Europe/Dublin,1720000000,2024-07-03T10:46:40,+01:00:00,0,IST\nAsia/Tokyo,0,1970-01-01T09:00:00,+09:00:00,0,JST\n"
    check(tree.convert(column) == rows and tree.files(["Europe/Dublin", "Asia/Tokyo"]).convert(column) == rows, "rows of a tree")
    check(tree.rows(b"0\n", zone="Asia/Tokyo").text == b"Asia/Tokyo,0,1970-01-01T09:00:00,+09:00:00,0,JST\n", "a zone of a tree")
    check(list(tree.files()) == list(tree) and not tree.files().left_out, "all files")
    refuses(pzic.NoSuchZone, tree.files, ["Nowhere"])
    refuses(pzic.NoSuchZone, lambda: tree.convert(b"0\n", zone="Nowhere"))


def compare_trees(tree):
    """What differs in trees, as tests/program/diff.txt has it."""
    names = b"zone,from,until,old_offset,old_daylight,old_abbreviation,new_offset,new_daylight,new_abbreviation\n"
    a, b = pzic.Compiled(b"Zone A 1 - AAA\n"), pzic.Compiled(b"Zone A 1 - BBB\n")
    late = pzic.Compiled(b"Zone A 0 1:00 AAA 2000\n1 - AAA\n")
    check(a.diff(a) == a.diff(pzic.Files({"A": a.data("A")})) == tree.diff(tree, summary=True) == b"", "no difference")
    check(a.diff(b) == names + b"A,,,+01:00:00,0,AAA,+01:00:00,0,BBB\n", a.diff(b))
    check(b.diff(a, ignore=["abbreviation"]) == a.diff(late, ignore=("daylight", "abbreviation")) == b"", "ignored")
    check(a.diff(late) == names + b"A,,946681200,+01:00:00,0,AAA,+01:00:00,1,AAA\n", a.diff(late))
    check(a.diff(late, first=946684800) == b"", "from 2000")
    got = late.diff(a, first=915148800, last=915148800)
    check(got == names + b"A,,,+01:00:00,1,AAA,+01:00:00,0,AAA\n", got)
    for now, kind in (None, b"past"), (946681200, b"past"), (946681199, b"future"), (-1, b"future"):
        got = a.diff(late, summary=True, now=now)
        check(got == b"zone,from,until,old_offset,new_offset,kind\nA,,946681200,+01:00:00,+01:00:00," + kind + b"\n", now, got)
    got = tree.files(["Europe/Dublin"]).diff(a, summary=True)
    check(got == b"zone,from,until,old_offset,new_offset,kind\nEurope/Dublin,,,,,removed\nA,,,,,added\n", got)
    refuses(ValueError, lambda: a.diff(b, ignore=["offset"]))
    refuses(ValueError, lambda: a.diff(b, first=5, last=4))
    refuses(ValueError, lambda: a.diff(b, now=5))
    refuses(ValueError, lambda: a.diff(b, summary=True, last=5))
    refuses(OverflowError, lambda: a.diff(b, last=2**63))
    refuses(TypeError, lambda: a.diff(b, year=1900))


def name_of(call, number):
    """Return the name of a number, or None where none has it."""
    try:
        return c.text_of(call, number).decode("ascii")
    except RuntimeError:
        return None


def compare_names():
    """Compare the names of all numbers with those of the page of errors, which the gate tries on the program."""
    page = os.path.join(os.path.dirname(os.path.abspath(__file__)), "../../docs/errors.txt")
    with open(page, encoding="utf-8") as file:
        printed = re.findall(r"^## (\w+)$", file.read(), re.M)
    got = [name_of(c.name_of_fault, number) for number in range(46)]
    got += ["ColumnTooLong"] + [name_of(c.name_of_reason, number) for number in range(16)]
    # The page has the faults of a row in the order of its checks.
    check(sorted(name for name in got if name) == sorted(printed[: printed.index("TooLarge") + 1]), "names")


def use_threads(zone):
    instants = array.array("q", range(0, 2_000_000_000, 20_011))
    want = zone.convert_array(instants)
    got = [None] * 8

    def work(i):
        got[i] = zone.convert_array(instants)

    threads = [threading.Thread(target=work, args=(i,)) for i in range(8)]
    for thread in threads:
        thread.start()
    for thread in threads:
        thread.join()
    check(all(one == want for one in got), "threads")


def main():
    folder = sys.argv[1]
    random.seed(1)
    zoneinfo.reset_tzpath([os.path.abspath(folder)])
    tree = pzic.Tree.open(folder)
    names = sorted(tree)[:: int(sys.argv[2]) if len(sys.argv) > 2 else 1]
    count = 0
    for name in names:
        theirs = zoneinfo.ZoneInfo(name)
        count += compare_zone(name, tree[name], theirs)
        compare_column(name, tree[name], theirs, 200)
    refuse(tree)
    compile_texts(folder)
    choose_rows()
    take_files(tree)
    compare_trees(tree)
    compare_names()
    use_threads(tree["Europe/Dublin"])
    print(f"library: Python: {len(names)} zones, {count} changes, {compare_numpy(tree)}")


main()

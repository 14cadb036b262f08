"""Tests what the objects of the Python package do besides answering: `python_objects.py TREE`.

Copies, pickles in this process and in another, threads, trees with files that are no zones, the manners
of datetime's zones, and arrays and columns of numpy and pandas where these are.
"""

import array
import copy
import ctypes
import gc
import inspect
import multiprocessing
import os
import pickle
import random
import signal
import subprocess
import sys
import tempfile
import threading
import time
import types
import weakref
import zoneinfo
from typing import get_args
from datetime import date, datetime, timedelta, timezone
from datetime import time as time_of_day

import pzic
from pzic import _cache, _calls, _rows, _words
from pzic import _library as c

UTC = timezone.utc
ZERO, HOUR = timedelta(0), timedelta(hours=1)
INSTANT = 1_720_000_000
SOURCE = b"Zone Fixed 1:00 - AAA\nZone Zone 0 - -00 2000\n 1:00 - BBB\nLink Fixed Other\n"


def check(holds, *what):
    if not holds:
        sys.exit(f"library: Python: not so: {what}")


def refuses(error, call, *words):
    """Return the error with which a call refuses these words."""
    try:
        call(*words)
    except error as caught:
        return caught
    sys.exit(f"library: Python: {call} doesn't refuse {words}")


def copies_of(value):
    """Return all copies that Python can make of a value."""
    pickles = [pickle.loads(pickle.dumps(value, number)) for number in range(pickle.HIGHEST_PROTOCOL + 1)]
    return [copy.copy(value), copy.deepcopy(value), *pickles]


# ------------------------------------------------------------------ copies


def copy_zones(tree, data):
    for zone in tree["Europe/Dublin"], pzic.Zone(data), pzic.Compiled(SOURCE)["Fixed"]:
        offset = zone.utcoffset(INSTANT)
        for made in copies_of(zone):
            check(made == zone and made.key == zone.key and made.data == zone.data, "copy", zone)
            check(made.utcoffset(INSTANT + 1) == offset, "copy", zone)
        del made
        gc.collect()
        # An instant that was never asked for is asked of the library.
        check(zone.utcoffset(INSTANT + 10**9) is not None and zone.at(-(10**15)), "after the copies", zone)
        check(list(zone.convert_array(array.array("q", [INSTANT]))[0]) == [offset], "after the copies", zone)
    refuses(TypeError, copy.copy, zone._owned)
    refuses(AttributeError, setattr, zone, "key", "Other")
    check(len({tree["Europe/Dublin"], pzic.Zone(data)}) == 1 and zone != 5, "equality")


def copy_trees(tree, path):
    for made in copies_of(tree):
        check(made.folder == tree.folder and made["Europe/Dublin"] == tree["Europe/Dublin"], "copy of a tree")
    before = os.getcwd()
    os.chdir(path)
    here = pzic.Tree("Europe")
    os.chdir(before)
    check(here["Dublin"] == pickle.loads(pickle.dumps(here))["Dublin"] == tree["Europe/Dublin"], "a path")
    compiled = pzic.Compiled(SOURCE)
    for made in copies_of(compiled):
        check(len(made) == 3 and made.convert(b"Fixed,0\n") == compiled.convert(b"Fixed,0\n") != b"", "compiled")
    files = pzic.Files({"A": compiled.data("Fixed"), "../A": b"", "None": b"x"})
    left_out = {"../A": "BadName", "None": "BadFile"}
    for made in copies_of(files):
        check(list(made) == ["A"] and made.left_out == files.left_out == left_out, "files")
        check(made.convert(b"A,0\n") == files.convert(b"A,0\n") != b"", "files")
    del made
    gc.collect()
    check(list(compiled) == ["Fixed", "Zone", "Other"] and list(files) == ["A"], "after the copies")


def pickles_of_other_files(tree):
    """A pickle of a folder's zone or of a tree isn't read over files other than those that were read."""
    with tempfile.TemporaryDirectory() as folder:
        def place(name, like):
            with open(os.path.join(folder, name), "wb") as file:
                file.write(tree.data(like))

        place("A", "Europe/Dublin")
        place("B", "Europe/Paris")
        one, every = pzic.Tree(folder), pzic.Tree(folder)
        zone, moment = one["A"], datetime(2024, 7, 3, tzinfo=one.tzinfo("A"))
        every.convert(b"A,0\n")
        kept = [pickle.dumps(value) for value in (zone, moment, one, every)]
        for value, text in zip((zone, moment), kept):
            check(pickle.loads(text) == value, "the same files", value)
        check(pickle.loads(kept[2])["A"] == pickle.loads(kept[3])["A"] == zone, "the same files")
        place("C", "Europe/Rome")
        check(pickle.loads(kept[2])["A"] == zone, "a file that wasn't read")
        refuses(pickle.UnpicklingError, pickle.loads, kept[3])
        os.remove(os.path.join(folder, "C"))
        place("B", "Europe/Rome")
        check(pickle.loads(kept[2])["A"] == zone, "a file that wasn't read")
        refuses(pickle.UnpicklingError, pickle.loads, kept[3])
        place("A", "Europe/Rome")
        pzic._tree.zone_of_folder.cache_clear()
        for text in kept:
            refuses(pickle.UnpicklingError, pickle.loads, text)
        os.remove(os.path.join(folder, "A"))
        refuses(pickle.UnpicklingError, pickle.loads, kept[2])


def copy_time_zones(tree, data):
    dublin = tree.tzinfo("Europe/Dublin")
    check(tree.tzinfo("Europe/Dublin") is dublin is tree["Europe/Dublin"].tzinfo(), "one object")
    check(pzic.Tree(tree.folder).tzinfo("Europe/Dublin") is dublin, "one object for two trees")
    check(pzic.Zone(data).tzinfo("Other") is not dublin, "another name")
    for zone in dublin, pzic.Zone(data).tzinfo(), pzic.Compiled(SOURCE).tzinfo("Fixed"):
        check(all(made is zone for made in copies_of(zone)), "copy", zone)
        moment = datetime(2024, 10, 27, 1, 30, fold=1, tzinfo=zone)
        check(all(made == moment and made - moment == ZERO for made in copies_of(moment)), "copy", moment)
        check(pickle.loads(pickle.dumps(moment)).fold == 1, "copy", moment)


def copy_errors(tree):
    caught = [
        refuses(pzic.BadFile, pzic.Zone, b""),
        refuses(pzic.NoSuchZone, pzic.Compiled().__getitem__, "No/Such"),
        refuses(pzic.BadName, tree.__getitem__, "../Such"),
        refuses(pzic.BadSource, pzic.Compiled, b"Word\n"),
        refuses(pzic.BadRow, pzic.Compiled(SOURCE).convert, b"Fixed,0\nFixed,x\n"),
    ]
    for error in caught:
        for made in copies_of(error):
            check((type(made), str(made), vars(made)) == (type(error), str(error), vars(error)), error)


def offset_of(moment):
    return moment.utcoffset(), moment.tzname(), moment.tzinfo.key


def use_processes(tree):
    """Pickles are read in a process that begins anew, and in those of multiprocessing."""
    compiled = pzic.Compiled(SOURCE)
    moments = [datetime(2024, 7, 3, tzinfo=zone) for zone in (tree.tzinfo("Europe/Dublin"), compiled.tzinfo("Fixed"))]
    want = [offset_of(moment) for moment in moments]
    program = "import pickle, sys; print([(m.utcoffset(), m.tzname(), m.tzinfo.key) for m in pickle.load(sys.stdin.buffer)])"
    words = sys.executable, "-c", "import datetime; " + program
    got = subprocess.run(words, input=pickle.dumps(moments), stdout=subprocess.PIPE, cwd="/tmp", check=True).stdout
    check(got.decode().strip() == str(want), "another process", got, want)
    for method in "fork", "spawn":
        with multiprocessing.get_context(method).Pool(2) as pool:
            check(pool.map(offset_of, moments) == want, method)


# ------------------------------------------------------------------ threads


def in_threads(count, work):
    """Run a piece of work in several threads at the same time."""
    failed = []

    def run(number):
        try:
            work(number)
        except BaseException as error:
            failed.append(error)

    threads = [threading.Thread(target=run, args=(number,)) for number in range(count)]
    for thread in threads:
        thread.start()
    for thread in threads:
        thread.join()
    check(not failed, "threads", failed)


def use_threads(data):
    """Eight threads ask one zone at once, whatever they ask for."""
    zone = pzic.Zone(data)
    compiled = pzic.Compiled(SOURCE)
    instants = array.array("q", range(0, 4_000_000_000, 20_011))
    want, want_rows = zone.convert_array(instants), compiled.convert(b"Fixed,0\nOther,1\n")
    switch = sys.getswitchinterval()
    sys.setswitchinterval(1e-6)

    def work(number):
        for turn in range(20):
            if number % 2:
                check(zone.convert_array(instants) == want, "array in a thread")
            for i in range(turn + number, len(instants), 1009):
                # No span is kept for an instant that far away.
                check(zone._look_up(instants[i]).state.offset == want[0][i], "span in a thread")
            check(compiled.convert(b"Fixed,0\nOther,1\n") == want_rows and len(compiled) == 3, "rows in a thread")
            check(pzic.Zone(data).tzinfo("Mine") is pzic.Zone(data).tzinfo("Mine"), "one object in a thread")

    in_threads(8, work)
    sys.setswitchinterval(switch)


# ------------------------------------------------------------------ what is kept


def keep_answers(tree, data):
    """What is kept is counted rightly, and keeps no zone alive."""
    source = pzic.Compiled(b"Zone A 1:00 - AAA 1999\n 2:00 - BBB\n")
    zone = source["A"]
    tz, moment = zone.tzinfo("Counted"), datetime(1998, 12, 31, 23, tzinfo=zone.tzinfo("Counted"))
    told = tz.utcoffset(moment), tz.tzname(moment), tz.dst(moment), zone.at(0), zone.span(0), tz
    before = [sys.getrefcount(value) for value in told]
    for i in range(10_000):
        kept = tz.utcoffset(moment), tz.tzname(moment), tz.dst(moment), zone.at(i % 9), zone.span(i % 9), moment.tzinfo
        tz.fromutc(moment), zone.utcoffset(i), moment.astimezone(UTC)
    del kept
    check(all(abs(sys.getrefcount(value) - count) < 9 for value, count in zip(told, before)), "references", before)
    kinds = TooFar, pzic.TimeZone
    ends = []
    for kind in kinds:
        zone = pzic.Zone(data)
        tz = kind(zone, "Given up")
        check(datetime(2024, 7, 3, tzinfo=tz).utcoffset() == HOUR and zone.utcoffset(INSTANT) == 3600, "answers")
        check(datetime(2024, 7, 3, tzinfo=UTC).astimezone(tz).hour == 1, "answers")
        ends += weakref.ref(zone), weakref.ref(tz)
        del zone, tz
        gc.collect()
    check(not any(end() for end in ends), "what is given up", ends)


class TooFar(pzic.TimeZone):
    """A subclass, with attributes."""


class Moment(datetime):
    """Dates and times of a subclass."""


def ask_oddly(tree, data):
    """Words are taken by name, times of subclasses and of other zones are told, and faults are refused."""
    zone, tz = pzic.Zone(data), tree.tzinfo("Europe/Dublin")
    check(zone.at(instant=INSTANT) == zone.at(INSTANT) == zone.span(instant=True - 1 + INSTANT).state, "by name")
    check(zone.utcoffset(instant=False) == zone.utcoffset(0) == 3600, "by name")
    for call in zone.at, zone.span, zone.utcoffset:
        for words, named in ((), {}), ((1, 2), {}), ((), {"other": 1}), ((1,), {"instant": 1}):
            refuses(TypeError, lambda: call(*words, **named))
        for number in "0", 0.0, None:
            refuses(TypeError, call, number)
        for number in -(2**63) - 1, 2**63, 2**99, -(2**99):
            refuses(OverflowError, call, number)
        check(call(pzic.MIN_INSTANT) is not None and call(pzic.MAX_INSTANT) is not None, "ends")
    check(zone.span(pzic.MAX_INSTANT).last == pzic.MAX_INSTANT and zone.span(pzic.MIN_INSTANT).first == pzic.MIN_INSTANT, "ends")
    open_zone = pzic.Compiled(SOURCE)["Zone"]
    check(open_zone.at(0) is None or open_zone.at(0).name == "-00", "open")
    unknown = pzic.Zone(open_until())
    check(unknown.at(5000) is None and unknown.span(5000).state is None, "open")
    check("5000" in str(refuses(LookupError, unknown.utcoffset, 5000)), "open")
    twice = Moment(2024, 10, 27, 1, 30, fold=1, tzinfo=tz)
    check((twice.utcoffset(), twice.tzname(), twice.dst()) == (ZERO, "GMT", -HOUR), "a subclass", twice.dst())
    shown = Moment(2024, 10, 27, 1, 30, tzinfo=UTC).astimezone(tz)
    check((type(shown), shown.fold, shown.replace(tzinfo=None)) == (Moment, 1, Moment(2024, 10, 27, 1, 30)), "a subclass", shown)
    for moment in twice.replace(tzinfo=None), twice.replace(tzinfo=UTC):
        check((tz.utcoffset(moment), tz.tzname(moment)) == (ZERO, "GMT"), "another zone")
    for moment in datetime.min, datetime.max:
        check(tz.utcoffset(moment) is not None and tz.tzname(moment) is not None, "ends of the years")
    for year in b"\xff\xff", b"\0\0":
        refuses(ValueError, datetime(year + b"\1\1\0\0\0\0\0\0", tz).utcoffset)
    refuses(OverflowError, tree.tzinfo("Asia/Tokyo").fromutc, datetime.max.replace(tzinfo=tree.tzinfo("Asia/Tokyo")))
    zone.__init__(tree.data("Asia/Tokyo"))
    check(zone.utcoffset(INSTANT) == 32400, "another file")
    refuses((AttributeError, TypeError), pzic.TimeZone.utcoffset, 5, twice)
    refuses((AttributeError, TypeError), pzic.Zone.at, 5, 0)


def ask_years_in_threads(data):
    """Threads ask for the same years, which aren't kept yet."""
    for turn in range(20):
        zone = pzic.Zone(data)
        tz = zone.tzinfo(f"Turn {turn}")
        in_threads(8, lambda number: check(
            [datetime(year, 7, 1, tzinfo=tz).utcoffset() for year in range(1980, 2040)] == [HOUR] * 60
            and all(zone.utcoffset(i) in (0, 3600) for i in range(0, 2**31, 2**24)), "years in a thread"))


def use_interpreters(path):
    """Other interpreters of this process use the package."""
    try:
        import _xxsubinterpreters as interpreters
    except ImportError:
        return
    program = (f"import sys; sys.path[:0] = {sys.path!r}; import pzic; from datetime import datetime; "
               f"tz = pzic.Tree({path!r}).tzinfo('Europe/Dublin'); assert datetime(2024, 7, 3, tzinfo=tz).tzname() == 'IST'")
    for _ in range(3):
        made = interpreters.create(isolated=False)
        interpreters.run_string(made, program)
        interpreters.destroy(made)


# ------------------------------------------------------------------ trees


def make_odd_tree(folder, tree):
    """Make a folder with three zones, and what else may lie there. Return what is listed."""
    os.makedirs(f"{folder}/Area/Sub")
    for name in "Area/Sub/Three", "One", "Area/Two":
        with open(f"{folder}/{name}", "wb") as file:
            file.write(tree.data("Europe/Dublin"))
    data = tree.data("Europe/Dublin")
    odd = {"empty": b"", "+VERSION": b"2024a", "zone.tab": b"# a table\n", "v1": data[:4] + b"\0" + data[5:],
           "v4": data.replace(b"TZif2", b"TZif4"), "cut": data[:-1], "large": data + bytes(1 << 20),
           "caf\u00e9": data}
    for name, content in odd.items():
        with open(f"{folder}/{name}", "wb") as file:
            file.write(content)
    os.mkfifo(f"{folder}/pipe")
    for name, target in ("broken", "nowhere"), ("loop", "loop"), ("up", "."), ("link", "One"), ("null", "/dev/null"):
        os.symlink(target, f"{folder}/{name}")
    return {"Area/Sub/Three", "Area/Two", "One", "link"}, odd


def tell_releases():
    with tempfile.TemporaryDirectory() as folder:
        made = pzic.Tree(folder)
        check(made.version is None, "no +VERSION")
        for text, wanted in (b"2025b\n", "2025b"), (b"2025b", None), (b"\n", None), (b"2025 b\n", None), (b"2025b\nmore\n", "2025b"), \
                (b"x" * 64 + b"\n", "x" * 64), (b"x" * 65 + b"\n", None), (b"2025\xff\n", None), (b"2025b\r\n", None), (b"", None):
            with open(f"{folder}/+VERSION", "wb") as file:
                file.write(text)
            check(made.version == wanted, "release", text, made.version)
        os.remove(f"{folder}/+VERSION")
        for text, wanted in (b"# version 2025b\n# more\n", "2025b"), (b"# version 2025b", None), (b"# version \n", None), \
                (b"# redo\n# version 2025b\n", None), (b"", None), (b"# version 2025b-dirty\n", "2025b-dirty"), (b"# version a b\n", None):
            with open(f"{folder}/tzdata.zi", "wb") as file:
                file.write(text)
            check(made.version == wanted, "release by tzdata.zi", text, made.version)


def list_trees(tree):
    with tempfile.TemporaryDirectory() as folder:
        listed, odd = make_odd_tree(folder, tree)
        made = pzic.Tree(folder)
        check(set(made) == listed and len(made) == len(listed) and dict(made).keys() == listed, "listed", set(made))
        for name in "../One", "/One", "One/", "Area//Two", "./One", "", "a\0b":
            check(isinstance(refuses(ValueError, made.__getitem__, name), pzic.BadName), name)
        check(made["up/Area/Two"] == made["One"], "through a link")
        for name in "pipe", "broken", "loop", "null", "Area", "none", "One/none", "../One", "/One", "One/", "", "a\0b", "x" * 300:
            check(name not in made and refuses(pzic.NoSuchZone, made.__getitem__, name).key == name, name)
        check(refuses(pzic.BadFile, made.__getitem__, "v1").reason == "Version", "version 1")
        check(refuses(pzic.BadFile, made.__getitem__, "v4").reason == "Version", "version 4")
        check(refuses(pzic.BadFile, made.__getitem__, "large").reason == "TooLarge", "large")
        check(not any(name in made for name in odd), "odd files")
    check(5 not in tree and None not in tree and tree.get(5) is None and tree.get("none", 1) == 1, "no names")
    refuses(KeyError, tree.__getitem__, ["Europe/Dublin"])
    for folder, error in ("/no/such/folder", FileNotFoundError), ("/dev/null", NotADirectoryError), ("/dev/null/a", NotADirectoryError):
        check(refuses(error, pzic.Tree.open, folder).filename == folder, "no folder", folder)
    system = dict(pzic.Tree("/usr/share/zoneinfo"))
    check("Europe/Dublin" in system and not any(name.startswith("right/") for name in system), "the system's tree")


def tell_links(tree):
    """Names of the same bytes, names of Zone lines, and footers."""
    source = b"Zone A 1 - AAA\nLink A B # C\nL B C\nZ D 1 - AAA\n# L A E\nli A Area/E\n"
    made = pzic.Compiled(source)
    check(made.aliases("A") == ["Area/E", "B", "C", "D"] and made.aliases("C") == ["A", "Area/E", "B", "D"], "aliases")
    check([made.canonical(name) for name in ("A", "B", "C", "D", "Area/E")] == ["A", "A", "A", "D", "A"], "canonical")
    refuses(pzic.NoSuchZone, made.aliases, "E")
    refuses(pzic.NoSuchZone, made.canonical, "E")
    files = pzic.Files({name: made.data(name) for name in made})
    check(files.aliases("D") == ["A", "Area/E", "B", "C"], "aliases of files")
    check("source" in str(refuses(LookupError, files.canonical, "A")), "no source")
    refuses(LookupError, tree.canonical, "Europe/Dublin")
    with tempfile.TemporaryDirectory() as folder:
        for name, text in ("A", made.data("A")), ("B", made.data("A")), ("tzdata.zi", b"# version a\nL A B\nL B A\n"):
            with open(f"{folder}/{name}", "wb") as file:
                file.write(text)
        own = pzic.Tree(folder)
        check(own.aliases("A") == ["B"] and own.canonical("B") == "A", "links of a folder")
    check(made["A"].posix == "AAA-1" and tree["Europe/Dublin"].posix == "IST-1GMT0,M10.5.0,M3.5.0/1", "footer", tree["Europe/Dublin"].posix)
    check(pzic.Zone(open_until()).posix == "", "no footer")


# ------------------------------------------------------------------ manners


def keep_manners(tree, data):
    fixed, dublin = tree.tzinfo("Etc/GMT-5"), tree.tzinfo("Europe/Dublin")
    check((fixed.utcoffset(None), fixed.tzname(None), fixed.dst(None)) == (5 * HOUR, "+05", ZERO), "fixed")
    check(time_of_day(1, tzinfo=fixed).isoformat() == "01:00:00+05:00", "a time of day")
    check((dublin.utcoffset(None), dublin.tzname(None), dublin.dst(None)) == (None, None, None), "not fixed")
    check(str(dublin) == "Europe/Dublin" and repr(dublin) == "pzic.TimeZone(key='Europe/Dublin')", "shown")
    bare = pzic.Zone(data).tzinfo()
    check(str(bare) == repr(bare) == f"pzic.TimeZone(<pzic.Zone of {len(data)} bytes>)" and bare.key is None, "shown")

    class Mine(pzic.TimeZone):
        pass

    mine = Mine(tree["Europe/Dublin"])
    check("Mine(key='Europe/Dublin')" in repr(mine) and mine is not dublin and type(copy.copy(mine)) is Mine, "subclass")
    refuses(AttributeError, setattr, dublin, "key", "Other")
    for value in 5, "2024", None, date(2024, 1, 1), time_of_day(1, tzinfo=dublin):
        refuses(TypeError, dublin.fromutc, value)
        if value is not None:
            refuses(TypeError, dublin.utcoffset, value)
    for value in datetime(2024, 1, 1), datetime(2024, 1, 1, tzinfo=UTC), datetime(2024, 1, 1, tzinfo=fixed):
        refuses(ValueError, dublin.fromutc, value)
    check(isinstance(refuses(KeyError, tree.tzinfo, "No/Such"), pzic.NoSuchZone), "KeyError")
    check(pzic.Compiled(b"Zone A 0 - -00 1999\n 0 2 AAA 2000\n 2 - BBB\n").tzinfo("A").dst(
        datetime(1999, 6, 1)) == HOUR, "-00 is no standard time")


def compare_arithmetic(tree):
    """Two dates and times of zones are equal, less and apart as those of zoneinfo are."""
    names = "Europe/Dublin", "Europe/Dublin", "America/New_York", "UTC"
    moments = [
        [day.replace(tzinfo=zone(name), fold=fold) for name in names for day in days_of_2024() for fold in (0, 1)]
        for zone in (tree.tzinfo, zoneinfo.ZoneInfo)
    ]
    pairs = [(i, j) for i in range(len(moments[0])) for j in range(0, len(moments[0]), 3)]
    told = [[(ms[i] == ms[j], ms[i] < ms[j], ms[i] - ms[j], hash(ms[i]) == hash(ms[j])) for i, j in pairs] for ms in moments]
    check(told[0] == told[1], "arithmetic")


def days_of_2024():
    """Return times around the changes of two zones."""
    edges = datetime(2024, 3, 31, 1), datetime(2024, 10, 27, 1), datetime(2024, 3, 10, 2), datetime(2024, 11, 3, 1)
    return [edge + timedelta(minutes=minutes) for edge in edges for minutes in (-1, 0, 30, 60)]


def compare_words():
    """The words that types name are those that have numbers."""
    names = list(inspect.signature(_rows.words_of_rows).parameters.values())
    check([name.name for name in names] == [*pzic.Layout._fields, "progress"], "words of rows")
    check([name.default for name in names] == [*pzic.Layout(), None], "words of rows")
    numbers = {_words.Ambiguous: _words.AMBIGUOUS, _words.Unit: _words.UNITS, _words.Records: _words.RECORDS,
               _words.Style: _words.STYLES, _words.Quotes: _words.QUOTES, _words.Field: _words.FIELDS, _words.Empty: _words.EMPTIES,
               _words.LineEnd: _words.LINE_ENDS}
    for kind, numbered in numbers.items():
        check(get_args(kind) == tuple(numbered), "words", kind)
    for word in get_args(_words.Source):
        check(pzic.Layout(source=word).numbers() is not None, "source", word)
    for part in get_args(_words.Part):
        check(pzic.DiffOptions(ignore=[part]).numbers() is not None, "part", part)


def look_at_statuses(zone):
    """No status of the library goes unseen."""
    nothing, count, one = c.Handle(), ctypes.c_size_t(), ctypes.create_string_buffer(8)
    refuses(RuntimeError, c.files_len, nothing, count)
    refuses(RuntimeError, c.zone_span, nothing, 0, c.CState(), ctypes.c_int64(), ctypes.c_int64())
    refuses(RuntimeError, c.zone_offsets, zone._owned.lend(), ctypes.addressof(one), 1, ctypes.addressof(one), 0, ctypes.addressof(one), 0)
    refuses(RuntimeError, c.text_of, c.name_of_fault, 31)
    owned, seconds = types.SimpleNamespace(_at=0, _kind=0, lend=c.Handle), array.array("q", [0])
    for call, words in (_calls.next_change, [0]), (_calls.previous_change, [0]), (_calls.local_time, [0]), (_calls.meant, [0, 0]), \
            (_calls.zone_offsets, [-1, 1, seconds, array.array("i", [0]), bytearray(1)]), \
            (_calls.zone_instants_array, [0, 1, seconds, array.array("q", [0]), bytearray(1)]):
        refuses(RuntimeError, call, owned, *words)
        refuses(TypeError, call, owned)
        refuses(AttributeError, call, None, *words)


# ------------------------------------------------------------------ pieces


def interrupt(what, call):
    """An interrupt ends a call within a tenth of a second of processor time."""
    def handle(number, frame):
        raise KeyboardInterrupt

    before = signal.signal(signal.SIGPROF, handle)
    begun = time.process_time()
    signal.setitimer(signal.ITIMER_PROF, 0.05)
    try:
        call()
    except KeyboardInterrupt:
        taken = time.process_time() - begun
        check(taken < 0.15, "an interrupt", what, taken)
    else:
        check(time.process_time() - begun < 0.15, "no interrupt", what)
    finally:
        signal.setitimer(signal.ITIMER_PROF, 0)
        signal.signal(signal.SIGPROF, before)


def interrupt_calls(tree):
    zone, many = tree["Europe/Dublin"], array.array("q", [INSTANT]) * 10_000_000
    for instant in range(0, len(many), 1009):
        many[instant] = instant * 300
    interrupt("convert_array", lambda: zone.convert_array(many))
    interrupt("instant_array", lambda: zone.instant_array(many))
    files, column = tree.files(["Europe/Dublin"]), b"Europe/Dublin,1720000000\n" * 1_000_000
    interrupt("convert", lambda: files.convert(column))
    interrupt("rows", lambda: files.rows(column, records="lines", keep_going=True))
    names = ["Europe/Dublin"] * 3_000_000
    interrupt("instant_columns", lambda: tree.instant_columns(names, many[: len(names)], ambiguous="compatible"))
    told = []
    check(len(files.convert(column[:5_000_000], progress=told.append)) > 0 and sum(told) == 5_000_000 and len(told) == 5, "progress", told)
    bar = types.SimpleNamespace(update=told.append)
    files.rows(column[:50], progress=bar)
    check(told[-1] == 50, "a bar of progress", told)


def make_pieces(tree):
    """Rows of pieces are those of the whole column."""
    files, chance = tree.files(["Europe/Dublin", "Asia/Tokyo"]), random.Random(7)
    mark, kept = b"\xef\xbb\xbf", _rows.PIECE
    lines = [b"Europe/Dublin,0", b"Asia/Tokyo,1720000000", b"", b"Nowhere,5", b"Asia/Tokyo,x", b"Asia/Tokyo,1,more", mark + b"Asia/Tokyo,7", b'"Asia/Tokyo",8',
             b'Asia/Tokyo,"9\n10"', b'Asia/"Tokyo,3', b"Europe/Dublin,12345678901234567890"]
    layouts = [{}, {"keep_going": True}, {"records": "lines", "keep_going": True}, {"records": "lines"}, {"header": True, "keep_going": True, "append": True},
               {"skip_header": True, "quotes": "strict"}, {"header": True, "records": "lines", "keep_going": True}, {"max_record": 16, "records": "lines", "keep_going": True},
               {"time_field": 2, "keep_going": True, "fields": 2}, {"header": True, "keep_going": True, "replace": True, "line_end": "\r\n", "prefix": "p_"}]
    for turn in range(120):
        some = lines[:7] if turn % 2 else lines[:2]
        words = layouts[turn % len(layouts)]
        start = [b"", mark, b"\n\r\n", mark + b"\n\n"][turn % 4] + (b"zone,time\n" if "header" in words or "skip_header" in words else b"")
        ends = [chance.choice([b"\n", b"\r\n", b"\r"] if turn % 5 else [b"\n"]) for _ in range(30)]
        column = start + b"".join(chance.choice(some if turn % 3 else lines) + end for end in ends)
        column = column if turn % 7 else column[:-1]
        told = []
        for piece in kept, 1, 20, 100:
            _rows.PIECE = piece
            told.append((files.rows(column, **words), shown_rows(files, column, words)))
        _rows.PIECE = kept
        check(all(one == told[0] for one in told), "pieces", words, column, told)


def shown_rows(files, column, words):
    try:
        return files.convert(column, **words)
    except pzic.BadRow as error:
        return error.args


# ------------------------------------------------------------------ arrays


def refuse_arrays(zone):
    instants = array.array("q", [0, INSTANT, 1])
    room = bytearray(64)
    refuses(TypeError, zone.convert_array, instants, memoryview(bytes(12)).cast("i"))
    for odd in b"text", bytearray(8), "text", ["text"], None, {1: 2}:
        refuses(TypeError, zone.convert_array, odd)
    refuses(OverflowError, zone.convert_array, [2**63])
    error = refuses(TypeError, zone.convert_array, instants, array.array("d", [0] * 3))
    check("offsets" in str(error) and "'d'" in str(error) and "int32" in str(error), "what came", error)
    for given in [0, INSTANT, 1], (0, INSTANT, 1), range(3), array.array("i", [0, INSTANT, 1]), memoryview(instants)[::-2], memoryview(instants).toreadonly():
        offsets, flags = zone.convert_array(given)
        want = [zone.utcoffset(instant) for instant in given]
        check((type(offsets), list(offsets), list(flags)) == (array.array, want, [0] * len(want)), "types", given)
    unaligned = memoryview(room)[1:25] if ctypes.addressof(ctypes.c_char.from_buffer(room)) % 8 == 0 else memoryview(room)[:24]
    refuses(ValueError, zone.convert_array, unaligned.cast("q"))
    refuses(ValueError, zone.convert_array, instants, memoryview(room)[2:14].cast("i"))
    same = memoryview(array.array("q", [0, INSTANT]))
    refuses(ValueError, zone.convert_array, same, same.cast("B")[:8].cast("i"))
    refuses(ValueError, zone.convert_array, same, None, same.cast("B")[14:])
    both = memoryview(array.array("i", [0, 0, 0]))
    refuses(ValueError, zone.convert_array, instants, both, both.cast("B")[9:])
    offsets, flags = zone.convert_array(memoryview(room)[:0].cast("q"), None, bytearray())
    check((len(offsets), len(flags)) == (0, 0), "nothing")
    refuses(OverflowError, zone.at, -(2**63) - 1)
    refuses(TypeError, zone.at, 1.5)


def compare_columns(tree, numpy, pandas):
    random.seed(2)
    names = random.sample(sorted(tree), 12)
    for name in names:
        check(tree[name].to_zoneinfo().key == name and tree.tzinfo(name).to_zoneinfo() is tree.zoneinfo(name), "to_zoneinfo")
    rows = [random.choice(names) for _ in range(20_000)]
    instants = numpy.random.default_rng(3).integers(-(2**31), 2**32, len(rows))
    got = tree.convert_columns(rows, instants)
    for i in range(0, len(rows), 7):
        want = datetime.fromtimestamp(int(instants[i]), UTC).astimezone(zoneinfo.ZoneInfo(rows[i]))
        told = timedelta(seconds=int(got.offsets[i])), got.abbreviations[i], got.local[i].item()
        check(told == (want.utcoffset(), want.tzname(), want.replace(tzinfo=None)), rows[i], instants[i], told)
        check(got.flags[i] == bool(want.dst()), rows[i], instants[i])
    compare_files(tree, names, rows, instants, got, numpy)
    times = instants.astype("datetime64[s]")
    series = pandas.Series(rows)
    stamps = pandas.Series(times.astype("datetime64[ns]"))
    for column in rows, tuple(rows), numpy.array(rows), numpy.array(rows, "object"), series, series.astype("category"), series.astype("string"), pandas.Index(rows):
        for moments in times, stamps, stamps.dt.tz_localize("UTC"), pandas.DatetimeIndex(stamps):
            for one, other in zip(tree.convert_columns(column, moments), got):
                check((one == other).all(), "columns", type(column), type(moments))
    check([len(part) for part in tree.convert_columns([], numpy.array([], "int64"))] == [0] * 5, "no rows")
    refuses(ValueError, tree.convert_columns, ["UTC"], instants[:2])
    refuses(ValueError, tree.convert_columns, ["UTC"], numpy.array([1.5]))
    refuses(ValueError, tree.convert_columns, series, pandas.Series(instants, index=range(len(rows) - 1, -1, -1)))
    refuses(OverflowError, tree.convert_columns, ["Asia/Tokyo"], numpy.array([pzic.MAX_INSTANT]))
    tell_faults(tree, numpy, pandas)


def tell_faults(tree, numpy, pandas):
    """Rows without local time are refused, with their names and numbers, or told by their statuses."""
    lost = ["No/Such", None, float("nan"), "../UTC", 5]
    for name in lost:
        error = refuses(pzic.NoSuchZone, tree.convert_columns, ["UTC"] * 70_000 + [name, "UTC"], range(70_002))
        check(error.key is name and error.row == 70_000 and str(error).startswith("row 70000: "), "a row", error)
    check(isinstance(error, pzic.NoSuchZone) and all(made.row == 70_000 for made in copies_of(error)), "copies")
    missing = pandas.Series(["Asia/Tokyo", None, pandas.NA, "No/Such"])
    far = numpy.array([0, 1, 2, 3])
    for names in missing, missing.astype("category"), missing.astype("string"), missing.tolist():
        check(refuses(pzic.NoSuchZone, tree.convert_columns, names, far).row == 1, "a missing name", names)
        got = tree.convert_columns(names, far, errors="coerce")
        check(got.statuses.tolist() == [0, pzic.NO_ZONE, pzic.NO_ZONE, pzic.NO_ZONE], "statuses", got)
        check(got.flags.tolist() == [0, pzic.OPEN, pzic.OPEN, pzic.OPEN] and got.abbreviations.tolist() == ["JST", "", "", ""], "no zone", got)
        check(numpy.isnat(got.local).tolist() == [False, True, True, True] and got.offsets.tolist() == [32400, 0, 0, 0], "no zone", got)
    got = tree.convert_columns(["Asia/Tokyo"] * 3, [pzic.MAX_INSTANT, 0, pzic.MIN_INSTANT], errors="coerce")
    check(got.statuses.tolist() == [pzic.OUT_OF_RANGE, 0, 0], "range", got)
    check("row 1" in str(refuses(OverflowError, tree.convert_columns, ["Asia/Tokyo"] * 2, [0, pzic.MAX_INSTANT])), "range")
    check(tree.convert_columns(["UTC"], pandas.Series([pandas.NaT])).statuses.tolist() == [pzic.UNSPECIFIED], "missing")
    refuses(ValueError, lambda: tree.convert_columns(["UTC"], [0], errors="ignore"))
    told = []
    tree.convert_columns(["UTC"] * 150_000, range(150_000), progress=told.append)
    check(sum(told) == 150_000 and len(told) > 2, "progress", told)


def compare_files(tree, names, rows, instants, want, numpy):
    """Compare columns by files in memory, by a tree with a file that rows can't be made of, and with many
    abbreviations."""
    for one, other in zip(tree.files(names).convert_columns(rows, instants), want):
        check((one == other).all() and one.dtype == other.dtype, "columns by files")
    with tempfile.TemporaryDirectory() as folder:
        for name, data in ("Open", open_until()), ("Dublin", tree.data("Europe/Dublin")):
            with open(os.path.join(folder, name), "wb") as file:
                file.write(data)
        got = pzic.Tree(folder).convert_columns(["Open", "Dublin", "Open"], numpy.array([5000, INSTANT, 999]))
        check(got.statuses.tolist() == [pzic.UNSPECIFIED, 0, 0], "an unfit file", got)
    check(got.offsets.tolist() == [0, 3600, 60] and got.flags.tolist() == [pzic.OPEN, 0, 0], "an unfit file", got)
    check(numpy.isnat(got.local).tolist() == [True, False, False], "an unfit file", got)
    check(got.local[1:].astype("int64").tolist() == [INSTANT + 3600, 1059], "an unfit file", got)
    check(got.abbreviations.tolist() == ["", "IST", "ABC"], "an unfit file", got)
    many = [a + b + c for a in "ABCDEFGHIJ" for b in "ABCDEFGHIJ" for c in "ABCDEFGHIJ"] + ["ABCDEFGHIJKLMNOP", "ABCDEFGHIJKLMNOQ"]
    source = "".join(f"Zone {name} -1 - {name}\n" for name in many).encode()
    for rows in many, many * 9:
        # Some of them have the same hash.
        got = pzic.Compiled(source).convert_columns(rows, numpy.zeros(len(rows), "int64"))
        check(got.abbreviations.tolist() == rows and set(got.offsets.tolist()) == {-3600}, "many abbreviations")
    refuses(pzic.NoSuchZone, pzic.Compiled(SOURCE).convert_columns, ["None"], numpy.array([1]))
    refuses(pzic.NoSuchZone, pzic.Compiled(SOURCE).convert_columns, numpy.array([1]), numpy.array([1]))


def convert_by_pandas(zone, numpy, pandas):
    times = numpy.array([0, INSTANT, -1], "datetime64[s]")
    want = [3600, 3600, 3600]
    stamps = pandas.Series(times.astype("datetime64[ns]"))
    for instants in times, times.astype("datetime64[ns]"), stamps, stamps.dt.tz_localize("Asia/Tokyo").dt.tz_convert("UTC"), \
            pandas.DatetimeIndex(stamps), times[::-1], pandas.Series(times.astype("int64")):
        offsets, flags = zone.convert_array(instants)
        check((offsets.dtype, flags.dtype) == (numpy.int32, numpy.uint8), "kinds", instants)
        moved = isinstance(instants, pandas.Series) and str(instants.dtype) == "datetime64[ns, UTC]"
        check(moved or offsets.tolist() == want, "times", instants, offsets)
    half = numpy.array([-500_000_000], "datetime64[ns]")
    check(zone.convert_array(half)[0].tolist() == [3600], "half a second before")
    take_types(zone, numpy, pandas)
    missing = numpy.array(["2024-07-03", "NaT"], "datetime64[s]")
    for instants in missing, pandas.Series(missing.astype("datetime64[ns]")):
        offsets, flags = zone.convert_array(instants, None, bytearray(2))
        check(offsets.tolist() == [3600, 0] and list(flags) == [0, pzic.OPEN], "missing", offsets, flags)
        check(numpy.isnat(pzic.Compiled(SOURCE).convert_columns(["Fixed"] * 2, instants).local).tolist() == [False, True], "NaT")
    python = zone.tzinfo("Europe/Dublin").to_zoneinfo()
    shown = stamps.dt.tz_localize("UTC").dt.tz_convert(python)
    check(shown.map(str).tolist()[1] == "2024-07-03 10:46:40+01:00", "to_zoneinfo", shown)
    check(pandas.Timestamp(INSTANT, unit="s", tz=python).utcoffset() == HOUR, "to_zoneinfo")


def take_types(zone, numpy, pandas):
    """All array calls take the same types."""
    whole = numpy.array([INSTANT, 0, 86400])
    aware = [datetime.fromtimestamp(int(i), timezone(HOUR)) for i in whole]
    naive = [moment.astimezone(UTC).replace(tzinfo=None) for moment in aware]
    columns = [whole, whole[::-1][::-1], numpy.repeat(whole, 2)[::2], whole.astype("uint64"), whole.astype("int32"), whole.astype(">i8"),
               whole.astype("float64"), whole.astype("object"), pandas.Series(whole), pandas.array(whole, "Int64"), pandas.Series(whole, dtype="UInt32"),
               pandas.array(whole, "Float64"), whole.tolist(), naive, numpy.array(naive, "object"), pandas.Series(naive), pandas.DatetimeIndex(naive), list(map(float, whole))]
    columns += [whole.astype("datetime64[s]").astype(f"datetime64[{unit}]") for unit in ("s", "ms", "us", "ns", "25s")]
    files = pzic.Files({"Dublin": zone.data})
    for column in columns:
        check(list(zone.convert_array(column)[0]) == [3600] * 3, "types", column)
        check(files.convert_columns(["Dublin"] * 3, column).offsets.tolist() == [3600] * 3, "types of columns", column)
        instants, statuses = zone.instant_array(column)
        seconds = instants.astype("datetime64[s]").astype("int64") if getattr(instants, "dtype", None) is not None else instants
        check([second + 3600 for second in seconds] == whole.tolist() and not any(statuses), "types of local times", column)
    for column in aware, numpy.array(aware, "object"), pandas.Series(aware):
        check(list(zone.convert_array(column)[0]) == [3600] * 3, "types", column)
        refuses(ValueError, zone.instant_array, column)
    for column in pandas.array([None, INSTANT], "Int64"), numpy.array([numpy.nan, INSTANT]), [None, INSTANT], [pandas.NaT, naive[0]], pandas.Series([pandas.NA, INSTANT], dtype="Int64"):
        check([list(part) for part in zone.convert_array(column)] == [[0, 3600], [pzic.OPEN, 0]], "missing", column)
        check(list(zone.instant_array(column)[1]) == [pzic.UNSPECIFIED, 0], "missing", column)
        check(files.convert_columns(["Dublin"] * 2, column).statuses.tolist() == [pzic.UNSPECIFIED, 0], "missing", column)
    for one in numpy.datetime64(INSTANT, "s"), numpy.int64(INSTANT), naive[0], pandas.Timestamp(INSTANT, unit="s"):
        offset, flag = zone.convert_array(one)
        check((offset, flag, offset.shape) == (3600, 0, ()), "an item", one)
    for column, error in (numpy.array([0.5]), ValueError), (numpy.array([numpy.inf]), OverflowError), (numpy.array([2**63], "uint64"), OverflowError), \
            (numpy.array([1], "timedelta64[s]"), TypeError), (numpy.array([True]), TypeError), (numpy.zeros((2, 2), "int64"), TypeError), \
            (numpy.array(["2024"]), TypeError), ([INSTANT, naive[0]], TypeError), ([date(2024, 1, 1)], TypeError), (numpy.array([3 * 10**11], "datetime64[Y]"), OverflowError):
        for call in zone.convert_array, zone.instant_array, lambda given: files.convert_columns(["Dublin"] * len(given), given):
            refuses(error, call, column)
    check("timedelta64" in str(refuses(TypeError, zone.convert_array, numpy.array([1], "timedelta64[s]"))), "what came")
    keep_fractions(zone, files, numpy, pandas)


def keep_fractions(zone, files, numpy, pandas):
    """Fractions of a second and units are kept, and so is the fold of datetimes."""
    for unit in "ms", "us", "ns":
        shown = numpy.array(["1969-12-31T23:59:59.875", "2024-07-03T10:00:00.125", "NaT"], f"datetime64[{unit}]")
        hour = numpy.timedelta64(3600, "s")
        for column in [shown] + [pandas.Series(shown)] * (unit == "ns"):
            instants, statuses = zone.instant_array(column)
            check(instants.dtype == shown.dtype and (instants[:2] == shown[:2] - hour).all() and numpy.isnat(instants[2]), "fractions", instants)
            local = files.convert_columns(["Dublin"] * 3, column).local
            check(local.dtype == shown.dtype and (local[:2] == shown[:2] + hour).all() and numpy.isnat(local[2]), "fractions", local)
        refuses(ValueError, zone.instant_array, shown, "reject", numpy.empty(3, "int64"))
    folds = [TWICE.replace(fold=1, microsecond=5), TWICE, NEVER.replace(fold=1), datetime(2024, 7, 3, fold=1)]
    for ambiguous in "reject", "compatible", "earlier", "later":
        instants, statuses = zone.instant_array(folds, ambiguous)
        for shown, instant, status in zip(folds, instants, statuses):
            try:
                want = zone.instant(shown, ambiguous)
            except pzic.NoInstant as error:
                want, status = None, {pzic.FOLD: "Fold", pzic.GAP: "Gap"}[status] == error.reason
            else:
                status = status == 0 and seconds(instant.astype(datetime)) == want and instant.astype(datetime).microsecond == shown.microsecond
            check(status, "fold", ambiguous, shown, instant)
    error = refuses(pzic.NoInstant, lambda: zone.instant_array([datetime(2024, 7, 3), None, TWICE], errors="raise"))
    check((error.row, error.reason, error.local) == (2, "Fold", seconds(TWICE)) and str(error).startswith("row 2: "), "a row", error)
    check(all((made.row, str(made)) == (2, str(error)) for made in copies_of(error)), "copies")
    check(list(zone.instant_array([None, 0], errors="raise")[1]) == [pzic.UNSPECIFIED, 0], "missing")
    refuses(OverflowError, lambda: zone.instant_array([0, pzic.MAX_INSTANT], errors="raise"))


# ------------------------------------------------------------------ local times

TWICE, NEVER = datetime(2024, 10, 27, 1, 30), datetime(2024, 3, 31, 1, 30)


def seconds(shown):
    return (shown - datetime(1970, 1, 1)) // timedelta(seconds=1)


def tell_local_times(tree):
    dublin = tree["Europe/Dublin"]
    check(dublin.instants(TWICE) == (2, 1729989000, 1729992600, None), "fold", dublin.instants(TWICE))
    check(dublin.instants(NEVER) == (0, None, None, (1711846800, 0, 3600)), "gap", dublin.instants(NEVER))
    check(dublin.instants(seconds(TWICE)) == dublin.instants(TWICE), "seconds")
    check(dublin.instant(TWICE, "compatible") == dublin.instant(TWICE, "earlier") == 1729989000, "earlier")
    check(dublin.instant(TWICE, ambiguous="later") == 1729992600, "later")
    check(dublin.instant(NEVER, "compatible") == dublin.instant(NEVER, "later") == 1711848600, "after a gap")
    check(dublin.instant(NEVER, "earlier") == 1711845000, "before a gap")
    twice, never = TWICE.replace(fold=1), NEVER.replace(fold=1)
    check(dublin.instant(twice) == dublin.instant(twice, "compatible") == dublin.instant(twice, "later") == 1729992600, "fold=1")
    check(dublin.instant(twice, "earlier") == 1729989000 and dublin.instant(never, "later") == 1711848600, "fold=1")
    check(dublin.instant(never, "compatible") == dublin.instant(never, "earlier") == 1711845000, "fold=1 in a gap")
    check(dublin.instant(datetime(2024, 7, 3, fold=1)) == dublin.instant(datetime(2024, 7, 3)), "fold=1")
    check(refuses(pzic.NoInstant, dublin.instant, never).reason == "Gap", "fold=1 in a gap")
    for shown, reason in (TWICE, "Fold"), (NEVER, "Gap"):
        error = refuses(pzic.NoInstant, dublin.instant, shown)
        check(str(error) == str(refuses(pzic.NoInstant, dublin.instant, shown, "reject")), "reject by default")
        check(error.reason == reason and error.local == seconds(shown), "reject", error)
        check(all(made.args == error.args for made in copies_of(error)), "copies of an error")
    refuses(ValueError, dublin.instant, TWICE, "first")
    refuses(ValueError, dublin.instants, TWICE.replace(tzinfo=UTC))
    refuses(OverflowError, dublin.instants, pzic.MIN_INSTANT)
    refuses(OverflowError, dublin.instants, 2**63)
    for number in pzic.MIN_INSTANT, pzic.MAX_INSTANT, 2**63:
        refuses(OverflowError, dublin.instant, number)
    refuses(TypeError, dublin.instants, 0.5)
    unknown = pzic.Zone(open_until())
    check(unknown.instants(5000) == (0, None, None, None), "unspecified", unknown.instants(5000))
    check(refuses(pzic.NoInstant, unknown.instant, 5000).reason == "Unspecified", "unspecified")
    locals = array.array("q", map(seconds, (TWICE, NEVER, datetime(2024, 7, 3, 10, 46, 40))))
    instants, statuses = dublin.instant_array(locals, "reject")
    check(list(instants) == [0, 0, INSTANT], "array", instants)
    check(list(statuses) == [pzic.FOLD, pzic.GAP, 0], "array", statuses)
    check(list(dublin.instant_array(locals, "compatible")[0]) == [1729989000, 1711848600, INSTANT], "array")
    check(dublin.instant_array(locals) == dublin.instant_array(locals, "reject"), "reject by default")
    check(list(dublin.instant_array(array.array("q", [pzic.MAX_INSTANT]))[1]) == [pzic.OUT_OF_RANGE], "range")
    refuses(ValueError, dublin.instant_array, locals, "first")
    refuses(ValueError, dublin.instant_array, locals, "reject", locals)
    compare_instants(tree)


def open_until():
    """Return a file whose local time is open from 1000 on, after a minute east of UT."""
    head = b"TZif2" + bytes(15)
    block = (1000).to_bytes(8, "big") + b"\1" + (60).to_bytes(4, "big") + b"\0\0" + (120).to_bytes(4, "big") + b"\1\4"
    counts = b"".join(n.to_bytes(4, "big") for n in (0, 0, 0, 1, 2, 8))
    return head + bytes(24) + head + counts + block + b"ABC\0DEF\0\n\n"


def compare_instants(tree):
    """Compare the instants of local times near changes with zoneinfo's."""
    chance = random.Random(5)
    for name in chance.sample(sorted(zoneinfo.available_timezones() & set(tree)), 60):
        zone, python = tree[name], zoneinfo.ZoneInfo(name)
        for _ in range(20):
            span = zone.span(chance.randrange(-2208988800, 4102444800))
            begin = max(span.first, -2208988800)
            shown = datetime(1970, 1, 1) + timedelta(seconds=begin + chance.randrange(-7200, 50000))
            instants = [seconds(shown - shown.replace(tzinfo=python, fold=fold).utcoffset()) for fold in (0, 1)]
            found = zone.instants(shown)
            if found.gap is None:
                check([found.first, found.last] == instants, "zoneinfo", name, shown, found, instants)
            else:
                got = [zone.instant(shown, "later"), zone.instant(shown, "earlier")]
                check(got == instants, "zoneinfo's gap", name, shown, got, instants)


def use_pandas(tree):
    try:
        import numpy
        import pandas
    except ImportError as missing:
        return str(missing)
    convert_by_pandas(tree["Europe/Dublin"], numpy, pandas)
    locals = pandas.Series([TWICE, pandas.NaT, NEVER])
    instants, statuses = tree["Europe/Dublin"].instant_array(locals, "reject")
    check(numpy.isnat(instants).all() and statuses.tolist() == [pzic.FOLD, pzic.UNSPECIFIED, pzic.GAP], "NaT", instants)
    instants, statuses = tree["Europe/Dublin"].instant_array(locals, "later")
    check(instants[[0, 2]].astype("datetime64[s]").astype("int64").tolist() == [1729992600, 1711848600], "datetime64", instants)
    given = bytearray(3)
    instants, statuses = tree["Europe/Dublin"].instant_array(locals, "later", statuses=given)
    check(statuses is given and list(given) == [0, pzic.UNSPECIFIED, 0], "statuses in bytes", given)
    check(numpy.isnat(instants).tolist() == [False, True, False], "statuses in bytes", instants)
    refuses(ValueError, tree["Europe/Dublin"].instant_array, locals.dt.tz_localize("UTC"))
    compare_columns(tree, numpy, pandas)
    return "numpy and pandas"


def main():
    folder = os.path.abspath(sys.argv[1])
    zoneinfo.reset_tzpath([folder])
    tree = pzic.Tree.open(folder)
    data = tree.data("Europe/Dublin")
    copy_zones(tree, data)
    copy_trees(tree, folder)
    pickles_of_other_files(tree)
    copy_time_zones(tree, data)
    copy_errors(tree)
    use_processes(tree)
    use_threads(data)
    keep_answers(tree, data)
    ask_oddly(tree, data)
    ask_years_in_threads(data)
    use_interpreters(folder)
    list_trees(tree)
    tell_releases()
    tell_links(tree)
    keep_manners(tree, data)
    compare_arithmetic(tree)
    compare_words()
    look_at_statuses(tree["Europe/Dublin"])
    refuse_arrays(tree["Europe/Dublin"])
    interrupt_calls(tree)
    make_pieces(tree)
    tell_local_times(tree)
    form = "in Python" if pzic.Zone.at is _cache.PureSpans.at else "in C"
    print(f"library: Python's objects, {use_pandas(tree)}, what is kept {form}")


if __name__ == "__main__":
    main()

"""Tests the extension of SQLite: `sqlite_local.py TREE EXTENSION`, by Python's sqlite3 and beside Python's zoneinfo.

Zones of a folder and of a source, each function, NULLs, errors, indexes over two releases, several connections in several threads, and one
connection in several.
"""

import os
import random
import shutil
import sqlite3
import sys
import tempfile
import threading
import time
import zoneinfo
from datetime import datetime, timedelta, timezone

tree, extension = sys.argv[1:]
zoneinfo.reset_tzpath([tree])
EPOCH = datetime(1970, 1, 1)
NAMES = ["Europe/Dublin", "America/New_York", "Australia/Lord_Howe", "Asia/Kathmandu", "Africa/Casablanca",
         "America/Nuuk", "Pacific/Apia", "Antarctica/Troll", "Asia/Tokyo", "Etc/UTC"]


def connect(path=tree, file=":memory:", **words):
    made = sqlite3.connect(file, **words)
    made.enable_load_extension(True)
    made.load_extension(extension)
    if path is not None:
        made.execute("SELECT pzic_open(?)", (path,)).fetchone()
    return made


def ask(made, text, *values):
    return made.execute(f"SELECT {text}", values).fetchone()[0]


def expect(got, want, what):
    if got != want:
        sys.exit(f"sqlite: {what}: got {got!r}, and not {want!r}")


def expect_error(made, text, *values, says):
    try:
        got = ask(made, text, *values)
    except sqlite3.OperationalError as error:
        if says not in str(error):
            sys.exit(f"sqlite: {text} {values}: {error}")
    else:
        sys.exit(f"sqlite: {text} {values}: got {got!r}")


def compare(made, seed, count):
    """Compare random instants and their local times with zoneinfo."""
    chance = random.Random(seed)
    for _ in range(count):
        name = chance.choice(NAMES)
        zone = zoneinfo.ZoneInfo(name)
        instant = chance.randrange(-2208988800, 4102444800)
        utc = datetime.fromtimestamp(0, timezone.utc) + timedelta(seconds=instant)
        local = utc.astimezone(zone)
        got = made.execute("SELECT pzic_local(?1, ?2), pzic_offset(?1, ?2), pzic_abbreviation(?1, ?2)", (name, instant))
        want = (local.strftime("%Y-%m-%d %H:%M:%S"), int(local.utcoffset().total_seconds()), local.tzname())
        expect(got.fetchone(), want, f"{name} at {instant}")
        shown = local.replace(tzinfo=None)
        for fold, word in (0, "compatible"), (1, "later"):
            back = (shown - EPOCH) // timedelta(seconds=1) - int(
                shown.replace(tzinfo=zone, fold=fold).utcoffset().total_seconds())
            expect(ask(made, "pzic_instant(?, ?, ?)", name, shown.isoformat(chance.choice(" T")), word), back,
                   f"{name} of {shown}, {word}")


def try_texts(made):
    """Try local times, and the texts of dates from the year 0 on beside SQLite's own."""
    for text in ("2024-10-27 01:30", "2024-10-27T01:30:00"):
        expect(ask(made, "pzic_instant('Europe/Dublin', ?, 'compatible')", text), 1729989000, text)
        expect(ask(made, "pzic_instant('Europe/Dublin', ?, 'later')", text), 1729992600, text)
        for words in ("?", "?, 'reject'"):
            expect_error(made, f"pzic_instant('Europe/Dublin', {words})", text, says="more than once")
    expect(ask(made, "pzic_instant('Etc/UTC', '2024-02-29')"), 1709164800, "a date")
    gap = "2024-03-31 01:30:00"
    expect(ask(made, "pzic_instant('Europe/Dublin', ?, 'compatible')", gap), 1711848600, gap)
    expect(ask(made, "pzic_instant('Europe/Dublin', ?, 'earlier')", gap), 1711845000, gap)
    for words in ("?", "?, 'reject'"):
        expect_error(made, f"pzic_instant('Europe/Dublin', {words})", gap, says="pass over")
    for text in ("", "2024", "2024-13-01", "2023-02-29", "2024-01-01 24:00", "2024-01-01 00:60", "2024-01-01 00:00:60",
                 "2024-01-01x00:00", "2024/01/01", "2024-01-01 00:00:00Z", "2024-01-01 0a:00"):
        expect_error(made, "pzic_instant('Etc/UTC', ?)", text, says="a local time as")
    expect_error(made, "pzic_instant('Etc/UTC', '2024-01-01', 'first')", says="reject, earlier")
    chance = random.Random(3)
    edges = [-62167219200, 253402300799, -62167219201, 253402300800, -62162208000, -62135596800, 951782400, 951868799]
    for second in edges + [chance.randrange(-62167219200, 253402300800) for _ in range(20000)]:
        text = ask(made, "datetime(?, 'unixepoch')", second)
        if text is None or text.startswith("-"):
            expect(ask(made, "pzic_local('Etc/UTC', ?)", second), None, second)
        else:
            expect(ask(made, "pzic_local('Etc/UTC', ?)", second), text, second)
            expect(ask(made, "pzic_instant('Etc/UTC', ?)", text), second, text)


def try_refusals(made):
    for text in ("pzic_local(NULL, 0)", "pzic_local('Etc/UTC', NULL)", "pzic_offset(NULL, NULL)", "pzic_instant('Etc/UTC', NULL)",
                 "pzic_abbreviation('Etc/UTC', NULL)", "pzic_instant('Etc/UTC', '2024-01-01', NULL)"):
        expect(ask(made, text), None, text)
    for name in ("Europe/Atlantis", "", "../x", "/etc/passwd", "Europe", "Etc/UTC\0x"):
        expect_error(made, "pzic_local(?, 0)", name, says="no such zone")
    for value in (0.5, "x", b"1"):
        expect_error(made, "pzic_offset('Etc/UTC', ?)", value, says="whole number")
    expect(ask(made, "pzic_offset('Europe/Dublin', '1720000000')"), 3600, "a text of digits")
    expect(ask(made, "pzic_local('Asia/Tokyo', 9223372036854775807)"), None, "the last instant")
    expect(ask(made, "pzic_offset('Asia/Tokyo', 9223372036854775807)"), 32400, "the last instant")
    expect(ask(made, "pzic_version()"), "0.1.0", "the version")
    expect(ask(made, "pzic_open(?)", tree), tree, "the same folder again")
    expect_error(made, "pzic_open('/tmp')", says="elsewhere")


def try_sources():
    with tempfile.NamedTemporaryFile("w", suffix=".zi") as source:
        source.write("Zone Test/East 5:30 - EST\nLink Test/East Test/Other\n")
        source.flush()
        made = connect(source.name)
        expect(ask(made, "pzic_local('Test/Other', 1720000000)"), "2024-07-03 15:16:40", "a source")
        expect_error(made, "pzic_local('Europe/Dublin', 0)", says="no such zone")
        made.close()
    with tempfile.NamedTemporaryFile("w", suffix=".zi") as source:
        source.write("Zone A 0 - XYZ\nWord\n")
        source.flush()
        made = connect(None)
        expect_error(made, "pzic_open(?)", source.name, says="line 2")
        expect_error(made, "pzic_open('/no/such')", says="a folder")
        expect(ask(made, "pzic_open(?)", tree), tree, "after a source with a fault")
        made.close()
    made = connect(None)
    expect(ask(made, "pzic_offset('Asia/Tokyo', 0)"), 32400, "the usual folder")
    expect_error(made, "pzic_open(?)", tree, says="elsewhere")
    # They may stand where only functions that give the same each time may.
    made.execute("CREATE TABLE t (zone TEXT, instant INTEGER, local TEXT AS (pzic_local(zone, instant)) STORED)")
    made.execute("CREATE INDEX i ON t (pzic_offset(zone, instant))")
    made.execute("INSERT INTO t (zone, instant) VALUES ('Asia/Tokyo', 0)")
    expect(ask(made, "local FROM t WHERE pzic_offset(zone, instant) = 32400"), "1970-01-01 09:00:00", "an index")
    made.close()


def make_tree(folder, release, zones):
    """Make a folder of zones, each with the file of another name of the tree."""
    os.mkdir(folder)
    for name, other in zones.items():
        shutil.copy(f"{tree}/{other}", f"{folder}/{name}")
    if release:
        with open(f"{folder}/+VERSION", "w") as file:
            file.write(f"{release}\n")
    return folder


def try_releases():
    """Try an index and a stored column over a release and a later one, in which the zone X is another."""
    with tempfile.TemporaryDirectory() as folder:
        first = make_tree(f"{folder}/1", "2024a", {"X": "Europe/Dublin", "Y": "Asia/Tokyo", "Z": "Etc/UTC"})
        second = make_tree(f"{folder}/2", "2025b", {"X": "Asia/Tokyo", "Y": "Asia/Tokyo", "W": "Etc/UTC"})
        untold = make_tree(f"{folder}/3", None, {"X": "Europe/Dublin"})
        file = f"{folder}/times"
        made = connect(first, file=file)
        made.execute("CREATE TABLE e (zone, t, local AS (pzic_local(zone, t)) STORED, release DEFAULT (pzic_release()))")
        made.execute("CREATE INDEX i ON e (pzic_local(zone, t))")
        expect_error(made, "pzic_open(?, '2025b')", first, says="the release is 2024a, and not 2025b")
        try:
            made.execute("CREATE INDEX j ON e (pzic_release())")
            sys.exit("sqlite: an index of releases")
        except sqlite3.OperationalError as error:
            expect("non-deterministic" in str(error), True, error)
        made.executemany("INSERT INTO e (zone, t) VALUES ('X', ?)", [(i * 86400,) for i in range(100)])
        expect(ask(made, "group_concat(DISTINCT release) FROM e"), "2024a", "the release of rows")
        made.commit()
        made.close()
        # The same release may be opened, and no other without a word.
        made = connect(None, file=file)
        expect_error(made, "pzic_open(?)", second, says="keeps local times")
        expect_error(made, "pzic_open(?, (SELECT release FROM e))", second, says="the release is 2025b, and not 2024a")
        expect_error(made, "pzic_open(?, NULL)", second, says="the release is 2025b, and not unknown")
        expect_error(made, "pzic_open(?, '2024a')", untold, says="the release is unknown, and not 2024a")
        expect(ask(made, "pzic_open(?, (SELECT release FROM e))", first), first, "the same release")
        expect(ask(made, "pzic_release()"), "2024a", "the release")
        made.close()
        made = connect(None, file=file)
        expect(ask(made, "pzic_open(?1, pzic_release(?1))", second), second, "another release, with a word")
        asked = "SELECT count(*) FROM e {} WHERE pzic_local(zone, t) = '1970-01-01 09:00:00'"
        expect(made.execute(asked.format("")).fetchone()[0], 0, "a stale index")
        expect(made.execute(asked.format("NOT INDEXED")).fetchone()[0], 1, "without the index")
        made.execute("REINDEX")
        made.execute("UPDATE e SET zone = zone, release = pzic_release()")
        expect(made.execute(asked.format("")).fetchone()[0], 1, "after REINDEX")
        expect(ask(made, "count(*) FROM e WHERE local = pzic_local(zone, t) AND release = '2025b'"), 100, "the stored column")
        expect(ask(made, "group_concat(integrity_check) FROM pragma_integrity_check"), "ok", "the database")
        made.close()
        made = connect(untold)
        expect(ask(made, "pzic_release()"), None, "a tree without a release")
        expect(ask(made, "pzic_release(?)", f"{folder}/none"), None, "no tree")
        expect(ask(made, "pzic_open(?, NULL)", untold), untold, "a tree without a release")
        try_changes(made, first, second)
        made.close()


def try_changes(made, first, second):
    """Try which zones differ between two trees, and between two sources."""
    changed = "pzic_zone_changed(?1, ?2, ?3, ?4)"
    for old, new, name, since, want in (
            (first, second, "X", 0, 1), (first, second, "Y", 0, 0), (first, second, "Z", 0, 1), (first, second, "W", 0, 1),
            (first, first, "X", -(2**63), 0), (first, second, "X", None, None), (first, None, "X", 0, None)):
        expect(ask(made, changed, old, new, name, since), want, (old, new, name, since))
    expect_error(made, changed, first, second, "V", 0, says="no such zone")
    expect_error(made, changed, first, second, "../1/X", 0, says="no such zone")
    expect_error(made, changed, first, second, "+VERSION", 0, says="no TZif file")
    expect_error(made, changed, first, second, "X", 0.5, says="whole number")
    expect_error(made, changed, first, "/no/such", "X", 0, says="a folder")
    with tempfile.TemporaryDirectory() as folder:
        old, new = f"{folder}/old.zi", f"{folder}/new.zi"
        for path, until in (old, "2000"), (new, "2001"):
            with open(path, "w") as file:
                file.write(f"# version {until}\nZone A 0 - XXX {until}\n1 - YYY\nZone B 0 - XXX\n")
        # Their local times differ for the year from 2000-01-01 on.
        for since, want in (-(2**63), 1), (946684800, 1), (978307199, 1), (978307200, 0), (2**63 - 1, 0):
            expect(ask(made, changed, old, new, "A", since), want, since)
        expect(ask(made, "group_concat(column1) FROM (VALUES ('A'), ('B')) WHERE pzic_zone_changed(?, ?, column1, 0)", old, new), "A",
               "zones of sources")
        expect(ask(made, "pzic_release(?)", new), "2001", "the release of a source")


def in_threads(count, work):
    failed = []

    def run(i):
        try:
            work(i)
        except BaseException as error:
            failed.append(error)

    threads = [threading.Thread(target=run, args=(i,)) for i in range(count)]
    for thread in threads:
        thread.start()
    for thread in threads:
        thread.join()
    if failed:
        sys.exit(f"sqlite: in a thread: {failed[0]}")


def in_own_connection(i):
    made = connect()
    compare(made, i, 200)
    made.close()


def measure(made):
    start = time.perf_counter()
    rows = made.execute("""
        WITH RECURSIVE n(i) AS (SELECT 0 UNION ALL SELECT i + 1 FROM n WHERE i < 999999)
        SELECT sum(pzic_offset('Europe/Dublin', i * 2000)) FROM n""").fetchone()
    took = time.perf_counter() - start
    print(f"library: SQLite: {1 / took:.1f} million rows a second with pzic_offset ({rows[0]})")


made = connect()
try_texts(made)
try_refusals(made)
compare(made, 0, 1000)
try_sources()
try_releases()
in_threads(8, in_own_connection)
shared = connect(check_same_thread=False)
if sqlite3.threadsafety >= 3 or ask(made, "sqlite_compileoption_used('THREADSAFE=1')"):
    in_threads(4, lambda i: compare(shared, i, 200))
shared.close()
measure(made)
made.close()
print("library: the extension of SQLite, by Python")

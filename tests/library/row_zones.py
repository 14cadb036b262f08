"""Tests the instants of local times with a zone for each row: `row_zones.py TREE`, with numpy and pandas.

Beside those of each zone by itself, over a folder and over files in memory, with names of all types, and rows that have no instant.
"""

import random
import sys
from datetime import datetime

import numpy
import pandas

import pzic

NAMES = ["Europe/Dublin", "America/New_York", "Australia/Lord_Howe", "Asia/Tokyo", "Pacific/Apia"]
#: In Dublin a fold and a gap, and in New York a gap.
ODD = [1729992600, 1711848600, 1710037800]
tree = pzic.Tree.open(sys.argv[1])
checks = 0


def check(holds, *what):
    global checks
    checks += 1
    if not holds:
        sys.exit(f"row zones: {what}")


def refuses(error, call, *words, **named):
    try:
        got = call(*words, **named)
    except error as made:
        check(True)
        return made
    sys.exit(f"row zones: {error} of {words} {named}: got {got!r}")


def compare():
    """Compare rows of several zones with the array call of each zone."""
    chance = random.Random(4)
    rows = [chance.choice(NAMES) for _ in range(30_000)]
    locals = numpy.random.default_rng(5).integers(0, 2**31, len(rows))
    locals[::5] = [chance.choice(ODD) for _ in locals[::5]]
    series = pandas.Series(rows)
    named = numpy.array(rows)
    for ambiguous in "reject", "earlier", "later", "compatible":
        want = numpy.zeros(len(rows), "int64"), numpy.zeros(len(rows), "uint8")
        for name in NAMES:
            own = named == name
            want[0][own], want[1][own] = tree[name].instant_array(locals[own], ambiguous)
        check((want[1] == 0).all() == (ambiguous != "reject"), "statuses", ambiguous)
        for zones in tree, tree.files(NAMES):
            for column in rows, named, series, series.astype("category"), series.astype("string"):
                got = zones.instant_columns(column, locals, ambiguous, "coerce")
                check(all((one == other).all() for one, other in zip(got, want)), "instants", ambiguous, type(column))
    error = refuses(pzic.NoInstant, tree.instant_columns, rows, locals)
    check(error.row == (tree.instant_columns(rows, locals, errors="coerce")[1] != 0).argmax(), "a row", error)


def tell_faults():
    """Rows without an instant are refused, with their names and numbers, or told by their statuses."""
    for missing in None, float("nan"), "No/Such", "../UTC", 5:
        error = refuses(pzic.NoSuchZone, tree.instant_columns, ["Asia/Tokyo", missing, "No/Such"], [0, 0, 0])
        check(error.row == 1 and error.key is missing, "a name", error)
        made, statuses = tree.instant_columns(["Asia/Tokyo", missing, "Asia/Tokyo"], [32400, 0, 32401], errors="coerce")
        check(made.tolist() == [0, 0, 1] and statuses.tolist() == [0, pzic.NO_ZONE, 0], "a name", made, statuses)
    check("row 1" in str(refuses(OverflowError, tree.instant_columns, ["Asia/Tokyo"] * 2, [0, pzic.MAX_INSTANT])), "range")
    refuses(ValueError, tree.instant_columns, ["UTC"], [0, 1])
    refuses(ValueError, tree.instant_columns, ["UTC"], [0], "first")
    refuses(ValueError, tree.instant_columns, ["UTC"], [0], errors="ignore")
    refuses(ValueError, tree.instant_columns, pandas.Series(["UTC"], index=[1]), pandas.Series([0]))
    refuses(ValueError, tree.instant_columns, ["UTC"], pandas.Series(pandas.to_datetime(["2024-01-01"], utc=True)))
    check([len(made) for made in tree.instant_columns([], [])] == [0, 0], "no rows")


def keep_types():
    """Units, fractions, missing local times and folds are kept."""
    times = numpy.array(["2024-01-01T09:00:00.25", "NaT"], "M8[ms]")
    made, statuses = tree.instant_columns(["Asia/Tokyo", "UTC"], times)
    check(made.dtype == "M8[ms]" and str(made[0]) == "2024-01-01T00:00:00.250" and numpy.isnat(made[1]), "a unit", made)
    check(statuses.tolist() == [0, pzic.UNSPECIFIED], "a missing time", statuses)
    twice = datetime(2024, 10, 27, 1, 30)
    made, statuses = tree.instant_columns(["Europe/Dublin"] * 2, [twice.replace(fold=1), twice], errors="coerce")
    check(made[0] == numpy.datetime64("2024-10-27T01:30") and statuses.tolist() == [0, pzic.FOLD], "a fold", made, statuses)
    told = []
    tree.instant_columns(NAMES * 10, [0] * 50, progress=told.append)
    check(told == [10] * 5, "progress", told)


compare()
tell_faults()
keep_types()
print(f"row zones: {checks} checks")

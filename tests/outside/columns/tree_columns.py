#!/usr/bin/env python3
"""Has the program convert columns by trees of TZif files, and compares the rows with those that Python's csv and zoneinfo make of the same
columns by the same files.

usage: tree_columns.py PROGRAM SOURCE FOLDER

FOLDER has the folders `ours`, `fat` and `slim`, with our files of SOURCE and those of `zic -b fat` and `zic -b slim`, and `old.zi` and `old`,
another source and its files. The columns are those
of layouts.py: 100,000 random instants over all zones and links, without options and with some of them, by 1 and 4 workers, in many rounds.
Names of files that reader.py refuses stand only in the column with --keep-going. What is written by our files is also what is written by
SOURCE. Then columns by small trees: with faults in the first, a middle and the last piece of rounds, with links, with files that change
while the program runs, and with files that are refused. Prints a line for each comparison, and the first differences; the status is 1 if
there is one.
"""
import os
import random
import select
import shutil
import subprocess
import sys

import files
import reader
from columns import compare
from layouts import column_of, compare_texts, moments_of, rows_of, told_of, try_column, zones_of

OPTIONS = [(), ("append",), ("header",), ("zone",), ("fields",), ("delimiter",), ("semicolon",), ("ms",), ("us",), ("ns",), ("going",), ("against",)]
PIECES = ["--row-piece", "64"]                                             # which make many rounds
SECONDS = 20                                                               # in which the program does anything

UTC = reader.header(0, 1, 1) + bytes(7) + reader.header(0, 1, 4) + bytes(6) + b"UTC\0\nUTC0\n"
YORK = reader.worked()
TAILS = {"utc": "0,1970-01-01T00:00:00,+00:00:00,0,UTC", "york": "0,1969-12-31T19:00:00,-05:00:00,0,EST", "none": "0,,,,"}   # of rows at 0
FAR = reader.header(0, 1, 1) + bytes(7) + reader.header(0, 2, 8) + (90000).to_bytes(4, "big") + bytes(7) + b"\4FAR\0UTC\0\nUTC0\n"
REFUSED = {                                                                # with what --explain tells of each
    "Cut": (UTC[:-1], "Short"), "More": (UTC + b"\n", "TrailingBytes"), "Leap": (reader.changed(UTC, 31, 1), "LeapSeconds"), "Text": (b"text\n" * 20, "Magic"),
    "Open": (UTC.replace(b"UTC0", b""), "an empty POSIX TZ string"), "Far": (FAR, "an offset or an abbreviation that no row may have"),
}


# ------------------------------------------------------------------ all zones

def read_names(folder, names):
    """those whose files reader.py reads. Each other one is a difference, unless it is known"""
    for name in names:
        reason = reader.reason(files.octets_of(f"{folder}/{name}"))
        if reason == "accepted":
            yield name
        elif files.KNOWN.get(f"{os.path.basename(folder)}/{name}") != reason:
            files.differ(f"{folder}/{name}: refused as {reason}")


def compare_trees(program, source, folder):
    names = files.names_of(f"{folder}/ours")
    old = zones_of(f"{folder}/old", files.names_of(f"{folder}/old"))
    trees = {form: zones_of(f"{folder}/{form}", read_names(f"{folder}/{form}", names)) for form in ("ours", "fat", "slim")}
    refused = [name for name in names if not all(name in zones for zones in trees.values())]
    moments = list(moments_of(folder, [name for name in names if name not in refused]))
    for chosen in OPTIONS:
        column = column_of(moments + [(name, 0, 0) for name in refused] * 100 if "going" in chosen else moments, chosen)
        for form, zones in trees.items():
            wanted = rows_of(column, zones, old)
            try_column([program, *PIECES, "--tree", f"{folder}/{form}"], column, wanted, folder)
            if form == "ours":
                try_column([program, source], column, wanted, folder)
        option = f", with the option {chosen[0]}" if chosen else ""
        files.report(f"{len(column.records)} rows by our files and zic's, fat and slim{option}, by 1 and 4 workers")


# ------------------------------------------------------------------ small trees

def write_tree(folder, octets_of_names):
    """a new tree of these files"""
    shutil.rmtree(folder, ignore_errors=True)
    for name, octets in octets_of_names.items():
        write(folder, name, octets)


def write(folder, name, octets):
    path = f"{folder}/{name}"
    os.makedirs(os.path.dirname(path), exist_ok=True)
    with open(f"{path}~", "wb") as file:
        file.write(octets)
    os.replace(f"{path}~", path)


def row(name, tail):
    return f"{name},{TAILS[tail]}"


def turn(process, lines):
    """gives the program lines, and returns the rows that it writes before it is given more"""
    try:
        process.stdin.write("".join(f"{line}\n" for line in lines).encode())
        process.stdin.flush()
    except BrokenPipeError:
        return []
    rows, out = b"", process.stdout
    while rows.count(b"\n") < len(lines) and select.select([out], [], [], SECONDS)[0] and (block := os.read(out.fileno(), 65536)):
        rows += block
    return rows.decode().split("\n")[:-1]


def try_turns(program, words, turns, told=""):
    """converts a column that comes in turns: before each something is done, and each has the names of records, whose instants are 0, and
    the tails of their rows"""
    what = " ".join(words)
    process = subprocess.Popen([program, "convert", *words], stdin=subprocess.PIPE, stdout=subprocess.PIPE, stderr=subprocess.PIPE)
    for number, (before, wanted) in enumerate(turns, 1):
        before()
        rows = turn(process, [f"{name},0" for name, _ in wanted])
        compare(f"{what}, turn {number}", rows, [row(name, tail) for name, tail in wanted])
        if len(rows) < len(wanted):
            process.kill()
    try:
        out, err = process.communicate(timeout=SECONDS)
    except subprocess.TimeoutExpired:
        process.kill()
        out, err = process.communicate()
    compare_texts(f"{what}, after the last turn", out.decode(), "")
    compare_texts(f"{what}, messages", err.decode(), told)
    if process.returncode != bool(told):
        files.differ(f"{what}: status {process.returncode}")


def nothing():
    """before a turn"""


def compare_pieces(program, tree, faults):
    """faults in the first, a middle and the last piece of two rounds or more"""
    write_tree(tree, {"Z/UTC": UTC, "Z/York": YORK, **{f"Z/{name}": octets for name, (octets, _) in REFUSED.items()}})
    rows = [("Z/York", "york") if number % 3 else ("Z/UTC", "utc") for number in range(900)]
    for place, name in (0, "Z/Cut"), (450, "Z/None"), (899, "Z/Leap"):
        rows[place] = name, "none"
    listed = [f"{place + 900 * turn + 1},RowZone" for turn in range(2) for place in (0, 450, 899)]
    for workers in "1", "4", "64":
        for piece in "7", "100":
            words = ["--keep-going", "--faults", faults, "--workers", workers, "--row-piece", piece, "--tree", tree]
            try_turns(program, words, [(nothing, rows), (nothing, rows)], told_of(listed))
            with open(faults, encoding="ascii") as file:
                compare(f"{' '.join(words)}, faults", file.read().split("\n")[:-1], listed)
    files.report("1800 rows with faults in the first, a middle and the last piece of rounds, by 1, 4 and 64 workers and pieces of 7 and 100")


def compare_links(program, tree):
    write_tree(tree, {"Z/UTC": UTC, "Z/York": YORK})
    os.symlink("UTC", f"{tree}/Z/Link")
    os.symlink("../Z/Link", f"{tree}/Z/Chain")
    os.symlink(os.path.abspath(f"{tree}/Z/York"), f"{tree}/Z/Absolute")
    os.symlink("Z", f"{tree}/Folder")
    os.link(f"{tree}/Z/UTC", f"{tree}/Z/Hard")
    os.symlink("Nowhere", f"{tree}/Z/Dangling")
    os.symlink("Loop", f"{tree}/Z/Loop")
    rows = [("Z/Link", "utc"), ("Z/Chain", "utc"), ("Z/Absolute", "york"), ("Folder/York", "york"), ("Z/Hard", "utc")]
    try_turns(program, ["--tree", tree], [(nothing, rows)])
    rows += [("Z/Dangling", "none"), ("Z/Loop", "none"), ("Folder", "none"), ("Z/Link", "utc")]
    try_turns(program, ["--keep-going", "--tree", tree], [(nothing, rows)], "row 6: RowZone\n3 rows with faults\n")
    files.report("rows by links to files, to links and to folders, and by links that lead nowhere")


def compare_changes(program, tree):
    """a file is read when a row first names it, and never again"""
    write_tree(tree, {"Z/UTC": UTC, "Z/York": YORK, "Z/Cut": REFUSED["Cut"][0]})
    os.mkfifo(f"{tree}/Z/Pipe")                                            # whoever opens it waits for ever
    before = [("Z/UTC", "utc"), ("Z/Late", "none"), ("Z/Cut", "none"), ("Z/Pipe", "none"), ("Z/York", "york")]

    def change():
        write(tree, "Z/UTC", YORK)
        write(tree, "Z/Late", UTC)
        write(tree, "Z/Cut", UTC)
        write(tree, "Z/New", UTC)
        os.remove(f"{tree}/Z/York")
    after = [*before, ("Z/New", "utc")]
    words = ["--keep-going", "--tree", tree]
    try_turns(program, words, [(nothing, before), (change, after), (nothing, after)], "row 2: RowZone\n9 rows with faults\n")
    files.report("rows by files that come, change and go while the program runs")


def compare_reasons(program, tree, path):
    """what --explain tells of a file that is refused, where the column is a file"""
    write_tree(tree, {"Z/UTC": UTC, **{f"Z/{name}": octets for name, (octets, _) in REFUSED.items()}})
    for name, (_, reason) in REFUSED.items():
        with open(path, "wb") as file:
            file.write(f"Z/{name},0\n".encode())
        words = [program, "convert", "--explain", "--tree", tree]
        with open(path, "rb") as column:
            done = subprocess.run(words, stdin=column, capture_output=True, timeout=SECONDS)
        told = done.stderr.decode().split("\n")
        if done.returncode != 1 or done.stdout or told[0] != "row 1: RowZone" or f"--> {tree}/Z/{name}: {reason}" not in told:
            files.differ(f"--explain of {name}: {done}")
    files.report(f"reasons of {len(REFUSED)} files that are refused")


def compare_unknown(program, tree, path):
    """--zone with the name of no file, or of one that is refused: nothing is written, and nothing of the column is read"""
    write_tree(tree, {"Z/UTC": UTC, **{f"Z/{name}": octets for name, (octets, _) in REFUSED.items()}})
    with open(path, "wb") as file:
        file.write(b"0\n")
    for name in [*(f"Z/{name}" for name in REFUSED), "Z/None", "Z", "/Z/UTC", "Z/../Z/UTC"]:
        words = [program, "convert", "--header", "--zone", name, "--tree", tree]
        with open(path, "rb") as column:
            done = subprocess.run(words, stdin=column, capture_output=True, timeout=SECONDS)
            read = os.lseek(column.fileno(), 0, os.SEEK_CUR)
        if (done.returncode, done.stdout, done.stderr.decode(), read) != (2, b"", f"unknown zone {name}\n", 0):
            files.differ(f"--zone {name}: {done}, after {read} octets of the column")
    files.report("zones that a tree doesn't have, before the column is read")


def main():
    program, source, folder = sys.argv[1:]
    random.seed(34)
    compare_trees(program, source, folder)
    tree = f"{folder}/small"
    compare_pieces(program, tree, f"{folder}/faults")
    compare_links(program, tree)
    compare_changes(program, tree)
    compare_reasons(program, tree, f"{folder}/column")
    compare_unknown(program, tree, f"{folder}/column")
    sys.exit(files.found["in all"] != 0)


if __name__ == "__main__":
    main()

#!/usr/bin/env python3
"""Has the program count the rows of each zone that another release answers differently, and compares the numbers with those that Python's csv
and zoneinfo give.

usage: tallies.py PROGRAM SOURCE FOLDER

FOLDER has what layouts.py needs, and the columns are those of layouts.py: 100,000 random instants over all zones and links, by some of its
options, with --against. Of records with faults those count whose zone has a file. Each column is converted by 1 and 4 workers, and by pieces
of 1,024 and 7 rows. Prints a line for each, and the first differences; the status is 1 if there is one.
"""
import csv
import io
import random
import subprocess
import sys
from collections import Counter

import files
import layouts

TRIED = [(), ("fields", "header"), ("going",), ("append", "ms"), ("replace", "iso", "going"), ("zone", "seconds"), ("header", "replace", "rfc3339")]


def records_of(column):
    """the name of each record's zone, and its time, or None where it has too few or too many fields"""
    chosen = column.chosen
    zone = None if "zone" in chosen else 3 if "fields" in chosen else 0
    rows = [fields for fields in csv.reader(io.StringIO(column.text, newline=""), delimiter=column.delimiter) if fields]
    for fields, (_, time) in zip(rows["header" in chosen:], column.records, strict=True):
        yield "Europe/Dublin" if zone is None else fields[zone] if zone < len(fields) else "", time


def counted(column, zones, old):
    """the lines of a zone, its rows, and those that are answered differently"""
    rows, differ = Counter(), Counter()
    for name, time in records_of(column):
        if name in zones:
            rows[name] += 1
            differ[name] += layouts.answer_by(column, zones, name, time) != layouts.answer_by(column, old, name, time)
    text = io.StringIO()
    lines = [("zone", "rows", "differ"), *((name, rows[name], differ[name]) for name in sorted(rows, key=str.encode))]
    csv.writer(text, lineterminator="\n").writerows(lines)
    return text.getvalue()


def main(program, source, folder):
    random.seed(35)
    names = files.names_of(f"{folder}/ours")
    moments, zones = list(layouts.moments_of(folder, names)), layouts.zones_of(f"{folder}/ours", names)
    old = layouts.zones_of(f"{folder}/old", files.names_of(f"{folder}/old"))
    path = f"{folder}/tallies"
    for chosen in TRIED:
        column = layouts.column_of(moments, (*chosen, "against"))
        wanted = counted(column, zones, old)
        for workers, piece in ("1", "1024"), ("4", "1024"), ("4", "7"):
            words = ["--workers", workers, "--row-piece", piece, *layouts.words_of(column.chosen, folder, False), "--against-summary", path]
            done = subprocess.run([program, "convert", *words, source], input=column.text.encode(), capture_output=True, check=False)
            if done.returncode != ("going" in chosen):
                files.differ(f"{' '.join(words)}: status {done.returncode}, {done.stderr.decode()!r}")
            with open(path, encoding="utf-8", newline="") as file:
                layouts.compare_texts(f"{' '.join(words)}, zones", file.read(), wanted)
        files.report(f"{len(moments)} rows counted by zone, by {' and '.join(chosen) or 'no option'}")


if __name__ == "__main__":
    main(*sys.argv[1:])
    sys.exit(files.found["in all"] != 0)

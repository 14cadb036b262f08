#!/usr/bin/env python3
"""Has the program convert columns over all zones and links of a release of the tz database, and compares the rows with what Python's
zoneinfo shows, of our files and of zic's, and with what reader.py reads.

usage: columns.py PROGRAM SOURCE FOLDER

FOLDER has the folders `ours` and `fat`, with our files of SOURCE and those of `zic -b fat`. The column has 100,000 random rows of a
fixed seed: each name at the first and the last instant that a row may have, and then random names at random instants from the
year 1 to 9999, at transitions, edges of footers and half years and one second before, or within two hours of these. Python can show
local time, abbreviation and flag at each. The program converts it by 1 and 4 workers and pieces of 1,024 and 3 rows, as plain lines;
with a byte order mark and carriage returns; with quotes in one of a hundred records; with quotes, zeros before digits and line ends of all kinds; and with a row that has a
fault. Prints a line for each comparison, and the first differences; the status is 1 if there is one.
"""
import random
import subprocess
import sys
import zoneinfo
from datetime import timedelta

import files
import reader
from rows import EPOCH, offset_text, row

ROWS = 100000
FIRST, LAST = -62135510400, 253402214399
FAULTY = 70000                                   # the row with a fault, from 1


def file_of(folder, name):
    return files.file_of(files.octets_of(f"{folder}/ours/{name}"))


def column_of(folder, names):
    """names and instants"""
    yield from ((name, t) for name in names for t in (FIRST, LAST))
    instants = {name: files.instants_of(file_of(folder, name)) for name in names}
    for number in range(ROWS - 2 * len(names)):
        name = random.choice(names)
        if number % 3 == 0:
            yield name, random.randint(FIRST, LAST)
        else:
            near = 7200 if number % 3 == 1 else 0
            yield name, random.choice(instants[name]) + random.randint(-near, near)


# ------------------------------------------------------------------ other readers

def by_zoneinfo(tree, column):
    zoneinfo.reset_tzpath([tree])
    zoneinfo.ZoneInfo.clear_cache()
    return [row(name, zoneinfo.ZoneInfo(name), t) for name, t in column]


def by_reader(folder, column):
    for name, t in column:
        offset, flag, abbreviation = reader.at(file_of(folder, name), t)
        local = EPOCH + timedelta(seconds=t + offset)
        time = local.replace(tzinfo=None).isoformat()
        yield f"{name},{t},{time},{offset_text(timedelta(seconds=offset))},{flag},{abbreviation}"


def compare(what, rows, wanted):
    """holds rows against those that are wanted, one by one"""
    if len(rows) != len(wanted):
        files.differ(f"{what}: {len(rows)} rows, and not {len(wanted)}")
    for number, (a, b) in enumerate(zip(rows, wanted), 1):
        if a != b:
            files.differ(f"{what}, row {number}: {a}, and not {b}")


# ------------------------------------------------------------------ the program

def plain(column):
    return "".join(f"{name},{t}\n" for name, t in column)


def marked(column):
    return "\ufeff" + "".join(f"{name},{t}\r\n" for name, t in column)


def zeros(t):
    """an instant with a few zeros, up to 18 digits"""
    digits = "0" * random.randint(0, 18 - len(str(abs(t)))) + str(abs(t))
    return "-" + digits if t < 0 or t == 0 and random.random() < 0.5 else digits


def rarely_quoted(column):
    """with quotes round both fields of each hundredth record"""
    for number, (name, t) in enumerate(column):
        yield f'"{name}","{t}"\n' if number % 100 == 57 else f"{name},{t}\n"


def quoted(column):
    """from the middle on with quotes round some fields"""
    for number, (name, t) in enumerate(column):
        fields = [name, zeros(t)]
        if number >= ROWS // 2:
            fields = [f'"{field}"' if random.random() < 0.3 else field for field in fields]
        yield ",".join(fields) + random.choice(["\n", "\r\n", "\r", "\n\n", "\r\n\r\n"])


def faulty(column):
    lines = plain(column).splitlines(keepends=True)
    lines[FAULTY - 1] = lines[FAULTY - 1].replace(",", ",+")
    return "".join(lines)


def convert(program, source, what, text, wanted, error=""):
    for workers in 1, 4:
        for piece in 1024, 3:
            call = f"{what}, {workers} workers, pieces of {piece}"
            words = [program, "convert", "--workers", str(workers), "--row-piece", str(piece), source]
            ran = subprocess.run(words, input=text.encode(), stdout=subprocess.PIPE, stderr=subprocess.PIPE)
            told = ran.returncode, ran.stderr.decode()
            if told != (int(bool(error)), error):
                files.differ(f"{call}: status {told[0]}, {told[1]!r}, and not {error!r}")
            rows = ran.stdout.decode("ascii").split("\n")
            if rows.pop():
                files.differ(f"{call}: the last row has no end")
            compare(call, rows, wanted)
    files.report(f"{len(wanted)} rows of {what}, by 1 and 4 workers and pieces of 1,024 and 3")


def main():
    program, source, folder = sys.argv[1:]
    random.seed(1)
    names = files.names_of(f"{folder}/ours")
    column = list(column_of(folder, names))
    random.shuffle(column)
    wanted = by_zoneinfo(f"{folder}/ours", column)
    compare("reader.py", list(by_reader(folder, column)), wanted)
    compare("zoneinfo over zic's files", by_zoneinfo(f"{folder}/fat", column), wanted)
    files.report(f"{len(column)} rows over {len(names)} names by reader.py, and by zoneinfo over our files and zic's fat ones")
    convert(program, source, "plain lines", plain(column), wanted)
    convert(program, source, "a column with a mark and carriage returns", marked(column), wanted)
    convert(program, source, "a column with a quoted record in a hundred", "".join(rarely_quoted(column)), wanted)
    convert(program, source, "a column with quotes and zeros", "".join(quoted(column)), wanted)
    convert(program, source, "a column with a fault", faulty(column), wanted[:FAULTY - 1], f"row {FAULTY}: RowInstant\n")
    sys.exit(files.found["in all"] != 0)


if __name__ == "__main__":
    main()

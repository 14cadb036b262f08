#!/usr/bin/env python3
"""Has the program convert columns by options that say what records and rows have, and compares the rows with those that Python's csv
and zoneinfo make of the same columns.

usage: layouts.py PROGRAM SOURCE FOLDER

FOLDER has the folder `ours` with our files of SOURCE, and `old.zi`, another source, with its files in `old`. Each column has the same 100,000 random instants of a fixed seed over all zones and
links, near transitions and elsewhere, counted in the unit of the column, and in one of a hundred records quotes round each field, with
delimiters and line ends within the fields that aren't read. With --keep-going one of fifty records has a fault, the first and the last
among them, and --faults lists them, beside a second option with their lines and values; with --max-faults the run ends after 700. With
--against the rows are those that zoneinfo shows differently by `old`. With --append and --replace rows end as the first line does. With --from rfc3339 and utc Python's datetime writes the instants, by
UT offsets at random in each form, or none, with a T, a t or a space, and some without seconds that are 0; with --from seconds decimal does.
Their fractions are without the zeros that end them, or with more. Each option is tried alone and with each other one, by 1 and 4 workers.
Prints a line for each, and the first differences; the status is 1 if there is one.
"""
import csv
import functools
import io
import itertools
import random
import subprocess
import sys
from collections import namedtuple
from datetime import datetime, timedelta
from decimal import Decimal
from zoneinfo import ZoneInfo

import files
from columns import FIRST, LAST, compare, file_of
from rows import row

# a column by some options, as text; its records, as they stand there (starts) and as names and instants, the lines where they begin, and the
# counts of instants
Column = namedtuple("Column", "chosen delimiter digits text starts records lines counts")

RECORDS = 100000
MOST = 700                                                                              # faults after which a run goes on, in a second try
# of no zone: some are paths of a tree, and one is that of a zone of `old`
NOWHERE = ["No,W\there", "America/Medellin", "Etc", "Etc/../Etc/UTC", "/Etc/UTC"]
FAULTY = [(NOWHERE, "0"), (["Etc/UTC"], '1,"5;\t'), None]                                # names and counts, or as they are
UNITS = {"s": 0, "ms": 3, "us": 6, "ns": 9}
OPTIONS = {
    "zone": ["--zone", "Europe/Dublin"],
    "fields": ["--zone-field", "4", "--time-field", "2"],
    "delimiter": ["--delimiter", "tab"],
    "semicolon": ["--delimiter", ";"],
    "ms": ["--unit", "ms"],
    "us": ["--unit", "us"],
    "ns": ["--unit", "ns"],
    "seconds": ["--from", "seconds"],
    "rfc3339": ["--from", "rfc3339"],
    "utc": ["--from", "utc"],
    "header": ["--header"],
    "iso": ["--style", "iso"],
    "append": ["--append"],
    "replace": ["--replace"],
    "against": ["--against", "OLD"],
    "going": ["--keep-going", "--faults", "FILE"],
    "space": ["--delimiter", " "],
}
ONE = [("delimiter", "semicolon", "space"), ("ms", "us", "ns"), ("seconds", "rfc3339", "utc"), ("append", "replace")]   # each in place of another
WHOLE = {"append", "replace"}                                                            # with these rows have their records
TOGETHER = [pair for words in ONE for pair in itertools.combinations(words, 2)]


# ------------------------------------------------------------------ a column

def moments_of(folder, names):
    """names, seconds, and nanoseconds after them"""
    instants = {name: files.instants_of(file_of(folder, name)) for name in names}
    for number in range(RECORDS):
        name = random.choice(names)
        near = 7200 if number % 3 else 0
        second = random.randint(FIRST, LAST) if number % 3 == 2 else random.choice(instants[name]) + random.randint(-near, near)
        yield name, min(max(second, FIRST), LAST), random.randrange(10 ** 9)


def fraction_of(number, fraction):
    """a fraction of a second: as it is, without the zeros that end it, or with more of them"""
    fraction = [fraction.rstrip("0"), fraction.ljust(9, "0"), fraction][number % 3]
    return "." + fraction if fraction else ""


def clock_of(number, second, fraction, delimiter):
    """a date and a time of day, of which some have no seconds where these are 0"""
    moment, fraction = datetime(1970, 1, 1) + timedelta(seconds=second), fraction_of(number, fraction)
    between = " " if number % 4 == 0 and (delimiter != " " or number % 100 == 0) else "t" if number % 4 == 1 else "T"
    is_short = moment.second == 0 and not fraction and number % 2
    return moment.isoformat(between, "minutes" if is_short else "seconds") + fraction


def offset_of(number, offset):
    """a UT offset in one of the forms that can have it"""
    sign = "-" if offset == 0 and number % 2 or offset < 0 else "+"
    hours, minutes, seconds = abs(offset) // 3600, abs(offset) // 60 % 60, abs(offset) % 60
    forms = [f"{hours:02}:{minutes:02}:{seconds:02}"]
    if not seconds:
        forms += [f"{hours:02}:{minutes:02}", f"{hours:02}{minutes:02}"]
    if not seconds and not minutes:
        forms.append(f"{hours:02}")
    return sign + random.choice(forms)


def written(number, second, fraction, delimiter):
    """an instant as RFC 3339 and others write it"""
    minutes, hours = random.randint(-1439, 1439), random.randint(-23, 23)
    offset = random.choice([None, 0, 60 * minutes, 3600 * hours, random.randint(-86399, 86399)])
    zone = "zZ"[number % 2] if offset is None else offset_of(number, offset)
    return clock_of(number, second + (offset or 0), fraction, delimiter) + zone


def seconds_of(number, count, digits):
    """a count of parts of a second, as seconds with a fraction"""
    whole, _, fraction = f"{Decimal(count).scaleb(-digits):f}".partition(".")
    return whole + fraction_of(number, fraction)


def text_of(pairs, chosen, delimiter):
    """the text of the column, and of each record as it stands there, with the line where it begins"""
    text, records, lines, line = io.StringIO(), [], [], 1
    if "header" in chosen:
        records.append('some' + delimiter + '"hea""der"')
        text.write(records[0] + ("\r\n" if "replace" in chosen else "\n"))
        line += 1
    for number, (name, count) in enumerate(pairs):
        count, faulty = str(count), "going" in chosen and number % 50 in (0, 49)
        if faulty and FAULTY[number // 25 % 3]:
            choice, count = FAULTY[number // 25 % 3]
            name = choice[number // 75 % len(choice)]
        fields = [count] if "zone" in chosen else [name, count]
        if "fields" in chosen:
            fields = ["", count, "a,b;c" if delimiter == "\t" else "a\tb", name, "é"][: 5 if number % 2 else 4]
        if faulty and number // 25 % 3 == 2:
            fields = ["only"] if {"fields", *WHOLE} & {*chosen} else fields + ["more"]
        if number % 100 == 0 or faulty:
            if "fields" in chosen and len(fields) > 2:
                fields[2] = f'x{delimiter}"y\r\nz'
            fields = ['"' + field.replace('"', '""') + '"' for field in fields]
        records.append(delimiter.join(fields))
        text.write(records[-1] + ("\r\n" if number % 7 == 0 else "\n"))
        lines.append(line)
        line += records[-1].count("\n") + 1
    return text.getvalue(), records, lines


def time_of(chosen):
    """the index of the field of the time"""
    return 1 if "fields" in chosen or "zone" not in chosen else 0


def records_of(text, chosen, delimiter):
    """the names and counts of records, as Python's csv reads them, or none where there are too few or too many fields"""
    records = [fields for fields in csv.reader(io.StringIO(text, newline=""), delimiter=delimiter) if fields]
    time = time_of(chosen)
    zone = None if "zone" in chosen else 3 if "fields" in chosen else 0
    least = max(time, zone or 0) + 1
    for fields in records["header" in chosen:]:
        if len(fields) < least or len(fields) > least and not {"fields", *WHOLE} & {*chosen}:
            yield None, None
        else:
            yield "Europe/Dublin" if zone is None else fields[zone], fields[time]


def column_of(moments, chosen):
    """a column of these moments"""
    delimiter = "\t" if "delimiter" in chosen else ";" if "semicolon" in chosen else " " if "space" in chosen else ","
    digits = max([UNITS.get(option, 0) for option in chosen], default=0)
    counts = [(name, second * 10 ** digits + nano // 10 ** (9 - digits)) for name, second, nano in moments]
    instants = [str(count) for _, count in counts]
    if "seconds" in chosen:
        instants = [seconds_of(number, count, digits) for number, (_, count) in enumerate(counts)]
    elif {"rfc3339", "utc"} & {*chosen}:
        write = written if "rfc3339" in chosen else clock_of
        instants = [write(number, second, f"{nano:09}"[:digits], delimiter) for number, (_, second, nano) in enumerate(moments)]
    text, starts, lines = text_of([(name, instant) for (name, _), instant in zip(counts, instants)], chosen, delimiter)
    values = {} if {"rfc3339", "utc"} & {*chosen} else {"0": 0}
    values |= dict(zip(instants, (count for _, count in counts)))
    return Column(chosen, delimiter, digits, text, starts, list(records_of(text, chosen, delimiter)), lines, values)


# ------------------------------------------------------------------ its rows

def zones_of(folder, names):
    """zoneinfo's zones by the files of a folder"""
    zones = {}
    for name in names:
        with open(f"{folder}/{name}", "rb") as file:
            zones[name] = ZoneInfo.from_file(file, name)
    return zones


@functools.cache
def rest_of(zone, second):
    """local time, offset, flag and abbreviation"""
    return row("", zone, second).split(",", 2)[2]


def fault_of(column, zones, name, instant):
    if instant is None:
        return "RowFields"
    return "RowZone" if name not in zones else None if instant in column.counts else "RowInstant"


def record_of(fields, delimiter=","):
    """a record of these fields, as csv writes it"""
    text = io.StringIO()
    csv.writer(text, delimiter=delimiter).writerow(fields)
    return text.getvalue().removesuffix("\r\n")


def listed(column, number, fault, name, instant):
    """a fault as --faults has it"""
    value = {"RowZone": name, "RowInstant": instant, "RowFields": ""}[fault]
    return record_of([number, fault, column.lines[number - 1], value] if has_details(column.chosen) else [number, fault])


def faulty_row(column, name, count, start):
    """the row of a record with a fault"""
    if count is None:
        return start
    if "replace" in column.chosen:
        return replaced(column, start, "")
    empty = answers_of(column.chosen)
    if "append" in column.chosen:
        return start + empty * column.delimiter
    return record_of([name, count, *empty * [""]], column.delimiter)


def answers_of(chosen):
    """how many fields an answer has"""
    return 1 if "replace" in chosen else 3 if "iso" in chosen else 4


def replaced(column, start, text):
    """a record as it stands, with a text in the place of its time, double quotes and all"""
    fields = []
    for part in start.split(column.delimiter):
        if fields and fields[-1].count('"') % 2:
            fields[-1] += column.delimiter + part
        else:
            fields.append(part)
    fields[time_of(column.chosen)] = text
    return column.delimiter.join(fields)


def iso_offset(offset):
    """the offset of a row after its local time: without its seconds, if it has none"""
    return offset[:-3] if offset.endswith(":00") else offset


def answer_by(column, zones, name, instant):
    """what zones answer a record, each field after a delimiter; the fields are empty where they answer nothing"""
    if instant not in column.counts or name not in zones:
        return column.delimiter * answers_of(column.chosen)
    second, fraction = divmod(column.counts[instant], 10 ** column.digits)
    local, *rest = rest_of(zones[name], second).split(",")
    if column.digits:
        local += f".{fraction:0{column.digits}}"
    if "iso" in column.chosen:
        local += iso_offset(rest.pop(0))
    return "".join(column.delimiter + field for field in [local, *rest][:answers_of(column.chosen)])


def row_by(column, zones, name, instant, start):
    """the row of a record without a fault"""
    if "replace" in column.chosen:
        return replaced(column, start, answer_by(column, zones, name, instant)[1:])
    fields = [start] if "append" in column.chosen else [name, str(column.counts[instant])]
    return column.delimiter.join(fields) + answer_by(column, zones, name, instant)


def rows_of(column, zones, old, most=None):
    """the rows of a column by zoneinfo's zones and old ones, each with its line end, as one text, and the faults, each as --faults writes
    it; where the run goes on after this many, both up to the next, which has no row"""
    starts, names = iter(column.starts), ["local", "offset", "daylight", "abbreviation"]
    if "iso" in column.chosen:
        names.remove("offset")
    names = names[:answers_of(column.chosen)]
    added = [] if "replace" in column.chosen else names
    if "against" in column.chosen:
        added = added + [f"old_{name}" for name in names]
    rows, faults = [], []
    if "header" in column.chosen:
        header = next(starts)
        rows.append(column.delimiter.join([header] if WHOLE & {*column.chosen} else ["zone", "instant"]) + "".join(column.delimiter + name for name in added))
    for number, ((name, count), start) in enumerate(zip(column.records, starts), 1):
        if fault := fault_of(column, zones, name, count):
            faults.append(listed(column, number, fault, name, count))
            if most is not None and len(faults) > most:
                break
        line = faulty_row(column, name, count, start) if fault else row_by(column, zones, name, count, start)
        if "against" in column.chosen:
            other = answer_by(column, old, name, count)
            if other == answer_by(column, zones, name, count):
                continue
            line += other
        rows.append(line)
    return "".join(line + line_end(column) for line in rows), faults


def line_end(column):
    """how rows end: as the first line does, where they have their records"""
    is_long = column.lines and column.text.startswith(column.starts[0] + "\r\n")
    return "\r\n" if WHOLE & {*column.chosen} and is_long else "\n"


# ------------------------------------------------------------------ the program

def has_details(chosen):
    """whether the list of faults has their lines and values"""
    return "going" in chosen and len(chosen) > 1


def words_of(chosen, folder, is_tree):
    """the words of options; beside a tree the other release is a tree too"""
    meant = {"FILE": f"{folder}/faults", "OLD": f"{folder}/old.zi"}
    if is_tree:
        meant |= {"--against": "--against-tree", "OLD": f"{folder}/old"}
    words = [meant.get(word, word) for option in chosen for word in OPTIONS[option]]
    if has_details(chosen):
        words += ["--faults-with", "line,value"]
    if "zone" in chosen and "fields" in chosen:
        words = [word for word in words if word not in ("--zone-field", "4")]
    return words


def told_of(faults):
    """what is told of rows with faults"""
    count = "1 row with a fault" if len(faults) == 1 else f"{len(faults)} rows with faults"
    return f"{told_line(faults[0])}{count}\n" if faults else ""


def told_line(fault):
    """the line that tells of a fault"""
    return "row {}: {}\n".format(*fault.split(",")[:2])


def compare_texts(what, text, wanted):
    if text != wanted:
        compare(what, text.split("\n"), wanted.split("\n"))


def try_column(call, column, wanted, folder, most=None):
    """has the program convert a column by 1 and 4 workers, and compares the rows and faults with those that are wanted. The call is the
    program and the words that say where its zones are, and the folder is for a list of faults. Where the run goes on after a number of
    them, the last of those that are wanted ends it"""
    rows, faults = wanted
    limit, end, path = [], "", f"{folder}/faults"
    if most is not None:
        limit, end, faults = ["--max-faults", str(most)], told_line(faults[-1]), faults[:-1]
    for workers in "1", "4":
        words = ["--workers", workers, *words_of(column.chosen, folder, "--tree" in call), *limit, *call[1:]]
        with open(path, "w", encoding="ascii"):
            """nothing is left of an earlier run"""
        done = subprocess.run([call[0], "convert", *words], input=column.text.encode(), capture_output=True)
        what, told = " ".join(words), done.stderr.decode()
        if done.returncode != bool(end or faults) or told != end + told_of(faults):
            files.differ(f"{what}: status {done.returncode}, {told!r}, and not {end + told_of(faults)!r}")
        compare_texts(what, done.stdout.decode(), rows)
        if "going" in column.chosen:
            with open(path, encoding="ascii") as file:
                compare_texts(f"{what}, faults", file.read(), "".join(f"{fault}\n" for fault in faults))


def main(program, source, folder):
    random.seed(34)
    names = files.names_of(f"{folder}/ours")
    moments, zones = list(moments_of(folder, names)), zones_of(f"{folder}/ours", names)
    old = zones_of(f"{folder}/old", files.names_of(f"{folder}/old"))
    pairs = [pair for pair in itertools.combinations(OPTIONS, 2) if pair not in TOGETHER]
    for chosen in [(option,) for option in OPTIONS] + pairs:
        column = column_of(moments, chosen)
        try_column([program, source], column, rows_of(column, zones, old), folder)
        if "going" in chosen:
            try_column([program, source], column, rows_of(column, zones, old, MOST), folder, MOST)
        files.report(f"{len(moments)} rows by {' and '.join(chosen)}, by 1 and 4 workers")


if __name__ == "__main__":
    main(*sys.argv[1:])
    sys.exit(files.found["in all"] != 0)

#!/usr/bin/env python3
"""Has the program convert columns in which each line is a record, with stray double quotes, and compares the rows and the faults with what
Python's csv module gives of each line by itself, which is as strict with double quotes as --quotes says.

usage: lines.py PROGRAM FOLDER

The columns are random, of a fixed seed: lines of a zone and an instant, some between double quotes, with a double quote more in one of
eight, with another number of fields, other names and other instants, and line ends of all kinds. The program converts each by 1 and 4 workers
and pieces of 1,024 and 3 rows, from a file and through a pipe in bursts; with a limit of the length of a line; in parts, cut between lines; and
columns without a double quote as CSV too. Prints a line for each comparison, and the first differences; the status is 1 if there is one.
"""
import contextlib
import csv
import random
import re
import subprocess
import sys
from datetime import datetime, timedelta, timezone

import files

SOURCE = "Zone Etc/UTC 0 - UTC\nZone A/B 1:30 - AB+\n"
ZONES = {"Etc/UTC": (0, "+00:00:00,0,UTC"), "A/B": (5400, "+01:30:00,0,AB+")}
FIRST, LAST = -62135510400, 253402214399
ENDS = ["\n", "\n", "\n", "\r\n", "\r", "\n\n", "\r\n\r\n"]
# the readings of double quotes, and the options for them
QUOTES = {"strict": [], "lenient": ["--quotes", "lenient"]}


def line_of():
    """a line, mostly of a zone and an instant"""
    fields = [random.choice(["Etc/UTC", "A/B"]), str(random.choice([0, -1, random.randint(FIRST, LAST)]))]
    kind = random.randrange(40)
    if kind == 0:
        fields[0] = "No/Where"
    elif kind == 1:
        fields[1] = random.choice(["+5", "", "1.5", str(LAST + 1)])
    elif kind == 2:
        fields = fields[:1]
    elif kind == 3:
        fields.append(random.choice(["", "a b", "\u00e9"]))
    fields = [f'"{field}"' if random.random() < 0.2 else field for field in fields]
    line = ",".join(fields)
    if random.randrange(8) == 0:
        at = random.choice([0, len(line), random.randint(0, len(line)), line.find(",") + 1])
        line = line[:at] + '"' + line[at:]
    return line


def record(line, quotes):
    """the fields of a line, or None where its double quotes are open at its end, so that the reader reads on, or aren't strict"""
    reader = csv.reader([line, "x"], strict=quotes == "strict")
    try:
        fields = next(reader)
    except csv.Error:
        return None
    return fields if reader.line_num == 1 else None


def row(line, quotes):
    """what stands after a line, and its fault"""
    fields = record(line, quotes)
    if fields is None:
        return "", "RowQuote"
    if len(fields) < 2:
        return "", "RowFields"
    if fields[0] not in ZONES:
        return ",,,,", "RowZone"
    if not re.fullmatch("-?[0-9]{1,18}", fields[1]):
        return ",,,,", "RowInstant"
    if not FIRST <= int(fields[1]) <= LAST:
        return ",,,,", "RowRange"
    offset, rest = ZONES[fields[0]]
    local = datetime(1970, 1, 1, tzinfo=timezone.utc) + timedelta(seconds=int(fields[1]) + offset)
    return f",{local.replace(tzinfo=None).isoformat()},{rest}", None


def end_of(text):
    """how rows end: as the first line of a column"""
    end = re.search("\r\n|\r|\n", text)
    return "\r\n" if end and end[0] == "\r\n" else "\n"


def wanted(lines, quotes, end, most=None):
    """the rows of lines, each with this end, and their faults, where a line may have so many bytes"""
    rows, faults = [], []
    for number, line in enumerate(lines, 1):
        rest, fault = row(line, quotes)
        if most is not None and len(line.encode()) > most:
            line, rest, fault = decoded(line.encode()[:most + 4]), "", "RowTooLong"
        rows.append(line + rest + end)
        if fault:
            faults.append(f"{number},{fault}\n")
    return "".join(rows), faults


def decoded(data):
    """bytes as text, also those of half a letter"""
    return data.decode(errors="surrogateescape")


def told(faults):
    """the status and what standard error has"""
    if not faults:
        return 0, ""
    number, kind = faults[0].strip().split(",")
    count = "1 row with a fault" if len(faults) == 1 else f"{len(faults)} rows with faults"
    return 1, f"row {number}: {kind}\n{count}\n"


def converted(words, text, burst):
    """what the program answers, from a file or through a pipe in bursts of this many bytes"""
    data = text.encode()
    if not burst:
        ran = subprocess.run(words, input=data, stdout=subprocess.PIPE, stderr=subprocess.PIPE)
        return ran.returncode, decoded(ran.stdout), ran.stderr.decode()
    ran = subprocess.Popen(words, stdin=subprocess.PIPE, stdout=open(words[-1] + ".out", "wb"), stderr=subprocess.PIPE)
    # A run that ends at a record reads no more.
    with contextlib.suppress(BrokenPipeError):
        for at in range(0, len(data), burst):
            ran.stdin.write(data[at:at + burst])
            ran.stdin.flush()
    with contextlib.suppress(BrokenPipeError):
        ran.stdin.close()
    error = ran.stderr.read().decode()
    status = ran.wait()
    with open(words[-1] + ".out", "rb") as file:
        return status, decoded(file.read()), error


def compare(program, folder, what, lines, text, quotes):
    rows, faults = wanted(lines, quotes, end_of(text))
    status, error = told(faults)
    for workers in 1, 4:
        for piece, burst in (1024, 0), (3, 0), (3, 7), (1024, 4099):
            words = [program, "convert", "--records", "lines", "--append", "--keep-going", "--faults", f"{folder}/faults", *QUOTES[quotes],
                     "--workers", str(workers), "--row-piece", str(piece), f"{folder}/source"]
            if burst == 7 and len(text) > 100000:
                continue
            got = converted(words, text, burst)
            call = f"{what}, {quotes}, {workers} workers, pieces of {piece}, bursts of {burst}"
            if got != (status, rows, error):
                first = next((i for i, (a, b) in enumerate(zip(got[1].split("\n"), rows.split("\n")), 1) if a != b), None)
                files.differ(f"{call}: status {got[0]}, {got[2]!r}, not {(status, error)!r}; first other row {first}")
            with open(f"{folder}/faults") as file:
                if file.read() != "".join(faults):
                    files.differ(f"{call}: other faults")
    files.report(f"{len(lines)} lines of {what}, {quotes}, {len(faults)} with faults, by 1 and 4 workers, pieces of 1,024 and 3, and in bursts")


def in_parts(program, folder, lines):
    """rows of parts, cut between lines, are those of the whole"""
    words = [program, "convert", "--records", "lines", "--append", "--keep-going", f"{folder}/source"]
    rows = []
    for at in range(0, len(lines), 997):
        rows.append(converted(words, "".join(line + "\n" for line in lines[at:at + 997]), 0)[1])
    if "".join(rows) != wanted(lines, "strict", "\n")[0]:
        files.differ("parts: other rows than the whole")
    files.report(f"{len(rows)} parts, cut between lines")


def of_a_length(program, folder, lines):
    """rows with the first bytes of lines that are longer than a limit, and by csv, where lines have no double quote, up to the first"""
    for _ in range(200):
        some = random.sample(lines, random.randint(1, 8))
        plain = random.randrange(2) == 0
        some = [line.replace('"', "") if plain else line for line in some]
        most = random.choice([1, len(some[0].encode()), max(len(line.encode()) for line in some), random.randint(8, 30)])
        short = next((i for i, line in enumerate(some) if len(line.encode()) > most), None)
        quotes = random.choice([*QUOTES])
        text = "".join(line + random.choice(ENDS) for line in some)
        rows, faults = wanted(some[:short], quotes, end_of(text))
        status, error = told(faults)
        answers = {"csv": (status, rows, error) if short is None else (1, rows, f"row {short + 1}: RowTooLong\n{error}")}
        rows, faults = wanted(some, quotes, end_of(text), most)
        answers["lines"] = (told(faults)[0], rows, told(faults)[1])
        for kind in ("lines", "csv") if plain else ("lines",):
            words = [program, "convert", "--records", kind, "--append", "--keep-going", "--max-record", str(most), *QUOTES[quotes],
                     f"{folder}/source"]
            for burst in 0, 1:
                if converted(words, text, burst) != answers[kind]:
                    files.differ(f"{text!r} with lines of at most {most} bytes, {quotes}: other rows or faults")
    files.report("200 short columns with a limit of lines, whole and byte by byte")


def without_quotes(program, folder, lines):
    """rows of lines without a double quote are those of CSV"""
    text = "".join(line.replace('"', "") + random.choice(ENDS) for line in lines)
    got = [converted([program, "convert", "--records", kind, "--keep-going", f"{folder}/source"], text, 0) for kind in ("lines", "csv")]
    if got[0] != got[1]:
        files.differ("a column without double quotes has other rows as CSV")
    files.report(f"{len(lines)} lines without a double quote, as lines and as CSV")


def main():
    program, folder = sys.argv[1:]
    random.seed(52)
    with open(f"{folder}/source", "w") as file:
        file.write(SOURCE)
    for count in [1, 2, 3, 5, 8] * 40:
        lines = [line_of() for _ in range(count)]
        text = "".join(line + random.choice(ENDS) for line in lines)
        if random.randrange(3) == 0:
            text = text.rstrip("\r\n")
        lines = [line for line in re.split("[\r\n]", text) if line]
        quotes = random.choice([*QUOTES])
        rows, faults = wanted(lines, quotes, end_of(text))
        words = [program, "convert", "--records", "lines", "--append", "--keep-going", "--row-piece", str(random.randint(1, 4)), *QUOTES[quotes],
                 f"{folder}/source"]
        for burst in 0, 1:
            if converted(words, text, burst) != (told(faults)[0], rows, told(faults)[1]):
                files.differ(f"{text!r}, {quotes}: other rows or faults")
    files.report("200 short columns, whole and byte by byte")
    lines = [line_of() for _ in range(60000)]
    text = "".join(line + random.choice(ENDS) for line in lines)
    lines = [line for line in re.split("[\r\n]", text) if line]
    short = lines[:2000]
    for quotes in QUOTES:
        compare(program, folder, "a long column", lines, text, quotes)
        compare(program, folder, "a short column", short, "\n".join(short), quotes)
    of_a_length(program, folder, short)
    in_parts(program, folder, lines)
    without_quotes(program, folder, lines)
    sys.exit(files.found["in all"] != 0)


if __name__ == "__main__":
    main()

#!/usr/bin/env python3
"""Has the program convert short columns, and compares their records and fields with those that Python's csv reads.

usage: texts.py PROGRAM FOLDER

The columns are all 781 texts of up to four bytes of `a`, a comma, a line feed, a carriage return and a double quote, some with a mark, and sixty
lines of all kinds in some orders, cut into pieces of 1 to 69 records. No record names a zone, so each is listed, with its line and the value of
its first field where it has two, and its fields are in its row. Prints a line, and the first differences; the status is 1 if there is one.
"""
import csv
import io
import itertools
import subprocess
import sys

import files

SOURCE = "Zone Etc/UTC 0 - UTC\n"
MARK = "\ufeff"
# Lines end at a return, a feed or both, and double quotes keep commas and line ends.
TEXTS = [
    "a,0\nb,1\nc,2\n", "a,0\r\nb,1\r\nc,2\r\n", "a,0\rb,1\r", "\n\ra,0\n", "\n\na,0\n\nb,1\n", "a,0\nb,1", "a\na,b,c\na,b,c,d\n,,\n", " \n",
    '"a,b",0\n', '"a\r\nb",0\r\nc,1\r\n', '"a\nb",0\nc,1\n', 'a"b,0\nc,"1\n', '"a"b,0\n"""",1\n', '"a"\r"b"', 'a,0\nb,1\nc,"2"\nd,3\n', 'a,0\nb,"',
    'a,0\n"b\r\n""c",1\r\nd,2', 'a"b,0\nc,1\n', f'a,0\n{MARK}b,"1"\n', f"{MARK}a,0\nb,1\n", MARK, f'{MARK}"a",0\nb,1\n',
]
# Lines of all kinds, the last of which have double quotes.
LINES = [
    "Europe/Berlin,1000000000\n", "a,0\r\n", "\n", "America/Argentina/ComodRivadavia,-2000000000\n", "UTC,5\r", "a,b,c\n",
    "no more than one field of more than thirty-two bytes\n", '"b\r\nc","1"\n', 'America/New_York,"2"\n',
]


def columns():
    """texts, and the records of their pieces"""
    for length in range(5):
        yield from ("".join(text) for text in itertools.product('a,\n\r"', repeat=length))
    yield from TEXTS
    for kinds in 1, 4, 7, 9:
        yield "".join(LINES[(number * 5 + number // 8) % kinds] for number in range(60))


def records_of(text):
    """the records of a text, without a mark, each with the line where it begins"""
    records, text = [], text.removeprefix(MARK)
    reader = csv.reader(io.StringIO(text, newline=""))
    ends = [0, *itertools.accumulate(map(len, io.StringIO(text, newline="")))]
    at = 0
    for fields in reader:
        if fields:
            records.append((fields, 1 + text.count("\n", 0, ends[at])))
        at = reader.line_num
    return records


def listed(records):
    """the list of faults, and the rows of records with two fields"""
    faults, rows = [], []
    for number, (fields, line) in enumerate(records, 1):
        kind = "RowZone" if len(fields) == 2 else "RowFields"
        faults.append([str(number), kind, str(line), fields[0] if len(fields) == 2 else ""])
        rows.append([*fields, "", "", "", ""] if len(fields) == 2 else None)
    return faults, rows


def read_back(text):
    """the records of a file of the program"""
    return [fields for fields in csv.reader(io.StringIO(text, newline="")) if fields]


def differs(program, folder, text, piece):
    """returns what differs of a column in pieces of this many records, if anything does"""
    words = ["convert", "--keep-going", "--quotes", "lenient", "--faults", f"{folder}/faults", "--faults-with", "line,value", "--row-piece", str(piece)]
    ran = subprocess.run([program, *words, f"{folder}/source"], input=text.encode(), capture_output=True)
    with open(f"{folder}/faults", newline="", encoding="utf-8") as file:
        got = read_back(file.read())
    faults, rows = listed(records_of(text))
    if got != faults or ran.returncode != (1 if faults else 0):
        return f"{got}, status {ran.returncode}, and not {faults}"
    # A record with another number of fields stands among the rows as it is, which may be over several lines.
    made = [fields for fields in read_back(ran.stdout.decode()) if len(fields) == 6]
    if None not in rows and made != rows:
        return f"{made}, and not {rows}"
    return None


def main():
    program, folder = sys.argv[1:]
    with open(f"{folder}/source", "w") as file:
        file.write(SOURCE)
    count = 0
    for text in columns():
        for piece in range(1, 70) if len(text) > 200 else (1, 2) if len(text) > 4 else (1,):
            count += 1
            if what := differs(program, folder, text, piece):
                files.differ(f"{text!r} in pieces of {piece}: {what}")
    files.report(f"{count} short columns, by Python's csv")
    sys.exit(files.found["in all"] != 0)


if __name__ == "__main__":
    main()

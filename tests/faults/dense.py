#!/usr/bin/env python3
"""Has the program convert local times by files of 100,000 changes a second apart, and compares the rows with what the definitions give.

usage: dense.py PROGRAM FOLDER

The UT offsets of a file are two in turn, or 200 at random, within 24 hours. Local times are at random round the changes, and one in
four is far from them. What each means is found here by the definitions themselves: an instant of a local time is one at which the file's
offset makes it, and a gap is at the first change that passes over it. Of 20,000 rows more for each file some are compared; the
program has 30 seconds for them, where a walk over the changes round each takes minutes. One more column of 20,000 rows has eight names of
six files in turn. Files are made in FOLDER. Prints a line for each column; the status is 1 where a row differs or the program takes
longer.
"""
import os
import random
import struct
import subprocess
import sys
from datetime import datetime, timedelta
from functools import lru_cache

EPOCH = datetime(1970, 1, 1)
START = 1_000_000_000
COUNT = 100_000
WINDOW = 26 * 3600
ROWS = 100
MANY = 20_000
STEP = 201
SECONDS = 30
CHOICES = ["reject", "earlier", "later", "compatible"]
found = []


# ------------------------------------------------------------------ files

class File:
    """a file of changes a second apart, the last of which is to the offset 0, which its TZ string continues"""

    def __init__(self, offsets, kinds):
        self.offsets = [0, *offsets]
        self.kinds = [*kinds, 0]

    def offset_after(self, count):
        """the offset after so many changes"""
        return self.offsets[self.kinds[count - 1]] if count else self.offsets[0]

    def offset_at(self, t):
        return self.offset_after(min(max(t - START + 1, 0), len(self.kinds)))

    def octets(self):
        times = b"".join(struct.pack(">q", START + i) for i in range(len(self.kinds)))
        types = b"".join(struct.pack(">ibb", offset, 0, 4 if i else 0) for i, offset in enumerate(self.offsets))
        head = b"TZif2" + bytes(15)
        empty = head + struct.pack(">6l", 0, 0, 0, 0, 1, 4) + struct.pack(">ibb", 0, 0, 0) + b"UTC\0"
        counts = struct.pack(">6l", 0, 0, 0, len(self.kinds), len(self.offsets), 8)
        return empty + head + counts + times + bytes(self.kinds) + types + b"UTC\0LOC\0" + b"\nUTC0\n"

    @lru_cache(maxsize=None)
    def instants(self, local):
        """the instants of a local time, in rising order"""
        return sorted({local - offset for offset in self.offsets if self.offset_at(local - offset) == offset})

    @lru_cache(maxsize=None)
    def gap(self, local):
        """the offsets before and after the first change that passes over a local time"""
        for i in range(max(0, local - WINDOW - START), len(self.kinds)):
            before, after = self.offset_after(i), self.offset_after(i + 1)
            if START + i + before <= local < START + i + after:
                return before, after

    def meant(self, local, choice):
        instants = self.instants(local)
        if instants:
            several = "RowRepeated" if choice == "reject" else instants[-1] if choice == "later" else instants[0]
            return instants[0] if len(instants) == 1 else several
        before, after = self.gap(local)
        return "RowSkipped" if choice == "reject" else local - after if choice == "earlier" else local - before


FILES = {
    "two": lambda: File([86_399, -86_400], [1 + i % 2 for i in range(COUNT)]),
    "pairs": lambda: File([3_600, -7_201], [1 + i // 2 % 2 for i in range(COUNT)]),
    "many": lambda: File([random.randrange(-86_400, 86_401) for _ in range(200)], [random.randrange(1, 201) for _ in range(COUNT)]),
}


# ------------------------------------------------------------------ runs

def convert(program, choice, records, seconds=None):
    """converts a column of local times, in some seconds at most, and returns the rows and the faults"""
    words = ["--workers", "1", "--keep-going", "--faults", "faults", "--from", "local", "--ambiguous", choice, "--tree", "tree"]
    column = "".join(f"{record}\n" for record in records)
    done = subprocess.run([program, "convert", *words], input=column, capture_output=True, text=True, timeout=seconds)
    if done.returncode not in (0, 1):
        sys.exit(f"{words}: status {done.returncode}: {done.stderr}")
    with open("faults", encoding="ascii") as file:
        faults = dict(line.rstrip("\n").split(",") for line in file)
    return done.stdout.splitlines(), faults


def text_of(local):
    return (EPOCH + timedelta(seconds=local)).isoformat()


def some_locals(count):
    for i in range(count):
        yield random.randrange(0, 2 ** 32) if i % 4 == 0 else random.randrange(START - WINDOW, START + COUNT + WINDOW)


def compare(program, files, choice, times, step=1, seconds=None):
    """compares every row, or one in so many, with what is meant: the names of the files stand in the records in turn"""
    names = [list(files)[i % len(files)] for i in range(len(times))]
    try:
        rows, faults = convert(program, choice, [f"{name},{text_of(local)}" for name, local in zip(names, times)], seconds)
    except subprocess.TimeoutExpired:
        found.append(f"{names[0]}: {len(times)} rows by {choice} take more than {seconds} seconds")
        return
    for number, (name, local, row) in list(enumerate(zip(names, times, rows), 1))[::step]:
        told = faults.get(str(number)) or int(row.split(",")[2])
        if told != files[name].meant(local, choice):
            found.append(f"{name}: {text_of(local)} by {choice}: {told}, and not {files[name].meant(local, choice)}")
    if len(rows) != len(times):
        found.append(f"{names[0]}: {len(rows)} rows of {len(times)}")


def place(name, file):
    with open(f"tree/{name}", "wb") as out:
        out.write(file.octets())


def main():
    program, folder = os.path.abspath(sys.argv[1]), sys.argv[2]
    random.seed(912)
    os.chdir(folder)
    os.mkdir("tree")
    for name, make in FILES.items():
        files = {name: make()}
        place(name, files[name])
        times = list(some_locals(ROWS))
        for choice in CHOICES:
            compare(program, files, choice, times)
        compare(program, files, "compatible", list(some_locals(MANY)), STEP, SECONDS)
        print(f"{name}: {len(CHOICES) * ROWS} rows, and one in {STEP} of {MANY}")
    several = {f"file{i}": FILES["many"]() for i in range(6)}
    several |= {f"link{i}": several[f"file{i}"] for i in range(2)}
    for name, file in several.items():
        place(name, file)
    compare(program, several, "compatible", list(some_locals(MANY)), STEP, SECONDS)
    print(f"eight names of six files: one in {STEP} of {MANY} rows")
    for line in found[:20]:
        print(line, file=sys.stderr)
    sys.exit(bool(found))


if __name__ == "__main__":
    main()

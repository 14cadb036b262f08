#!/usr/bin/env python3
"""Gives the program columns through pipes, and checks that each row comes out within two seconds, without a further line.

usage: waiting.py PROGRAM SOURCE TREE

SOURCE has the zone Z, and TREE its file. Lines of 1, 2, 3 and 65,536 bytes come one by one, each of them once as the first line; so do
lines after a byte order mark, of which each byte comes alone. Bursts of 65,535, 65,536, 65,537 and 131,072 bytes come at once, through a
pipe of 64 KiB and of 1 MiB. Each part of a column comes once all rows of those before it are out. All of this is tried by each option that
changes how a column is read or its rows are written, alone and with each other one, by 1 and 4 workers. The rows, and the records that are
put aside, are compared with those of the same column as a file.
Prints a line for each set of options; the status is 1 at the first rows that don't come.
"""
import fcntl
import itertools
import os
import select
import subprocess
import sys
import termios
import time

import files

SECONDS = 2                                                                # in which rows come
SIZES = [65536, 1048576]                                                   # of pipes: that of a new one, and more
F_SETPIPE_SZ = 1031                                                        # of Linux
MARK = b"\xef\xbb\xbf"
LINES = [1, 2, 3, 65536]
BURSTS = [65535, 65536, 65537, 131072]
OPTIONS = {
    "zone": ["--zone", "Z"],
    "header": ["--header"],
    "skip": ["--skip-header"],
    "delimiter": ["--delimiter", ";"],
    "lines": ["--records", "lines"],
    "local": ["--from", "local"],
    "seconds": ["--from", "seconds"],
    "rfc3339": ["--from", "rfc3339"],
    "utc": ["--from", "utc"],
    "unit": ["--unit", "ms"],
    "iso": ["--style", "iso"],
    "append": ["--append"],
    "replace": ["--replace"],
    "going": ["--keep-going"],
    "rejects": ["--keep-going", "--rejects", "rejects"],
    "tree": [],                                                            # in place of a source
}
FORMS = ["local", "seconds", "rfc3339", "utc"]                             # of a time
APART = [{"header", "skip"}, {"append", "replace"}, {"going", "rejects"}, *map(set, itertools.combinations(FORMS, 2))]  # which exclude each other
INSTANTS = {"local": b"1970-01-01T00:00", "rfc3339": b"1970-01-01T00:00Z", "utc": b"1970-01-01T00:00"}


class Late(Exception):
    """rows that didn't come"""


# ------------------------------------------------------------------ lines

def instant(chosen):
    """the shortest instant"""
    return next((INSTANTS[option] for option in chosen if option in INSTANTS), b"0")


def shortest(chosen):
    """the shortest line that has a row without a fault"""
    name = b"" if "zone" in chosen else b"Z;" if "delimiter" in chosen else b"Z,"
    return name + instant(chosen) + b"\n"


def header_of(chosen):
    """the shortest line that is a header and no row, where there is one"""
    return b"x\n" if {"header", "skip"} & {*chosen} else b""


def faulty(chosen, length):
    """a line of so many bytes that isn't a record as it has to be. Where records are lines, it has an open double quote"""
    start = b'"' if "lines" in chosen else b"x"
    return start + b"x" * (length - 2) + b"\n"


def line_of(chosen, length, is_first):
    """a line of so many bytes, or None where it would end the run"""
    least = len(shortest(chosen))
    if length == 1:
        return b"\n"
    if header_of(chosen) and is_first:
        return b"x" * (length - 1) + b"\n"
    if instant(chosen) == b"0" and least <= length < least + 18:
        return shortest(chosen)[:-1] + b"0" * (length - least) + b"\n"
    if length > least and {"append", "replace"} & {*chosen}:
        start = shortest(chosen)[:-1] + (b";" if "delimiter" in chosen else b",")
        return start + b"x" * (length - len(start) - 1) + b"\n"
    if {"going", "rejects"} & {*chosen}:
        return faulty(chosen, length)
    return None


def lines_of(chosen, lengths, has_header):
    """lines of these lengths, those that don't end the run, and one more. The header is the first that isn't empty"""
    for length in lengths:
        line = line_of(chosen, length, not has_header)
        if line:
            has_header = has_header or line != b"\n"
            yield line
    yield shortest(chosen)


def burst_of(chosen, length):
    """lines of so many bytes together, some of them empty"""
    count, rest = divmod(length, len(shortest(chosen)))
    return shortest(chosen) * (count - 1) + b"\n" * rest + shortest(chosen)


def columns_of(chosen):
    """what each column is, the size of its pipe, and the parts in which it comes"""
    for length in LINES:
        rest = [other for other in LINES if other != length]
        if line_of(chosen, length, True):
            yield f"a first line of {length} bytes", SIZES[0], list(lines_of(chosen, [length, *rest], False))
    mark = [MARK[:1], MARK[1:2], MARK[2:]]
    yield "a mark byte by byte", SIZES[0], mark + list(lines_of(chosen, LINES, False))
    yield "a mark with the first line", SIZES[0], [MARK + (header_of(chosen) or shortest(chosen)), *lines_of(chosen, LINES, True)]
    for size, length in itertools.product(SIZES, BURSTS):
        parts = [header_of(chosen) + burst_of(chosen, length), burst_of(chosen, SIZES[0]), shortest(chosen)]
        yield f"a burst of {length} bytes first, a pipe of {size}", size, parts


# ------------------------------------------------------------------ a run

class Run:
    """a run of the program, whose column comes through a pipe"""

    def __init__(self, words, size):
        self.process = subprocess.Popen(words, stdin=subprocess.PIPE, stdout=subprocess.PIPE, stderr=subprocess.PIPE)
        self.into, self.out = self.process.stdin.fileno(), self.process.stdout.fileno()
        self.rows = bytearray()
        fcntl.fcntl(self.into, F_SETPIPE_SZ, size)
        os.set_blocking(self.into, False)

    def give(self, part, wanted):
        """gives a part of the column, and reads until so many rows are out in all, and the program has read the part"""
        left, count = memoryview(part), self.rows.count(b"\n")
        until = time.monotonic() + SECONDS
        while left or count < wanted or self.unread():
            writable, wait = [self.into] if left else [], max(until - time.monotonic(), 0)
            if not left and count >= wanted:
                wait = min(wait, 0.001)                                    # it has only to read the part
            readable, writable, _ = select.select([self.out], writable, [], wait)
            if writable:
                left = left[os.write(self.into, left):]
                until = time.monotonic() + SECONDS
            if readable:
                block = os.read(self.out, 65536)
                if not block:
                    raise Late("the program ended")
                self.rows += block
                count += block.count(b"\n")
            if time.monotonic() > until:
                raise Late(f"{count} of {wanted} rows within {SECONDS} seconds, and {self.unread()} bytes unread")

    def unread(self):
        """the number of bytes in the pipe"""
        return int.from_bytes(fcntl.ioctl(self.into, termios.FIONREAD, bytes(4)), sys.byteorder)

    def end(self):
        """ends the column, and returns the status and all rows"""
        self.process.stdin.close()
        os.set_blocking(self.out, True)
        self.rows += self.process.stdout.read()
        self.process.stderr.close()
        return self.process.wait(SECONDS), bytes(self.rows)


def has_row(chosen, line, is_header):
    """whether a line that isn't empty has a row, or a header that is written"""
    if is_header and {"header", "skip"} & {*chosen}:
        return "header" in chosen
    return "rejects" not in chosen or line[:1] not in b'x"'


def try_column(words, chosen, size, parts):
    """converts a column in parts, of which each comes once the rows of those before it are out"""
    run, lines, wanted = Run(words, size), 0, 0
    try:
        for number, part in enumerate(parts, 1):
            for line in part.split(b"\n")[:-1]:
                if line:
                    wanted += has_row(chosen, line, lines == 0)
                    lines += 1
            try:
                run.give(part, wanted)
            except (Late, BrokenPipeError) as error:
                raise Late(f"part {number}, of {len(part)} bytes: {error}") from error
        return run.end()
    finally:
        run.process.kill()
        run.process.wait()


def aside():
    """the records that the last run put aside"""
    with open("rejects", "rb") as file:
        return file.read()


def compare_columns(words, chosen):
    """the number of columns that were tried"""
    count = 0
    for what, size, parts in columns_of(chosen):
        shown = f"{' '.join(words[1:])}: {what}"
        try:
            status, rows = try_column(words, chosen, size, parts)
        except Late as error:
            sys.exit(f"{shown}: {error}")
        put = aside()
        with open("column", "w+b") as file:
            file.write(b"".join(parts))
            file.seek(0)
            done = subprocess.run(words, stdin=file, capture_output=True, check=False)
        if (status, rows, put) != (done.returncode, done.stdout, aside()):
            files.differ(f"{shown}: other rows than those of a file, or status {status} for {done.returncode}")
        count += 1
    return count


def main():
    program, source, tree = (os.path.abspath(path) for path in sys.argv[1:])
    os.chdir(os.path.dirname(source))
    with open("rejects", "wb"):
        pass
    sets = [(), *((option,) for option in OPTIONS), *itertools.combinations(OPTIONS, 2)]
    for chosen in sets:
        if {*chosen} in APART:
            continue
        options = [word for option in chosen for word in OPTIONS[option]]
        place = ["--tree", tree] if "tree" in chosen else [source]
        count = sum(compare_columns([program, "convert", "--workers", workers, *options, *place], chosen) for workers in ("1", "4"))
        named = " and ".join(chosen) or "no option"
        files.report(f"each row comes before the next line: {count} columns by 1 and 4 workers, {named}")
    sys.exit(files.found["in all"] != 0)


if __name__ == "__main__":
    main()

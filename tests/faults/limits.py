#!/usr/bin/env python3
"""Gives the program small versions of inputs that were made to cost it time or memory, and checks that it stays within bounds.

usage: limits.py PROGRAM FOLDER

Each run has its answer checked too. Its memory may be at most the bound, by `ru_maxrss`; the bound is what was measured and some more.
Its processor time may be ten times what was measured on an idle machine, since other runs may be at work. Inputs are made in FOLDER.
Prints a line for each run; the status is 1 where one is over a bound, or has another answer.
"""
import ctypes
import itertools
import os
import struct
import subprocess
import sys

MIB = 1 << 20
RELEASE = "/usr/share/zoneinfo/tzdata.zi"
AGAIN = 10                                                                 # times the processor time that was measured
differences = []


# ------------------------------------------------------------------ runs

def run(what, words, column, bound, wanted):
    """runs the program on the column in a file. `bound` is the seconds that were measured and the MiB that it may take, `wanted` its
    status and a text that its messages begin with"""
    seconds, most = bound
    with open(column or os.devnull, "rb") as given, open("out", "wb") as out, open("err", "wb") as err:
        # A small process starts it, since the memory of that counts as its own.
        subprocess.run(["setsid", "--fork", *words], stdin=given, stdout=out, stderr=err, check=True)
        _, ended, used = os.wait4(-1, 0)
    status, took, memory = os.waitstatus_to_exitcode(ended), used.ru_utime + used.ru_stime, used.ru_maxrss * 1024 / MIB
    with open("err", encoding="ascii", errors="replace") as file:
        told = file.read(200)
    print(f"{what}: {took:.2f} s of processor time and {memory:.0f} MiB, of {seconds * AGAIN:g} s and {most:.0f} MiB")
    if took > seconds * AGAIN or memory > most:
        differences.append(f"{what}: {took:.2f} s and {memory:.0f} MiB are more than {seconds * AGAIN:g} s and {most:.0f} MiB")
    if (status, told[:len(wanted[1])]) != wanted:
        differences.append(f"{what}: status {status} and {told!r}, and not {wanted}")


def written(name, parts):
    """writes a file of these parts, and returns its name"""
    with open(name, "wb") as file:
        for part in parts:
            file.write(part)
    return name


# ------------------------------------------------------------------ sources

MONTHS = "Jan Feb Mar Apr May Jun Jul Aug Sep Oct Nov Dec".split()


def largest_set(zones):
    """a set of 1,000 rules from the year 1 to 9000, and so many zones that have a line of it up to the year 2"""
    for i in range(1000):
        saving = "1:00 D" if i % 2 else "0 S"
        yield f"Rule X 1 9000 - {MONTHS[i // 84]} {i % 84 // 3 + 1} {i % 3 * 8}:00 {saving}\n".encode()
    for i in range(zones):
        yield f"Zone Z{i} 0 X E%sT 2\n 0 - UTC\n".encode()


def sources(program):
    """a source whose lines name one large set, and one with a long line"""
    source = written("largest.zi", largest_set(200))
    run("200 zones by a set of 9 million occurrences", [program, "check", "--workers", "1", source], None, (0.8, 320), (0, ""))
    source = written("long.zi", [b"a " * (4 * MIB)])
    run("a line of 8 MiB, explained", [program, "check", "--explain", source], None, (0.1, 24), (1, "line 1: LineTooLong\n--> long.zi:1"))


# ------------------------------------------------------------------ names

def colliding(pairs, count):
    """names of as many blocks, each one or the other of its pair"""
    for blocks in itertools.islice(itertools.product(*pairs), count):
        yield "".join(blocks)


# Blocks of one value modulo 2^31 - 1 at the key 0x1e35a7bd, by which names are looked up where the system gives no random number.
KEYED = [("HDwZloUl", "EBxGYeOf"), ("YwtmROxr", "UitXBafn"), ("mjlJDFlT", "svOEqgag"), ("snjnYGrO", "JbOgmKdj"), ("sEcaJMFs", "tPdDOwkC"),
         ("OJReuCmh", "aRkEDVYg")]
# Blocks of one value at 31, by which hashes of texts are often made.
USUAL = [("Aa", "BB")]


def value(block, key, modulus):
    """the value of the polynomial of a block's bytes"""
    total = 0
    for byte in block.encode():
        total = (total * key + byte) % modulus
    return total


def names(program):
    """names that share a place of a table, and many names"""
    for pairs, key, modulus in ((KEYED, 0x1e35a7bd, 2 ** 31 - 1), (USUAL, 31, 2 ** 32)):
        assert all(value(one, key, modulus) == value(other, key, modulus) for one, other in pairs)
    os.mkdir("empty")
    for what, pairs in (("at 31", USUAL * 17), ("at the usual key", (KEYED * 3)[:17])):
        column = written("column", (f"{name},0\n".encode() for name in colliding(pairs, 100_000)))
        run(f"100,000 names of one hash {what}, of an empty tree", [program, "convert", "--keep-going", "--tree", "empty"], column, (0.4, 48),
            (1, "row 1: RowZone\n100000 rows with faults"))
    column = written("column", (f"Refused/Name_{i},0\n".encode() for i in range(400_000)))
    run("400,000 names, of an empty tree", [program, "convert", "--keep-going", "--tree", "empty"], column, (1, 80),
        (1, "row 1: RowZone\n400000 rows with faults"))
    zones = list(colliding((KEYED * 3)[:14], 9_999))
    source = written("colliding.zi", (f"Zone {name} 0 - UTC\n".encode() for name in zones))
    column = written("column", (f"{name},0\n".encode() for name in zones * 10))
    run("9,999 zones of one hash at the usual key", [program, "convert", "--workers", "1", source], column, (0.2, 40), (0, ""))


# ------------------------------------------------------------------ files

def tzif(count):
    """a file of so many changes between two types, the last of which its TZ string continues"""
    def block(size, times):
        kinds = bytes(1 - i % 2 for i in range(times)) if size else b""
        data = b"".join(struct.pack(">q", 600 * i) for i in range(times)) if size else b""
        types = struct.pack(">ibb", 0, 0, 0) + (struct.pack(">ibb", 3600, 1, 4) if times else b"")
        return data + kinds + types + (b"UTC\0EST\0" if times else b"UTC\0")

    def header(times):
        return b"TZif2" + bytes(15) + struct.pack(">6l", 0, 0, 0, times, 2 if times else 1, 8 if times else 4)

    return header(0) + block(0, 0) + header(count) + block(8, count) + b"\nUTC0\n"


def files(program):
    """many names of one file"""
    os.mkdir("tree")
    written("tree/file", [tzif(100_000)])
    for i in range(200):
        os.link("tree/file", f"tree/name{i}")
    column = written("column", (f"name{i},0\n".encode() for i in range(200)))
    run("200 names of one file of 900 KB", [program, "convert", "--workers", "1", "--tree", "tree"], column, (1, 20), (0, ""))


# ------------------------------------------------------------------ the release

def halved(line):
    """a line of a source, with half an hour in place of a saving of one"""
    fields = line.split(b" ")
    if fields[0] == b"R" and fields[8] == b"1":
        fields[8] = b"0:30"
    return b" ".join(fields)


def release(program):
    """the release, and one whose savings are halved, by commands that compile or read trees; and the file of many changes"""
    if not os.path.exists(RELEASE):
        print(f"skipped: the release: {RELEASE} isn't there")
        return
    with open(RELEASE, "rb") as file:
        other = written("halved.zi", map(halved, file))
    for folder, source in (("release", RELEASE), ("halved", other)):
        run(f"build of {source}", [program, "build", folder, source], None, (0.3, 14), (0, ""))
    run("verify of the release", [program, "verify", "--strict", "release", RELEASE], None, (0.05, 14), (0, ""))
    run("verify of another release", [program, "verify", "--strict", "halved", RELEASE], None, (0.05, 14), (1, "tree differs"))
    run("diff of two releases", [program, "diff", RELEASE, other], None, (0.15, 44), (0, ""))
    run("diff of their trees", [program, "diff", "--trees", "release", "halved"], None, (0.15, 44), (0, ""))
    run("show of a file of 900 KB", [program, "show", "tree/file", "60000000"], None, (0.05, 12), (0, ""))
    run("show of a local time", [program, "show", "--local", "tree/file", "1970-01-02T00:00:00"], None, (0.05, 12), (0, ""))
    run("dump of a file of 900 KB", [program, "dump", "tree/file"], None, (0.05, 16), (0, ""))
    run("dump of a zone of the release", [program, "dump", "release/America/New_York"], None, (0.05, 12), (0, ""))


# ------------------------------------------------------------------ records

def records(program):
    """columns of one record. Its bytes are held in a buffer that grows by an eighth, and is moved as it grows, and those of a quoted field
    once more"""
    source = written("utc.zi", [b"Zone Etc/UTC 0 - UTC\n"])
    size = 48
    plain, quoted, bounded = (0.5, size * 2.3 + 24), (1, size * 2.3 + 24), (0.1, 24)
    column = written("column", [b'Etc/UTC,"0\n' + b"Etc/UTC,0\n" * (size * MIB // 10)])
    run(f"a stray quote before {size} MiB", [program, "convert", source], column, quoted, (1, "row 1: RowInstant"))
    run(f"a stray quote before {size} MiB, explained", [program, "convert", "--explain", source], column, quoted,
        (1, "row 1: RowInstant\n--> standard input, row 1, field 2 (SECONDS)\n"))
    short = [program, "convert", "--max-record", "1000000", source]
    run(f"a stray quote before {size} MiB, of records of a megabyte", short, column, bounded, (1, "row 1: RowTooLong"))
    header = [program, "convert", "--skip-header", "--max-record", "1000000", source]
    run(f"a header of {size} MiB, of records of a megabyte", header, column, bounded, (1, "row 0: RowTooLong"))
    column = written("column", [bytes(size * MIB)])
    run(f"{size} MiB of zeros", [program, "convert", source], column, plain, (1, "row 1: RowFields"))
    run(f"{size} MiB of zeros, of records of a megabyte", short, column, bounded, (1, "row 1: RowTooLong"))
    column = written("column", [b"a," * (size // 2 * MIB)])
    run(f"a record of {size} MiB in fields", [program, "convert", source], column, plain, (1, "row 1: RowFields"))
    run(f"a record of {size} MiB in fields, explained", [program, "convert", "--explain", source], column, plain,
        (1, "row 1: RowFields\n--> standard input, row 1\n"))


# ------------------------------------------------------------------ headers

def headers(program):
    """headers in which fields have names. What is read of a column for its header is held beside the buffer of the column, and none of the
    fields is"""
    source = written("utc.zi", [b"Zone Etc/UTC 0 - UTC\n"])
    size = 48
    words = [program, "convert", "--header", "--zone-field", "zone", "--time-field", "time", source]
    bound = (2, size * 2.3 + 24)
    column = written("column", [b"x," * (size // 2 * MIB), b"zone,time\n", b"," * (size // 2 * MIB), b"Etc/UTC,0\n"])
    run(f"a header of {size} MiB in fields, two of which have names", words, column, bound, (0, ""))
    words[4] = "tz"
    run(f"a header of {size} MiB in fields, without a name", words, column, bound,
        (2, "error: --zone-field: no field of the header is named 'tz'; its fields are 'x', 'x'"))
    words[4] = "x"
    run(f"a header of {size} MiB in fields that have one name", words, column, bound,
        (2, "error: --zone-field: several fields of the header are named 'x'; its fields are 'x', 'x'"))
    words[4] = "zone"
    column = written("column", [b'zone,time,"', b"Etc/UTC,0\n" * (size * MIB // 10)])
    run(f"a stray quote in a header before {size} MiB", words, column, bound, (1, "row 0: RowQuote"))
    run(f"a stray quote in a header before {size} MiB, which may be there", [*words, "--quotes", "lenient"], column, bound, (0, ""))


def main():
    program, folder = os.path.abspath(sys.argv[1]), sys.argv[2]
    os.chdir(folder)
    ctypes.CDLL(None).prctl(36, 1, 0, 0, 0)                                # PR_SET_CHILD_SUBREAPER: waits for what others started
    for part in (sources, names, files, release, records, headers):
        part(program)
    for difference in differences:
        print(difference, file=sys.stderr)
    sys.exit(bool(differences))


if __name__ == "__main__":
    main()

#!/usr/bin/env python3
"""Columns for `convert` of zones of the released tz database's own form, with the rows that Python's csv and zoneinfo make of them.

usage: records.py FORM [ROW]             prints a column of 5,000 records, of which from that row on each has a fault
       records.py rows TREE COLUMN      prints the rows of a column by the files of a tree
       records.py drip SECONDS          passes standard input on, an octet at a time
       records.py turns WORD...         runs a program, gives it nine lines, each after the row of the line before it, and prints the rows
       records.py terminal OUT WORD...  runs a program whose standard input and standard error are a terminal, types three lines on it,
                                        half a second apart, and then the end; its output goes to OUT, and what it tells is printed

A FORM is `plain`; `quoted`, with quotes round some fields, all line ends and a mark at the start; `first`, `middle` or `last`, which is
plain but for the quotes round both fields of that record; or `feed`, whose first record with a fault is an instant and a line end
within quotes. `python3` is 3.9 or later.
"""
import csv
import io
import os
import pty
import select
import subprocess
import sys
import termios
import time
from datetime import datetime, timedelta, timezone
from zoneinfo import ZoneInfo

NAMES = ["Z/NY", "Etc/UTC", "Z/I"]
SPAN = 4102444800                                   # the instants of columns lie within this number of seconds of 1970
ENDS = ["\n", "\r\n", "\r", "\n\n", "\r\n\r\n"]


QUOTED = {"first": 0, "middle": 2500, "last": 4999}


def column(form, first_fault):
    lines = []
    for i in range(5000):
        name, instant = NAMES[i * i % 7 % 3], str((i * 1777777 + i * i * 104729) % (2 * SPAN) - SPAN)
        if form == "feed" and i + 1 == first_fault:
            lines.append(f'"{name}","{instant}\r\n"\n')
            continue
        if i + 1 >= first_fault:
            instant = "x"
        if i + 1 > first_fault:
            name = "No/Where"
        if form == "quoted":
            fields = ['{},{}', '"{}",{}', '{},"{}"', '"{}","{}"'][i % 11 % 4]
            lines.append(fields.format(name, instant) + ENDS[i % 13 % 5])
        else:
            fields = '"{}","{}"\n' if QUOTED.get(form) == i else "{},{}\n"
            lines.append(fields.format(name, instant))
    text = "".join(lines)
    return ("\ufeff" + text.rstrip("\r\n") if form == "quoted" else text).encode()


def row(zone, name, instant):
    local = (datetime(1970, 1, 1, tzinfo=timezone.utc) + timedelta(seconds=int(instant))).astimezone(zone)
    offset = int(local.utcoffset().total_seconds())
    sign, seconds = "-" if offset < 0 else "+", abs(offset)
    clock = f"{seconds // 3600:02}:{seconds // 60 % 60:02}:{seconds % 60:02}"
    return f"{name},{int(instant)},{local.replace(tzinfo=None).isoformat()},{sign}{clock},{int(bool(local.dst()))},{local.tzname()}\n"


def rows(tree, path):
    zones = {}
    for name in NAMES:
        with open(os.path.join(tree, name), "rb") as file:
            zones[name] = ZoneInfo.from_file(file, name)
    with open(path, encoding="utf-8-sig", newline="") as file:
        text = file.read()
    return "".join(row(zones[name], name, instant) for name, instant in filter(None, csv.reader(io.StringIO(text, newline=""))))


def drip(seconds):
    while octet := os.read(0, 1):
        os.write(1, octet)
        time.sleep(seconds)


def turns(words):
    program = subprocess.Popen(words, stdin=subprocess.PIPE, stdout=subprocess.PIPE)
    for _ in range(9):
        program.stdin.write(b"Etc/UTC,0\n")
        program.stdin.flush()
        if not select.select([program.stdout], [], [], 10)[0]:
            program.kill()
            sys.exit("no row came before the next line")
        sys.stdout.buffer.write(os.read(program.stdout.fileno(), 4096))
    program.stdin.close()
    sys.stdout.buffer.write(program.stdout.read())
    return program.wait(30)


def terminal(out, words):
    here, there = pty.openpty()
    modes = termios.tcgetattr(there)
    modes[3] &= ~termios.ECHO
    modes[1] &= ~termios.OPOST
    termios.tcsetattr(there, termios.TCSANOW, modes)
    with open(out, "wb") as file:
        program = subprocess.Popen(words, stdin=there, stdout=file, stderr=there)
    for _ in range(3):
        os.write(here, b"Etc/UTC,0\n")
        time.sleep(0.6)
    os.write(here, b"\x04")
    status = program.wait(30)
    os.close(there)
    told = b""
    try:
        while block := os.read(here, 4096):
            told += block
    except OSError:                                 # a terminal that nobody has open any more
        pass
    sys.stdout.buffer.write(told)
    return status


if sys.argv[1] == "rows":
    sys.stdout.write(rows(sys.argv[2], sys.argv[3]))
elif sys.argv[1] == "drip":
    drip(float(sys.argv[2]))
elif sys.argv[1] == "turns":
    sys.exit(turns(sys.argv[2:]))
elif sys.argv[1] == "terminal":
    sys.exit(terminal(sys.argv[2], sys.argv[3:]))
else:
    sys.stdout.buffer.write(column(sys.argv[1], int(sys.argv[2]) if sys.argv[2:] else 5001))

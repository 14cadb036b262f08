#!/usr/bin/env python3
"""Has readers of TZif look zones up in a tree of our files, as programs do, and compares what they show with reader.py: glibc by TZDIR,
Python's zoneinfo by its search path, and the kit's jiff.

usage: trees.py TREE PROBE

PROBE is the program of crates/probe, which by its word `jiff` asks the kit's jiff. Each reader is asked at each transition and each
edge of a footer up to 2200, at the first of each half year from 1900, and one second before each. Prints a line for each reader, and
the first differences; the status is 1 if there is one.
"""
import os
import subprocess
import sys
import time
import zoneinfo
from functools import lru_cache

import files
import reader
from changes import state_by_footer as state_by_zoneinfo


@lru_cache(maxsize=None)
def expected_of(octets):
    """the instants, and the state that reader.py reads at each"""
    file = reader.read(octets)
    instants = files.instants_of(file)
    return instants, [reader.at(file, t) for t in instants]


def by_glibc(name, instants):
    os.environ["TZ"] = name
    time.tzset()
    for t in instants:
        local = time.localtime(t)
        yield local.tm_gmtoff, local.tm_isdst, local.tm_zone


def by_zoneinfo(name, instants):
    zone = zoneinfo.ZoneInfo(name)
    return (state_by_zoneinfo(zone, t) for t in instants)


def by_jiff(program, path, instants):
    questions = "".join(f"{t}\n" for t in instants)
    ran = subprocess.run([program, "jiff", path], input=questions, stdout=subprocess.PIPE, text=True, check=True)
    for answer in ran.stdout.splitlines():
        offset, flag, name = answer.split() if answer != "refused" else (0, 0, answer)
        yield int(offset), int(flag), name


def compare(kind, tree, names, shown_by):
    """holds what a reader shows of each of these names against reader.py"""
    total = 0
    for name in names:
        instants, wanted = expected_of(files.octets_of(f"{tree}/{name}"))
        shown = list(shown_by(name, instants))
        if len(shown) != len(instants):
            files.differ(f"{name} by {kind}: {len(shown)} answers at {len(instants)} instants, the first {shown[:1]}")
        for t, a, b in zip(instants, shown, wanted):
            if a != b:
                files.differ(f"{name} at {t}: {a} by {kind}, and not {b}")
        total += len(instants)
    files.report(f"{len(names)} files of a tree by {kind}, at {total} instants")


def main():
    tree, jiff = sys.argv[1:]
    tree = os.path.abspath(tree)
    names = files.names_of(tree)
    os.environ["TZDIR"] = tree
    zoneinfo.reset_tzpath([tree])
    compare(os.confstr("CS_GNU_LIBC_VERSION"), tree, names, by_glibc)
    compare("zoneinfo of Python " + sys.version.split()[0], tree, names, by_zoneinfo)
    once = list({files.octets_of(f"{tree}/{name}"): name for name in names}.values())
    compare("jiff", tree, once, lambda name, instants: by_jiff(jiff, f"{tree}/{name}", instants))
    sys.exit(files.found["in all"] != 0)


if __name__ == "__main__":
    main()

#!/usr/bin/env python3
"""Has the program tell the instants of local times near changes of clocks, and compares them with those of Python's zoneinfo.

usage: local_times.py PROGRAM FOLDER

FOLDER has the folder `ours` with the program's files of a release of the tz database. Of each name, two changes of the UT offset from 1900 to
2100 are taken by a fixed seed, and of each the local times a second and a minute before and after both ends of the gap or fold, and one within
it.
Where zoneinfo has the two instants of a local time by its two folds, or one, the program must print these, and what `convert` would show
there; where it has none, the gap with its change. Prints a line for all of them, and the first differences; the status is 1 if there is one.
"""
import random
import subprocess
import sys
from concurrent.futures import ThreadPoolExecutor
from datetime import datetime, timedelta
from zoneinfo import ZoneInfo

import files
from rows import offset_text, row

FIRST, LAST = files.year_second(1900), files.year_second(2100)
CHANGES = 2
EPOCH = datetime(1970, 1, 1)


def line_of(zone, instant):
    """an instant, and what zoneinfo shows there"""
    return " ".join([str(instant), *row("", zone, instant).split(",")[3:]])


def offset_at(zone, instant):
    return datetime.fromtimestamp(instant, zone).utcoffset()


def lines_of(zone, local, change):
    """what is printed of a local time near a change"""
    instants = set()
    for fold in 0, 1:
        time = (EPOCH + timedelta(seconds=local)).replace(tzinfo=zone, fold=fold)
        instant = local - (time.utcoffset().days * 86400 + time.utcoffset().seconds)
        if offset_at(zone, instant) == time.utcoffset():
            instants.add(instant)
    if instants:
        return [line_of(zone, instant) for instant in sorted(instants)]
    return [f"gap {change} {offset_text(offset_at(zone, change - 1))} {offset_text(offset_at(zone, change))}"]


def locals_near(zone, change):
    """local times round the gap or fold of a change, and one within it"""
    ends = sorted(change + offset_at(zone, at).total_seconds() for at in (change - 1, change))
    near = {int(end) + step for end in ends for step in (-60, -1, 0, 1, 60)}
    return sorted(near | {int(sum(ends)) // 2})


def questions_of(folder, names):
    """names, zones, local times, and what is to be printed of these"""
    for name in names:
        with open(f"{folder}/{name}", "rb") as file:
            zone = ZoneInfo.from_file(file, name)
        changes = [t for t in files.instants_of(files.file_of(files.octets_of(f"{folder}/{name}"))) if FIRST <= t < LAST and offset_at(zone, t - 1) != offset_at(zone, t)]
        for change in random.sample(changes, min(CHANGES, len(changes))):
            for local in locals_near(zone, change):
                yield name, local, lines_of(zone, local, change)


def ask(call):
    """compares what the program prints of a local time"""
    program, path, local, wanted = call
    text = (EPOCH + timedelta(seconds=local)).isoformat()
    done = subprocess.run([program, "show", "--local", path, text], capture_output=True)
    lines = done.stdout.decode().splitlines()
    return None if (done.returncode, lines) == (0, wanted) else f"{path} {text}: {lines}, and not {wanted}"


def main(program, folder):
    random.seed(53)
    ours = f"{folder}/ours"
    names = files.names_of(ours)
    calls = [(program, f"{ours}/{name}", local, wanted) for name, local, wanted in questions_of(ours, names)]
    with ThreadPoolExecutor(4) as threads:
        for difference in threads.map(ask, calls):
            if difference:
                files.differ(difference)
    gaps = sum(wanted[0].startswith("gap") for *_, wanted in calls)
    files.report(f"{len(calls)} local times of {len(names)} names, {gaps} of them in gaps and {sum(len(call[3]) > 1 for call in calls)} in folds")


if __name__ == "__main__":
    main(*sys.argv[1:])
    sys.exit(files.found["in all"] != 0)

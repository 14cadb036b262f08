#!/usr/bin/env python3
"""Has the program convert columns of local times, and compares the rows with those of Python's zoneinfo.

usage: local_columns.py PROGRAM SOURCE FOLDER PROBE

FOLDER has the folder `ours` with the program's files of the source, and `old.zi`, another source, with its files in `old`. A column has, of each name, the local times round each change of the UT offset
from 1900 to 2100, as local_times.py takes them, and 1,000,000 local times at random, in an order by a fixed seed and with a T or a space. It is
converted by each choice for gaps and folds, by the source with 1 thread and by the files with 4, and each row is compared with what zoneinfo has by
its two folds: the instants of the local time, and in a gap the offsets before it and after it (PEP 495). The first 100,000 of these are converted by
other forms too: with --append, with another delimiter, in other units, with --style iso, and against the other source or its files. What zoneinfo has is compared with the kit's jiff too, of
all local times that are not at random, by PROBE, the program of crates/probe. Prints a line for all of them, and the first differences; the status is
1 if there is one.
"""
import itertools
import random
import subprocess
import sys
from datetime import datetime, timedelta

import files
from layouts import iso_offset, zones_of
from local_times import EPOCH, FIRST, LAST, locals_near, offset_at
from rows import row

CHOICES = ["reject", "earlier", "later", "compatible"]
RANDOM = 1_000_000
FEW = 100_000
# words, the delimiter, the digits of a fraction, whether rows begin with their records, and whether the offset stands after local time
FORMS = [
    ([], ",", 0, False, False),
    (["--append"], ",", 0, True, False),
    (["--delimiter", ";", "--unit", "ms"], ";", 3, False, False),
    (["--style", "iso"], ",", 0, False, True),
    (["--style", "iso", "--append", "--unit", "us"], ",", 6, True, True),
    (["--against", "OLD"], ",", 0, False, False),
    (["--style", "iso", "--append", "--unit", "us", "--against", "OLD"], ",", 6, True, True),
]


def seconds_of(delta):
    return delta.days * 86400 + delta.seconds


def meant(zone, local):
    """the instants of a local time, and its instants by the offsets of the two folds"""
    offsets = [(EPOCH + timedelta(seconds=local)).replace(tzinfo=zone, fold=fold).utcoffset() for fold in (0, 1)]
    read = [local - seconds_of(offset) for offset in offsets]
    return sorted({t for t, offset in zip(read, offsets) if offset_at(zone, t) == offset}), read


def chosen(choice, instants, read):
    """the instant that is meant, or the fault"""
    if len(instants) == 1:
        return instants[0]
    if instants:
        return {"reject": "RowRepeated", "earlier": instants[0], "later": instants[-1], "compatible": instants[0]}[choice]
    return {"reject": "RowSkipped", "earlier": read[1], "later": read[0], "compatible": read[0]}[choice]


def times_of(folder, names, zones):
    """names, local times, and what they mean"""
    for name in names:
        zone = zones[name]
        changes = [t for t in files.instants_of(files.file_of(files.octets_of(f"{folder}/{name}"))) if FIRST <= t < LAST and offset_at(zone, t - 1) != offset_at(zone, t)]
        for change in changes:
            for local in locals_near(zone, change):
                yield name, local
    for _ in range(RANDOM):
        yield random.choice(names), random.randrange(FIRST, LAST)


def text_of(local, fraction, between="T"):
    return (EPOCH + timedelta(seconds=local)).isoformat(between) + fraction


def column_of(times, delimiter, digits):
    """records, and the fractions of their times"""
    records, fractions = [], []
    for name, local, *_ in times:
        fraction = f".{random.randrange(10 ** digits):0{digits}}" if digits else ""
        fractions.append(fraction)
        records.append(f"{name}{delimiter}{text_of(local, fraction, random.choice('T '))}")
    return records, fractions


def wanted(times, zones, old, form, records, fractions):
    """for each choice the rows and the faults of a column"""
    words, delimiter, _, appends, _ = form
    by_choice = {choice: ([], []) for choice in CHOICES}
    for number, ((name, local, instants, read), record, fraction) in enumerate(zip(times, records, fractions), 1):
        start = record if appends else delimiter.join([name, text_of(local, fraction)])
        texts, others = {}, {}
        other = meant(old[name], local) if "--against" in words and name in old else None
        for choice, (rows, faults) in by_choice.items():
            instant = chosen(choice, instants, read)
            if instant not in texts:
                texts[instant] = answer_text(zones[name], instant, fraction, form)
            line = (record if isinstance(instant, str) else start) + texts[instant]
            if isinstance(instant, str):
                faults.append(f"{number},{instant}")
            if "--against" in words:
                before = chosen(choice, *other) if other else "RowZone"
                if before not in others:
                    others[before] = answer_text(old.get(name), before, fraction, form)
                line = "" if others[before] == texts[instant] else line + others[before]
            if line:
                rows.append(line)
    return by_choice


def answer_text(zone, instant, fraction, form):
    """what stands in a row after its start, where there is an instant and no fault"""
    _, delimiter, digits, _, iso = form
    if isinstance(instant, str):
        return 4 * delimiter
    shown, *rest = row("", zone, instant).split(",")[2:]
    moment = str(instant * 10 ** digits + int(fraction[1:] or 0))
    if iso:
        moment, rest[0] = text_of(instant, fraction) + "Z", shown + fraction + iso_offset(rest[0])
    return "".join(delimiter + field for field in [moment, *rest])


def compare(program, words, choice, records, rows, faults, list_path):
    """converts a column, and compares its rows and its faults"""
    call = [program, "convert", *words, "--from", "local", "--ambiguous", choice, "--keep-going", "--faults", list_path]
    done = subprocess.run(call, input="".join(f"{record}\n" for record in records).encode(), capture_output=True)
    got = done.stdout.decode().splitlines()
    with open(list_path) as file:
        listed = file.read().splitlines()
    what = " ".join(call[1:])
    if (done.returncode, len(got), listed) != (1 if faults else 0, len(rows), faults):
        files.differ(f"{what}: status {done.returncode}, {len(got)} rows, {len(listed)} faults, and not {len(rows)} and {len(faults)}")
    for ours, theirs in zip(got, rows):
        if ours != theirs:
            files.differ(f"{what}: {ours}, and not {theirs}")


def by_jiff(probe, path, times):
    """compares what local times of a file mean with what jiff tells: alone, and by the three choices"""
    asked = "".join(f"{local}\n" for _, local, *_ in times)
    done = subprocess.run([probe, "jiff_local", path], input=asked, capture_output=True, text=True, check=True)
    for (_, local, instants, read), line in zip(times, done.stdout.splitlines()):
        wanted = [chosen(choice, instants, read) for choice in CHOICES]
        if line != " ".join("-" if isinstance(t, str) else str(t) for t in wanted):
            files.differ(f"{path}: {local}: {line} by jiff, and not {wanted}")
    return len(done.stdout.splitlines())


def words_of(words, folder, is_tree):
    """the words of a form; beside a tree the other release is a tree too"""
    other = {"--against": "--against-tree", "OLD": f"{folder}/old"} if is_tree else {"OLD": f"{folder}/old.zi"}
    return [other.get(word, word) for word in words]


def main(program, source, folder, probe):
    random.seed(530)
    ours = f"{folder}/ours"
    names = files.names_of(ours)
    zones, old = zones_of(ours, names), zones_of(f"{folder}/old", files.names_of(f"{folder}/old"))
    times = [(name, local, *meant(zones[name], local)) for name, local in times_of(ours, names, zones)]
    near = sum(by_jiff(probe, f"{ours}/{name}", list(group)) for name, group in itertools.groupby(times[:-RANDOM], lambda time: time[0]))
    files.report(f"{near} local times by jiff")
    random.shuffle(times)
    count = 0
    for form in FORMS:
        words, delimiter, digits, *_ = form
        some = times[:FEW] if words else times
        records, fractions = column_of(some, delimiter, digits)
        for choice, (rows, faults) in wanted(some, zones, old, form, records, fractions).items():
            for by in [["--workers", "1", source], ["--workers", "4", "--row-piece", "97", "--tree", ours]]:
                compare(program, [*words_of(words, folder, "--tree" in by), *by], choice, records, rows, faults, f"{folder}/faults")
                count += len(rows)
    gaps = sum(not instants for _, _, instants, _ in times)
    folds = sum(len(instants) > 1 for _, _, instants, _ in times)
    files.report(f"{count} rows of {len(times)} local times, {gaps} of them in gaps and {folds} in folds")


if __name__ == "__main__":
    main(*sys.argv[1:])
    sys.exit(files.found["in all"] != 0)

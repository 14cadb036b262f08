#!/usr/bin/env python3
"""Compares what zones show with the files that the system's zic makes of the same release, in its fat form.

usage: changes.py CHANGES FOLDER

CHANGES has for each zone a line `NAME - OFFSET FLAG ABBREVIATION` with its first state, a line `NAME INSTANT OFFSET FLAG
ABBREVIATION` for each change, and a line `NAME end INSTANT`. A file is read by its transitions, and after the last of them by
Python's zoneinfo, since fat files end before some explicit ends. Prints the numbers of zones and changes, and each difference.
"""
import io
import struct
import sys
from datetime import datetime, timedelta, timezone
from zoneinfo import ZoneInfo

EPOCH = datetime(1970, 1, 1, tzinfo=timezone.utc)


def read_second_block(octets):
    """The transitions of a file's second data block, with their states, and its first state."""
    def header(at):
        assert octets[at:at + 4] == b"TZif"
        return struct.unpack(">6L", octets[at + 20:at + 44])

    isut, isstd, leap, times, types, chars = header(0)
    at = 44 + times * 5 + types * 6 + chars + leap * 8 + isstd + isut
    isut, isstd, leap, times, types, chars = header(at)
    at += 44
    instants = struct.unpack(f">{times}q", octets[at:at + 8 * times])
    at += 8 * times
    numbers = octets[at:at + times]
    at += times
    names = octets[at + 6 * types:at + 6 * types + chars]
    states = []
    for k in range(types):
        offset, flag, place = struct.unpack(">lBB", octets[at + 6 * k:at + 6 * k + 6])
        states.append((offset, flag, names[place:names.index(0, place)].decode()))
    return states[0], [(t, states[n]) for t, n in zip(instants, numbers)]


def state_by_footer(zone, t):
    local = (EPOCH + timedelta(seconds=t)).astimezone(zone)
    return int(local.utcoffset().total_seconds()), int(bool(local.dst())), local.tzname()


def changes_by_footer(zone, state, instants):
    """The changes of a zone that shows `state` at the first of these instants, where it changes at most once between two."""
    for before, after in zip(instants, instants[1:]):
        if state_by_footer(zone, after) == state:
            continue
        while after - before > 1:
            middle = (before + after) // 2
            if state_by_footer(zone, middle) == state:
                before = middle
            else:
                after = middle
        state = state_by_footer(zone, after)
        yield after, state


def shown_by_file(path, end):
    """The first state and the changes before `end` that a file shows; after its last transition it is looked at each hour."""
    octets = open(path, "rb").read()
    first, transitions = read_second_block(octets)
    # fat files begin with a transition to the first state, long ago
    if transitions and transitions[0][0] < -(2**40):
        first = transitions[0][1]
        transitions = transitions[1:]
    state, changes = first, []
    for t, after in transitions:
        if t < end and after != state:
            changes.append((t, after))
            state = after
    last = transitions[-1][0] if transitions else end - 2
    if last < end - 1:
        has_rules = b"," in octets[octets[:-1].rindex(b"\n"):]
        zone = ZoneInfo.from_file(io.BytesIO(octets))
        looks = range(last, end - 1, 3600) if has_rules else [last]
        changes += changes_by_footer(zone, state, [*looks, end - 1])
    return first, changes


def read_ours(path):
    zones = {}
    for line in open(path):
        name, *rest = line.split()
        zone = zones.setdefault(name, {"changes": []})
        if rest[0] == "end":
            zone["end"] = int(rest[1])
        else:
            state = (int(rest[1]), int(rest[2]), rest[3])
            if rest[0] == "-":
                zone["first"] = state
            else:
                zone["changes"].append((int(rest[0]), state))
    return zones


def main():
    zones = read_ours(sys.argv[1])
    differences = 0
    for name, zone in zones.items():
        first, changes = shown_by_file(f"{sys.argv[2]}/{name}", zone["end"])
        if (first, changes) != (zone["first"], zone["changes"]):
            differences += 1
            ours = set(zone["changes"]) ^ set(changes)
            print(f"{name}: first {zone['first']} and {first}; not in both: {sorted(ours)[:6]}", file=sys.stderr)
    total = sum(len(zone["changes"]) for zone in zones.values())
    print(f"{len(zones)} zones, {total} changes, {differences} differences")
    sys.exit(differences != 0)


if __name__ == "__main__":
    main()

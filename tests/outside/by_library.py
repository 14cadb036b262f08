"""What the library answers about the octets of a file, by the Python package and the call for an instant. The answers are lines as
those of reader.py: `OFFSET FLAG ABBREVIATION`, `unspecified`, or the reason why the octets are no file.
"""
import ctypes

import pzic
from pzic import _library as c

zone_at = c.declare(c.short, "pzic_raw_zone_at", ctypes.POINTER(c.Handle), ctypes.c_int64, ctypes.POINTER(c.CState))


def line_at(zone, t, state):
    status = zone_at(zone._owned.lend(), t, state)
    if status == c.UNSPECIFIED:
        return "unspecified"
    assert status == c.OK and state.name_length == len(state.name), f"status {status}, {state.name_length} bytes of {state.name}"
    return f"{state.offset} {state.daylight} {state.name.decode('ascii')}"


def answers_of(octets, instants):
    """one answer for each of these instants"""
    try:
        zone = pzic.Zone(octets)
    except pzic.BadFile as refused:
        return [refused.reason for _ in instants]
    state = c.CState()
    return [line_at(zone, t, state) for t in instants]

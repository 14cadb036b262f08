"""Tests the page of pzic.report and the pictures of pzic.plot: `report.py OLD NEW WORK` with two trees of zone files, of
which NEW has a file that is none.

Compares the data of the page with zoneinfo's reading of the files at random instants, and tries the page in Chromium, at the widths of a
telephone and of a desk, by the keyboard alone, and printed.
"""

import datetime
import json
import os
import random
import re
import shutil
import subprocess
import sys
from zoneinfo import ZoneInfo

import pzic
from browser import Browser
from pzic import report

folders = sys.argv[1:3]
work = sys.argv[3]
random.seed(5)
EPOCH = datetime.datetime(1970, 1, 1, tzinfo=datetime.timezone.utc)
NOW = 1_800_000_000
LAST = 4_133_980_800
FIRST = -62135510400
MANY = 60
#: A zone whose file NEW has with other bytes than those of a TZif file.
REFUSED = "Test/Refused"


def zone_info(folder, name):
    path = os.path.join(folder, name)
    if not os.path.exists(path) or name == REFUSED:
        return None
    with open(path, "rb") as file:
        return ZoneInfo.from_file(file)


def shown(zone, instant):
    """Return the offset and the abbreviation that zoneinfo gives."""
    local = (EPOCH + datetime.timedelta(seconds=instant)).astimezone(zone)
    return int(local.utcoffset().total_seconds()), local.tzname()


def text_of(offset, name):
    minutes, seconds = divmod(abs(offset), 60)
    shown_seconds = f":{seconds:02}" if seconds else ""
    return f"{'-' if offset < 0 else '+'}{minutes // 60:02}:{minutes % 60:02}{shown_seconds} {name}"


def make_page(*words):
    """Make a page, and return its path and its data."""
    path = os.path.join(work, "report.html")
    words = [*folders, "--out", path, "--now", str(NOW), *words]
    assert report.main(words) == 0
    with open(path, encoding="utf-8") as file:
        page = file.read()
    assert not re.search(r"(src|href)=|@import|url\(", page), "the page wants another file"
    return path, json.loads(re.search(r'<script type="application/json" id="data">(.*)</script>', page)[1])


# ------------------------------------------------------------------ the data


def check_zone(zone, change):
    """Compare the spans and the steps of a zone with zoneinfo."""
    name = zone["name"]
    old, new = (zone_info(folder, name) for folder in folders)
    if zone["name"] == REFUSED:
        assert (zone["kind"], zone["reason"]) == ("refused", "Magic"), zone
        return
    if old is None or new is None:
        assert zone["kind"] == ("removed" if new is None else "added"), zone
        return
    spans = [(FIRST if a is None else a, LAST if b is None else b, was, will) for a, b, was, will in change["spans"]]
    assert len(spans) == change["number"] and zone["from"] == change["spans"][0][0], zone
    edges = [edge for span in spans for edge in span[:2]]
    picked = random.sample(edges, min(len(edges), MANY)) + [random.randrange(-2**31, LAST) for _ in range(MANY)]
    for instant in [instant + shift for instant in picked for shift in (-1, 0)]:
        if not FIRST <= instant < LAST:
            continue
        span = next((span for span in spans if span[0] <= instant < span[1]), None)
        was, will = (text_of(*shown(info, instant)) for info in (old, new))
        # A flag alone is nothing that zoneinfo shows.
        told = span and tuple(text.replace(", daylight saving time", "") for text in span[2:])
        assert told == (was, will) if span else was == will, (name, instant, span, was, will)
    for side, info in (("old", old), ("new", new)):
        for i, (instant, offset) in enumerate(change[side]):
            assert shown(info, instant)[0] == offset, (name, side, instant)
            assert not i or shown(info, instant - 1)[0] == change[side][i - 1][1] != offset, (name, side, instant)
        assert change[side][0][0] == change["start"], (name, side)


def check_names(names):
    """Check that the zones of other names don't differ."""
    for folder in folders:
        for name in random.sample(sorted(pzic.Tree.open(folder)), MANY):
            if name not in names:
                old, new = (zone_info(folder, name) for folder in folders)
                for instant in (random.randrange(-2**31, LAST) for _ in range(MANY)):
                    assert shown(old, instant) == shown(new, instant), name


def write_column(names, is_local):
    """Write a column of zones and times, and return its path and its records."""
    records = [(random.choice(names), random.randrange(0, LAST)) for _ in range(2000)]
    path = os.path.join(work, "column.csv")
    with open(path, "w", encoding="ascii") as file:
        file.write("id;when;zone\n")
        for i, (name, second) in enumerate(records):
            when = (EPOCH + datetime.timedelta(seconds=second)).strftime("%Y-%m-%dT%H:%M:%S") if is_local else second
            file.write(f"{i};{when};{name}\n")
        file.write("1;never;Etc/UTC\n")
    return path, records


def moves(name, second, is_local):
    """Return whether a stored time moves, by zoneinfo."""
    infos = [zone_info(folder, name) for folder in folders]
    if None in infos or name == REFUSED:
        return True
    if not is_local:
        return len({shown(info, second)[0] for info in infos}) > 1
    locals_ = [(EPOCH + datetime.timedelta(seconds=second)).replace(tzinfo=info) for info in infos]
    return len({local.utcoffset() for local in locals_}) > 1


def check_column(differing, is_local):
    names = [*differing, "Etc/UTC"]
    path, records = write_column(names, is_local)
    words = ["--column", path, "--delimiter", ";", "--zone-field", "3", "--time-field", "2", "--skip-header"]
    page, data = make_page(*words, *(["--from", "local"] if is_local else []))
    assert data["unread"] == 1 and data["local"] == is_local
    for zone in data["zones"]:
        own = [(i + 1, second) for i, (name, second) in enumerate(records) if name == zone["name"]]
        moved = [[row, second] for row, second in own if moves(zone["name"], second, is_local)]
        assert (zone["stored"], zone["moved"]) == (len(own), len(moved)), (zone, len(own), len(moved))
        assert zone["kind"] in ("added", "removed", "refused") or [row[:2] for row in zone["rows"]] == moved[:20], zone
    return page, sum(zone["moved"] for zone in data["zones"])


# ------------------------------------------------------------------ the page


def lines_shown(browser):
    return browser.value("[...document.querySelectorAll('tr.line')].filter(line => line.offsetParent || line.getClientRects().length).map(line => line.firstChild.textContent)")


def check_widths(browser, page):
    """Check that nothing is cut off or too small, with all zones open."""
    for width, mobile in ((320, True), (390, True), (768, False), (980, False), (1280, False)):
        browser.resize(width, 900, mobile)
        browser.open(page)
        browser.value("document.getElementById('open').click()")
        assert browser.value("document.documentElement.scrollWidth") == width, width
        assert browser.value("document.querySelectorAll('svg path').length") > 0
        overlapping = browser.value("""[...document.querySelectorAll('svg')].filter(svg => {
            const boxes = [...svg.querySelectorAll('text')].map(text => text.getBoundingClientRect()), of = svg.getBoundingClientRect();
            return boxes.some((a, i) => a.left < of.left || a.right > of.right + 1 || boxes.some((b, j) =>
                j > i && a.left < b.right && b.left < a.right && a.top + 1 < b.bottom && b.top + 1 < a.bottom));
        }).map(svg => svg.getAttribute('aria-label'))""")
        assert not overlapping, (width, overlapping[:3])


def check_keys(browser, page, some):
    """Filter, sort and open by the keyboard alone."""
    browser.resize(1280, 900)
    browser.open(page)
    every = lines_shown(browser)
    browser.press("Tab", some)
    assert lines_shown(browser) == [name for name in every if some.lower() in name.lower()] != every
    browser.value("document.getElementById('words').value = ''; filter(); document.getElementById('close').focus()")
    browser.press("Tab", "Enter")
    assert lines_shown(browser) == sorted(every), "sorted by the zone"
    browser.press("Enter")
    assert lines_shown(browser) == sorted(every, reverse=True), "sorted downwards"
    assert browser.value("document.querySelector('th[aria-sort]').getAttribute('aria-sort')") == "descending"
    browser.value("document.querySelector('tr.line button').focus()")
    browser.press("Enter")
    assert browser.value("document.activeElement.getAttribute('aria-expanded')") == "true"
    assert browser.value("document.querySelectorAll('tr.detail:not([hidden])').length") == 1
    browser.value("document.querySelector('.moves button:last-child').focus()")
    before = browser.value("document.querySelector('svg').getAttribute('aria-label')")
    browser.press("Enter")
    assert browser.value("document.querySelector('svg').getAttribute('aria-label')") != before, "closer"


def check_print(browser):
    """Check that the page prints its lines, and no fields for the mouse."""
    browser.ask("Emulation.setEmulatedMedia", media="print")
    assert browser.value("document.querySelector('form').getClientRects().length") == 0
    assert browser.value("document.querySelectorAll('tr.line').length") > 0
    browser.ask("Emulation.setEmulatedMedia", media="")
    assert browser.printed()[:5] == b"%PDF-"


def check_page(page, names):
    with Browser() as browser:
        check_widths(browser, page)
        check_keys(browser, page, names[0].partition("/")[0])
        check_print(browser)
        for method, parameters in browser.events:
            assert method != "Runtime.exceptionThrown", parameters
            url = parameters["request"]["url"] if method == "Network.requestWillBeSent" else "file:"
            assert url.startswith("file:"), url
    print("report: the page in Chromium")


# ------------------------------------------------------------------ pictures of matplotlib


def check_plots(name):
    import matplotlib

    matplotlib.use("Agg")
    import matplotlib.dates as dates
    import matplotlib.pyplot as pyplot

    old, new = (pzic.Tree.open(folder)[name] for folder in folders)
    start, end = datetime.datetime(2025, 1, 1, tzinfo=datetime.timezone.utc), 1_956_528_000
    axes = pzic.plot(new, start, end)
    line = axes.get_lines()[0]
    info = zone_info(folders[1], name)
    for day, hours in list(zip(line.get_xdata(orig=False), line.get_ydata()))[:-1]:
        instant = round((dates.num2date(day) - EPOCH).total_seconds())
        assert round(hours * 3600) == shown(info, instant)[0], (instant, hours)
    assert len(line.get_xdata()) > 10
    pyplot.close()
    axes = pzic.plot_diff(old, new, start, end, axes=pyplot.figure().add_subplot())
    assert len(axes.get_lines()) == 2 and axes.patches, "what differs is coloured"
    axes.figure.savefig(os.path.join(work, "plot.png"))
    for wrong in ((end, start), (start.replace(tzinfo=None), end), (end, end)):
        try:
            pzic.plot(new, *wrong)
        except ValueError:
            continue
        raise AssertionError(wrong)
    print("report: pictures of matplotlib")


def main():
    page, data = make_page()
    names = [zone["name"] for zone in data["zones"]]
    for zone in data["zones"]:
        check_zone(zone, data["changes"][zone["change"]])
    check_names(set(names))
    counted = [check_column(names, is_local) for is_local in (True, False)]
    print(f"report: {len(names)} zones that differ, and {counted[0][1]} and {counted[1][1]} rows that move, as by zoneinfo")
    if shutil.which("chromium"):
        check_page(page, names)
    else:
        print("skipped: the page of pzic.report: chromium isn't there")
    if subprocess.run([sys.executable, "-c", "import matplotlib"], capture_output=True).returncode:
        print("skipped: the pictures of pzic.plot: matplotlib isn't there")
    else:
        check_plots("America/New_York")


main()

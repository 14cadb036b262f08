"""Runs CPython's own tests of zoneinfo over the Python package: `zoneinfo_tests.py TimeZone` by a class over
pzic.TimeZone that has the constructors of zoneinfo.ZoneInfo, and `zoneinfo_tests.py ZoneInfo` by pzic.ZoneInfo. What is left
out stands in LEFT_OUT and PARTS_LEFT_OUT, with the reason.
"""

import re
import struct
import sys
import types
import unittest
import zoneinfo
from collections import Counter
from test.test_zoneinfo import test_zoneinfo

import pzic

#: What is left out: classes and tests of them by name, and why.
LEFT_OUT = {
    r"V1Test\.": "the files are of version 1, which the library refuses",
    r"TzPathTest\.": "they ask the module zoneinfo for its paths, and no zone",
    r"TestModule\.": "they ask the module zoneinfo for its names, and no zone",
    r"ExtensionBuiltTest\.": "they look for the C code of zoneinfo",
    r"CacheTest\.test_(no_cache|clear_cache.*|cache_reset_tzpath)$": "no cache is cleared or gone round: one "
    "object has the same bytes and the same name",
    r"PickleTest\.test_no_cache$": "one object has the same bytes and the same name",
    r"PickleTest\.test_(pickle_after_)?from_file$": "a zone of bytes is pickled by them, and not refused",
}

#: Parts of tests of TimeZone that are left out, as unittest shows them, and why.
PARTS_LEFT_OUT = {
    r"test_invalid_tzstr .*tzstr='[^']*:\d\D": "minutes and seconds of a footer may have one digit",
    r"test_no_tz_str .*dt=datetime.datetime\(2001": "without a footer, local time is open after the last transition",
}

#: The names of the zones of the package that were made.
made = set()


class ZoneInfo(pzic.TimeZone):
    """The constructors of zoneinfo.ZoneInfo: all else is the package's."""

    __module__ = "zoneinfo"

    def __new__(cls, key_or_zone, key=None):
        if isinstance(key_or_zone, pzic.Zone):
            return super().__new__(cls, key_or_zone, key)
        tree = pzic.Tree(zoneinfo.TZPATH[0])
        made.add(key_or_zone)
        return super().__new__(cls, tree[key_or_zone], key_or_zone)

    @classmethod
    def no_cache(cls, key):
        return cls(key)

    @classmethod
    def clear_cache(cls, *, only_keys=None):
        pass

    @classmethod
    def from_file(cls, file, /, key=None):
        return cls(pzic.Zone(file.read()), key)


class Recorded(pzic.ZoneInfo):
    """pzic.ZoneInfo under its name, which notes what is made."""

    __module__, __qualname__ = "zoneinfo", "ZoneInfo"

    def __new__(cls, key):
        made.add(key)
        return super().__new__(cls, key)


def give_header(tests):
    """Give tests of footers what stands before one in a file. Their own has no local time type, which RFC 9636, 3.1 rules out."""
    block = b"TZif3" + bytes(15) + struct.pack(">6l", 0, 0, 0, 0, 1, 4) + struct.pack(">lbb", 0, 0, 0) + b"UTC\0"
    tests._tzif_header = block + block


class Module(types.ModuleType):
    """A module with this class and, for the rest, what zoneinfo has."""

    def __getattr__(self, name):
        return getattr(zoneinfo, name)


class Result(unittest.TextTestResult):
    """The results without the parts that are left out."""

    parts = 0

    def addSubTest(self, test, subtest, error):
        if error and any(re.search(rule, str(subtest)) for rule in PARTS_LEFT_OUT):
            self.parts += 1
        else:
            super().addSubTest(test, subtest, error)


def tests_of(suite):
    """Yield the tests of a suite."""
    for test in suite:
        if isinstance(test, unittest.TestSuite):
            yield from tests_of(test)
        else:
            yield test


def main():
    module = Module("zoneinfo")
    if sys.argv[1] == "TimeZone":
        module.ZoneInfo = ZoneInfo
        module.ZoneInfoNotFoundError = pzic.NoSuchZone
        test_zoneinfo.TZStrTest.populate_tzstr_header = classmethod(give_header)
    else:
        module.ZoneInfo = Recorded
        PARTS_LEFT_OUT.clear()
    kept, left = unittest.TestSuite(), Counter()
    for test in tests_of(unittest.defaultTestLoader.loadTestsFromModule(test_zoneinfo)):
        type(test).module = module
        rules = [rule for rule in LEFT_OUT if re.search(rule, test.id())]
        left.update(rules[:1])
        if not rules:
            kept.addTest(test)
    unused = [rule for rule in LEFT_OUT if not left[rule]]
    if unused:
        sys.exit(f"library: Python: no test is left out by {unused}")
    count = kept.countTestCases()
    result = unittest.TextTestRunner(stream=sys.stderr, verbosity=0, resultclass=Result).run(kept)
    passed = count - len(result.skipped)
    if not made:
        sys.exit("library: Python: the tests made no zone of the package")
    print(f"library: {passed} tests of CPython's zoneinfo pass by {sys.argv[1]}, without {result.parts} parts of them; "
          f"{sum(left.values())} are left out, {len(result.skipped)} skipped")
    sys.exit(not result.wasSuccessful())


main()

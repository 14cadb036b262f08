import pzic

zones = pzic.Compiled(b"Zone Test/East 5:30 - EST\n")
print(zones.convert(b"Test/East,1720000000\n").decode(), end="")
rows = zones.rows(b"17;a\nsoon;b\n", zone="Test/East", delimiter=";", append=True, keep_going=True)
print(rows.text.decode(), end="")
print(rows.number, rows.faults)

"""Prints:
Test/East,1720000000,2024-07-03T15:16:40,+05:30:00,0,EST
17;a;1970-01-01T05:30:17;+05:30:00;0;EST
soon;b;;;;
2 (RowFault(row=2, kind='RowInstant'),)
"""

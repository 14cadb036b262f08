import sys

import pandas

import pzic

tree = pzic.Tree.open(sys.argv[1])
names = pandas.Series(["Europe/Dublin", "Asia/Tokyo", "Europe/Dublin"], dtype="category")
instants = pandas.Series(pandas.to_datetime(["2024-01-01", "2024-07-03", "2024-07-03"]))
columns = tree.convert_columns(names, instants)
print(columns.offsets, columns.abbreviations)
print(columns.local)

"""Prints:
[    0 32400  3600] ['GMT' 'JST' 'IST']
['2024-01-01T00:00:00.000000000' '2024-07-03T09:00:00.000000000'
 '2024-07-03T01:00:00.000000000']
"""

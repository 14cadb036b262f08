import array
import sys

import pzic

dublin = pzic.Tree.open(sys.argv[1])["Europe/Dublin"]
offsets, flags = dublin.convert_array(array.array("q", [1_704_067_200, 1_720_000_000]))
print(list(offsets), [flag == pzic.DAYLIGHT for flag in flags])

"""Prints:
[0, 3600] [True, False]
"""

import pickle
import sys

import pandas

import pzic

tree = pzic.Tree.open(sys.argv[1])
dublin = tree.zoneinfo("Europe/Dublin")
times = pandas.Series(pandas.date_range("2024-10-27", periods=3, freq="h", tz="UTC")).dt.tz_convert(dublin)
print(pandas.DataFrame({"time": times}).to_csv(index=False), end="")
print(pickle.loads(pickle.dumps(times)).dtype == times.dtype, tree["Europe/Dublin"].to_zoneinfo() is dublin)

"""Prints:
time
2024-10-27 01:00:00+01:00
2024-10-27 01:00:00+00:00
2024-10-27 02:00:00+00:00
True True
"""

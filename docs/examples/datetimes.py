import pickle
import sys
from datetime import datetime, timezone

import pzic

tree = pzic.Tree.open(sys.argv[1])
dublin = tree.tzinfo("Europe/Dublin")
print(datetime(2024, 7, 3, 9, 46, 40, tzinfo=timezone.utc).astimezone(dublin))
twice = datetime(2024, 10, 27, 1, 30, tzinfo=dublin)
print(twice, twice.replace(fold=1))
print(dublin, pickle.loads(pickle.dumps(dublin)) is dublin is tree.tzinfo("Europe/Dublin"))

"""Prints:
2024-07-03 10:46:40+01:00
2024-10-27 01:30:00+01:00 2024-10-27 01:30:00+00:00
Europe/Dublin True
"""

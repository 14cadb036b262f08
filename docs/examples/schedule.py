import sys
from datetime import datetime, timezone
from itertools import islice

import pzic

new_york = pzic.Tree.open(sys.argv[1])["America/New_York"]
after = datetime(2024, 3, 9, 12, tzinfo=timezone.utc)
for moment in islice(new_york.schedule("02:30", after=after), 2):
    print(moment)
print(new_york.next_local(after, "02:30", ["sun"], policy="skip"))
print(new_york.next_local(1_710_000_000, "17:00", ["mon", "fri"]))

"""Prints:
2024-03-10 03:30:00-04:00
2024-03-11 02:30:00-04:00
2024-03-17 02:30:00-04:00
1710190800
"""

import sys
from datetime import datetime

import pzic

dublin = pzic.Tree.open(sys.argv[1])["Europe/Dublin"]
twice, never = datetime(2024, 10, 27, 1, 30), datetime(2024, 3, 31, 1, 30)
print(dublin.instants(twice))
print(dublin.instants(never).gap)
print(dublin.instant(twice, "earlier"), dublin.instant(twice, "later"), dublin.instant(never, "compatible"))
print(dublin.instant(twice.replace(fold=1)))
try:
    dublin.instant(twice)
except pzic.NoInstant as error:
    print(error)

"""Prints:
Instants(number=2, first=1729989000, last=1729992600, gap=None)
Gap(change=1711846800, before=0, after=3600)
1729989000 1729992600 1711848600
1729992600
no instant of the local time 1729992600: Fold
"""

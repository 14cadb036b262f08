#!/usr/bin/env bash
# Reads the VTIMEZONE components of all zones, and of TZ strings of many kinds, by icalendar and libical, and compares them with
# zoneinfo and the library at every change up to 400 years after the last transition. The program must print the same.
# Needs: tzdata, cc, icalendar, libical
set -euo pipefail
cd "$(dirname "${BASH_SOURCE[0]}")/../.."
. tests/common.sh
build zic_main pzic_c
./make-library "$work/library"
crates/zic_main/out/zic_main build "$work/tree" "$release"
python=python3
if [ -x /usr/bin/python3 ]; then
    python=/usr/bin/python3
fi
export PZIC_LIBRARY=$work/library/lib/libpzic.so PYTHONPATH=$PWD/python
"$python" tests/library/calendars.py "$work/tree" crates/zic_main/out/zic_main

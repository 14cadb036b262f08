#!/usr/bin/env bash
# Measures the library beside others, over a zone of a tree of TZif files: `library.sh [TREE [ZONE]]`.
#
# - One instant: pzic_zone_at beside the C library's localtime_r, cctz, Howard Hinnant's date library
#   for C++, which takes the system's files, and Go.
# - Arrays of ten million instants: pzic_zone_offsets beside a loop by hand, and the Python package
#   beside numpy's search in a table of all changes, and pandas.
# - Single instants in Python: the Python package beside zoneinfo.
#
# The instants are the same for all, random ones from 1970 to 2099, and sorted. Each line has the
# nanoseconds for one instant, the best of five runs. All have to give the offsets of pzic; those that
# read no footers may give others after 2037, whose share is told. What isn't there is installed, and
# left out where it can't be had. Needs a quiet machine, `rt`, `cc`, `c++` and `python3`.
set -euo pipefail
. "$(dirname "${BASH_SOURCE[0]}")/common.sh"
tree=$(realpath "${1:-/usr/share/zoneinfo}") zone=${2:-Europe/Dublin}
./make-library "$work/pzic"
cc -O2 -Wall -I include bench/library.c "$work/pzic/lib/libpzic.a" -o "$work/by_c"
echo "$zone, $(uname -m), $(cc --version | head -n 1), load $(cut -d ' ' -f 1 /proc/loadavg)"
mkdir "$work/instants"
"$work/by_c" "$tree/$zone" "$work/instants"

if has /usr/include/cctz/time_zone.h libcctz-dev; then
    c++ -std=c++17 -O2 -Wall -DBY_CCTZ bench/library.cpp -o "$work/by_cctz" -lcctz
    TZDIR=$tree "$work/by_cctz" "$zone" "$work/instants"
fi
if has /usr/include/date/tz.h libhowardhinnant-date-dev; then
    c++ -std=c++17 -O2 -Wall -DUSE_OS_TZDB=1 bench/library.cpp -o "$work/by_date" -ldate-tz
    "$work/by_date" "$zone" "$work/instants"
fi
if command -v go >/dev/null || has /usr/bin/go golang-go; then
    go build -o "$work/by_go" bench/library.go
    ZONEINFO=$tree "$work/by_go" "$zone" "$work/instants"
fi

has /usr/lib/python3/dist-packages/pandas python3-pandas || true
# The package has its part in C where Python's headers are there.
headers=$("$python" -c 'import sysconfig; print(sysconfig.get_path("include"))')
cp -r python "$work/python"
[ ! -e "$headers/Python.h" ] || cc -O2 -shared -fPIC -I "$headers" python/pzic/_fast.c -o "$work/python/pzic/_fast.so"
export PZIC_LIBRARY=$work/pzic/lib/libpzic.so PYTHONPATH=$work/python PYTHONDONTWRITEBYTECODE=1
"$python" bench/library.py "$tree" "$zone" "$work/instants"

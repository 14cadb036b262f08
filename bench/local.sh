#!/bin/sh
# Times `pzic convert --from local` beside its other direction and beside other converters of the folder
# peers, by 1 and 4 workers: Go's `time.Date` (`local.go`), `convert` of cctz and `local_info` of the C++
# date library (`local.cpp`), and zoneinfo of Python (`local.py`), which tells a twentieth of the rows.
#
# usage: local.sh [ROWS]
#
# The column has ROWS local times, by default 2,000,000, of random instants from 1970 to 2037 in random
# zones of the system's release of the tz database. The rows go to /dev/null. The converters take turns,
# RUNS times each, by default 5. Each line has the M rows/s of the best run, and how many rows of a
# converter are others than those of pzic: Go may take the second instant of a fold.
#
# The variable PZIC names the program, if it shouldn't be built. What isn't there is installed, and left
# out if it can't be. Needs `rt`, `rustc` and the release.
set -eu
. "$(dirname "$0")/common.sh"
rows=${1:-2000000}
few=$((rows / 20))
runs=${RUNS:-5}
program=${PZIC:-crates/zic_main/out/zic_main}
[ "${PZIC:-}" ] || build zic_main
plain column
"$program" build "$work/tree" "$release"
(cd "$work/tree" && find . -type f) | sed 's,^\./,,' | grep -v '^Factory$' | LC_ALL=C sort >"$work/names"
"$work/column" random "$rows" <"$work/names" >"$work/instants.csv"
"$program" convert "$release" <"$work/instants.csv" | cut -d , -f 1,3 >"$work/local.csv"

# The converters that are there, each with its numbers of workers.
converters='instants:1 instants:4 pzic:1 pzic:4 local.py:1'
if command -v go >/dev/null || has /usr/bin/go golang-go; then
    go build -o "$work/go" bench/peers/local.go
    converters="$converters local.go:1 local.go:4"
fi
if command -v g++ >/dev/null && has /usr/include/date/tz.h libhowardhinnant-date-dev; then
    g++ -std=c++17 -O2 -DUSE_OS_TZDB=1 -pthread -o "$work/date" bench/peers/local.cpp -ldate-tz
    converters="$converters date:1 date:4"
fi
if command -v g++ >/dev/null && has /usr/include/cctz/time_zone.h libcctz-dev; then
    g++ -std=c++17 -O2 -DCCTZ -pthread -o "$work/cctz" bench/peers/local.cpp -lcctz
    converters="$converters cctz:1 cctz:4"
fi

# convert NAME WORKERS: writes the rows of a converter.
convert() {
    case $1 in
    instants) "$program" convert --workers "$2" "$release" <"$work/instants.csv" ;;
    pzic) "$program" convert --workers "$2" --from local --ambiguous compatible "$release" <"$work/local.csv" ;;
    local.py) PYTHONTZPATH="$work/tree" "$python" bench/peers/local.py "$few" <"$work/local.csv" ;;
    local.go) ZONEINFO="$work/tree" "$work/go" "$2" <"$work/local.csv" ;;
    date) "$work/date" "$2" <"$work/local.csv" ;;
    cctz) TZDIR="$work/tree" "$work/cctz" "$2" <"$work/local.csv" ;;
    esac
}

# rows_of NAME: prints how many rows a converter writes.
rows_of() {
    if [ "$1" = local.py ]; then echo "$few"; else echo "$rows"; fi
}

convert pzic 1 >"$work/wanted"
for converter in $converters; do
    name=${converter%:*}
    [ "$name" != instants ] || continue
    convert "$name" "${converter#*:}" >"$work/rows"
    head -n "$(rows_of "$name")" "$work/wanted" | paste -d ';' - "$work/rows" |
        awk -F ';' '$1 != $2 { n++ } END { print n + 0 }' >"$work/others.$converter"
done

echo "columns of $rows rows, to nowhere, best of $runs: load $(cut -d ' ' -f 1 /proc/loadavg)"
turn=0
while [ "$turn" -lt "$runs" ]; do
    for converter in $converters; do
        start=$(date +%s%N)
        convert "${converter%:*}" "${converter#*:}" >/dev/null
        echo $(($(date +%s%N) - start)) >>"$work/times.$converter"
    done
    turn=$((turn + 1))
done
for converter in $converters; do
    name=${converter%:*}
    others=$(cat "$work/others.$converter" 2>/dev/null || echo 0)
    sort -n "$work/times.$converter" | head -n 1 |
        awk -v name="$name" -v workers="${converter#*:}" -v rows="$(rows_of "$name")" -v others="$others" '{
            printf "%-9s %d: %6.2f M rows/s, %d rows differ\n", name, workers, rows * 1e3 / $1, others
        }'
done
echo "load $(cut -d ' ' -f 1 /proc/loadavg)"

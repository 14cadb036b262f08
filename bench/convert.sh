#!/bin/sh
# Times `pzic convert` beside two other converters of the folder peers, each by 1 and 4 workers: the
# plain Rust of `convert.rs`, which goes through batches of records column by column, and Debian's C++
# date library with a cache of spans (`convert.cpp`).
#
# usage: convert.sh [ROWS] | convert.sh options [ROWS] | convert.sh others [ROWS] |
#        convert.sh stream [ROWS]
#
# The columns have ROWS rows, by default 10,000,000. `random` has random zones of the system's
# release of the tz database and random instants from 1970 to 2037; `rising` has America/New_York,
# with instants that rise through the same years; `footer` has random zones and instants from 2040
# to 2400, the years of footers; `quoted` is `random` with both fields in double quotes. The rows go
# to /dev/null. The converters take turns, RUNS times each, by default 7. The table has the best
# time of each in seconds and in million rows a second. For pzic it also has the speed relative to 1
# worker, and the greatest memory of a run. For the others it has the speed of pzic in percent of
# theirs.
#
# First the rows of all converters are compared, on columns of 1,000,000 rows (or ROWS, if fewer).
# They must be the same with 1 and 4 workers, except for the C++ library in the years of footers,
# which it doesn't read. After the table come `--tree` over the files of the release, beside the
# source, and `--append` on records of ten fields, beside the C++ library. The last line is the time
# of a whole run with a column of one row.
#
# With the word `options`, only pzic runs, by 1 and 4 workers: on `random` (`plain`), on the same with
# `--unit ms`, with `--keep-going`, with both fields in double quotes (`quoted`), and with `--append`.
# The columns have ROWS rows, by default 2,000,000. First the rows are compared: they must be the same,
# except for the zeros of milliseconds. Each line has the M rows/s of the best run, in percent of those
# of `plain`, and the greatest memory and number of page faults of a run.
#
# With the word `others`, pzic runs beside other languages: the C++ library and Go (`convert.go`), by 1
# and 4 workers, and zoneinfo of Python (`convert.py`), which converts a twentieth of the rows. The
# columns are `random` and `rising` of ROWS rows, by default 2,000,000. All rows must be the same, and
# each line has the M rows/s of a converter.
#
# With the word `stream`, only pzic runs. It converts a column of ROWS rows through pipes, by
# default 100,000,000 rows, which are just under 4 GiB.
#
# The variable PZIC names the program, if it shouldn't be built. Needs `rt`, `rustc`, `g++`, the
# release, and GNU time, the C++ library and Go or apt-get to install them.
set -eu
. "$(dirname "$0")/common.sh"
mode=table
case ${1:-} in
options | others | stream)
    mode=$1
    shift
    ;;
esac
runs=${RUNS:-7}
program=${PZIC:-crates/zic_main/out/zic_main}
[ "${PZIC:-}" ] || build zic_main
has /usr/bin/time time
plain column
"$program" build "$work/tree" "$release"
# The C++ library leaves out Factory.
(cd "$work/tree" && find . -type f) | sed 's,^\./,,' | grep -v '^Factory$' | LC_ALL=C sort >"$work/names"

load() {
    echo "load $(cut -d ' ' -f 1 /proc/loadavg)"
}

# ------------------------------------------------------------------ the stream

if [ "$mode" = stream ]; then
    rows=${1:-100000000}
    # Names of 30 bytes and more.
    grep '.\{30\}' "$work/names" >"$work/long"
    octets=$("$work/column" random "$rows" <"$work/long" | wc -c)
    echo "a stream of $rows rows in $octets octets, of which 4294967296 may be: $(load)"
    written=$("$work/column" random "$rows" <"$work/long" |
        command time -f '%e s, %U s and %S s of processor time, %M kB, of which 102400 are aimed at' -o "$work/usage" \
            "$program" convert "$release" | wc -l)
    cat "$work/usage"
    load
    [ "$written" -eq "$rows" ] || echo "only $written rows were written" >&2
    [ "$written" -eq "$rows" ]
    exit
fi

# ------------------------------------------------------------------ the converters

# convert CONVERTER WORKERS: converts standard input, and keeps the memory of the run in kilobytes, and
# its number of page faults.
convert() {
    case $1:$kind in
    pzic:unit) set -- "$program" convert --workers "$2" --unit ms "$release" ;;
    pzic:keep-going) set -- "$program" convert --workers "$2" --keep-going "$release" ;;
    pzic:append) set -- "$program" convert --workers "$2" --append "$release" ;;
    pzic:wide) set -- "$program" convert --workers "$2" --append --zone-field 3 --time-field 6 "$release" ;;
    pzic:*) set -- "$program" convert --workers "$2" "$release" ;;
    tree:*) set -- "$program" convert --workers "$2" --tree "$work/tree" ;;
    convert.rs:*) set -- "$work/convert" "$work/tree" "$2" ;;
    convert.cpp:wide) set -- "$work/library" "$2" append ;;
    convert.cpp:*) set -- "$work/library" "$2" ;;
    convert.go:*) set -- env ZONEINFO="$work/tree" "$work/go" "$2" ;;
    convert.py:*) set -- env PYTHONTZPATH="$work/tree" "$python" bench/peers/convert.py "$few" ;;
    esac
    command time -f '%M %R' -o "$work/usage" "$@"
}

# column KIND ROWS: makes a column.
column() {
    if [ "$1" = rising ]; then echo America/New_York; else cat "$work/names"; fi >"$work/zones"
    "$work/column" "$1" "$2" <"$work/zones" >"$work/column.csv"
}

# once CONVERTER WORKERS: runs a converter on the column, and keeps the nanoseconds, kilobytes and page
# faults of the run.
once() {
    start=$(date +%s%N)
    convert "$1" "$2" <"$work/column.csv" >/dev/null
    echo "$(($(date +%s%N) - start)) $(tail -n 1 "$work/usage")" >>"$work/runs.$kind.$1.$2"
}

# best_of CONVERTER WORKERS: prints the nanoseconds of the best run.
best_of() {
    sort -n "$work/runs.$kind.$1.$2" | head -n 1 | cut -d ' ' -f 1
}

# most CONVERTER WORKERS FIELD: prints the greatest kilobytes (2) or page faults (3) of a run.
most() {
    cut -d ' ' -f "$3" "$work/runs.$kind.$1.$2" | sort -n | tail -n 1
}

# compare KIND CONVERTER WORKERS: compares the rows with those of pzic by 1 worker.
compare() {
    convert "$2" "$3" <"$work/column.csv" >"$work/rows"
    cmp -s "$work/wanted" "$work/rows" && return
    others=$(paste -d ';' "$work/wanted" "$work/rows" | awk -F ';' '$1 != $2 { n++ } END { print n + 0 }')
    echo "$1: $others of $sample rows of $2 with $3 workers are others than those of pzic with 1"
    [ "$1 $2" = 'footer convert.cpp' ]
}

# ------------------------------------------------------------------ options

# turn_to KIND: turns to an option and its column.
turn_to() {
    kind=$1
    case $kind in
    unit | quoted) ln -f "$work/$kind.csv" "$work/column.csv" ;;
    *) ln -f "$work/plain.csv" "$work/column.csv" ;;
    esac
}

# rows_of WORKERS: prints the rows of the column, without the zeros of milliseconds.
rows_of() {
    if [ "$kind" != unit ]; then
        convert pzic "$1" <"$work/column.csv"
    else
        convert pzic "$1" <"$work/column.csv" | sed 's/000,/,/; s/\.000,/,/'
    fi
}

if [ "$mode" = options ]; then
    rows=${1:-2000000}
    column quoted "$rows"
    mv "$work/column.csv" "$work/quoted.csv"
    tr -d '"' <"$work/quoted.csv" >"$work/plain.csv"
    sed 's/$/000/' "$work/plain.csv" >"$work/unit.csv"
    options='plain unit keep-going quoted append'
    turn_to plain
    rows_of 1 >"$work/wanted"
    for option in $options; do
        turn_to "$option"
        for workers in 1 4; do rows_of "$workers" | cmp "$work/wanted" -; done
    done
    echo "columns of $rows rows, to nowhere, best of $runs: $(load)"
    turn=0
    while [ "$turn" -lt "$runs" ]; do
        for option in $options; do
            turn_to "$option"
            for workers in 1 4; do once pzic "$workers"; done
        done
        turn=$((turn + 1))
    done
    echo 'column     workers | M rows/s of plain   MB page faults'
    for workers in 1 4; do
        turn_to plain
        plain=$(best_of pzic "$workers")
        for option in $options; do
            turn_to "$option"
            echo "$(best_of pzic "$workers") $plain $(most pzic "$workers" 2) $(most pzic "$workers" 3)" |
                awk -v kind="$kind" -v workers="$workers" -v rows="$rows" '{
                    printf "%-10s %7d | %8.2f %6.0f %% %4.0f %11d\n",
                        kind, workers, rows * 1e3 / $1, 100 * $2 / $1, $3 / 1e3, $4
                }'
        done
    done
    load
    exit
fi

has /usr/include/date/tz.h libhowardhinnant-date-dev
g++ -std=c++17 -O2 -DUSE_OS_TZDB=1 -pthread -o "$work/library" bench/peers/convert.cpp -ldate-tz

# ------------------------------------------------------------------ other languages

# speed CONVERTER WORKERS ROWS: prints the M rows/s of the best run.
speed() {
    best_of "$1" "$2" | awk -v workers="$2" -v rows="$3" '{ printf "%.2f M rows/s by %d", rows * 1e3 / $1, workers }'
}

# time_others KIND: compares and times all converters on a column, and prints a line for each.
time_others() {
    kind=$1
    rm -f "$work"/runs.*
    column "$kind" "$rows"
    convert pzic 1 <"$work/column.csv" >"$work/wanted"
    compare "$kind" pzic 4
    for converter in convert.cpp convert.go; do
        for workers in 1 4; do compare "$kind" "$converter" "$workers"; done
    done
    head -n "$few" "$work/wanted" >"$work/first"
    mv "$work/first" "$work/wanted"
    compare "$kind" convert.py 1
    turn=0
    while [ "$turn" -lt "$runs" ]; do
        for converter in pzic convert.cpp convert.go; do
            for workers in 1 4; do once "$converter" "$workers"; done
        done
        once convert.py 1
        turn=$((turn + 1))
    done
    for converter in pzic convert.cpp convert.go; do
        echo "$kind, $converter: $(speed "$converter" 1 "$rows"), $(speed "$converter" 4 "$rows")"
    done
    echo "$kind, convert.py: $(speed convert.py 1 "$few")"
}

if [ "$mode" = others ]; then
    command -v go >/dev/null || has /usr/bin/go golang-go
    go build -o "$work/go" bench/peers/convert.go
    rows=${1:-2000000}
    sample=$rows
    few=$((rows / 20))
    echo "columns of $rows rows, to nowhere, best of $runs: $(load)"
    for kind in random rising; do time_others "$kind"; done
    load
    exit
fi

# ------------------------------------------------------------------ the table's rows compared

plain peers/convert
rows=${1:-10000000}
sample=$((rows < 1000000 ? rows : 1000000))
for kind in random rising footer quoted; do
    column "$kind" "$sample"
    convert pzic 1 <"$work/column.csv" >"$work/wanted"
    count=$(wc -l <"$work/wanted")
    [ "$count" -eq "$sample" ] || echo "$kind: pzic wrote $count rows of $sample" >&2
    [ "$count" -eq "$sample" ]
    compare "$kind" pzic 4
    for workers in 1 4; do
        compare "$kind" convert.rs "$workers"
        compare "$kind" convert.cpp "$workers"
        compare "$kind" tree "$workers"
    done
done
kind=wide
column wide "$sample"
convert pzic 1 <"$work/column.csv" >"$work/wanted"
compare wide pzic 4
for workers in 1 4; do compare wide convert.cpp "$workers"; done
rm -f "$work/wanted" "$work/rows"
echo "all other rows of columns of $sample rows are the same"

# ------------------------------------------------------------------ the times

# line KIND WORKERS: prints a line of the table.
line() {
    echo "$(best_of pzic "$2") $(best_of convert.rs "$2") $(best_of convert.cpp "$2") $(best_of pzic 1) $(most pzic "$2" 2)" |
        awk -v kind="$1" -v workers="$2" -v rows="$rows" '{
            printf "%-6s %7d |", kind, workers
            printf " %7.2f %8.2f %7.2f %4.0f |", $1 / 1e9, rows * 1e3 / $1, $4 / $1, $5 / 1e3
            printf " %7.2f %8.2f %5.0f %% |", $2 / 1e9, rows * 1e3 / $2, 100 * $2 / $1
            printf " %7.2f %8.2f %5.0f %%\n", $3 / 1e9, rows * 1e3 / $3, 100 * $3 / $1
        }'
}

# time_all KIND: times all converters on a column, and prints its lines of the table.
time_all() {
    rm -f "$work"/runs.*
    column "$1" "$rows"
    turn=0
    while [ "$turn" -lt "$runs" ]; do
        for workers in 1 4; do
            for converter in pzic convert.rs convert.cpp; do once "$converter" "$workers"; done
        done
        turn=$((turn + 1))
    done
    for workers in 1 4; do line "$1" "$workers"; done
}

echo "columns of $rows rows, to nowhere, best of $runs: $(load)"
echo '               | pzic                          | convert.rs               | convert.cpp'
echo 'column workers | seconds M rows/s times 1   MB | seconds M rows/s pzic is | seconds M rows/s pzic is'
for kind in random rising footer quoted; do time_all "$kind"; done
load

# time_both KIND CONVERTER: times pzic and another converter on a column.
time_both() {
    kind=$1
    rm -f "$work"/runs.*
    column "$kind" "$rows"
    turn=0
    while [ "$turn" -lt "$runs" ]; do
        for workers in 1 4; do
            for converter in pzic "$2"; do once "$converter" "$workers"; done
        done
        turn=$((turn + 1))
    done
}

# ------------------------------------------------------------------ a tree

time_both random tree
echo "$(best_of tree 1) $(best_of pzic 1) $(best_of tree 4) $(best_of pzic 4)" |
    awk -v rows="$rows" -v runs="$runs" '{
        printf "--tree on the random column, best of %d: %.2f M rows/s by 1 worker and %.2f by 4, and by the source %.2f and %.2f\n",
            runs, rows * 1e3 / $1, rows * 1e3 / $3, rows * 1e3 / $2, rows * 1e3 / $4
    }'

# ------------------------------------------------------------------ records as they stand

time_both wide convert.cpp
echo "--append on $rows records of ten fields, to nowhere, best of $runs: $(load)"
for workers in 1 4; do
    echo "$(best_of pzic "$workers") $(best_of convert.cpp "$workers")" |
        awk -v workers="$workers" -v rows="$rows" '{
            printf "%d workers: pzic %.2f M rows/s, convert.cpp %.2f M rows/s, pzic is %.0f %%\n",
                workers, rows * 1e3 / $1, rows * 1e3 / $2, 100 * $2 / $1
        }'
done

echo Etc/UTC,0 >"$work/one"
input=$work/one
show 'pzic, a column of one row' "$(best "$program" convert "$release")"

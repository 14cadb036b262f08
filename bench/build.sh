#!/bin/sh
# Times whole runs of the program beside the system's zic in its slim form. They take turns, on a
# file system in memory if there is one. The runs are `build` by 1, 2 and 4 workers, and `check`, of
# the system's release of the tz database and of two sources at the limits: 10,000 zones of one
# line, and 10,000 rules with 10,000 lines of 5,000 zones. Prints the milliseconds of the best of 25
# runs, five and two, and the memory of one run. Needs `rt`, `zic`, GNU time and the release.
set -eu
. "$(dirname "$0")/common.sh"
program=crates/zic_main/out/zic_main
build zic_main
awk 'BEGIN { for (i = 0; i < 10000; i++) printf "Zone Area%d/City%d %d:%02d - %%z\n", i % 50, i, i / 60 % 24, i % 60 }' >"$work/zones"
awk 'BEGIN {
    for (i = 0; i < 10000; i++)
        printf "Rule R%d %d only - %s\n", i % 10, 1500 + i / 20, int(i / 10) % 2 ? "Jul 1 0:00 0 S" : "Jan 1 0:00 1:00 D"
    for (i = 0; i < 5000; i++)
        printf "Zone Area%d/City%d %d:%02d - LMT 1900\n0 R%d X%%sT\n", i % 50, i, i / 60 % 24, i % 60, i % 10
}' >"$work/lines"

# once NAME COMMAND...: runs a command, and keeps its nanoseconds in $work/best.NAME if they are
# fewer.
once() {
    kept=$work/best.$1
    shift
    rm -rf "$work/tree"
    start=$(date +%s%N)
    "$@" >"$work/out"
    took=$(($(date +%s%N) - start))
    if [ ! -f "$kept" ] || [ "$took" -lt "$(cat "$kept")" ]; then echo "$took" >"$kept"; fi
}

# call RUNNER NAME SOURCE: lets `once` or `memory` run the command that NAME stands for on a source.
call() {
    case $2 in
    zic) "$1" "$2" zic -b slim -d "$work/tree" "$3" ;;
    build*) "$1" "$2" "$program" build --workers "${2#build}" "$work/tree" "$3" ;;
    check*) "$1" "$2" "$program" check --workers "${2#check}" "$3" ;;
    esac
}

# memory NAME COMMAND...: prints the greatest memory of one run, in MB.
memory() {
    shift
    rm -rf "$work/tree"
    command time -f %M -o "$work/memory" "$@" >"$work/out"
    echo $(($(tail -n 1 "$work/memory") / 1000))
}

calls='zic build1 build2 build4 check1 check4'
for source in "$release" "$work/zones" "$work/lines"; do
    # zic takes half a minute for the last one.
    case $source in
    */zones) runs=5 ;;
    */lines) runs=2 ;;
    *) runs=25 ;;
    esac
    rm -f "$work"/best.*
    for _ in $(seq "$runs"); do
        for name in $calls; do call once "$name" "$source"; done
    done
    for name in $calls; do
        show "$(basename "$source"), $name, $(call memory "$name" "$source") MB" "$(cat "$work/best.$name")"
    done
done

#!/usr/bin/env bash
# Measures the parts of a run on one thread, each the best of five runs: of the system's release of
# the tz database its source read and the timelines of its zones, by the program that prints what the
# library answers; all of its files compiled and read back, and rows written, by the calls from C.
# Needs `rt`, a C compiler and the release.
set -euo pipefail
. "$(dirname "${BASH_SOURCE[0]}")/common.sh"
build probe pzic_c
./make-library "$work/built"
cc -O2 -Wall -I include bench/parts.c "$work/built/lib/libpzic.a" -o "$work/parts"

# part NAME COMMAND...: shows the time of doing the work of a command once. It is computed from the
# times of twenty rounds and of none.
part() {
    local name=$1
    shift
    show "$name" $((($(best "$@" 20) - $(best "$@" 0)) / 20))
}

input=$release
part 'source read' "$probe" counts
part 'timelines of all zones' "$probe" changes
"$work/parts" "$release" Europe/Dublin

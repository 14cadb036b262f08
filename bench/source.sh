#!/bin/sh
# Times the reading of source text: of the system's release of the tz database, and of the largest
# sources of each kind, each beside comments of the same size. Prints the milliseconds of one
# reading, the best of five runs of twenty. Prints the times of `fields.rs` in plain Rust beside
# them, which only splits the lines and counts names. Needs `rt` and `rustc` on the PATH.
set -eu
. "$(dirname "$0")/common.sh"
build probe
plain fields

awk 'BEGIN { for (i = 0; i < 10000; i++) printf "Rule set%d 2000 max - Mar Sun>=8 2:00 1:00 D\n", i }' >"$work/rules"
awk 'BEGIN { for (i = 0; i < 10000; i++) printf "Rule set%d 2000 max - Mar Sun>=8 2:00 1:00 D\n", i % 10 }' >"$work/rules of ten sets"
awk 'BEGIN { for (i = 0; i < 10000; i++) printf "Zone Area/City%d 1:00 - CET\n", i }' >"$work/zones"
awk 'BEGIN { print "Zone A 0 - AAA 1"; for (i = 2; i < 10000; i++) print "1:00 - CET 1990 Mar Sun>=8 2:00"; print "1:00 - CET" }' >"$work/continuations"
awk 'BEGIN { print "Zone Name/0 1:00 - CET"; for (i = 9999; i > 0; i--) printf "Link Name/%d Name/%d\n", i - 1, i }' >"$work/chain"

# micros COMMAND...: prints the microseconds of one reading. They are computed from the times of
# twenty readings and of none.
micros() {
    echo $((($(best "$@" 20) - $(best "$@" 0)) / 20000))
}

compare() {
    input=$2
    read=$(micros "$probe" counts)
    apart=$(micros "$work/fields")
    printf '%s: %d octets, read in %d.%03d ms, only taken apart in %d.%03d ms\n' "$1" "$(wc -c <"$2")" \
        $((read / 1000)) $((read % 1000)) $((apart / 1000)) $((apart % 1000))
}

if [ -f "$release" ]; then compare 'tzdata.zi' "$release"; fi
for kind in rules 'rules of ten sets' zones continuations chain; do
    # The same number of bytes as comments.
    sed 's/^./#/' "$work/$kind" >"$work/comments"
    compare "10,000 $kind" "$work/$kind"
    compare 'comments of as many octets' "$work/comments"
done

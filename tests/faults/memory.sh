#!/usr/bin/env bash
# Checks that nine million changes are compiled within 512 MiB, and three million rows converted within 64 MiB.
# The zone has 8,999,999 changes: its set has 1,000 rules from the year 1 to 9000, and it changes at each occurrence but the first.
# The column has 30,000,000 bytes, and pieces of 65,536 rows. It checks too that `check` and `convert` say `out of memory` or give
# their whole answer in address spaces from the least in which the program starts up to the one that it needs.
set -euo pipefail
cd "$(dirname "${BASH_SOURCE[0]}")/../.."
. tests/common.sh
build zic_main probe
# A rule every eight hours, with standard time and saved time in turn.
awk 'BEGIN {
    split("Jan Feb Mar Apr May Jun Jul Aug Sep Oct Nov Dec", months)
    for (i = 0; i < 1000; i++)
        printf "Rule X 1 9000 - %s %d %d:00 %s\n", months[int(i / 84) + 1], int(i % 84 / 3) + 1, i % 3 * 8, i % 2 ? "1:00 D" : "0 S"
    print "Zone X 0 X E%sT"
}' >"$work/rules"
got=$(
    ulimit -v 524288
    crates/probe/out/probe changes 1 <"$work/rules"
) || true
if [ "$got" != "8999999 changes" ]; then
    echo "1,000 rules from 1 to 9000: got '$got', and not '8999999 changes'" >&2
    exit 1
fi
echo "1,000 rules from 1 to 9000: $got"
# A column that is longer than a round.
echo 'Zone Etc/UTC 0 - UTC' >"$work/source"
awk 'BEGIN { for (i = 0; i < 3000000; i++) print "Etc/UTC,0" }' >"$work/column"
got=$(
    ulimit -v 65536
    crates/zic_main/out/zic_main convert --workers 1 --row-piece 65536 "$work/source" <"$work/column" 2>"$work/err" | uniq -c
) || true
if [ "$(xargs <<<"$got")" != '3000000 Etc/UTC,0,1970-01-01T00:00:00,+00:00:00,0,UTC' ]; then
    echo "a column of 3,000,000 rows: got '$got', $(cat "$work/err")" >&2
    exit 1
fi
echo 'a column of 3,000,000 rows: all of them within 64 MiB'

# ------------------------------------------------------------------ little memory

enter

# within KIBIBYTES WORD...: runs the program within this many KiB of address space. Where that is too few to start in, the shell would say so.
within() {
    status=0
    { (ulimit -v "$1" && exec "$program" "${@:2}") <"$input" >../out 2>../err || status=$?; } 2>/dev/null
}

truncate -s 67108864 large
within 60000 check large
told 'pzic check large, within 60,000 KiB' 4 '' 'out of memory'
# From the least address space in which the program starts up to the one that it needs.
awk 'BEGIN { for (i = 0; i < 2000; i++) printf "Zone Z/%d %d:%02d - %%z\n", i, i / 60 % 24, i % 60 }' >many
listed=$("$program" check many)
kilobytes=1000
within $kilobytes check -
while [ "$status" != 0 ]; do
    kilobytes=$((kilobytes * 21 / 20))
    within $kilobytes check -
done
least=$kilobytes
for ((good = 0; good < 3;)); do
    within $kilobytes check many
    if [ "$status" = 0 ]; then
        good=$((good + 1))
        told "pzic check many, within $kilobytes KiB" 0 "$listed" ''
    else
        told "pzic check many, within $kilobytes KiB" 4 '' 'out of memory'
    fi
    kilobytes=$((kilobytes * 21 / 20))
done

# The column needs memory after the source is compiled, and the stack for as many workers as there may be. From the least address space
# in which the program starts.
kilobytes=$least
awk 'BEGIN { for (i = 0; i < 40000; i++) printf "Z/%d,%d\n", i % 2000, i }' >column.many
"$program" convert many <column.many >rows.many
words=(convert --workers 64 --row-piece 4096 many)
input=column.many
for ((good = 0; good < 3;)); do
    within $kilobytes "${words[@]}"
    cp ../out rows
    : >../out
    if [ "$status" = 0 ]; then
        good=$((good + 1))
        told "pzic ${words[*]}, within $kilobytes KiB" 0 '' ''
        cmp rows rows.many >&2 || differ "within $kilobytes KiB the rows differ"
    else
        told "pzic ${words[*]}, within $kilobytes KiB" 4 '' 'out of memory'
        cmp rows <(head -c "$(wc -c <rows)" rows.many) >&2 || differ "within $kilobytes KiB the rows differ"
    fi
    kilobytes=$((kilobytes + 240))
done
input=/dev/null
leave memory

#!/usr/bin/env bash
# Converts columns of 5,000 records in all forms with all plans, and compares the rows with Python's csv and zoneinfo.
# The records are plain, quoted, with a header, or with a fault in one of them. zoneinfo reads files of the system's zic.
# Needs: zic
set -euo pipefail
cd "$(dirname "${BASH_SOURCE[0]}")/../.."
. tests/common.sh
build zic_main
columns=$PWD/tests/outside/columns/records.py
enter
printf '%s\n' 'Rule US 2007 max - Mar Sun>=8 2:00 1:00 D' 'Rule US 2007 max - Nov Sun>=1 2:00 0 S' 'Zone Z/NY -5:00 US E%sT' \
    'Zone Etc/UTC 0 - UTC' 'Zone Z/I 5:30 - %z' >eastern
# With quotes and without, with all plans.
zic -b fat -d witnessed eastern
for form in plain quoted first middle last; do
    python3 "$columns" $form >column.$form
    python3 "$columns" rows witnessed column.$form >rows.$form
    input=column.$form
    for workers in 1 2 8 64; do
        for piece in 1 2 3 100 1024; do
            ask convert --workers $workers --row-piece $piece eastern
            cp ../out rows
            : >../out
            told "pzic convert --workers $workers --row-piece $piece eastern, of the $form column" 0 '' ''
            cmp rows rows.$form >&2 || differ "the rows of the $form column differ by $workers and $piece"
        done
    done
done
# The same with a fault in row 2345 and others after it, or a line end within its quotes.
for form in plain quoted feed; do
    python3 "$columns" $form 2345 >column
    head -n 2344 "rows.${form/feed/plain}" >rows.wanted
    input=column
    for workers in 1 2 8 64; do
        for piece in 1 2 3 100; do
            ask convert --workers $workers --row-piece $piece eastern
            cp ../out rows
            : >../out
            told "pzic convert --workers $workers --row-piece $piece eastern, of a $form column" 1 '' 'row 2345: RowInstant'
            cmp rows rows.wanted >&2 || differ "the rows before the fault differ by $workers and $piece"
        done
    done
done
input=/dev/null

# Below a header.
header=zone,instant,local,offset,daylight,abbreviation
(printf 'zone,instant\n' && cat column.plain) >column.header
for workers in 1 4; do
    input=column.header
    ask convert --header --workers $workers --row-piece 7 eastern
    sed 1d ../out >../rows.below
    head -n 1 ../out >../header
    cmp ../rows.below rows.plain >&2 || differ 'the rows differ below a header'
    mv ../header ../out
    told "pzic convert --header --workers $workers eastern" 0 "$header" ''
done
# Faults in the first, a middle and the last piece of a round, and by any number of threads.
awk 'NR == 1 || NR == 2500 || NR == 5000 { print "No/Where,0"; next } { print }' column.plain >column.faults
awk 'NR == 1 || NR == 2500 || NR == 5000 { print "No/Where,0,,,,"; next } { print }' rows.plain >../rows.faults
for workers in 1 4 64; do
    for piece in 1 7 1024; do
        input=column.faults
        ask convert --keep-going --faults ../faults --workers $workers --row-piece $piece eastern
        cmp ../out ../rows.faults >&2 || differ 'the rows differ where the run goes on'
        [ "$(cat ../faults)" = $'1,RowZone\n2500,RowZone\n5000,RowZone' ] || differ "--faults wrote '$(cat ../faults)'"
        : >../out
        told "pzic convert --keep-going --workers $workers --row-piece $piece eastern" 1 '' $'row 1: RowZone\n3 rows with faults'
    done
done
leave records

#!/usr/bin/env bash
# Checks what depends on how standard input and output are read and written: pipes, short reads, a terminal, progress.
# It gives lines one by one, and columns without an end, and looks at the line of progress and the record that `--explain` reads
# again.
# Alone: its lines come at intervals.
set -euo pipefail
cd "$(dirname "${BASH_SOURCE[0]}")/../.."
. tests/common.sh
build zic_main
columns=$PWD/tests/outside/columns/records.py
enter
utc=Etc/UTC,0,1970-01-01T00:00:00,+00:00:00,0,UTC
echo 'Zone Etc/UTC 0 - UTC' >plain
printf '%s\n' 'Rule US 2007 max - Mar Sun>=8 2:00 1:00 D' 'Rule US 2007 max - Nov Sun>=1 2:00 0 S' 'Zone Z/NY -5:00 US E%sT' \
    'Zone Etc/UTC 0 - UTC' 'Zone Z/I 5:30 - %z' >eastern
# That the rows of these columns are right is checked by tests/outside/records.sh.
for form in plain quoted; do
    python3 "$columns" $form >column.$form
    "$program" convert eastern <column.$form >rows.$form
done

# ------------------------------------------------------------------ pipes

# A reader that is a pipe, short reads, a byte order mark that comes one byte at a time, and a
# writer without a reader.
mkfifo pipe
cat column.quoted >pipe &
input=pipe
ask convert eastern
cp ../out rows
: >../out
told 'pzic convert eastern <pipe' 0 '' ''
cmp rows rows.quoted >&2 || differ 'the rows of a pipe differ'
printf '\xef\xbb\xbfEtc/UTC,0\r"Etc/UTC","0"\r\n\nEtc/UTC,0' >column
for seconds in 0 0.005; do
    python3 "$columns" drip $seconds <column >pipe &
    ask convert plain
    told "pzic convert plain, an octet at a time every $seconds s" 0 "$utc"$'\n'"$utc"$'\n'"$utc" ''
done
# A header in which fields have names: one that comes an octet at a time, one of 70,000 bytes, and one that can't be read.
printf 'time,zone\r\n0,Etc/UTC\r\n0,Etc/UTC' >column
python3 "$columns" drip 0 <column >pipe &
ask convert --skip-header --zone-field zone --time-field time plain
told 'pzic convert --zone-field zone, an octet at a time' 0 "$utc"$'\n'"$utc" ''
{ head -c 70000 /dev/zero | tr '\0' x && printf ',zone,time\n,Etc/UTC,0\n,Etc/UTC,0\n'; } >column
cat column >pipe &
ask convert --skip-header --zone-field zone --time-field time plain
told 'pzic convert --zone-field zone, after a field of 70,000 bytes' 0 "$utc"$'\n'"$utc" ''
input=.
ask convert --skip-header --zone-field zone plain
told 'pzic convert --zone-field zone <.' 3 '' 'cannot read column'
rm pipe
input=/dev/null
# No row waits for the next line.
for words in '--workers 1 --row-piece 100' '--workers 2 --row-piece 3' '--workers 8 --row-piece 100'; do
    status=0
    # shellcheck disable=SC2086
    python3 "$columns" turns "$program" convert $words plain >../out 2>../err || status=$?
    told "pzic convert $words plain, line by line" 0 "$(for _ in 1 2 3 4 5 6 7 8 9; do echo "$utc"; done)" ''
done
yes Etc/UTC,0 | { "$program" convert plain 2>../err || echo $? >../status; } | head -c 100 >../out || true
status=$(cat ../status)
[ "$(cat ../out)" = "$utc"$'\n'"$utc"$'\n'Etc/UTC, ] || differ "the first rows of a column without end differ: $(cat ../out)"
: >../out
told 'yes Etc/UTC,0 | pzic convert plain | head -c 100' 3 '' 'cannot write rows'
status=0
yes '' | "$program" convert --max-bytes 100 plain >../out 2>../err || status=$?
told 'yes "" | pzic convert --max-bytes 100 plain' 1 '' 'column: ColumnTooLong'

# ------------------------------------------------------------------ the rest of a file

# The record at fault is read again from where the file is read on.
printf 'Etc/UTC,0\nEtc/UTC,1.5\n' >column
input=column
ask convert --explain plain
(echo zone,instant && cat column) >column.more
{ read -r _; status=0; "$program" convert --explain plain >../out.rest 2>../err.rest || status=$?; } <column.more
calls=$((calls + 1))
[ "$status" = 1 ] && cmp ../out ../out.rest && cmp ../err ../err.rest && grep -q '^  Etc/UTC,1.5$' ../err ||
    differ "--explain of the rest of a file: status $status, '$(cat ../err.rest)'"

# ------------------------------------------------------------------ progress

# expect_progress CALL ROWS ERR: checks the number of rows in the line of progress, and the lines
# after it.
expect_progress() {
    local rate='[0-9]+ rows a second'
    grep -Exq "$2 rows, $rate" <(head -n 1 ../err) && [ "$(tail -n +2 ../err)" = "$3" ] ||
        differ "$1: '$(cat ../err)', and not $2 rows and '$3'"
    : >../err
}

input=column.plain
ask convert --progress eastern
cp ../out rows
cmp rows rows.plain >&2 || differ 'the rows differ where progress is told'
expect_progress 'pzic convert --progress eastern' 5000 ''
input=/dev/null
ask convert --progress plain
expect_progress 'pzic convert --progress plain </dev/null' 0 ''
echo Zonk >faulty
expect 1 '' 'line 1: Keyword' convert --progress faulty
printf 'Etc/UTC,0\nEtc/UTC,0\nEtc/UTC,0\nEtc/UTC,x\nEtc/UTC,0\nEtc/UTC,0\nEtc/UTC,0\nNo/Where,0\nEtc/UTC,0\n' >column
input=column
ask convert plain --progress
expect_progress 'pzic convert plain --progress' 3 'row 4: RowInstant'
: >../out
told 'pzic convert plain --progress' 1 '' ''
"$program" build zones.tree plain
ask convert --progress --tree zones.tree
expect_progress 'pzic convert --progress --tree zones.tree' 3 'row 4: RowInstant'
: >../out
told 'pzic convert --progress --tree zones.tree' 1 '' ''
# Of rows that are compared with another release those that are written, and at the end all.
printf 'Zone Etc/UTC 0 - UTC 1970 Jan 1 0:00:01\n1 - CET\n' >later
printf 'zone,instant\nEtc/UTC,0\nEtc/UTC,1\nEtc/UTC,0\nNo/Where,0\nEtc/UTC,2\n' >column
ask convert --header --keep-going --progress --against later plain
expect_progress 'pzic convert --progress --against later plain' '2 of 5' $'row 4: RowZone\n1 row with a fault'
ask convert --header --progress --against later plain
expect_progress 'pzic convert --progress --against later plain, up to a fault' 1 'row 4: RowZone'
# The last row, whose double quotes are open as those of its record.
printf 'Etc/UTC,0\nEtc/UTC,0,"\n' >column
ask convert --append --quotes lenient --progress plain
expect_progress 'pzic convert --append --quotes lenient --progress plain' 2 ''
input=/dev/null
# On a terminal, to which the rows go too.
status=0
python3 "$columns" terminal ../out "$program" convert --progress --workers 1 --row-piece 1 plain >../err || status=$?
line=$'\r[0-9]+ rows, [0-9]+ rows a second\x1b\\[K'
grep -Exq "($line){2,6}" ../err || differ "on a terminal: '$(cat -v ../err)'"
: >../err
told 'pzic convert --progress plain, on a terminal' 0 "$utc"$'\n'"$utc"$'\n'"$utc" ''
# A failure that isn't explained names the option that explains it there, and nowhere else.
status=0
python3 "$columns" terminal ../out "$program" check faulty >../err || status=$?
told 'pzic check faulty, on a terminal' 1 '' $'line 1: Keyword\n--explain says more'
leave streams

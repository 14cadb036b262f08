#!/usr/bin/env bash
# Checks messages and statuses where inputs can't be read and outputs fail: closed streams, full disks, pipes without a reader.
# It has folders in place of files and files in place of folders, links, a disk that is full after some bytes, and a folder that may
# not be written. It has trees in which a system call fails, by `strace`, names with line ends, and tables that are pipes or links. It
# ends conversions in each way whose lists can't be written. As root, it tries what may not be read or written as the user nobody.
# Parts need: strace, cc
set -euo pipefail
cd "$(dirname "${BASH_SOURCE[0]}")/../.."
. tests/common.sh
build zic_main
enter
echo 'Zone Etc/UTC 0 - UTC' >plain
"$program" build tree plain
file=tree/Etc/UTC

# ------------------------------------------------------------------ inputs that can't be read

input=.
expect 3 '' 'cannot read -' check -
expect 3 '' 'cannot read -' build none plain -
[ ! -e none ] || differ 'a folder was made for sources that cannot be read'
input=/
expect 3 '' 'cannot read column' convert plain
expect 3 '' $'0 rows, 0 rows a second\ncannot read column' convert --progress plain
expect 3 '' 'cannot read nowhere' convert nowhere
"$program" build zones.tree plain
expect 3 '' 'cannot read column' convert --tree zones.tree
input=/dev/null
status=0
"$program" convert plain <&- >../out 2>../err || status=$?
told 'pzic convert plain <&-' 3 '' 'cannot read column'
# A read that fails in the middle: rows and faults up to it end at the same row.
if strace -o /dev/null true 2>/dev/null; then
    printf 'Etc/UTC,0\nNo/Such,0\nEtc/UTC,x\n' >column
    row=Etc/UTC,0,1970-01-01T00:00:00,+00:00:00,0,UTC
    status=0
    strace -f -o ../trace -P "$PWD/column" -e trace=read -e 'inject=read:error=EIO:when=2+' \
        "$program" convert --keep-going --faults list plain <column >../out 2>../err || status=$?
    told 'pzic convert --keep-going, where the second read fails' 3 "$row"$'\nNo/Such,0,,,,\nEtc/UTC,x,,,,' 'cannot read column'
    [ "$(cat list)" = $'2,RowZone\n3,RowInstant' ] || differ "a list up to a failed read holds '$(cat list)'"
    # A write that fails: what was written is a beginning of the rows.
    for ((n = 0; n < 3000; n++)); do echo "Etc/UTC,$n"; done >column
    "$program" convert --row-piece 100 plain <column >rows
    for ((n = 1; n < 4; n++)); do
        status=0
        strace -f -o ../trace -P "$PWD/written" -e trace=write -e "inject=write:error=EIO:when=$n+" \
            "$program" convert --row-piece 100 plain <column >written 2>../err || status=$?
        : >../out
        [ "$status" = 0 ] && cmp written rows && break
        told "pzic convert, where write $n gives EIO" 3 '' 'cannot write rows'
        cmp -s -n "$(stat -c %s written)" written rows || differ "the rows before write $n failed are others"
    done
    rm -f column list rows written
else
    echo "skipped: reads and writes that fail in the middle: there is no strace that can trace here"
fi
# The source is compiled before the column is read.
echo Zonk >faulty
printf x >column
rest=$({ "$program" convert faulty 2>../err || cat; } <column)
[ "$rest" = x ] || differ "of the column of a faulty source only '$rest' is left"

# ------------------------------------------------------------------ trees that can't be read

printf 'Zone Etc/UTC 0 - UTC\nZone Z/EST -5 - EST\n' >two
"$program" build old.tree two
"$program" build new.tree two
printf 'Etc/UTC,0\nZ/EST,0\n' >zones.csv

# hurt CALL ERROR PATH WORD...: runs the program, where a system call fails with an error for a path.
hurt() {
    status=0
    strace -f -o ../trace -P "$3" -e "trace=$1" -e "inject=$1:error=$2" "$program" "${@:4}" <zones.csv >../out 2>../err || status=$?
    # strace itself tells what a path that isn't absolute is.
    sed -i '/^strace: Requested path/d' ../err
}

# What is there and can't be read isn't removed.
if strace -o /dev/null true 2>/dev/null; then
    for call in 'open,openat EIO' 'open,openat EMFILE' 'open,openat ENFILE' 'read EIO' 'statx EIO'; do
        hurt ${call% *} "${call#* }" new.tree/Z/EST diff --trees old.tree new.tree
        told "pzic diff --trees, where ${call% *} gives ${call#* }" 3 '' 'cannot read new.tree/Z/EST'
        hurt ${call% *} "${call#* }" new.tree/Z/EST diff --trees --summary new.tree old.tree
        told "pzic diff --trees --summary, where ${call% *} gives ${call#* }" 3 '' 'cannot read new.tree/Z/EST'
        hurt ${call% *} "${call#* }" new.tree/Z/EST verify new.tree two
        told "pzic verify, where ${call% *} gives ${call#* }" 3 '' 'cannot read new.tree/Z/EST'
        echo old >list
        hurt ${call% *} "${call#* }" new.tree/Z/EST convert --keep-going --faults list --tree new.tree
        told "pzic convert --tree, where ${call% *} gives ${call#* }" 3 '' 'cannot read new.tree/Z/EST'
        [ "$(cat list)" = old ] || differ "the list of a run that made no row holds '$(cat list)'"
        rm list
        for words in '--zone Z/EST --tree new.tree' '--against-tree new.tree two' '--against-tree new.tree --tree old.tree'; do
            hurt ${call% *} "${call#* }" new.tree/Z/EST convert $words
            told "pzic convert $words, where ${call% *} gives ${call#* }" 3 '' 'cannot read new.tree/Z/EST'
        done
    done
    mkdir tables
    echo table >tables/zone.tab
    cp tables/zone.tab new.tree
    hurt open,openat EMFILE new.tree/zone.tab verify --tables tables new.tree two
    told 'pzic verify --tables, of a table that is not opened' 3 '' 'cannot read new.tree/zone.tab'
    rm -r tables new.tree/zone.tab
    hurt open,openat EMFILE new.tree/Z/ diff --trees old.tree new.tree
    told 'pzic diff --trees, of a folder that is not opened' 3 '' 'cannot read new.tree/Z/'
else
    echo "skipped: trees that can't be read: there is no strace that can trace here"
fi

# What may not be read.
chmod 755 . ..
run=()
if [ "$(id -u)" = 0 ]; then run=(setpriv --reuid 65534 --regid 65534 --clear-groups); fi
chmod 000 new.tree/Z/EST
for command in 'diff --trees old.tree new.tree' 'verify new.tree two' 'convert --keep-going --tree new.tree'; do
    status=0
    "${run[@]}" "$program" $command <zones.csv >../out 2>../err || status=$?
    told "pzic $command, of a file that may not be read" 3 '' 'cannot read new.tree/Z/EST'
done
chmod 644 new.tree/Z/EST
for mode in 000 444; do
    chmod $mode new.tree/Z
    for command in 'diff --trees old.tree new.tree' 'verify --strict new.tree two' 'convert --keep-going --tree new.tree'; do
        status=0
        "${run[@]}" "$program" $command <zones.csv >../out 2>../err || status=$?
        path=new.tree/Z/EST
        if [ "$mode $command" = '000 diff --trees old.tree new.tree' ]; then path=new.tree/Z/; fi
        told "pzic $command, of a folder of mode $mode" 3 '' "cannot read $path"
    done
    chmod 755 new.tree/Z
done
# With --explain the second line tells why.
second_line() {
    [ "$(sed -n 2p ../err)" = "$2" ] || differ "$1: the second line is '$(sed -n 2p ../err)', and not '$2'"
    calls=$((calls + 1))
}
chmod 000 two
"${run[@]}" "$program" check --explain two >../out 2>../err || true
second_line 'pzic check, of a file that may not be read' '--> two: permission denied'
chmod 644 two
mkdir closed
chmod 755 closed
if [ "${#run[@]}" = 0 ]; then chmod 555 closed; fi
"${run[@]}" "$program" build --explain closed two >../out 2>../err || true
second_line 'pzic build, of a folder that may not be written' '--> closed/Etc/UTC: permission denied'
"${run[@]}" "$program" convert --explain --keep-going --faults closed/list two <zones.csv >../out 2>../err || true
second_line 'pzic convert --faults, of a folder that may not be written' '--> closed/list: permission denied'
rm -rf closed
if strace -o /dev/null true 2>/dev/null; then
    strace -f -o ../trace -e 'trace=rename,renameat,renameat2' -e 'inject=rename,renameat,renameat2:error=ENOSPC' \
        "$program" build --explain filled two >../out 2>../err || true
    second_line 'pzic build, on a full disk' '--> filled/Etc/UTC: no space left on device'
    rm -r filled
fi
# What leads to no file is missing: a link in a circle, a file in the place of a folder, and a name longer than a file's.
ln -s loop new.tree/loop
long=$(printf 'Z%.0s' {1..300})
printf '%s\n' Etc/UTC,0 loop,0 Z/EST/x,0 "$long,0" >lost.csv
input=lost.csv
expect 1 "Etc/UTC,0,1970-01-01T00:00:00,+00:00:00,0,UTC
loop,0,,,,
Z/EST/x,0,,,,
$long,0,,,," $'row 2: RowZone\n3 rows with faults' convert --keep-going --tree new.tree
input=/dev/null
rm new.tree/loop

# A name with a line end makes no line of its own, and a path beyond the limit of the system isn't passed over.
: >$'new.tree/a\nextra b'
expect 1 'extra a\x0aextra b' 'tree differs' verify --strict new.tree two
rm $'new.tree/a\nextra b'
# A name that isn't UTF-8 is listed, of a file or a folder.
: >$'new.tree/Z/b \xc3('
mkdir $'new.tree/a\xff'
expect 1 'extra Z/b \xc3(
extra a\xff' 'tree differs' verify --strict new.tree two
expect 0 '' '' verify new.tree two
rm -r $'new.tree/Z/b \xc3(' $'new.tree/a\xff'
part=$(printf 'd%.0s' {1..250})
deep=new.tree
(
    cd new.tree
    for ((i = 0; i < 20; i++)); do mkdir "$part" && cd "$part"; done
    : >lost
)
for ((i = 0; i < 17; i++)); do deep=$deep/$part; done
expect 3 '' "cannot read $deep" verify --strict new.tree two
rm -r new.tree/d*

# ------------------------------------------------------------------ tables that are no regular files

mkdir tables
mkfifo tables/zone.tab
status=0
timeout 20 "$program" build --tables tables tabled plain >../out 2>../err || status=$?
told 'pzic build --tables, of a pipe' 3 '' 'cannot read tables/zone.tab'
rm tables/zone.tab
echo secret >secret
ln -s ../secret tables/zone.tab
expect 3 '' 'cannot read tables/zone.tab' build --tables tables tabled plain
rm tables/zone.tab
mkdir tables/zone.tab
expect 3 '' 'cannot read tables/zone.tab' build --tables tables tabled plain
[ ! -e tabled ] || differ 'a folder was made where a table cannot be read'

# ------------------------------------------------------------------ outputs that fail

# Standard error goes to ../err, where `told` reads it; `told` also needs the status.
: >../out
echo 'Zone Etc/UTC 1 - CET' >later
for command in 'check plain' "show $file 0" "show --local $file 1970-01-01T00:00:00" "dump $file" 'diff plain later'; do
    status=0
    "$program" $command >&- 2>../err || status=$?
    told "pzic $command >&-" 3 '' 'cannot write output'
    status=0
    "$program" $command >/dev/full 2>../err || status=$?
    told "pzic $command >/dev/full" 3 '' 'cannot write output'
    if [ "${command%% *}" != diff ]; then
        "$program" $command --explain >/dev/full 2>../err || true
        second_line "pzic $command --explain >/dev/full" '--> standard output: no space left on device'
    fi
    # A pipe that has no reader any more.
    mkfifo pipe
    exec 3<>pipe 4>pipe 3>&-
    status=0
    "$program" $command >&4 2>../err || status=$?
    exec 4>&-
    rm pipe
    told "pzic $command into a closed pipe" 3 '' 'cannot write output'
done
: >../err
status=0
"$program" check nowhere 2>&- >../out || status=$?
told 'pzic check nowhere 2>&-' 3 '' ''

# Rows, and a header.
for ((i = 0; i < 5000; i++)); do echo "Etc/UTC,$i"; done >column
for words in '>&-' '>/dev/full' 'into a closed pipe'; do
    status=0
    case $words in
    '>&-') "$program" convert plain <column >&- 2>../err || status=$? ;;
    '>/dev/full') "$program" convert plain <column >/dev/full 2>../err || status=$? ;;
    *)
        mkfifo pipe
        exec 3<>pipe 4>pipe 3>&-
        "$program" convert plain <column >&4 2>../err || status=$?
        exec 4>&-
        rm pipe
        ;;
    esac
    told "pzic convert plain $words" 3 '' 'cannot write rows'
done
"$program" convert --explain plain <column >/dev/full 2>../err || true
second_line 'pzic convert --explain plain >/dev/full' '--> standard output: no space left on device'
status=0
"$program" convert --header plain </dev/null >/dev/full 2>../err || status=$?
: >../out
told 'pzic convert --header plain >/dev/full' 3 '' 'cannot write rows'
status=0
head -n 1 column | "$program" convert --tree zones.tree >/dev/full 2>../err || status=$?
told 'pzic convert --tree zones.tree >/dev/full' 3 '' 'cannot write rows'

# ------------------------------------------------------------------ a clock that can't be read

if command -v cc >/dev/null; then
    cat >../clock.c <<'END'
#include <errno.h>
#include <time.h>
int clock_gettime(clockid_t clock, struct timespec *time) { return errno = EINVAL, -1; }
END
    cc -shared -fPIC -o ../clock.so ../clock.c
    for options in '--summary' '--summary --explain'; do
        status=0
        LD_PRELOAD=$PWD/../clock.so "$program" diff $options plain later >../out 2>../err || status=$?
        told "pzic diff $options, without a clock" 3 '' 'cannot read clock; --now gives the date'
    done
    status=0
    LD_PRELOAD=$PWD/../clock.so "$program" diff --summary --now 0 plain plain >../out 2>../err || status=$?
    told 'pzic diff --summary --now 0, without a clock' 0 '' ''
else
    echo "skipped: a clock that can't be read: there is no cc"
fi

# ------------------------------------------------------------------ files that can't be written

rm -rf tree
printf 'Zone A 0 - AAA\nZone A/B 0 - AAA\n' >below
expect 3 '' 'cannot write tree/A/B' build tree below
expect_tree tree 'A 111 AAA0'
echo text >taken
expect 3 '' 'cannot write taken/Etc/UTC' build taken plain
mkdir -p tree/Etc/UTC/kept
expect 3 '' 'cannot write tree/Etc/UTC' build tree plain
expect_tree tree 'A 111 AAA0'
# A link in the place of a file is replaced, and the link's target is kept.
rm -rf tree/Etc
mkdir tree/Etc
ln -s ../../taken tree/Etc/UTC
expect 0 '' '' build tree plain
expect_tree tree $'A 111 AAA0\nEtc/UTC 111 UTC0'
[ "$(cat taken)" = text ] || differ 'a file was written through a link'
# A link can't take the place of a folder, and leaves nothing over.
printf 'Link A Alias/B\nZone A 0 - AAA\n' >linked
mkdir -p links/Alias/B/kept
for kind in hard symlink; do
    expect 3 '' 'cannot write links/Alias/B' build --links $kind links linked
    expect_tree links 'A 111 AAA0'
    [ "$(find links -mindepth 1 | sort | xargs)" = 'links/A links/Alias links/Alias/B links/Alias/B/kept' ] || differ "--links $kind leaves files over"
done
chmod 400 tree/A
echo 'Zone A 0 - BBB' >other
expect 0 '' '' build tree other
expect_tree tree $'A 111 BBB0\nEtc/UTC 111 UTC0'
# A full disk: no file can be written that has more than 0 bytes, and then 1,024 bytes.
awk 'BEGIN {
    print "Rule B 1900 1999 - Jan 1 0 1:00 D\nRule B 1900 1999 - Jul 1 0 0 S"
    print "Zone A 0 - AAA\nZone B 0 B B%sT\nZone C 0 - CCC"
}' >big
: >../out
for kilobytes in 0 1; do
    rm -rf tree
    status=0
    text=$(
        trap '' XFSZ
        ulimit -f "$kilobytes"
        "$program" build tree big 2>&1
    ) || status=$?
    echo "$text" >../err
    if [ "$kilobytes" = 0 ]; then name=A wanted=; else name=B wanted='A 111 AAA0'; fi
    told "pzic build tree big, with at most $kilobytes KiB a file" 3 '' "cannot write tree/$name"
    expect_tree tree "$wanted"
done
(
    trap '' XFSZ
    ulimit -f 1
    "$program" build --explain tree big 2>&1
) | sed -n 2p >../out || true
[ "$(cat ../out)" = '--> tree/B: file too large' ] || differ "pzic build --explain, with at most 1 KiB a file: '$(cat ../out)'"

# ------------------------------------------------------------------ lists that can't be written

# The column has a row, one with a fault, a row, and a second fault in the fourth.
printf 'Etc/UTC,0\nx,0\nEtc/UTC,1\nEtc/UTC,0.5\n' >column
input=column
row=Etc/UTC,0,1970-01-01T00:00:00,+00:00:00,0,UTC
second=Etc/UTC,1,1970-01-01T00:00:01,+00:00:00,0,UTC
noted=$'row 2: RowZone\n1 row with a fault'
for option in --faults --rejects; do
    case $option in
    --faults) one=$row$'\nx,0,,,,' two=$row$'\nx,0,,,,\n'$second all=$row$'\nx,0,,,,\n'$second$'\nEtc/UTC,0.5,,,,' ;;
    *) one=$row two=$row$'\n'$second all=$row$'\n'$second ;;
    esac
    full="cannot write /dev/full"
    expect 3 "$all" "$full"$'\nrow 2: RowZone\n2 rows with faults' convert --keep-going $option /dev/full plain
    "$program" convert --explain --keep-going $option /dev/full plain <column >../out 2>../err || true
    second_line "pzic convert --explain $option /dev/full" '--> /dev/full: no space left on device'
    (
        trap '' XFSZ
        ulimit -f 0
        "$program" convert --explain --keep-going $option filled plain <column 2>&1 >/dev/null
    ) | cat >../err || true
    second_line "pzic convert --explain $option, with no byte of the list" '--> filled: file too large'
    expect 3 "$two" "$full"$'\nrow 4: RowInstant\n'"$noted" convert --keep-going $option /dev/full --max-faults 1 plain
    expect 3 "$one" "$full"$'\nrow 3: TooManyRows\n'"$noted" convert --keep-going $option /dev/full --max-rows 2 plain
    expect 3 "$two" "$full"$'\nrow 4: RowTooLong\n'"$noted" convert --keep-going $option /dev/full --max-record 9 plain
    # The rows before the column is too long are a round, after which the list ends the run.
    expect 3 "$one" "$full"$'\n'"$noted" convert --keep-going $option /dev/full --max-bytes 15 plain
    # No row can be written, so no fault is noted, and the list has nothing to write.
    status=0
    (
        trap '' XFSZ
        ulimit -f 0
        exec "$program" convert --keep-going $option /dev/full plain
    ) <column 2>&1 >../out | cat >../err || status=$?
    told "pzic convert $option /dev/full, with no byte of rows" 3 '' 'cannot write rows'
    # The list ends the run after its first round, though the column has no end.
    status=0
    yes x,0 2>../log | timeout 60 "$program" convert --keep-going $option /dev/full plain 2>../err >/dev/null || status=$?
    sed -i 's/^[0-9]* rows with/N rows with/' ../err
    : >../out
    told "pzic convert $option /dev/full, of a column without end" 3 '' "$full"$'\nrow 1: RowZone\nN rows with faults'
done
# Lists that can't be made are found before the first row.
mkdir folder
for path in '' none/list new/ folder; do
    expect 3 '' "cannot write $path" convert --keep-going --faults "$path" plain
    expect 3 '' "cannot write $path" convert --keep-going --rejects "$path" plain
done
# What is half written is removed, and the earlier list stays.
echo old >list
for option in --faults --rejects; do
    status=0
    text=$(
        trap '' XFSZ
        ulimit -f 0
        "$program" convert --keep-going $option list plain <column 2>&1 >/dev/null
    ) || status=$?
    : >../out
    echo "$text" >../err
    told "pzic convert $option list, with at most 0 bytes a file" 3 '' $'cannot write list\nrow 2: RowZone\n2 rows with faults'
    [ "$(cat list)" = old ] || differ "a list that could not be written holds '$(cat list)'"
done
[ -z "$(find . -name '~pzic*')" ] || differ "lists that could not be written left $(find . -name '~pzic*')"
input=/dev/null

# A folder that may not be written.
rm -rf tree
mkdir tree
chmod 755 . ..
echo old >tree/list
chmod 666 tree/list
chmod 555 tree
status=0
"${run[@]}" "$program" build tree plain >../out 2>../err || status=$?
told 'pzic build into a folder that may not be written' 3 '' 'cannot write tree/Etc/UTC'
for option in --faults --rejects; do
    status=0
    "${run[@]}" "$program" convert --keep-going $option tree/new plain <column >../out 2>../err || status=$?
    told "pzic convert $option into a folder that may not be written" 3 '' 'cannot write tree/new'
done
# An earlier list in it is written where it is.
status=0
"${run[@]}" "$program" convert --keep-going --rejects tree/list plain <column >../out 2>../err || status=$?
told 'pzic convert --rejects, of a list in a folder that may not be written' 5 "$row"$'\n'"$second" $'row 2: RowZone\n2 rows with faults'
[ "$(cat tree/list)" = $'x,0\nEtc/UTC,0.5' ] || differ "the list in a folder that may not be written holds '$(cat tree/list)'"
chmod 755 tree

leave outputs

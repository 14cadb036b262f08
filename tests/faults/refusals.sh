#!/usr/bin/env bash
# Refuses each growth of memory in turn, and all starts of threads from the first on, from the second on, and so forth.
# The runs are tests of tasks of five pieces and of claims, which must still pass, one row of nearly each call of tests/worked, and
# commands of the program, with several numbers of workers and sizes of pieces. If a growth is refused, the answers to rows end
# there, but for lists that are given up without memory, and a command says `out of memory`, or reports the fault that it reports
# otherwise; it may give its whole answer only if the growth was for the start of a worker, or for one of the few things that are
# given up without memory. If threads are refused, it gives its whole answer. It never leaves files or rows that aren't part of its
# whole answer. A `convert` of one zone and of a column of one round starts its workers, all but the calling thread, once, and once
# more for the rows before a fault.
# Where threads run side by side, growths have other numbers in each run. So each growth is refused twice: first while the threads
# run one after the other, each to its end where it is started, so that the numbers of the growths for starts are known from a run
# before; then while they run side by side, where any answer may be whole.
# Needs: cc
set -euo pipefail
cd "$(dirname "${BASH_SOURCE[0]}")/../.."
. tests/common.sh
build zic_main probe program_tests
cc -O2 -shared -fPIC -ftls-model=initial-exec -o "$work/refuse.so" tests/faults/refuse.c

# ------------------------------------------------------------------ tests

# pass CRATE TEST: runs a test, which must pass, with each growth and each start refused in turn.
pass() {
    local kind n
    for kind in GROWTH START; do
        for ((n = 1; ; n++)); do
            if ! timeout 60 env "REFUSE_$kind=$n" "LD_PRELOAD=$work/refuse.so" \
                "crates/$1/out/$1_tests" "$2" >"$work/log" 2>&1; then
                echo "$2, REFUSE_$kind=$n:" >&2
                cat "$work/log" >&2
                exit 1
            fi
            grep -q '^refused' "$work/log" || break
        done
        echo "$2, $kind: $((n - 1)) refused in turn"
    done
}

pass program_tests pieces::values_stand_in_order
pass program_tests pieces::the_least_stop_decides
pass program_tests claims::a_pass_sees_the_report_of_another

# ------------------------------------------------------------------ calls of the library

# But for the calls that change or cut a source in every place, and those that grow nothing.
python3 tests/tables.py --calls tests/worked/*.txt |
    grep -vE '^(calendar|sources changed|sources fronts|strings spans) ' >"$work/calls"
crates/probe/out/probe rows <"$work/calls" >"$work/answers"
spare=0
for ((n = 1; ; n++)); do
    status=0
    timeout 60 env "REFUSE_GROWTH=$n" "LD_PRELOAD=$work/refuse.so" crates/probe/out/probe rows \
        <"$work/calls" >"$work/got" 2>"$work/log" || status=$?
    grep -q '^refused' "$work/log" || break
    # Lists of what the lines of a source share are given up without memory.
    if [ $status = 0 ] && [ $spare -lt 14 ] && cmp -s "$work/got" "$work/answers"; then
        spare=$((spare + 1))
        continue
    fi
    # What finds no memory for its answer says so alone.
    if [ $status = 0 ] || { [ "$(cat "$work/got")" != 'out of memory' ] &&
        [ -s "$work/got" ] && ! cmp -s -n "$(stat -c %s "$work/got")" "$work/got" "$work/answers"; }; then
        echo "rows, REFUSE_GROWTH=$n: status $status" >&2
        diff "$work/answers" "$work/got" >&2
        exit 1
    fi
done
cmp "$work/got" "$work/answers"
echo "$(wc -l <"$work/calls") calls of the library: $((n - 1)) growths refused in turn"

# ------------------------------------------------------------------ commands

program=$PWD/crates/zic_main/out/zic_main
cd "$work"

# Four files of one zone.
printf '%s\n' 'Link B C' 'Link A B' 'Link Etc/UTC A' 'Zone Etc/UTC 0 - UTC' >chain
# Three zones with changes, one of them with a link, and six without.
{
    printf '%s\n' 'Rule US 2007 max - Mar Sun>=8 2:00 1:00 D' 'Rule US 2007 max - Nov Sun>=1 2:00 0 S' 'Link Z/1 Z/0'
    for zone in 1 2 3; do printf 'Zone Z/%d -%d:00 US %%z 2007 Jul 1 0:00\n-%d:00 US E%%sT\n' $zone $zone $((zone + 1)); done
    for zone in 4 5 6 7 8 9; do printf 'Zone Z/%d %d:00 - %%z\n' $zone $zone; done
} >zones
# Nine zones. The fourth has the first fault.
{
    for zone in 1 2 3; do echo "Zone Z/$zone 0 - AAA"; done
    echo 'Zone Z/4 1:00 1:00 XXX'
    for zone in 5 6 7; do echo "Zone Z/$zone 0 - AAA"; done
    echo 'Zone Z/8 0 - AB'
    echo 'Zone Z/9 0 - AAA'
} >faulty
# Nine rows, and then nine of which the fourth and the eighth have faults.
for row in 1 2 3 4 5 6 7 8 9; do echo 'Etc/UTC,0'; done >rows
sed '4s/0$/x/; 8s/.*/No\/Where,0/' rows >stopped

# run VARIABLES WORD...: runs the program, and keeps its output, its files, its status, its messages, and the numbers of the growths
# before starts of threads, if they are told.
run() {
    rm -rf tree
    status=0
    # shellcheck disable=SC2086
    timeout 60 env $1 "LD_PRELOAD=$work/refuse.so" "$program" "${@:2}" <"$input" >out 2>said || status=$?
    mapfile -t lines <said
    refused=()
    starting=()
    words=
    for line in "${lines[@]}"; do
        case $line in
        refused*) refused+=("${line#refused}") ;;
        start*) starting+=("${line#start }") ;;
        *) words=$words$line$'\n' ;;
        esac
    done
}

# Returns whether the files that were written are files of the whole answer, byte for byte.
files_are_right() {
    [ ! -e tree ] || ! diff -rq right.tree tree | grep -qv '^Only in right.tree'
}

is_whole() {
    [ "$status" = "$right_status" ] && [ "$words" = "$right_words" ] && cmp -s out right.out &&
        if [ -e right.tree ]; then diff -r right.tree tree >log; else [ ! -e tree ]; fi
}

is_memory() {
    [ "$status" = 4 ] && [ "$words" = $'out of memory\n' ] && files_are_right &&
        if [ -s out ]; then cmp -s -n "$(stat -c %s out)" out right.out; fi
}

# in_start N: returns whether a thread was started right after the growth of this number.
in_start() {
    [[ " ${before_starts[*]} " == *" $1 "* ]]
}

fail() {
    echo "$1: status $status, $words" >&2
    exit 1
}

# Returns whether a refusal may change nothing. What isn't needed for the answer is given up: in `check`
# and `build` the four lists of what the lines of `zones` share, and in `convert` the block by which the C
# library keeps the memory of rounds, and the list of texts for later rounds, which grows four times.
is_spare() {
    local most=0
    case $1 in
    check | build) most=4 ;;
    convert) most=5 ;;
    esac
    spare=$((spare + 1))
    [ "$spare" -le "$most" ]
}

# every WORD...: refuses each growth and each start in turn.
every() {
    local n whole=0 spare=0
    run 'IN_ORDER=1 TELL_STARTS=1' "$@"
    before_starts=("${starting[@]}")
    rm -rf right.tree
    mv out right.out
    if [ -e tree ]; then mv tree right.tree; fi
    right_status=$status right_words=$words
    for ((n = 1; ; n++)); do
        run "IN_ORDER=1 REFUSE_GROWTH=$n" "$@"
        if [ ${#refused[@]} = 0 ]; then break; fi
        if ! is_memory; then
            is_whole && { [ "$status" = 1 ] || in_start $n || is_spare "$1"; } ||
                fail "$*, IN_ORDER=1 REFUSE_GROWTH=$n, of${refused[0]}"
            whole=$((whole + 1))
        fi
        [ ${#before_starts[@]} != 0 ] || continue
        run REFUSE_GROWTH=$n "$@"
        is_memory || is_whole || fail "$*, REFUSE_GROWTH=$n, of${refused[0]-}"
    done
    growths=$((growths + n - 1)) answered=$((answered + whole))
    for ((n = 1; ; n++)); do
        run REFUSE_START=$n "$@"
        if [ ${#refused[@]} = 0 ]; then break; fi
        is_whole || fail "$*, REFUSE_START=$n"
    done
    starts=$((starts + n - 1))
}

# tell NAME: prints the numbers of refusals so far, and resets them.
tell() {
    echo "$1: $growths growths refused in turn, with $answered whole answers, and starts from $starts on"
    growths=0 answered=0 starts=0
}

growths=0 answered=0 starts=0
input=/dev/null
for workers in 1 2 8; do
    for piece in 1 16; do
        every build --workers $workers --zone-piece $piece tree chain
    done
done
tell 'build of links'
every check --workers 8 chain
every check --workers 1 zones
for workers in 2 8; do
    every build --workers $workers --zone-piece 1 tree zones
done
tell 'check and build of zones'
for workers in 1 8; do
    every check --workers $workers --zone-piece 1 faulty
done
tell 'check of faulty zones'
"$program" build kept zones
every show kept/Z/1 1194156000
tell show
for input in rows stopped; do
    for workers in 1 2 8; do
        for piece in 1 100; do
            before=$starts
            every convert --workers $workers --zone-piece 1 --row-piece $piece chain
            [ $((starts - before)) -lt $((2 * workers)) ] || fail "convert by $workers workers: $((starts - before)) starts"
        done
    done
    tell "convert, $input"
done
# The same rows by files that are read, of which one is refused.
"$program" build zones.tree chain
mkdir zones.tree/No
head -c 100 zones.tree/Etc/UTC >zones.tree/No/Where
for input in rows stopped; do
    for workers in 1 8; do
        every convert --workers $workers --row-piece 1 --tree zones.tree
    done
    tell "convert by a tree, $input"
done
# A list of faults with lines and values, and rows that another release answers otherwise.
echo 'Zone Etc/UTC 1 - CET' >other
for input in rows stopped; do
    every convert --workers 2 --row-piece 1 --keep-going --faults listed --faults-with line,value chain
    every convert --workers 2 --row-piece 1 --against-tree kept chain
    every convert --workers 2 --row-piece 1 --against other --tree zones.tree
    every convert --workers 2 --row-piece 1 --against other --against-summary counted --replace chain
done
tell 'convert with details, and against another release'

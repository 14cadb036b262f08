#!/usr/bin/env bash
# Checks that what is proved once is proved again only where its contents changed, and that a run that is ended leaves nothing.
# Scripts that note each call stand for `rt` and its kit, and a few small crates for those of the program. It looks too at what is
# copied, at large pages of memory, and at what the launcher says.
# Needs: ar
set -euo pipefail
cd "$(dirname "${BASH_SOURCE[0]}")/../.."
. tests/common.sh
work=${work:?}
# Here nothing counts as built.
unset BUILT
mkdir -p "$work"/{bin,tmp,kit/bin,kit/c,house/docs}
cp -r pzic tools "$work/house"
cp -r docs/help "$work/house/docs"
printf '%s 1\n' low zic_main >"$work/house/tools/first-build.txt"
cd "$work"
export PATH=$work/bin:$PATH TMPDIR=$work/tmp LARGE_PAGES=$work/pages NOTED=$work/noted KIT=$work/kit
calls=0 differences=0 proofs=0
: >noted
: >noted.kept

# ------------------------------------------------------------------ what stands for the kit and the crates

# `rt ci` makes of each program a script that prints its source. It fails where a source is wrong, has kept what `noted.kept` names, and
# waits while `noted.waits` is there. Beside its call it notes the edits that it finds, and how large pages are.
cat >bin/rt <<'END'
#!/usr/bin/env bash
[ "$1" != doc ] || { echo "$KIT/START-HERE.md" && exit; }
echo "$* $(find crates -name '*.edit') $(cat "$LARGE_PAGES")" >>"$NOTED"
for crate in $(sed 's/[ :].*//' crates.txt); do
    ! grep -q wrong "crates/$crate"/src/* || { echo "rt: $crate NOT PROVED" && exit 1; }
    mkdir -p "crates/$crate/out"
    if [ -e "crates/$crate/src/main.rt" ]; then
        printf '#!/bin/sh\necho "%s"\n' "$(cat "crates/$crate/src/main.rt")" >"crates/$crate/out/$crate"
        chmod +x "crates/$crate/out/$crate"
    fi
    if grep -qx "$crate" "$NOTED.kept"; then
        echo "rt: $crate is kept: an earlier run proved it"
        sleep 1.5
    else
        echo "rt: $crate proved"
    fi
    if [ -e "$NOTED.waits" ]; then
        echo $$ >"$NOTED.began"
        sleep 60
    fi
done
echo '3 passed, 0 failed'
END
cat >kit/bin/rattle <<'END'
#!/bin/sh
while [ "$1" != -o ]; do shift; done
[ ! -e "$NOTED.builds" ] || { echo $$ >"$NOTED.began" && sleep 60; }
cp src/lib.rt lib.o
ar rcsD "$2" lib.o
rm lib.o
END
echo 'of the heap' >heap.pic.o
ar rcsD kit/c/liblibc_c.a heap.pic.o
chmod +x bin/rt kit/bin/rattle
echo 'Handles allowed: none.' >house/HANDLES
printf '%s\n' '# Crates.' 'low:' 'zic_main may_wait=1: low csv' 'probe: low' 'calls staticlib: low' 'other:' >house/crates.txt
for crate in low zic_main probe calls other; do
    mkdir -p "house/crates/$crate"/{src,must-fail,plants}
    echo "of $crate" | tee "house/crates/$crate"/{src/lib.rt,must-fail/a.edit,plants/b.edit} >out
done
for crate in zic_main probe; do mv "house/crates/$crate/src"/{lib,main}.rt; done

# ------------------------------------------------------------------ what is proved, and when

# run STATUS PROOFS WORD...: runs a command, which has to end with this status, with so many calls of `rt` as told.
run() {
    local wanted=$1 noted
    calls=$((calls + 1)) proofs=$((proofs + $2)) status=0
    shift 2
    echo 'always [madvise] never' >pages
    "$@" >out 2>err || status=$?
    [ "$status" = "$wanted" ] || differ "'$*' has the status $status, and not $wanted: $(cat err)"
    noted=$(for ((n = 0; n < proofs; n++)); do echo 'ci  always'; done)
    [ "$(cat noted)" = "$noted" ] || differ "'$*': rt was called so: $(cat noted)"
    [ "$(cat pages)" != always ] || differ "'$*' leaves large pages"
    [ ! "$(ls tmp)" ] || differ "'$*' leaves $(ls tmp)"
}

# shows TEXT: compares what the last command printed.
shows() { [ "$(cat out)" = "$1" ] || differ "it prints '$(cat out)', and not '$1'"; }

# tells LINE: compares a line of the last command's messages.
tells() { grep -qx -- "$1" err || differ "it has no message '$1': $(cat err)"; }

run 2 0 house/pzic check --help
cmp err house/docs/help/check.txt || differ 'help is another before the program is there'
run 0 0 house/pzic help check
sed '$d' house/docs/help/check.txt | cmp - out || differ 'help of its own is another before the program is there'
run 0 1 house/pzic check -
shows 'of zic_main'
tells 'tools/prove: proved low (1 of 2), about 1 minute left'
tells 'tools/prove: proved zic_main (2 of 2)'
tells 'pzic: to see it at work in two minutes, .*: cd .*/house/crates/zic_main && rt try -- check - <SOURCE'
run 0 0 house/pzic check -
[ ! -s err ] || differ "a second call says '$(cat err)'"

# Neither times nor places are contents, nor what no proof of the program reads.
cp -r house copy
run 0 0 copy/pzic check -
find house -exec touch {} +
run 0 0 house/pzic check -
find house -exec touch -d 2001-01-01 {} +
run 0 0 house/pzic check -
for file in low/must-fail/a low/plants/b probe/src/main calls/src/lib other/src/lib; do echo x >>house/crates/$file.rt; done
sed -i 's/^other:/other: low/; s/^# .*/# Others./' house/crates.txt
run 0 0 house/pzic check -

# What a proof reads, and what was built, are.
echo more >>house/crates/low/src/lib.rt
run 0 1 house/pzic check -
: >house/crates/low/src/new.rt
run 0 1 house/pzic check -
rm house/crates/low/src/new.rt
run 0 1 house/pzic check -
sed -i 's/may_wait=1/may_wait=2/' house/crates.txt
run 0 1 house/pzic check -
echo 'Handles allowed: Threads.' >house/HANDLES
run 0 1 house/pzic check -
rm house/crates/zic_main/out/zic_main
echo low >noted.kept
run 0 1 house/pzic check -
tells 'tools/prove: 1 of 2 proved before, about 1 minute left'
echo 'echo of another' >>house/crates/zic_main/out/zic_main
run 0 1 house/pzic check -
shows 'of zic_main'

# Several crates are proved by one call, and a static library is built.
run 0 1 house/tools/prove zic_main probe calls
tells 'tools/prove: 2 of 3 crates to prove, about 1 minute on .*'
[ "$(house/crates/probe/out/probe)" = "$(cat house/crates/probe/src/main.rt)" ] || differ 'the program probe is another'
ar p house/crates/calls/out/libcalls.a lib.o heap.pic.o | cmp - <(cat house/crates/calls/src/lib.rt heap.pic.o) ||
    differ 'the static library is another'
run 0 0 house/tools/prove calls probe
run 126 0 house/tools/prove zic_main nothing

# ------------------------------------------------------------------ runs that fail, are ended, or run at once

# What was built before stays.
echo 'of a wrong one' >house/crates/zic_main/src/main.rt
run 126 1 house/pzic check -
tells 'rt: zic_main NOT PROVED'
run 126 1 house/pzic check -
[ "$(house/crates/zic_main/out/zic_main)" = 'of zic_main' ] || differ 'a run that failed leaves another program'
echo 'of another' >house/crates/zic_main/src/main.rt

# ended SIGNAL [-]: starts the launcher, and once `rt` is at work sends the signal to it alone, or with a minus to its group.
ended() {
    : >noted.waits
    rm -f noted.began
    # The shell has what it starts in the background ignore interrupts.
    python3 -c '
import os, signal
signal.signal(signal.SIGINT, signal.SIG_DFL)
os.setsid()
os.execl("house/pzic", "house/pzic", "check", "-")' &
    until [ -s noted.began ]; do sleep 0.1; done
    kill -s "$1" -- "${2:-}$!"
    wait $! || status=$?
    ! kill -0 "$(cat noted.began)" 2>/dev/null || differ 'a run that was ended leaves rt'
    rm noted.waits
    return "$status"
}

run 130 1 ended INT
run 130 1 ended INT -
run 143 1 ended TERM
run 143 1 ended HUP -
[ "$(house/crates/zic_main/out/zic_main)" = 'of zic_main' ] || differ 'a run that was ended leaves another program'
[ "$(cd house/crates/zic_main/out && echo *)" = 'prove.log zic_main zic_main.sums' ] || differ "there is $(ls house/crates/zic_main/out)"

# After all is proved, the build of a static library ends with the run.
ended_building() {
    : >noted.builds
    rm -f noted.began
    house/tools/prove calls &
    until [ -s noted.began ] && grep -q 'is being built' err; do sleep 0.1; done
    kill $!
    wait $! || status=$?
    ! kill -0 "$(cat noted.began)" 2>/dev/null || differ 'a run that was ended leaves the build of a library'
    rm noted.builds
    return "$status"
}

echo more >>house/crates/calls/src/lib.rt
run 143 1 ended_building

# Two runs at once are one proof.
both() {
    house/pzic check - &
    house/pzic check -
    wait $!
}
run 0 1 both
shows $'of another\nof another'
leave proving

#!/usr/bin/env bash
# Has two runs of the program build trees of two sources into one folder at the same time, 200 times.
# The sources are the system's release of the tz database, and the same with other abbreviations, with links of each kind. No run may
# fail. Each file must be whole, of the one source or the other, also while the runs write, and nothing may be left over, even if a
# run before them was killed. Half of the pairs start with an existing tree.
# Needs: tzdata
set -euo pipefail
cd "$(dirname "${BASH_SOURCE[0]}")/../.."
. tests/common.sh
build zic_main
program=$PWD/crates/zic_main/out/zic_main
sed 's/%s/X%s/; s/LMT/XMT/' "$release" >"$work/other"
cd "$work"
"$program" build one "$release"
"$program" build two other

# sums TREE TEST..: prints the sums of the files and links below TREE that pass these tests of find.
sums() {
    (cd "$1" && find -L . -type f "${@:2}" -exec sha256sum {} + | sort)
}

# stop TEXT: ends the script, and tells why.
stop() {
    echo "together: pair $pair: $1" >&2
    exit 1
}

{ sums one && sums two; } | sort -u >whole
(cd one && find . -type f | sort) >names
[ "$(wc -l <whole)" -gt $(($(wc -l <names) * 3 / 2)) ] || { echo 'together: the two sources have the same files' >&2 && exit 1; }
kinds=(copy hard symlink)
for ((pair = 1; pair <= 200; pair++)); do
    first=${kinds[pair % 3]} second=${kinds[pair / 3 % 3]}
    [ $((pair % 2)) = 0 ] || rm -rf tree
    if [ $((pair % 5)) = 0 ]; then
        "$program" build --links "$second" tree "$release" &
        sleep "0.0$((pair % 4 + 1))"
        kill -9 $! 2>/dev/null || true
        wait $! 2>/dev/null || true
    fi
    "$program" build --links "$first" tree "$release" 2>one.err & one=$!
    "$program" build --links "$second" tree other 2>two.err & two=$!
    if [ -d tree ]; then sums tree ! -name '~*' >now || true; else : >now; fi
    wait $one || stop "the first run failed: $(head -c 200 one.err)"
    wait $two || stop "the second run failed: $(head -c 200 two.err)"
    torn=$(comm -23 now whole)
    [ ! "$torn" ] || stop "while they ran these weren't whole: $torn"
    torn=$(comm -23 <(sums tree) whole)
    [ ! "$torn" ] || stop "these are left over, or aren't whole: $torn"
    (cd tree && find . ! -type d | sort) | cmp - names || stop 'these are not the files of the sources'
done
echo "together: 200 pairs of runs at once, $(wc -l <names) files each, all of them whole, and nothing left over"

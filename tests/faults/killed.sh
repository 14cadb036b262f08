#!/usr/bin/env bash
# Kills builds at 32 moments, and checks that each file is whole, and that the next build makes the whole tree.
# It checks too that runs have temporary names of their own, and that a conversion that is killed leaves earlier lists, and has
# listed the faults of the rows that are out in temporary files.
set -euo pipefail
cd "$(dirname "${BASH_SOURCE[0]}")/../.."
. tests/common.sh
build zic_main
enter
echo 'Zone Etc/UTC 0 - UTC' >plain
awk 'BEGIN { for (i = 0; i < 2000; i++) printf "Zone Z/%d %d:%02d - %%z\n", i, i / 60 % 24, i % 60 }' >many

# Runs have temporary names of their own: each of these is killed as it writes its first file.
for run in 1 2; do
    (ulimit -c 0 -f 0 && exec "$program" build "killed.$run" plain) || true
    (cd "killed.$run/Etc" && echo *) >"../names.$run"
done 2>../err
grep -qx '~pzic[0-9]*' ../names.1 && ! cmp -s ../names.1 ../names.2 ||
    differ "runs have the temporary names $(cat ../names.1) and $(cat ../names.2)"
start=$(date +%s%N)
expect 0 '' '' build whole many
took=$(($(date +%s%N) - start))
rm -rf tree
mkdir tree
for ((part = 1; part <= 32; part++)); do
    "$program" build tree many &
    sleep "$(printf '%d.%09d' $((took * part / 32 / 1000000000)) $((took * part / 32 % 1000000000)))"
    kill -9 $! || true
    wait $! || true
    find tree -type f ! -name '*~*' | while IFS= read -r name; do
        cmp "$name" "whole/${name#tree/}" || echo "${name#tree/}" >>../broken
    done
done 2>../err
[ ! -e ../broken ] || differ "after builds that were killed, files aren't whole: $(head -n 3 ../broken)"
calls=$((calls + 1))
expect 0 '' '' build tree many
diff -r whole tree >&2 || differ 'a build after those that were killed leaves another tree'

# A conversion is killed while it waits for the next row: the lines of both lists are there, under temporary names.
mkfifo column rows
echo old | tee faults >rejects
"$program" convert --keep-going --faults faults --rejects rejects plain <column >rows 2>../err &
run=$!
exec 3>column 4<rows
printf 'Etc/UTC,x\nNowhere,1\nEtc/UTC,0\n' >&3
IFS= read -r -t 20 row <&4 || true
# The row is read as soon as it is written, perhaps before the lists are.
for _ in {1..100}; do
    [ "$(cat '~pzic'* 2>../no-list | wc -l)" = 4 ] && break
    sleep 0.1
done
kill -9 $run
wait $run 2>../err || true
exec 3>&- 4<&-
calls=$((calls + 1))
[ "$row" = 'Etc/UTC,0,1970-01-01T00:00:00,+00:00:00,0,UTC' ] || differ "the row is '$row'"
[ "$(cat faults rejects)" = $'old\nold' ] || differ "a conversion that was killed left the lists '$(cat faults rejects)'"
for text in $'1,RowInstant\n2,RowZone' $'Etc/UTC,x\nNowhere,1'; do
    found=0
    for list in '~pzic'*; do if [ "$(cat "$list")" = "$text" ]; then found=$((found + 1)); fi; done
    [ "$found" = 1 ] || differ "$found temporary lists hold '$text'"
done
leave killed

#!/usr/bin/env bash
# Compares what `dump` lists for each file of the release with the system's `zdump -i`.
# It does so from 1800 to 2100; and for some files without `--from` and `--to`. Files are named by their zones, too.
# Needs: tzdata, zdump
set -euo pipefail
cd "$(dirname "${BASH_SOURCE[0]}")/../.."
. tests/common.sh
build zic_main
program=$PWD/crates/zic_main/out/zic_main
cd "$work"
"$program" build "$work/tree" "$release"
mapfile -t files < <(find "$work/tree" -type f | sort)
# Files of the same bytes have the same changes, so zdump reads such bytes once.
mkdir by
while read -r sum file; do
    [ -e "by/$sum" ] || zdump -i -c 1800,2100 "$file" >"by/$sum"
    sed "s|^TZ=.*|TZ=\"$file\"|" "by/$sum"
done < <(sha256sum "${files[@]}") >wanted
for file in "${files[@]}"; do
    "$program" dump --from 1800 --to 2100 "$file"
done >got
if ! cmp wanted got; then
    diff wanted got | head -n 20 >&2
    exit 1
fi
for name in Africa/Casablanca America/New_York Antarctica/Troll Asia/Kathmandu Europe/Dublin; do
    zdump -i "$work/tree/$name" >wanted
    "$program" dump "$work/tree/$name" | cmp - wanted
done
# A word that names no file names a zone: of the folder TZDIR, and else of the system's.
echo 'Zone Own/Zone 1 - +01' >own.zi
"$program" build own own.zi
for name in Own/Zone Europe/Dublin; do
    TZDIR=$work/own zdump -i "$name" >wanted
    [ "$name" = Own/Zone ] || zdump -i "$name" >wanted
    TZDIR=$work/own "$program" dump "$name" | cmp - wanted
done
TZDIR=own "$program" show Own/Zone 0 | cmp - <(echo '+01:00:00 0 +01')
env -u TZDIR "$program" show --local Europe/Paris 2026-07-01T12:00:00 | cmp - <(echo '1782900000 +02:00:00 1 CEST')
for name in ./Europe/Dublin ../Europe/Dublin /Europe/Dublin; do
    "$program" show "$name" 0 2>told && status=0 || status=$?
    [ "$status" = 3 ] && [ "$(cat told)" = "cannot read $name" ] || exit 1
done
echo "dump: ${#files[@]} files have the $(grep -c '^[12]' got) changes of zdump -i"

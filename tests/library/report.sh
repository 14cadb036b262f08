#!/usr/bin/env bash
# Makes pages of two releases by `python3 -m pzic.report`, compares them with zoneinfo, and tries them in Chromium. It looks at the
# pictures of matplotlib too.
# Needs: tzdata, cc
# Parts need: chromium, matplotlib
set -euo pipefail
cd "$(dirname "${BASH_SOURCE[0]}")/../.."
. tests/common.sh
build zic_main pzic_c
built=$work/library
./make-library "$built"
changed >"$work/changed.zi"
crates/zic_main/out/zic_main build --release from-source "$work/old" "$release"
crates/zic_main/out/zic_main build "$work/new" "$work/changed.zi"
mkdir "$work/old/Test" "$work/new/Test"
cp "$work/old/Europe/Paris" "$work/old/Test/Refused"
head -c 200 /dev/zero >"$work/new/Test/Refused"
export PZIC_LIBRARY=$built/lib/libpzic.so PYTHONPATH=$PWD/python:$PWD/tests/library
python=python3
if [ -x /usr/bin/python3 ]; then
    python=/usr/bin/python3
fi
"$python" tests/library/report.py "$work/old" "$work/new" "$work"
# Sources give the page of their trees, but for the name of the second.
"$python" -m pzic.report "$release" "$work/changed.zi" --now 1800000000 --out "$work/sources.html"
"$python" -m pzic.report "$work/old" "$work/new" --now 1800000000 --out "$work/trees.html"
facts() { sed -n 's/.*<script type="application\/json" id="data">\(.*\)<\/script>/\1/p' "$1" | "$python" -c '
import json, sys
data = json.load(sys.stdin)
print(data["old"])
for zone in sorted(data["zones"], key=lambda zone: zone["name"]):
    print(zone["name"], zone["from"], zone["until"], zone["kind"], data["changes"][zone["change"]])'; }
diff <(facts "$work/sources.html") <(facts "$work/trees.html" | grep -v '^Test/Refused ')
echo 'report: the same page of sources and of trees'
"$python" -m pzic.report "$work/old" "$work/nothing" --out "$work/none.html" 2>"$work/said" && status=0 || status=$?
[ "$status" = 1 ] && grep -q nothing "$work/said" && [ ! -e "$work/none.html" ]

#!/usr/bin/env bash
# Converts columns of 100,000 rows over all zones of the release, and compares each row with zoneinfo and reader.py.
# It converts by the source and by trees of its files, over the program's files and those of the system's zic, by each option for
# other columns, also compared with another release, whose rows it counts by zone, and short columns and lines with stray double quotes by Python's csv module. It
# compares what `show --local` prints near changes with zoneinfo too, and rows of local times by each choice for gaps and folds, with zoneinfo and the kit's jiff.
# Needs: tzdata, zic
set -euo pipefail
cd "$(dirname "${BASH_SOURCE[0]}")/../.."
. tests/common.sh
build zic_main probe
program=crates/zic_main/out/zic_main
"$program" build "$work/ours" "$release"
changed >"$work/old.zi"
"$program" build "$work/old" "$work/old.zi"
zic -b fat -d "$work/fat" "$release"
zic -b slim -d "$work/slim" "$release"
python3 tests/outside/columns/columns.py "$program" "$release" "$work" | sed 's/^/columns: /'
python3 tests/outside/columns/layouts.py "$program" "$release" "$work" | sed 's/^/columns: /'
python3 tests/outside/columns/tallies.py "$program" "$release" "$work" | sed 's/^/columns: /'
mkdir "$work/lines" "$work/texts"
python3 tests/outside/columns/texts.py "$program" "$work/texts" | sed 's/^/columns: /'
python3 tests/outside/columns/lines.py "$program" "$work/lines" | sed 's/^/columns: /'
python3 tests/outside/columns/local_times.py "$program" "$work" | sed 's/^/columns: /'
python3 tests/outside/columns/local_columns.py "$program" "$release" "$work" crates/probe/out/probe | sed 's/^/columns: /'
python3 tests/outside/columns/tree_columns.py "$program" "$release" "$work" | sed 's/^/columns: /'

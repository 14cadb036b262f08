#!/usr/bin/env bash
# Compares the files of the release, and what the library reads of files, with zic, zoneinfo and reader.py.
# Needs: tzdata, zic, cc
set -euo pipefail
cd "$(dirname "${BASH_SOURCE[0]}")/../.."
. tests/common.sh
build zic_main pzic_c
./make-library "$work/library"
crates/zic_main/out/zic_main build "$work/ours" "$release"
zic -b fat -d "$work/fat" "$release"
zic -b slim -d "$work/slim" "$release"
export PZIC_LIBRARY=$work/library/lib/libpzic.so PYTHONPATH=python:$PYTHONPATH
python3 tests/outside/files.py "$work"

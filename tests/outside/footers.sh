#!/usr/bin/env bash
# Compares the meaning of footers with what glibc and Python's zoneinfo show around each edge from 1970 to 2500.
# They are asked of `parse` and `Footer::state`. The footers are those that the system's zic makes for all zones of the release, and
# those of footers.txt.
# Needs: tzdata, zic
set -euo pipefail
cd "$(dirname "${BASH_SOURCE[0]}")/../.."
. tests/common.sh
build probe
zic -b fat -d "$work/files" "$release"
python3 tests/outside/readers.py crates/probe/out/probe tests/outside/footers.txt "$work/files" | sed 's/^/footers: /'

#!/usr/bin/env bash
# Checks which calls on files `build` and the lists of `convert` make, in which order, and what is done where one of them fails.
# It has each kind of call fail once: those that open, make, write, sync, name, link and remove files, as where other runs make and remove files in
# the same folder.
# Needs: strace
set -euo pipefail
cd "$(dirname "${BASH_SOURCE[0]}")/../.."
. tests/common.sh
build zic_main
python3 tests/faults/calls.py crates/zic_main/out/zic_main | sed 's/^/calls: /'

#!/usr/bin/env bash
# Gives the program small versions of inputs that were made to cost it time or memory, and checks that it stays within bounds.
# They are sources whose lines name one large set, names that share a place of a table, many names of one file, stray quotes and
# long lines, also with `--explain`; and the release, by the commands that compile it or read its tree. The bounds are of
# processor time and memory.
# Parts need: tzdata
# Alone: it measures processor time.
set -euo pipefail
cd "$(dirname "${BASH_SOURCE[0]}")/../.."
. tests/common.sh
build zic_main
mkdir "$work/limits"
python3 tests/faults/limits.py crates/zic_main/out/zic_main "$work/limits" | sed 's/^/limits: /'

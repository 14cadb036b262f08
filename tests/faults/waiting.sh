#!/usr/bin/env bash
# Converts columns that come through a pipe, and checks that each row comes out within two seconds, without a further line.
# They come in short and long lines, in bursts of about 64 KiB and after a byte order mark that comes byte by byte, by each option
# that changes how a column is read.
# Alone: it measures how long rows take.
set -euo pipefail
cd "$(dirname "${BASH_SOURCE[0]}")/../.."
. tests/common.sh
build zic_main
program=crates/zic_main/out/zic_main
echo 'Zone Z 0 - UTC' >"$work/source"
"$program" build "$work/tree" "$work/source"
python3 tests/faults/waiting.py "$program" "$work/source" "$work/tree" | sed 's/^/waiting: /'

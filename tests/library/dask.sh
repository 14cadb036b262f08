#!/usr/bin/env bash
# Converts files by Dask's workers, beside runs of the program.
# A scheduler and three workers on this machine alone convert 20 files, with and without faults, and one worker is killed in the
# middle. The parts are those of one run of the program for each file, octet for octet.
# Needs: tzdata, cc, dask
# Parts need: pandas
# Alone: it has processes and a time limit of its own.
set -euo pipefail
cd "$(dirname "${BASH_SOURCE[0]}")/../.."
. tests/common.sh
build zic_main pzic_c
./make-library "$work/library"
python=python3
if [ -x /usr/bin/python3 ]; then
    python=/usr/bin/python3
fi
export PZIC_LIBRARY=$work/library/lib/libpzic.so PYTHONPATH=$PWD/python
timeout 300 "$python" tests/library/dask_parts.py "$PWD/crates/zic_main/out/zic_main" "$release" "$work"

#!/usr/bin/env bash
# Measures Dask's workers: `dask.sh [ROWS]`, by default 10,000,000 random rows of five zones in 20 files.
#
# pzic.dask converts them by 1 and by 3 workers of one thread each, and pandas' tz_convert in Dask the same rows, by groups of one
# zone, which are written as CSV. Each line has the seconds, once the workers are there, the better of two runs. Needs a quiet
# machine with four cores, `rt`, `cc` and `python3`, and installs Dask and pandas where they aren't there.
set -euo pipefail
. "$(dirname "${BASH_SOURCE[0]}")/common.sh"
has /usr/lib/python3/dist-packages/distributed python3-distributed
has /usr/lib/python3/dist-packages/pandas python3-pandas
./make-library "$work/pzic"
export PZIC_LIBRARY=$work/pzic/lib/libpzic.so PYTHONPATH=$PWD/python
"$python" bench/dask_rows.py "$release" "$work" "${1:-10000000}"

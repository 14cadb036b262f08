#!/bin/sh
# Prints in one run what the table 'Speed' of README.md has: the times of `build` beside zic's, and
# those of `convert` beside C++, Go and Python. Needs a quiet machine, and what the two scripts need.
set -eu
. "$(dirname "$0")/common.sh"
bench/build.sh
RUNS=${RUNS:-5} bench/convert.sh others

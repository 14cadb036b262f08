#!/usr/bin/env bash
# Converts local times by files whose changes are a second apart, compares rows with what the definitions give, change by change, and
# fails where 20,000 rows take as long as a walk over the changes would.
set -euo pipefail
cd "$(dirname "${BASH_SOURCE[0]}")/../.."
. tests/common.sh
build zic_main
mkdir "$work/dense"
python3 tests/faults/dense.py crates/zic_main/out/zic_main "$work/dense" | sed 's/^/dense: /'

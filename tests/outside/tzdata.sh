#!/usr/bin/env bash
# Compares the changes of all zones of the release, up to their explicit ends, with the files of the system's zic.
# It compares the numbers of Rule, Zone, continuation and Link lines with those that awk counts too.
# Needs: tzdata, zic
set -euo pipefail
cd "$(dirname "${BASH_SOURCE[0]}")/../.."
. tests/common.sh
build probe
fail() {
    echo "tzdata.zi: got '$1', and not '$2'" >&2
    exit 1
}

got=$(crates/probe/out/probe counts <"$release")
# In such a release each keyword is cut to one letter. Lines that begin with none are continuations.
want=$(awk '/^R /{r++} /^Z /{z++} /^L /{l++} !/^[RZL#]/ && NF {c++}
    END {printf "%d rules, %d zones, %d continuations, %d links\n", r, z, c, l}' "$release")
[ "$got" = "$want" ] || fail "$got" "$want"
echo "tzdata.zi: $got"

crates/probe/out/probe changes <"$release" >"$work/changes" || fail "$(tail -n 1 "$work/changes")" "the changes of all zones"
zic -b fat -d "$work/files" "$release"
got=$(python3 tests/outside/changes.py "$work/changes" "$work/files") || fail "$got" "0 differences"
want=$(awk '/^Z /{z++} END {printf "%d zones\n", z}' "$release")
[ "${got%%,*}" = "$want" ] || fail "$got" "$want"
echo "tzdata.zi: $got from $(zic --version)"

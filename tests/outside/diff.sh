#!/usr/bin/env bash
# Compares what `diff` lists for two sources with the spans at which zoneinfo over their trees differs, both
# ways: the release, and the same with other rules, abbreviations and names; and small random sources. No
# source differs from itself. Compares
# what `diff --summary` lists with such spans up to 500 years after the last transitions, and what
# `--group-links` lists with the lines of each name and the bytes of its files.
# Needs: tzdata
set -euo pipefail
cd "$(dirname "${BASH_SOURCE[0]}")/../.."
. tests/common.sh
build zic_main
program=$PWD/crates/zic_main/out/zic_main
witness=$PWD/tests/outside/differences.py
summaries=$PWD/tests/outside/summaries.py
pairs=$PWD/tests/outside/pairs.py
groups=$PWD/tests/outside/groups.py
cp "$release" "$work/old"
cd "$work"
changed >new
for source in old new; do
    "$program" build "$source.tree" "$source"
    "$program" diff "$source" "$source" >none
    [ ! -s none ] || { echo "diff: $source differs from itself" >&2 && exit 1; }
done

# compare OLD NEW FROM TO [WHAT]
compare() {
    local ignored=()
    [ ! "${5-}" ] || ignored=(--ignore "$5")
    "$program" diff --from "$3" --to "$4" "${ignored[@]}" "$1" "$2" >listing
    IFS=, read -ra words <<<"${5-}"
    python3 "$witness" "$1.tree" "$2.tree" "$3" "$4" listing "${words[@]}"
}

# summarize OLD NEW NOW|- [WHAT]
summarize() {
    local chosen=()
    [ "$3" = - ] || chosen=(--now "$3")
    [ ! "${4-}" ] || chosen+=(--ignore "$4")
    "$program" diff --summary "${chosen[@]}" "$1" "$2" >listing
    IFS=, read -ra words <<<"${4-}"
    python3 "$summaries" "$1.tree" "$2.tree" "$3" listing "${words[@]}"
}

echo "diff: $(compare old new 1850 2045)"
echo "diff, the other way: $(compare new old 1990 2030)"
echo "diff, offsets alone: $(compare old new 2000 2015 daylight,abbreviation)"
for seed in 1 2 3 4; do
    python3 "$pairs" "$seed" one other
    rm -rf one.tree other.tree
    "$program" build one.tree one
    "$program" build other.tree other
    echo "diff, random sources: $(compare one other 1900 2100)"
    echo "summary, random sources: $(summarize one other -)"
    echo "summary, random sources, offsets alone: $(summarize other one 0 daylight,abbreviation)"
done
echo "summary: $(summarize old new -), and from 2027 on: $(summarize old new 1800000000)"
# Zones that differ before 1900; after 2400 for a year, and from then on; by the days of rules each year, and only in leap years
# whose February ends on a Sunday; for a second; and not at all, but in how they are written.
cat >was <<'EOF'
Rule T 2007 max - Mar Sun>=8 2:00 1:00 D
Rule T 2007 max - Nov Sun>=1 2:00 0 S
Rule F 2007 max - Feb lastSun 2:00 1:00 D
Rule F 2007 max - Nov Sun>=1 2:00 0 S
Zone P/before 0:01 - LMT 1890
1 - AAA
Zone P/year 1 - AAA
Zone P/after 1 - AAA
Zone P/days -5:00 T E%sT
Zone P/leap -5:00 F E%sT
Zone P/second 1 - AAA 2000
2 - BBB
Zone P/same 1 - AAA
Zone P/old 1 - OLD
EOF
cat >now <<'EOF'
Rule T 2007 2030 - Mar Sun>=8 2:00 1:00 D
Rule T 2031 max - Mar Sun>=1 2:00 1:00 D
Rule T 2007 max - Nov Sun>=1 2:00 0 S
Rule F 2007 max - Feb Sun>=22 2:00 1:00 D
Rule F 2007 max - Nov Sun>=1 2:00 0 S
Zone P/before 0:02 - LMT 1890
1 - AAA
Zone P/year 1 - AAA 2450
2 - BBB 2451
1 - AAA
Zone P/after 1 - AAA 2450
2 - BBB
Zone P/days -5:00 T E%sT
Zone P/leap -5:00 F E%sT
Zone P/second 1 - AAA 2000 Jan 1 0:00:01
2 - BBB
Zone P/same 1 - AAA 2000
1 - AAA
Zone P/new 1 - NEW
EOF
for source in was now; do "$program" build "$source.tree" "$source"; done
echo "summary, edges: $(summarize was now -), $(summarize was now 946681200) and $(summarize now was 15178917599)"
"$program" diff --summary old old | cmp - /dev/null
# trees, whose names come in another order
cmp <("$program" diff --trees old.tree new.tree | sort) <("$program" diff old new | sort)
cmp <("$program" diff --summary --trees --now 0 old.tree new.tree | sort) <("$program" diff --summary --now 0 old new | sort)
"$program" diff --trees old.tree old.tree | cmp - /dev/null
"$program" verify --strict old.tree old
# names that share lines, of a release whose links have other targets
sed 's/^L Europe\/London GB$/L Europe\/Paris GB/' new >relinked
"$program" build relinked.tree relinked
for options in '' --summary; do
    # shellcheck disable=SC2086
    "$program" diff --trees $options old.tree relinked.tree >apart
    # shellcheck disable=SC2086
    "$program" diff --trees $options --group-links old.tree relinked.tree >together
    echo "diff, links together: $(python3 "$groups" old.tree relinked.tree apart together)"
done
for workers in 1 2 64; do
    "$program" diff --workers "$workers" old new | cmp - <("$program" diff old new)
done

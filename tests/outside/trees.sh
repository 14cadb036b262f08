#!/usr/bin/env bash
# Checks that trees are the same by all numbers of workers and with links of each kind, and reads them with glibc, zoneinfo and jiff.
# The trees are of the release, of the release cut into three texts, and of the largest source. That the files show what zic's do is
# checked by files.sh.
# Needs: tzdata
set -euo pipefail
cd "$(dirname "${BASH_SOURCE[0]}")/../.."
. tests/common.sh
build zic_main probe
program=crates/zic_main/out/zic_main

same() {
    if ! diff -r "$work/$1" "$work/$2" >"$work/log"; then
        echo "the trees $1 and $2 differ:" >&2
        head -n 20 "$work/log" >&2
        exit 1
    fi
}

# trees NAME SOURCE...: checks that the trees by 1, 4 and 64 workers, and by 1, 16 and all zones a
# piece, are equal, and prints the number of files.
trees() {
    local workers piece name=$1
    shift
    "$program" build "$work/$name" "$@"
    for workers in 1 4 64; do
        for piece in 1 16 65536; do
            "$program" build --workers "$workers" --zone-piece "$piece" "$work/again" "$@"
            same "$name" again
            rm -r "$work/again"
        done
    done
    echo "trees: $(find "$work/$name" -type f | wc -l) files of $name are the same by 1, 4 and 64 workers, a zone, 16 and all of them a piece"
}

trees release "$release"

# The rules, the zones with their continuation lines, and the links.
awk -v "folder=$work" '/^R/ { print > (folder "/rules"); next } /^L/ { print > (folder "/links"); next } { print > (folder "/zones") }' "$release"
"$program" build "$work/texts" "$work/rules" "$work/zones" "$work/links"
same release texts
echo "trees: the same of three texts, of its rules, zones and links"

# The largest source: 10,000 rules of ten sets, 5,000 zones of two lines each, 5,000 links.
awk 'BEGIN {
    for (i = 0; i < 10000; i++)
        printf "Rule R%d %d only - %s\n", i % 10, 1500 + i / 20, int(i / 10) % 2 ? "Jul 1 0:00 0 S" : "Jan 1 0:00 1:00 D"
    for (i = 0; i < 5000; i++)
        printf "Zone Area%d/City%d %d:%02d - LMT 1900\n0 R%d X%%sT\nLink Area%d/City%d Alias%d/City%d\n", i % 50, i, i / 60 % 24, i % 60, i % 10, i % 50, i, i % 50, i
}' >"$work/largest.zi"
trees largest "$work/largest.zi"

# Each link of the release, the zone at the end of its chain, and the way there from the link's folder.
awk '/^L/ { target[$3] = $2 }
    END {
        for (name in target) {
            for (zone = target[name]; zone in target;) zone = target[zone]
            way = name
            gsub(/[^\/]/, "", way)
            gsub(/\//, "../", way)
            print name, zone, way zone
        }
    }' "$release" >"$work/ends"

# is_link KIND NAME ZONE WAY: tells whether a name of the tree `linked` is such a link to the zone.
is_link() {
    local path=$work/linked/$2
    case $1 in
    copy) [ "$(stat -c '%h %F' "$path")" = '1 regular file' ] ;;
    hard) [ "$(stat -c '%i %F' "$path")" = "$(stat -c '%i regular file' "$work/linked/$3")" ] ;;
    symlink) [ "$(readlink "$path")" = "$4" ] && [ ! -L "$work/linked/$3" ] ;;
    esac
}

for kind in hard hard symlink symlink copy symlink hard copy; do
    "$program" build --links "$kind" "$work/linked" "$release"
    same release linked
    while read -r name zone way; do
        is_link "$kind" "$name" "$zone" "$way" || { echo "trees: with --links $kind, $name is another" >&2 && exit 1; }
    done <"$work/ends"
    [ ! "$(find "$work/linked" -name '~*')" ] || { echo "trees: --links $kind leaves files over" >&2 && exit 1; }
done
echo "trees: $(wc -l <"$work/ends") links are copies, hard links or symbolic links of the same bytes, over each other"

"$program" build "$work/worked" tests/outside/worked.zi
for tree in worked release; do
    python3 tests/outside/trees.py "$work/$tree" crates/probe/out/probe | sed "s/^/trees, $tree: /"
done

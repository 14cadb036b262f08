#!/usr/bin/env bash
# Makes the Debian package, installs it into a folder of its own, and tries what was installed.
# It makes the package twice, and checks that the bytes are the same. It installs it as root by `dpkg --root`, over a list of packages
# that has only libc6, else by `dpkg-deb -x`, and removes it at the end. It tries each command, the manual page, the completions, the
# library from C and from Python, the notices, the links of the pages, and what lintian says. As root the program runs by `chroot`, with
# nothing there but the package and the files of libc6 that the program is linked with.
# Needs: tzdata, dpkg-deb, cc, pkg-config. Parts need: root, man, zsh, lintian
set -euo pipefail
cd "$(dirname "${BASH_SOURCE[0]}")/../.."
. tests/common.sh
build zic_main pzic_c
work=${work:?} release=${release:?}
root=$work/root
differences=0

differ() {
    echo "$1" >&2
    differences=$((differences + 1))
}

# expect OUTPUT COMMAND...: compares the output of a command with the expected one.
expect() {
    local wanted=$1 got status=0
    shift
    got=$("$@" 2>&1) || status=$?
    [ "$got" = "$wanted" ] ||
        differ "'$*' prints '${got:0:300}' with status $status, and not '${wanted:0:300}'"
}

# ------------------------------------------------------------------ installing

mkdir "$work/again" "$root"
export DEBFULLNAME='The maintainers' DEBEMAIL=maintainers@pzic.example.org
package=$(./make-package "$work")
cmp "$package" "$(./make-package "$work/again")" >&2 || differ 'two packages of the same tree differ'
# Images of containers often configure dpkg to leave out documents.
in_root=(dpkg --root="$root" --log="$work/dpkg.log" --path-include='/*')
if [ "$(id -u)" = 0 ]; then
    how='dpkg --root, run by chroot'
    mkdir -p "$root"/var/lib/dpkg/{info,updates}
    dpkg-query -s libc6 >"$root/var/lib/dpkg/status"
    "${in_root[@]}" -i "$package" >"$work/log" 2>&1 || differ "dpkg: $(tail -n 3 "$work/log")"
    expect '' "${in_root[@]}" --verify pzic
    libc=$(dpkg-query -L libc6)
    for file in $(ldd "$root/usr/bin/pzic" | grep -o '/[^ ]*'); do
        grep -qxF -- "$file" <<<"$libc" || differ "the program needs $file, which isn't of libc6"
        install -D "$file" "$root$file"
    done
    pzic=(env -i "$(command -v chroot)" "$root" /usr/bin/pzic)
else
    how='dpkg-deb -x'
    echo "skipped: the package by dpkg and chroot: this isn't root"
    dpkg-deb -x "$package" "$root"
    pzic=(env -i "$root/usr/bin/pzic")
fi
share=$root/usr/share
# Of the program only the table of symbols is left out, which isn't loaded.
strip --strip-unneeded -o "$work/stripped" crates/zic_main/out/zic_main
cmp "$work/stripped" "$root/usr/bin/pzic" >&2 || differ 'the package has another program'
# The file of notices has each licence in full, so that a package that is unpacked has them too.
full=copyright-file-contains-full-apache-2-license,copyright-not-using-common-license-for-apache2
! has 'what lintian says of the package' lintian ||
    expect '' lintian --no-user-dirs --allow-root --suppress-tags "$full" "$package"

# ------------------------------------------------------------------ the program

cp "$release" "$root/release.zi"
printf '%s\n' America/New_York,1173596399 America/New_York,1173596400 >"$work/column"
rows='America/New_York,1173596399,2007-03-11T01:59:59,-05:00:00,0,EST
America/New_York,1173596400,2007-03-11T03:00:00,-04:00:00,1,EDT'
names=$(awk '/^Z/ { print $2 } /^L/ { print $3 }' "$release" | sort)

names_of_check() { "${pzic[@]}" check release.zi | cut -d ' ' -f 1 | sort; }
names_of_tree() { (cd "$root/tree" && find . -type f | cut -c 3- | sort); }

expect "$(cat docs/help/version.txt)" "${pzic[@]}" --version
cd "$root"
expect "$names" names_of_check
expect '' "${pzic[@]}" build tree release.zi
expect "$names" names_of_tree
expect '-04:00:00 1 EDT' "${pzic[@]}" show tree/America/New_York 1173596400
expect "$rows" "${pzic[@]}" convert release.zi <"$work/column"
expect '2007-03-11 03:00:00 EDT' \
    env TZDIR="$root/tree" TZ=America/New_York date -d @1173596400 '+%F %T %Z'
cd "$OLDPWD"

# ------------------------------------------------------------------ what lies beside it

manual_name() { LC_ALL=C man --warnings -l "$share/man/man1/pzic.1.gz" | sed -n '/^NAME/{n;s/ *- .*//p}'; }
completed() {
    bash -c '
        . "$1" && complete -p pzic
        COMP_WORDS=(pzic "$2") COMP_CWORD=1
        _pzic
        printf "%s\n" "${COMPREPLY[@]}"' bash "$share/bash-completion/completions/pzic" "$1"
}

if has 'how man shows the manual page' man; then expect '       pzic' manual_name; fi
expect $'complete -o filenames -F _pzic pzic\nshow' completed sh
! has 'the completions of zsh' zsh || expect '' zsh -n "$share/zsh/vendor-completions/_pzic"
# README.md names each library whose notice is in the package.
named=$(sed -n '/^## .*licence/,$p' README.md)
for crate in $(sed -n 's/^---- //p' "$share/doc/pzic/copyright"); do
    grep -qw -- "$crate" <<<"$named" || differ "README.md doesn't name $crate, which has a notice"
done
for page in "$share"/doc/pzic/README.md "$share"/doc/pzic/docs/*.md; do
    for link in $(grep -oE '\]\([^)#: ]+' "$page" | cut -c 3-); do
        [ -e "${page%/*}/$link" ] || differ "${page##*/} links to $link, which isn't in the package"
    done
done

# ------------------------------------------------------------------ the library

cat >"$work/offset.c" <<'END'
#include <pzic.h>
#include <stdio.h>
int main(int count, char **words) {
    static uint8_t bytes[1 << 20];
    FILE *file = fopen(words[count - 1], "rb");
    pzic_handle zone = {0};
    pzic_state state;
    uint32_t reason;
    if (!file || pzic_zone_read(bytes, fread(bytes, 1, sizeof bytes, file), &zone, &reason)) return 1;
    if (pzic_zone_at(&zone, 1173596400, &state)) return 1;
    printf("%d %s\n", state.offset, state.name);
    pzic_free(&zone);
}
END
offset_by() {
    # shellcheck disable=SC2046
    cc -Wall -Werror "$work/offset.c" -o "$work/offset" "$@" $(PKG_CONFIG_PATH=$root/usr/lib/pkgconfig pkg-config \
        --keep-system-cflags --keep-system-libs --cflags --libs pzic)
    LD_LIBRARY_PATH=$root/usr/lib "$work/offset" "$root/tree/America/New_York"
}
offset_in_python() {
    PZIC_LIBRARY=$root/usr/lib/libpzic.so PYTHONPATH=$root/usr/lib/python3/dist-packages python3 -B -c '
import pzic, sys
print(pzic.Tree.open(sys.argv[1])["America/New_York"].utcoffset(1173596400))' "$root/tree"
}
expect '-14400 EDT' offset_by
expect '-14400 EDT' offset_by -static
expect -14400 offset_in_python
cmp include/pzic.h "$root/usr/include/pzic.h" >&2 || differ 'the package has another header'

# ------------------------------------------------------------------ removing

if [ "$(id -u)" = 0 ]; then
    "${in_root[@]}" -P pzic >"$work/log" 2>&1 || differ "dpkg: $(tail -n 3 "$work/log")"
    [ ! -e "$root/usr" ] || differ "the package leaves $(find "$root/usr" | tail -n 1)"
fi

echo "installed: ${package##*/} by $how, $differences differences"
[ "$differences" = 0 ]

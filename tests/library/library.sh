#!/usr/bin/env bash
# Tests the library from C, C++, Go, Python, Rust and SQLite, beside other readers.
# It tests the headers as C99, C11, C17 and C++17; the calls from C, under the sanitizers of addresses and of undefined behaviour and under
# that of threads, beside the C library's own reader, and from C++; the extension of SQLite; the Python package beside Python's zoneinfo, its
# objects, its zones in pandas, its types, and as pip installs it; and the examples of docs/LIBRARY.md in each language.
# Needs: tzdata, cc, c++, nm, pkg-config
# Parts need: clang, sqlite3ext.h, sqlite3, valgrind, pandas, test_zoneinfo, mypy, python3.8, python3-config, pip, go, rustc
set -euo pipefail
cd "$(dirname "${BASH_SOURCE[0]}")/../.."
. tests/common.sh
build zic_main pzic_c
built=$work/library tree=$work/zones
./make-library "$built"
crates/zic_main/out/zic_main build "$tree" "$release"

# The headers, as each standard has them, and the version.
IFS=. read -r first second third < <(sed -n 's/^pzic //p' docs/help/version.txt)
grep -qx "#define PZIC_VERSION $((10000 * first + 100 * second + third))" include/pzic.h
strict=(-Wall -Wextra -Wconversion -pedantic -Werror -I include -fsyntax-only)
for header in pzic.h pzic_tree.h; do
    echo "#include \"$header\"" >"$work/alone.c"
    for compiler in cc clang; do
        has "the headers by $compiler" "$compiler" || continue
        for standard in c99 c11 c17; do "$compiler" "-std=$standard" "${strict[@]}" "$work/alone.c"; done
    done
    c++ -std=c++17 "${strict[@]}" -x c++ "$work/alone.c"
done
echo '#include "pzic.hpp"' >"$work/alone.cpp"
c++ -std=c++17 "${strict[@]}" "$work/alone.cpp"

# The calls from C. The twenty zones are such that their rules differ.
zones=(Europe/Dublin America/New_York Africa/Casablanca Asia/Gaza America/Nuuk Australia/Lord_Howe
    Asia/Tehran Pacific/Apia Antarctica/Troll Europe/London America/St_Johns Asia/Kathmandu
    Africa/Cairo America/Santiago Pacific/Auckland Asia/Tokyo Africa/Monrovia Europe/Lisbon
    America/Scoresbysund Asia/Manila)
wrap=(-Wl,--wrap=malloc -Wl,--wrap=realloc)
for tools in 'cc address,undefined' 'cc thread' 'clang thread'; do
    read -r compiler sanitizers <<<"$tools"
    has "the calls from C by $tools" "$compiler" || continue
    "$compiler" -std=gnu11 -O1 -g -Wall -Wextra -Wconversion -Werror "-fsanitize=$sanitizers" \
        -fno-sanitize-recover=all -I include tests/library/library.c "$built/lib/libpzic.a" "${wrap[@]}" -lpthread -o "$work/calls"
    got=$("$work/calls" "$tree" "${zones[@]}")
    [ "$got" = "${#zones[@]} zones" ] || { echo "library: $tools: got '$got'" >&2; exit 1; }
    echo "library: C, $tools: $got"
done

# The calls from C++.
c++ -std=c++17 -fno-exceptions -O1 -g -Wall -Wextra -Wshadow -Wconversion -Werror -fsanitize=address,undefined \
    -fno-sanitize-recover=all -I include tests/library/library.cpp "$built/lib/libpzic.a" -o "$work/calls"
"$work/calls" "$tree" | sed 's/^/library: C++: /'

# The stack that each call uses.
cc -std=gnu11 -O1 -Wall -Wextra -Wconversion -Werror -I include tests/library/library_stack.c "$built/lib/libpzic.a" -lpthread \
    -o "$work/stack"
"$work/stack" "$tree/America/New_York" | sed 's/^/library: /'

# The shared library has the calls that the header declares, and no other name.
nm -D --defined-only "$built/lib/libpzic.so" | awk '{ print $3 }' | sort >"$work/names"
sed -n 's/^\(int32_t\|uint32_t\|void\) \(pzic_[a-z_]*\)(.*/\2/p' include/pzic.h | sort >"$work/declared"
diff "$work/declared" "$work/names"

# Python. Debian's own may have numpy and pandas.
export PZIC_LIBRARY=$built/lib/libpzic.so PYTHONPATH=$PWD/python
python=python3
if [ -x /usr/bin/python3 ]; then
    python=/usr/bin/python3
fi
has_pandas=
if "$python" -c 'import pandas' 2>"$work/log"; then has_pandas=1; else echo "skipped: arrays, columns and tables of numpy and pandas: pandas isn't there"; fi

# add_c PYTHON: prints the folder of a copy of the package that has its part in C for this Python, or nothing without headers.
add_c() {
    local headers suffix folder
    { read -r headers; read -r suffix; } < <("$1" -c 'import sysconfig as s; print(s.get_path("include"), s.get_config_var("EXT_SUFFIX"), sep="\n")')
    [ -e "$headers/Python.h" ] || return 0
    folder=$work/in_c$suffix
    if [ ! -e "$folder" ]; then
        cp -r python "$folder"
        cc -O2 -shared -fPIC -Wall -Wextra -Werror -I "$headers" python/pzic/_fast.c -o "$folder/pzic/_fast$suffix"
    fi
    echo "$folder"
}
# in_c PYTHON SCRIPT WORD...: runs a script with the part in C.
in_c() {
    local folder
    folder=$(add_c "$1")
    [ -n "$folder" ] || { echo "skipped: ${2##*/} with the part in C: $1 has no Python.h" && return 0; }
    PYTHONPATH=$folder "$1" -c 'import pzic._fast'
    PYTHONPATH=$folder "$@"
}
# in_both PYTHON SCRIPT WORD...: runs a script without the part in C, and with it.
in_both() {
    PZIC_PURE_PYTHON=1 "$@"
    in_c "$@"
}
# Without the part in C it takes twice the time.
PZIC_PURE_PYTHON=1 "$python" tests/library/library.py "$tree" 8
in_c "$python" tests/library/library.py "$tree"
in_both "$python" tests/library/python_objects.py "$tree"
"$python" tests/library/schedules.py "$tree"
if [ "$has_pandas" ]; then
    "$python" tests/library/pandas_day.py "$tree"
    in_both "$python" tests/library/row_zones.py "$tree"
fi

# The extension of SQLite, from Python, and from its own program under valgrind.
extension=$built/lib/pzic_sqlite.so
if [ ! -e "$extension" ]; then
    echo "skipped: the extension of SQLite: sqlite3ext.h isn't there"
else
    "$python" tests/library/sqlite_local.py "$tree" "$extension"
    if has 'the extension of SQLite, under valgrind' sqlite3 valgrind; then
        cat >"$work/asked.sql" <<END
.load ${extension%.so}
SELECT pzic_open('$tree') = '$tree';
SELECT pzic_local('Europe/Dublin', 1720000000), pzic_offset('Asia/Tokyo', 0), pzic_abbreviation('Etc/UTC', 5);
SELECT pzic_instant('Europe/Dublin', '2024-10-27 01:30', 'later'), pzic_local(NULL, 1);
SELECT pzic_local('Nowhere', 0);
SELECT sum(pzic_offset('America/New_York', value * 100000)) FROM (
    WITH RECURSIVE n(value) AS (SELECT 0 UNION ALL SELECT value + 1 FROM n LIMIT 20000) SELECT value FROM n);
END
        valgrind -q --leak-check=full --errors-for-leak-kinds=definite --error-exitcode=9 \
            sqlite3 :memory: <"$work/asked.sql" >"$work/answered" 2>"$work/log" && status=0 || status=$?
        grep -q 'no such zone' "$work/log" && [ "$status" -ne 9 ] || { cat "$work/log" >&2; exit 1; }
        head -n 3 "$work/answered" | diff - <(printf '1\n2024-07-03 10:46:40|32400|UTC\n1729992600|\n')
        echo 'library: the extension of SQLite, under valgrind'
    fi
fi

# CPython's tests of zoneinfo. Debian has them in a package of their own.
tests='from test.test_zoneinfo import test_zoneinfo'
for tester in "$python" python3 none; do
    ! "$tester" -c "$tests" 2>"$work/log" || break
done
if [ "$tester" = none ]; then
    echo "skipped: CPython's tests of zoneinfo: test_zoneinfo isn't there"
else
    in_both "$tester" tests/library/zoneinfo_tests.py TimeZone
    "$tester" tests/library/zoneinfo_tests.py ZoneInfo
fi

# The types, for the oldest Python and for this one.
if has 'the types of the Python package' mypy; then
    for version in 3.8 "$("$python" -c 'import sys; print("%d.%d" % sys.version_info[:2])')"; do
        mypy --strict --python-version "$version" --cache-dir "$work/mypy" python/pzic | sed 's/^/library: mypy: /'
        MYPYPATH=python mypy --strict --python-version "$version" --cache-dir "$work/mypy" tests/library/typed_calls.py >"$work/log" ||
            { cat "$work/log" >&2; exit 1; }
    done
fi

# The oldest Python, which has no zoneinfo.
oldest=
for candidate in python3.8 "${PYENV_ROOT:-$HOME/.pyenv}"/versions/3.8.*/bin/python; do
    ! "$candidate" -c '' 2>"$work/log" || { oldest=$candidate; break; }
done
if [ -n "$oldest" ]; then in_both "$oldest" tests/library/oldest.py "$tree"; else echo "skipped: the oldest Python: python3.8 isn't there"; fi

# As pip installs it, from its folder, as a wheel and as a source distribution, each into a new environment, without a network.
has_pip() {
    "$python" -c 'import setuptools, wheel, pip, ensurepip' 2>"$work/log"
}
in_venv() {
    env -u PZIC_LIBRARY -u PYTHONPATH "$work/$1/bin/python" -c "$2" "$tree"
}
offline=(--quiet --no-index --no-build-isolation)
# Makes a source distribution, and a wheel of it with the library that is made of the sources in it.
make_of_sources() {
    local name sources
    mkdir "$work/checkout"
    for name in make-library crates.txt HANDLES crates tools include sqlite docs; do ln -s "$PWD/$name" "$work/checkout/"; done
    cp -r python "$work/checkout/python"
    (cd "$work/checkout/python" && "$python" setup.py -q sdist -d "$work/sdist") 2>"$work/log"
    tar -xzf "$work"/sdist/pzic-*.tar.gz -C "$work/sdist"
    sources=$(echo "$work"/sdist/pzic-*/source)
    # They are what was proved, so they aren't proved once more.
    mkdir -p "$sources/crates/pzic_c/out"
    cp crates/pzic_c/out/libpzic_c.a "$sources/crates/pzic_c/out"
    diff <(cd "$sources" && tools/sums pzic_c) <(tools/sums pzic_c)
    env -u PZIC_LIBRARY "$python" -m pip wheel "${offline[@]}" --no-deps -w "$work/source_wheels" "${sources%/source}"
    "$python" -m venv "$work/by_sources"
    "$work/by_sources/bin/pip" install --quiet --no-index "$work"/source_wheels/pzic-*.whl
}
install_by_pip() {
    local name wheel got want is_fast
    cp -r python "$work/package"
    "$python" -m venv --system-site-packages "$work/by_folder"
    "$work/by_folder/bin/pip" install "${offline[@]}" "$work/package"
    "$python" -m pip wheel "${offline[@]}" --no-deps -w "$work/wheels" "$work/package"
    # The wheel says for which Python it is: with the part in C, for one.
    is_fast=False
    [ -z "$(add_c "$python")" ] || is_fast=True
    wheel=$(cd "$work/wheels" && echo *.whl)
    case $is_fast,$wheel in
    True,pzic-*-cp[0-9]*-cp[0-9]*-linux_*.whl | False,pzic-*-py3-none-linux_*.whl) ;;
    *) echo "library: the wheel has the name $wheel" >&2 && exit 1 ;;
    esac
    PZIC_PURE_PYTHON=1 "$python" -m pip wheel "${offline[@]}" --no-deps -w "$work/pure_wheels" "$work/package"
    "$python" -m venv "$work/by_wheel"
    "$python" -m venv "$work/pure"
    "$work/by_wheel/bin/pip" install --quiet --no-index "$work/wheels/$wheel"
    "$work/pure/bin/pip" install --quiet --no-index "$work"/pure_wheels/pzic-*-py3-none-linux_*.whl
    make_of_sources
    for name in by_folder by_wheel by_sources pure; do
        [ "$name" != pure ] || is_fast=False
        want="$(sed -n 's/^pzic //p' docs/help/version.txt) True 3600 $is_fast"
        got=$(in_venv "$name" '
import pzic, sys
offset = pzic.Tree.open(sys.argv[1])["Europe/Dublin"].utcoffset(0)
print(pzic.__version__, pzic.__file__.startswith(sys.prefix), offset, "pzic._fast" in sys.modules)')
        [ "$got" = "$want" ] || { echo "library: $name: got '$got', and not '$want'" >&2; exit 1; }
    done
    # It is imported within 100 ms of processor time, the least of ten runs.
    got=$(for _ in 1 2 3 4 5 6 7 8 9 10; do
        in_venv by_wheel 'from time import process_time as now; t = now(); import pzic; print(int((now() - t) * 1000))'
    done | sort -n | head -n 1)
    [ "$got" -lt 100 ] || { echo "library: importing pzic takes $got ms" >&2; exit 1; }
    echo "library: Python, as pip installs it, imported within $got ms"
}
if has_pip; then install_by_pip; else echo "skipped: the Python package as pip installs it: pip isn't there"; fi

# The examples of the page.
export PKG_CONFIG_PATH=$built/lib/pkgconfig LD_LIBRARY_PATH=$built/lib
"$python" tests/library/examples.py docs/LIBRARY.md "$work" "$built" "$tree"

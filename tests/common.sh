# Sourced by the tests and by the scripts that need built programs, from the top of the repository.
work=$(mktemp -d)
trap 'rm -rf "$work"' EXIT
# A folder with a file for each crate that is proved and built. All tests of one run share it.
export BUILT=${BUILT:-$work}
# The tests import what is in tests/outside, and tables.py.
export PYTHONPATH=$PWD/tests:$PWD/tests/outside PYTHONDONTWRITEBYTECODE=1
PATH=$PATH:/usr/sbin
# The system's release of the tz database.
release=/usr/share/zoneinfo/tzdata.zi

# changed: prints the release with other days of rules, an abbreviation of Irish time, local mean times by a second, a name
# less and a name more.
changed() {
    sed -e 's/Su>=8/Su>=2/; s/^Z America\/Bogota /Z America\/Medellin /; s/ IST\/GMT/ IRS\/GMT/' \
        -e 's/^\(Z E[^ ]* [^ ]*:[0-9]*:[0-9]\)[0-9] /\17 /' -e '/ America\/Bogota /d' "$release"
}

# build CRATE...: proves and builds crates, where that isn't done yet. tests/run reads these lines of all
# tests that it runs, and has their crates built before the first.
build() {
    tools/prove "$@" || exit
}

# has WHAT COMMAND...: returns whether all these commands are there. If not, says that this part of the
# test is skipped, and tests/run counts it.
has() {
    local what=$1 word
    shift
    for word in "$@"; do
        command -v "$word" >"$work/found" || { echo "skipped: $what: $word isn't there" && return 1; }
    done
}

# ------------------------------------------------------------------ calls of the program

# enter: goes into an empty folder, and makes ready for calls of the program, which is built. They read
# from `input`, and what they print goes to ../out and ../err.
enter() {
    program=$PWD/crates/zic_main/out/zic_main
    calls=0 differences=0 input=/dev/null
    mkdir "$work/asked"
    cd "$work/asked"
}

differ() {
    echo "$1" >&2
    differences=$((differences + 1))
}

# ask WORD...: runs the program.
ask() {
    status=0
    "$program" "$@" <"$input" >../out 2>../err || status=$?
}

# told CALL STATUS OUT ERR: compares the last call's status, its output and its messages with the
# expected ones.
told() {
    calls=$((calls + 1))
    printf '%s' "${3:+$3$'\n'}" >../out.wanted
    printf '%s' "${4:+$4$'\n'}" >../err.wanted
    [ "$status" != "$2" ] || ! cmp -s ../out ../out.wanted || ! cmp -s ../err ../err.wanted || return 0
    differ "$1: status $status, '$(head -c 200 ../out)', '$(head -c 200 ../err)', and not $2, '$3', '$4'"
}

# expect STATUS OUT ERR WORD...: runs the program and compares its result with the expected one.
expect() {
    ask "${@:4}"
    told "pzic ${*:4}" "$1" "$2" "$3"
}

# expect_tree FOLDER TEXT: compares what `check` prints of the files of a folder, in the order of their names.
expect_tree() {
    local got
    got=$(cd "$1" 2>../err && find . -type f | sort | while IFS= read -r file; do
        echo "${file#./} $(wc -c <"$file") $(tail -n 1 "$file")"
    done) || true
    [ "$got" = "$2" ] || differ "$1: $(printf '%s' "$got" | head -c 300), and not $(printf '%s' "$2" | head -c 300)"
}

# leave NAME: prints the numbers of calls and differences. The status is 1 if there are differences.
leave() {
    echo "$1: $calls calls, $differences differences"
    [ "$differences" = 0 ]
}

# Sourced by the scripts of this folder. Changes to the top of the repository, and makes the folder
# $work, in memory if there is a file system for it. The folder is removed at the end. Commands read
# the file $input.
cd "$(dirname "$0")/.."
PATH=$PATH:/usr/sbin
if [ -d /dev/shm ]; then work=$(mktemp -d -p /dev/shm); else work=$(mktemp -d); fi
trap 'rm -rf "$work"' EXIT
trap 'exit 130' INT
trap 'exit 143' HUP TERM
release=/usr/share/zoneinfo/tzdata.zi
probe=crates/probe/out/probe
input=/dev/null
# Debian's own Python may have numpy.
python=python3
[ ! -x /usr/bin/python3 ] || python=/usr/bin/python3

# build CRATE...: proves and builds crates, where that isn't done yet.
build() {
    tools/prove "$@" || exit
}

# has FILE PACKAGE: tells whether a file of a Debian package is there. Installs the package first if
# that is needed, and says so if it can't be had.
has() {
    [ ! -e "$1" ] || return 0
    if apt-get update -qq >&2 && DEBIAN_FRONTEND=noninteractive apt-get install -y -qq "$2" >&2; then return 0; fi
    echo "$2 can't be had" >&2
    return 1
}

# plain NAME: builds a program in plain Rust from bench/NAME.rs, with the last part of the name in $work.
plain() {
    rustc --edition 2021 -C opt-level=3 -o "$work/${1##*/}" "bench/$1.rs"
}

# best COMMAND...: prints the nanoseconds that a command takes, the best of five runs.
best() {
    least=
    for _ in 1 2 3 4 5; do
        start=$(date +%s%N)
        "$@" <"$input" >"$work/out"
        took=$(($(date +%s%N) - start))
        if [ -z "$least" ] || [ "$took" -lt "$least" ]; then least=$took; fi
    done
    echo "$least"
}

# show NAME NANOSECONDS: prints a time in milliseconds.
show() {
    printf '%s: %d.%03d ms\n' "$1" $(($2 / 1000000)) $(($2 / 1000 % 1000))
}

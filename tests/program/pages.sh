#!/usr/bin/env bash
# Compares the pages for users with the program, and pages with what they are made of.
# It
# - runs each command in the `console` blocks of README.md, docs/USING.md, docs/ZIC.md and
#   docs/SCALE.md as it is printed, and compares the output with the lines below it. A block after a
#   comment `<!-- needs: COMMAND.. -->` is skipped if one of the commands is missing;
# - tries each example of docs/errors.txt, and compares docs/ERRORS.md and the texts of `explain`
#   with what is made of it;
# - compares the pages of help, the completions, the manual page and USING with what tools/options
#   makes, gives the program each option with each of its words, and tries the completions in bash and
#   zsh;
# - prints the index of promises and public functions, and looks for functions without an edit or a
#   test;
# - checks links, the length of README.md, the words of all pages, and the names in docs/PROOF.md.
# Needs: tzdata. Parts need: parallel, zsh, psql, sqlite3, man
set -euo pipefail
cd "$(dirname "${BASH_SOURCE[0]}")/../.."
. tests/common.sh
build zic_main pzic_c
repository=$PWD
work=${work:?}
log=$work/differences
: >"$log"
export LC_ALL=C TZ=UTC0
page='' name=''

differ() {
    echo "$1" >&2
    echo "${1//$'\n'/ }" >>"$log"
}

# Creates a home directory for the commands that follow, and installs the program there.
enter_home() {
    export HOME=$work/home/$1
    export PATH=$HOME/.local/bin:$PATH
    install -D "$repository/crates/zic_main/out/zic_main" "$HOME/.local/bin/pzic"
    printed=$HOME/printed
    mkdir -p "$HOME/run" && cd "$HOME/run"
}

has_commands() {
    local word
    for word in "$@"; do command -v "$word" >"$work/found" || return 1; done
}

# Starts a PostgreSQL server with its own data, for the blocks that need `psql`.
start_postgres() {
    local bin user
    bin=$(pg_config --bindir) && [ -x "$bin/initdb" ] || return 1
    server=$work/server
    mkdir -p "$server" && chmod 777 "$server"
    run=()
    if [ "$(id -u)" = 0 ]; then
        user=$(id -u postgres) || return 1
        run=(setpriv --reuid "$user" --regid "$user" --clear-groups)
        chmod 711 "$work" "$work/home" "$HOME" "$HOME"/.local "$HOME"/.local/bin
    fi
    postgres=("${run[@]}" "$bin/pg_ctl" -D "$server/data" -w)
    {
        "${run[@]}" "$bin/initdb" -D "$server/data" -U postgres -A trust --no-sync &&
            "${postgres[@]}" -l "$server/log" -o "-k $server -h '' -F" start
    } >"$work/postgres.log" 2>&1 || return 1
    stop_postgres=("${postgres[@]}" -m immediate stop)
    export PGHOST=$server PGUSER=postgres PGDATABASE=postgres
}

# ------------------------------------------------------------------ commands as they are printed

# Runs the current command, and compares its output with the expected one.
answer() {
    [ "$command" ] || return 0
    (exit "$status")
    eval "$command" >"$printed" 2>&1 </dev/null
    status=$?
    commands=$((commands + 1))
    printf '%s' "$wanted" | cmp -s "$printed" - ||
        differ "$page: '$command' prints '$(head -c 300 "$printed")', and not '$(printf '%s' "$wanted" | head -c 300)'"
    command='' wanted=''
}

# Returns whether a block that needs these commands can be run.
is_wanted() {
    has_commands "$@" || return 1
    if [[ " $* " == *' psql '* ]] && [ ! "${PGHOST:-}" ]; then start_postgres || return 1; fi
}

# Makes files with the names of IANA's releases from the system's release.
make_tzdata() {
    mkdir tzdata
    touch tzdata/{africa,antarctica,asia,australasia,europe,northamerica,southamerica}
    touch tzdata/{etcetera,factory,backward}
    grep '^L' "$release" >tzdata/backward
    grep -v '^[L#]' "$release" >tzdata/africa
}

# run_page PAGE: runs the blocks of a page, in a folder with the files that a checkout installs.
run_page() (
    set +eu
    page=$1 state=text needs='' command='' wanted='' status=0 commands=0 left_out='' stop_postgres=()
    trap '[ "${#stop_postgres[@]}" = 0 ] || "${stop_postgres[@]}" >>"$work/postgres.log" 2>&1' EXIT
    enter_home "${page##*/}" || exit
    ln -s "$repository"/{make-package,crates,man,completions,docs} .
    ln -s crates/zic_main/out/zic_main pzic
    make_tzdata
    while IFS= read -r line || [ "$line" ]; do
        case $state:$line in
        'text:<!-- needs: '*' -->') needs=${line#<!-- needs: } needs=${needs% -->} ;;
        'text:```console')
            # shellcheck disable=SC2086
            if is_wanted $needs; then state=block; else state=other left_out+=" $needs"; fi
            ;;
        'text:```'*) state=other ;;
        'block:```')
            answer
            state=text needs=
            ;;
        'other:```') state=text needs= ;;
        block:'$ '*)
            answer
            command=${line#'$ '}
            ;;
        block:'> '*)
            # A continued command, or a line of output that begins with `> `.
            if [ "$wanted" ]; then wanted+=$line$'\n'; else command+=$'\n'${line#'> '}; fi
            ;;
        block:*) wanted+=$line$'\n' ;;
        esac
    done <"$repository/$page"
    [ ! "$left_out" ] || echo "skipped: blocks of $page that need$left_out"
    echo "pages: $commands commands of $page are run"
)

# ------------------------------------------------------------------ examples of errors

# Prints the commands of an example. For a source, writes it and prints the command to check it.
commands_of() {
    case $1 in
    '$ '*) sed 's/^[$>] //' <<<"$1" ;;
    *)
        printf '%s\n' "$1" >example.zi
        echo 'pzic check example.zi'
        ;;
    esac
}

# Tries the current entry.
try_entry() {
    [ ! "$setup" ] || eval "$(commands_of "$setup")" || differ "the commands for $name fail"
    if [ "$wrong" ]; then
        eval "$(commands_of "$wrong")" >"$printed" 2>&1
        [ "$(tail -n 1 "$printed")" = "$prints" ] ||
            differ "$name: the wrong example prints '$(tail -n 1 "$printed")', and not '$prints'"
        local words=${name% PATH}
        [[ $prints = *"${words% NAME}"* || $name = usage ]] || differ "$name isn't in '$prints'"
    fi
    if [ "$right" ]; then
        eval "$(commands_of "$right")" >"$printed" 2>"$printed.err" || echo "status $?" >>"$printed.err"
        [ ! -s "$printed.err" ] ||
            differ "$name: the right example is refused by '$(cat "$printed.err")'"
    fi
    examples=$((examples + 1)) setup='' wrong='' prints='' right=''
}

try_errors() (
    set +eu
    name='' setup='' wrong='' prints='' right='' examples=0
    enter_home errors || exit
    # Each line of what errors.py prints is the assignments of an entry.
    while IFS= read -r line; do
        eval "$line"
        try_entry
    done < <("$repository/tools/errors.py" examples)
    echo "pages: the examples of $examples entries of errors.txt are tried"
)

# All pages run at the same time, since USING.md waits for a database server.
parts=()
for page in README.md docs/USING.md docs/ZIC.md docs/SCALE.md; do
    run_page "$page" &
    parts+=($!)
done
try_errors &
for part in "${parts[@]}" $!; do wait "$part" || differ 'a page or the examples were not run to their end'; done
cmp -s <(tools/errors.py page) docs/ERRORS.md || differ 'docs/ERRORS.md is not what tools/errors.py makes'
for part in source_texts other_texts cases; do
    file=crates/zic_explain/src/$part.rt
    cmp -s <(tools/errors.py "$part") "$file" || differ "$file is not what tools/errors.py makes"
done
# A terminal of 80 columns shows each line as it stands.
for page in docs/errors.txt docs/help/*.txt; do
    awk 'length > 80 { print; bad = 1 } END { exit bad }' "$page" >&2 ||
        differ "$page has lines of more than 80 characters"
done
# `explain` lists each of them, and has the words of ERRORS.md for it.
pzic=crates/zic_main/out/zic_main
sed -n 's/^## //p' docs/errors.txt | cmp -s - <("$pzic" explain | cut -d : -f 1) ||
    differ '`pzic explain` has other names than docs/errors.txt'
"$pzic" explain >"$work/listed"
for line in 'NotAscii: A byte outside a comment is .*' 'RowZone: The source has no zone or link of that name\.'; do
    grep -qx -- "$line" "$work/listed" || differ "\`pzic explain\` has no line '$line'"
done
while IFS= read -r name; do
    "$pzic" explain "$name" >"$work/explained" 2>"$work/told" || differ "$name is not explained"
    [ ! -s "$work/told" ] || differ "explain $name says '$(cat "$work/told")'"
    tools/errors.py explain "$name" | cmp -s - "$work/explained" || differ "$name is explained otherwise than in docs/errors.txt"
done < <(sed -n 's/^## //p' docs/errors.txt)
# Each name of an error in the sources of the program has an entry.
kinds=(crates/zic_base/src/fault.rt crates/zic_base/src/row_fault.rt crates/zic_tzif/src/reason.rt)
for kind in $(sed -n 's/^    \([A-Z][A-Za-z]*\) = [0-9]*,$/\1/p' "${kinds[@]}"); do
    grep -qx "## $kind" docs/errors.txt || differ "docs/errors.txt doesn't have $kind"
done

# ------------------------------------------------------------------ manual page and completions

options_of() {
    grep -oE -- '--[a-z][a-z-]*' "docs/help/$1.txt" | sort -u
}

tools/options --check >"$work/lacks" || differ "$(cat "$work/lacks")"
# The parser takes each option: what it refuses is the word after it.
while read -ra call; do
    "$pzic" "${call[@]}" --frobnicate >"$work/out" 2>"$work/told" && status=0 || status=$?
    [ "$status" = 2 ] && grep -qF "unexpected argument '--frobnicate'" "$work/told" || differ "pzic ${call[*]} --frobnicate says '$(cat "$work/told")'"
done < <(tools/options calls)
for page in docs/help/*.txt; do
    name=$(basename "$page" .txt)
    if [ "$name" = version ]; then
        for word in --version -V; do
            "$pzic" $word | cmp -s - "$page" || differ "pzic $word prints another text than $page"
        done
    else
        grep -q '^Example:$' "$page" || differ "$page has no example"
        # The program prints the pages too that the launcher prints before anything is built.
        for word in --help -h; do
            # shellcheck disable=SC2086
            "$pzic" ${name/#pzic/} $word >"$work/out" 2>"$work/told" && status=0 || status=$?
            [ "$status" = 2 ] && [ ! -s "$work/out" ] && cmp -s "$work/told" "$page" || differ "pzic $name $word prints another page"
        done
        # shellcheck disable=SC2086
        "$pzic" help ${name/#pzic/} | cmp -s - <(sed '$d' "$page") || differ "pzic help $name prints another page"
    fi
    grep -qx -- "\.B $name" man/pzic.1 || [[ $name = @(pzic|version) ]] || differ "man/pzic.1 doesn't tell of the command $name"
done
if has 'how man shows the manual page' man; then
    man --warnings -l man/pzic.1 >"$work/page" 2>"$work/warnings" ||
        differ 'man can not show man/pzic.1'
    [ ! -s "$work/warnings" ] || differ "man/pzic.1: $(head -n 3 "$work/warnings")"
fi
# Prints the completions of bash for some words.
completed() {
    bash -c '
        . completions/pzic.bash
        COMP_WORDS=("$@") COMP_CWORD=$(($# - 1))
        _pzic
        printf "%s\n" "${COMPREPLY[@]}"' bash "$@" | sort
}
for name in check build verify diff convert show dump export explain help; do
    words=$(completed pzic "$name" --)
    [ "$words" = "$(options_of "$name")" ] || differ "bash completes 'pzic $name --' by '$words'"
done
words=$(completed pzic '')
[ "$words" = $'build\ncheck\nconvert\ndiff\ndump\nexplain\nexport\nhelp\nshow\nverify' ] || differ "bash completes 'pzic' by '$words'"
printf 'Zone Test/One 1 - CET\nZone Test/Two 2 - EET\n' >"$work/two.zi"
mkdir "$work/bin"
ln -s "$PWD/$pzic" "$work/bin/pzic"
words=$(PATH=$work/bin:$PATH completed pzic convert "$work/two.zi" --zone Test/T)
[ "$words" = Test/Two ] || differ "bash completes a zone of a source by '$words'"
# Prints the line that zsh makes of another one by the key Tab.
completed_by_zsh() {
    # shellcheck disable=SC2016
    timeout 60 zsh -f -c '
        zmodload zsh/zpty
        zpty shell zsh -f -i
        zpty -w shell "fpath=($PWD/completions \$fpath); autoload -Uz compinit; compinit -u -D; bindkey \"^I\" complete-word"
        zpty -w shell "show() { print -r -- \$BUFFER >$2; BUFFER=exit; zle accept-line }; zle -N show; bindkey \"^O\" show"
        zpty -w -n shell "$1"$'\''\t\x0f'\''
        while zpty -r shell line; do :; done' zsh "$1" "$work/line"
    cat "$work/line"
}
if has 'the completions of zsh' zsh; then
    zsh -n completions/_pzic || differ 'zsh can not read completions/_pzic'
    line=$(PATH=$work/bin:$PATH completed_by_zsh "pzic convert $work/two.zi --zone Test/T")
    [ "$line" = "pzic convert $work/two.zi --zone Test/Two " ] || differ "zsh completes a zone of a source to '$line'"
fi

# ------------------------------------------------------------------ the pages themselves

# Kits that have the same logic prove the same.
logic=$(rt version | grep -o 'logic [0-9a-f]*' | head -n 1)
for page in README.md docs/help/version.txt; do
    grep -qF -- "${logic:-no logic}" "$page" || differ "$page doesn't name the kit's $logic"
done
[ "$(wc -l <README.md)" -le 180 ] || differ "README.md has $(wc -l <README.md) lines"
tools/words 28000 >"$work/out" || differ "the pages have more than 28000 words: $(tail -n 1 "$work/out")"
# Prints the anchors of a page's headings.
anchors_of() {
    sed -n 's/^##* //p' "$1" | tr '[:upper:] ' '[:lower:]-' | tr -cd '[:lower:][:digit:]_\n-'
}
# check_links PAGE FOLDER: checks the links of a page that has its place in a folder.
check_links() {
    local link file
    for link in $(grep -oE '\]\([^): ]+' "$1" | cut -c 3- | sort -u); do
        file=${link%%#*}
        if [ "$file" ]; then file=$2/$file; else file=$1; fi
        if [ ! -e "$file" ]; then
            differ "$1 links to $file, which isn't there"
        elif [[ $link = *'#'* ]]; then
            grep -qx -- "${link#*#}" <<<"$(anchors_of "$file")" ||
                differ "$1 links to $link, and $file has no such heading"
        fi
    done
}

tools/make-index.py >"$work/index" || differ 'tools/make-index.py can not print the index'
for page in README.md docs/*.md; do check_links "$page" "$(dirname "$page")"; done
check_links "$work/index" docs
tools/make-index.py --check >"$work/lacks" || differ "tools/make-index.py finds: $(cat "$work/lacks")"
# PROOF.md and the heads of the crates' sources name only definitions that exist, and PROOF.md lists every crate.
find crates/*/specs -name '*.antt' -exec cat {} + | grep -oE '[A-Z][A-Za-z]+' | sort -u >"$work/definitions"
verbs='Is|Are|Writes|Converts|Answers|Reads|Goes|Gives|Shows|Means|Spells|Counts|Takes|Yields|Columns|Reports'
verbs+='|May|Image|Compile|Needs|Notes|Ends|Holds|Has|Appends|Keeps|Within|On|If'
{ cat docs/PROOF.md && grep -h '^//!' crates/*/src/lib.rt; } | grep -oE "\`($verbs)[A-Za-z]*\`" | tr -d '`' | sort -u |
    comm -23 - "$work/definitions" >"$work/unknown"
[ ! -s "$work/unknown" ] || differ "docs/PROOF.md or the head of a crate names what no definition is: $(tr '\n' ' ' <"$work/unknown")"
for crate in $(sed -n 's/^\(zic_[a-z_]*\).*:.*/\1/p' crates.txt); do
    grep -q "^- \[$crate\](../crates/$crate/src/" docs/PROOF.md || differ "docs/PROOF.md doesn't list $crate"
done

echo "pages: $(wc -l <"$log") differences"
[ ! -s "$log" ]

#!/usr/bin/env bash
# Checks that the program overwrites nothing by surprise.
# It has standard streams that are closed, lists of faults that are another file of the command, runs that stop before their rows,
# names that look like leftovers of `build`, files of an earlier build, symbolic links that would lead to no file, control
# characters in words, and trees with pipes and devices. It checks too that `build --sync` syncs each file and folder, and
# `convert` its lists, by `strace`, how the program is linked,
# by `readelf`, and that 512 KiB of stack are enough. As root, it makes leftovers of another user.
# Parts need: strace, readelf, root, tzdata
set -euo pipefail
cd "$(dirname "${BASH_SOURCE[0]}")/../.."
. tests/common.sh
build zic_main
enter

# holds FILE TEXT: compares a file with what it has to hold.
holds() {
    calls=$((calls + 1))
    [ "$(cat "$1" 2>/dev/null)" = "$2" ] || differ "$1 holds '$(head -c 200 "$1")', and not '$2'"
}

# convert WORD...: converts the column `column`.
convert() {
    status=0
    timeout 20 "$program" convert "$@" <column >../out 2>../err || status=$?
}

# refused WORD...: expects that the words are refused, for a reason that begins with `the FILE of` and the option, with a
# hint at the help of `convert`.
refused() {
    calls=$((calls + 1))
    [ "$status" = 2 ] && grep -q '^error: the FILE of --[a-z-]* is ' ../err &&
        grep -qx "For more information, try 'pzic convert --help'\." ../err ||
        differ "$*: status $status, '$(head -c 200 ../err)', and not 2 with a word on FILE"
}

echo 'Zone Etc/UTC 0 - UTC' >utc.zi
echo 'Zone Etc/UTC 0 -' >faulty.zi
printf 'Etc/UTC,0\nNo,0\n' >column
row=Etc/UTC,0,1970-01-01T00:00:00,+00:00:00,0,UTC
rows=$row$'\nNo,0,,,,'
faults=$'row 2: RowZone\n1 row with a fault'

# ------------------------------------------------------------------ standard streams that are closed

for words in 'convert --keep-going --faults list utc.zi' 'convert --keep-going utc.zi' 'check utc.zi'; do
    rm -f list
    status=0
    # shellcheck disable=SC2086
    "$program" $words <column 2>../err >&- || status=$?
    : >../out
    case $words in
    check*) told "pzic $words >&-" 3 '' 'cannot write output' ;;
    *) told "pzic $words >&-" 3 '' 'cannot write rows' ;;
    esac
    [ ! -s list ] || differ "pzic $words >&- wrote '$(cat list)' into the list"
done
status=0
"$program" convert --progress --keep-going --faults list utc.zi <column >../out 2>&- || status=$?
: >../err
told 'pzic convert --progress --faults list 2>&-' 1 "$rows" ''
holds list 2,RowZone
status=0
"$program" convert --keep-going --faults list utc.zi >../out 2>../err <&- || status=$?
told 'pzic convert --faults list <&-' 3 '' 'cannot read column'
status=0
"$program" convert --progress --keep-going --faults list utc.zi <&- >&- 2>&- || status=$?
: >../out
: >../err
told 'pzic convert --faults list <&- >&- 2>&-' 3 '' ''
[ ! -s list ] || differ "without standard streams the list holds '$(cat list)'"

# ------------------------------------------------------------------ the file of --faults

"$program" build --release one tree utc.zi
echo table >tree/zone1970.tab
for list in column utc.zi tree/Etc/UTC tree/+VERSION tree/zone1970.tab; do
    ln -f "$list" name
    ln -sf "$list" symbolic
    cp "$list" ../before
    for path in "$list" name symbolic; do
        case $list in
        tree/*) convert --keep-going --faults "$path" --tree tree ;;
        *) convert --keep-going --faults "$path" utc.zi ;;
        esac
        refused "pzic convert --faults $path, of $list"
        cmp -s "$list" ../before || differ "pzic convert --faults $path changed $list"
    done
done
"$program" build released utc.zi
for path in released/+VERSION released/zone.tab released/../released/+VERSION; do
    convert --keep-going --faults "$path" --tree released
    refused "pzic convert --faults $path, which isn't there yet"
    [ ! -e "$path" ] || differ "pzic convert made $path"
done
convert --keep-going --faults /dev/stdin utc.zi
refused 'pzic convert --faults /dev/stdin'
convert --keep-going --faults ../out utc.zi
refused 'pzic convert --faults ../out >../out'
for path in ../err /dev/stderr; do
    convert --keep-going --faults "$path" utc.zi
    refused "pzic convert --faults $path 2>../err"
done
for path in /dev/stdin ../out ../err utc.zi tree/Etc/UTC; do
    convert --keep-going --rejects "$path" utc.zi
    refused "pzic convert --rejects $path"
done
convert --keep-going --faults utc.zi --against utc.zi --tree tree
refused 'pzic convert --faults utc.zi --against utc.zi'
convert --keep-going --rejects tree/+VERSION --against-tree tree utc.zi
refused 'pzic convert --rejects tree/+VERSION --against-tree tree'
for path in /dev/stdin ../out ../err utc.zi tree/Etc/UTC tree/+VERSION; do
    convert --against-summary "$path" --against-tree tree utc.zi
    refused "pzic convert --against-summary $path"
done
echo old >list
ln -f list name
for path in list name ./list; do
    for option in --faults --rejects; do
        convert --keep-going $option list --against-summary "$path" --against-tree tree utc.zi
        refused "pzic convert $option list --against-summary $path"
    done
    convert --keep-going --faults list --rejects "$path" utc.zi
    refused "pzic convert --faults list --rejects $path"
done
holds list old
rm list name
# One file that isn't there yet.
mkdir folder
ln -s new dangling
ln -s folder named
while read -r path other; do
    convert --keep-going --faults "$path" --rejects "$other" utc.zi
    refused "pzic convert --faults $path --rejects $other, which aren't there"
done <<'END'
new ./new
./new new
folder/../new new
folder/new folder//new
folder/new named/new
dangling new
new dangling
END
calls=$((calls + 1))
[ ! -e new ] && [ -z "$(ls -A folder)" ] || differ "a conversion that was refused left '$(ls -A . folder)'"
rm dangling named
# Where nothing says what standard streams are, no earlier file is taken for a list.
libraries=()
if [ "$(id -u)" = 0 ] && has 'a system without /proc and /dev' chroot ldd; then
    mapfile -t libraries < <(ldd "$program" | grep -o '/[^ ]*')
    mkdir bare
    cp --parents -L "${libraries[@]}" bare
    cp "$program" utc.zi column bare
    for option in --faults --rejects; do
        status=0
        chroot bare /zic_main convert --keep-going $option column utc.zi <bare/column >../out 2>../err || status=$?
        refused "pzic convert $option column <column, without /proc and /dev"
        cmp -s column bare/column || differ "pzic convert $option column changed the column"
        status=0
        chroot bare /zic_main convert --keep-going $option new utc.zi <bare/column >../out 2>../err || status=$?
        calls=$((calls + 1))
        [ -s bare/new ] || differ "pzic convert $option new, without /proc and /dev: status $status, and no list"
        rm -f bare/new
    done
else
    echo "skipped: a system without /proc and /dev: this isn't root"
fi
status=0
"$program" convert --keep-going --faults /dev/stdout utc.zi <column 2>../err | cat >../piped || status=${PIPESTATUS[0]}
refused 'pzic convert --faults /dev/stdout, a pipe'
[ ! -s ../piped ] || differ "pzic convert --faults /dev/stdout wrote '$(cat ../piped)'"
status=0
"$program" convert --keep-going --faults /dev/null utc.zi <column >/dev/null 2>../err || status=$?
: >../out
told 'pzic convert --faults /dev/null >/dev/null' 1 '' "$faults"

# A list of an earlier run, and runs that stop before their rows.
echo old >list
convert --keep-going --faults list faulty.zi
told 'pzic convert --faults list faulty.zi' 1 '' 'line 1: FieldCount'
holds list old
convert --keep-going --faults list nowhere.zi
told 'pzic convert --faults list nowhere.zi' 3 '' 'cannot read nowhere.zi'
holds list old
convert --keep-going --faults list --zone No --time-field 2 utc.zi
told 'pzic convert --faults list --zone No' 2 '' 'unknown zone No'
holds list old
convert --keep-going --faults list --tree nowhere
told 'pzic convert --faults list --tree nowhere' 3 '' 'cannot read nowhere'
holds list old
convert --keep-going --faults none --zone No --time-field 2 utc.zi
told 'pzic convert --faults none --zone No' 2 '' 'unknown zone No'
[ ! -e none ] || differ 'a run that stopped before its rows made a list'
calls=$((calls + 1))
[ -z "$(find . -name '~pzic*')" ] || differ "a run that stopped before its rows left $(find . -name '~pzic*')"
convert --keep-going --faults list utc.zi
told 'pzic convert --faults list utc.zi' 1 "$rows" "$faults"
holds list 2,RowZone
echo 0 >column
convert --keep-going --faults list --zone Etc/UTC utc.zi
told 'pzic convert --faults list, without faults' 0 "$row" ''
holds list ''
printf 'Etc/UTC,0\nNo,0\n' >column

# A list replaces what a symbolic link leads to, and has the permissions of the earlier one. Other links keep that.
echo old >folder/list
chmod 600 folder/list
ln folder/list other
ln -s folder/list symbolic.list
convert --keep-going --rejects symbolic.list utc.zi
told 'pzic convert --rejects, of a symbolic link' 5 "$row" "$faults"
holds folder/list No,0
holds other old
calls=$((calls + 1))
[ -L symbolic.list ] && [ "$(stat -c %a folder/list)" = 600 ] && [ "$(ls -A folder)" = list ] ||
    differ "a list by a symbolic link left '$(ls -lA folder symbolic.list)'"
# An open file is written as it is, since others know it by its descriptor.
exec 3>opened
convert --keep-going --rejects /dev/fd/3 utc.zi
exec 3>&-
holds opened No,0
# Records are mended while they are read: the list is long enough that it isn't read at once.
awk 'BEGIN { for (i = 0; i < 100000; i++) print (i % 2 ? "UTC," : "No,") i }' >bad
grep No bad >../wanted
status=0
sed 's/^UTC/Etc\/UTC/' bad | "$program" convert --keep-going --rejects bad utc.zi >../out 2>../err || status=$?
calls=$((calls + 1))
[ "$status" = 5 ] && cmp -s bad ../wanted && [ "$(wc -l <../out)" = 50000 ] ||
    differ "mended records: status $status, $(wc -l <bad) records and $(wc -l <../out) rows, and not 50000 of each"

# ------------------------------------------------------------------ leftovers of build

mkdir leftovers
for name in '~pzic' '~pzic1' '~pzic12x' '~pzic34'; do : >"leftovers/$name"; done
kept='~pzic ~pzic12x'
if [ "$(id -u)" = 0 ]; then
    chown nobody 'leftovers/~pzic34'
    kept='~pzic ~pzic12x ~pzic34'
else
    echo "skipped: leftovers of another user: this isn't root"
fi
echo 'Zone UTC 0 - UTC' | "$program" build leftovers -
calls=$((calls + 1))
got=$(cd leftovers && LC_ALL=C && echo *)
[ "$got" = "UTC $kept" ] || differ "build left '$got', and not 'UTC $kept'"

# ------------------------------------------------------------------ files of an earlier build

# A file that has its bytes already is left, and one with another owner, other permissions or a link in its place is made anew. So
# is the first.
for zone in A/First Same Changed Private Linked Foreign; do echo "Zone $zone 1 - +01"; done >earlier.zi
sed 's/Changed 1/Changed 2/' earlier.zi >later.zi
"$program" build earlier earlier.zi
chmod 600 earlier/Private
mv earlier/Linked linked.file
ln -s ../linked.file earlier/Linked
if [ "$(id -u)" = 0 ]; then chown nobody earlier/Foreign; else rm earlier/Foreign; fi
same=$(stat -c %i earlier/Same)
for zone in A/First Changed Private Foreign; do ln "earlier/$zone" "$(basename "$zone").kept" 2>/dev/null || true; done
"$program" build earlier later.zi
"$program" build fresh later.zi
calls=$((calls + 1))
diff -r earlier fresh || differ 'a build over an earlier one has other files'
[ "$(stat -c %i earlier/Same)" = "$same" ] || differ 'a file that has its bytes already was made anew'
[ ! -L earlier/Linked ] || differ 'a symbolic link was left in the place of a file'
for zone in A/First Changed Private Foreign; do
    [ ! "earlier/$zone" -ef "$(basename "$zone").kept" ] || differ "$zone was left"
    [ "$(stat -c %a,%u "earlier/$zone")" = "$(stat -c %a,%u "fresh/$zone")" ] || differ "$zone has other permissions, or another owner"
done

# Files that are one by hard links become files of their own where links are copied.
printf '%s\n' 'Zone A 1 - +01' 'Zone B 1 - +01' 'Link B C' >linked.zi
"$program" build --links hard hard linked.zi
"$program" build --links copy hard linked.zi
calls=$((calls + 1))
[ "$(stat -c %h hard/B hard/C | tr '\n' ' ')" = '1 1 ' ] || differ 'build --links copy left hard links'

# ------------------------------------------------------------------ symbolic links

mkdir -p linked elsewhere/deep
ln -s ../elsewhere/deep linked/L
printf 'Zone Etc/UTC 0 - UTC\nLink Etc/UTC L/UTC\n' >links.zi
status=0
"$program" build --links symlink linked links.zi >../out 2>../err || status=$?
told 'pzic build --links symlink, below a link' 3 '' 'cannot write linked/L/UTC'
calls=$((calls + 1))
[ -z "$(ls -A elsewhere/deep)" ] || differ "build left '$(ls -A elsewhere/deep)' where no link can be"
mkdir -p elsewhere/Etc
: >elsewhere/Etc/UTC
status=0
"$program" build --links symlink linked links.zi >../out 2>../err || status=$?
told 'pzic build --links symlink, to another file' 3 '' 'cannot write linked/L/UTC'
status=0
"$program" build --links symlink link.tree links.zi >../out 2>../err || status=$?
told 'pzic build --links symlink' 0 '' ''
cmp -s link.tree/L/UTC link.tree/Etc/UTC || differ 'a symbolic link leads to no file'

# ------------------------------------------------------------------ build --sync

# trace WORD...: builds traced.zi, and lists the syncs and renames in `../calls`: with paths from here, and `~` for
# temporary names.
trace() {
    status=0
    strace -f -y -e 'trace=fsync,fdatasync,/^rename' -o ../trace "$program" build "$@" traced.zi >../out 2>../err || status=$?
    sed -E "s/^[0-9]+ +//; s|<$PWD|<.|; s/[0-9]+</</; s/~pzic[0-9]+/~/g; s/ += 0\$//" ../trace | grep -v '^+++' >../calls || true
}

printf 'Zone Etc/UTC 0 - UTC\nZone A/West -1 - WST\nLink Etc/UTC UTC\n' >traced.zi
if strace -o /dev/null true 2>/dev/null; then
    trace --sync new/traced
    told 'pzic build --sync' 0 '' ''
    # each file is synced before it is renamed
    holds <(head -n 6 ../calls) 'fsync(<./new/traced/Etc/~>)
rename("new/traced/Etc/~", "new/traced/Etc/UTC")
fsync(<./new/traced/A/~>)
rename("new/traced/A/~", "new/traced/A/West")
fsync(<./new/traced/~>)
rename("new/traced/~", "new/traced/UTC")'
    # and at the end each folder that got a name
    holds <(tail -n +7 ../calls | LC_ALL=C sort) 'fsync(<./new/traced/A>)
fsync(<./new/traced/Etc>)
fsync(<./new/traced>)
fsync(<./new>)
fsync(<.>)'
    trace --sync --links symlink new/traced
    told 'pzic build --sync --links symlink' 0 '' ''
    # no folder was made, so only those with the files and the link are synced; a file that has its bytes already is synced as it is
    holds <(sed -n 3p ../calls) 'fsync(<./new/traced/A/West>)'
    holds <(tail -n +5 ../calls | LC_ALL=C sort) 'fsync(<./new/traced/A>)
fsync(<./new/traced/Etc>)
fsync(<./new/traced>)'
    trace new/traced
    told 'pzic build' 0 '' ''
    holds <(grep sync ../calls) ''
    # lists of faults and of records are synced at their end
    status=0
    strace -f -y -e trace=fsync,fdatasync -o ../trace "$program" convert --keep-going --faults listed --rejects aside traced.zi \
        >../out 2>../err <<<'X,0' || status=$?
    told 'pzic convert --rejects' 5 '' 'row 1: RowZone
1 row with a fault'
    holds <(grep -o 'f[a-z]*sync([0-9]*<.*>)' ../trace | sed -E "s|<$PWD|<.|; s/[0-9]+</</; s/~pzic[0-9]+/~/") 'fdatasync(<./~>)
fdatasync(<./~>)'
else
    echo "skipped: the syncs of build --sync and of lists: there is no strace that can trace here"
fi

# ------------------------------------------------------------------ control characters in words

red=$'\e[31m'
shown='\x1b[31m'
for words in "$red" "check --$red" "show file $red" "explain $red" "convert --unit $red utc.zi" "dump --from $red tree/Etc/UTC"; do
    # shellcheck disable=SC2086
    "$program" $words >../out 2>../err && differ "pzic ${words//$red/$shown}: no error" || true
    calls=$((calls + 1))
    ! grep -q $'\e' ../err && grep -qF "$shown" ../err || differ "pzic ${words//$red/$shown}: '$(head -c 300 ../err)'"
done
cp faulty.zi "$red.zi"
"$program" check --explain "$red.zi" 2>../err || true
grep -qxF -- "--> $shown.zi:1" <(sed 's/,.*//' ../err) && ! grep -q $'\e' ../err || differ "check --explain: '$(cat ../err)'"
# A path or a name in the first line of a failure.
: >file
for words in "check No$red" "build file/No$red utc.zi" "convert --tree tree --zone No$red --time-field 1" "convert --tree No$red"; do
    # shellcheck disable=SC2086
    "$program" $words <column >../out 2>../err && differ "pzic ${words//$red/$shown}: no error" || true
    calls=$((calls + 1))
    [ "$(wc -l <../err)" = 1 ] && ! grep -q $'\e' ../err && grep -qF "No$shown" ../err ||
        differ "pzic ${words//$red/$shown}: '$(head -c 300 ../err)'"
done
cp faulty.zi Zürich.zi
"$program" check --explain Zürich.zi 2>../err || true
grep -q -- '^--> Zürich.zi:1' ../err || differ "check --explain of a path beyond ASCII: '$(cat ../err)'"
calls=$((calls + 2))

# ------------------------------------------------------------------ pipes and devices in a tree

mkdir special
mkfifo special/Pipe
ln -s /dev/stdin special/Input
ln -s /dev/zero special/Device
mkdir special/Folder
printf 'Pipe,0\nInput,0\nDevice,0\nFolder,0\n' >column
convert --keep-going --tree special
told 'pzic convert --tree special' 1 $'Pipe,0,,,,\nInput,0,,,,\nDevice,0,,,,\nFolder,0,,,,' $'row 1: RowZone\n4 rows with faults'
status=0
(yes 'stdin,0' || true) 2>/dev/null | head -n 3 | timeout 20 "$program" convert --keep-going --tree /dev >../out 2>../err || status=$?
told 'pzic convert --tree /dev' 1 $'stdin,0,,,,\nstdin,0,,,,\nstdin,0,,,,' $'row 1: RowZone\n3 rows with faults'
mkfifo special/+VERSION
printf 'No,0\n' >column
convert --keep-going --show-release --tree special
told 'pzic convert --show-release, of a tree where a pipe has the name of the release' 1 'No,0,,,,' $'special: no release\nrow 1: RowZone\n1 row with a fault'
rm special/+VERSION
printf 'Pipe,0\n' >column
convert --explain --tree special
calls=$((calls + 1))
grep -qxF -- '--> special/Pipe: not a regular file' ../err || differ "convert --explain of a pipe: '$(cat ../err)'"

# ------------------------------------------------------------------ how the program is linked

if has 'how the program is linked' readelf; then
    parts=$(readelf -hldW "$program")
    for part in 'Type: +DYN' ' GNU_RELRO ' 'BIND_NOW' 'GNU_STACK .* RW +0'; do
        calls=$((calls + 1))
        grep -qE -- "$part" <<<"$parts" || differ "readelf shows no '$part' of the program"
    done
fi

# ------------------------------------------------------------------ a small stack

# small WORD...: compares what the program does with 512 KiB of stack with what it does with more.
small() {
    ask "$@"
    local more=$status
    mv ../out ../out.more
    mv ../err ../err.more
    status=0
    (ulimit -s 512 && exec "$program" "$@") <"$input" >../out 2>../err || status=$?
    calls=$((calls + 1))
    [ "$status" = "$more" ] && cmp -s ../out ../out.more && cmp -s ../err ../err.more ||
        differ "pzic $* with 512 KiB of stack: status $status, and not $more, or another output; '$(head -c 200 ../err)'"
}

if [ -e "$release" ]; then
    small check "$release"
    small build release "$release"
    small verify --strict release "$release"
    small diff utc.zi "$release"
    small diff --trees tree release
    small show release/America/New_York 0
    small show --local release/America/New_York 2007-11-04T01:30:00
    small dump release/America/New_York
    awk 'BEGIN { for (i = 0; i < 200000; i++) print "America/New_York," i * 10007 }' >many
    sed 's/,.*/,2007-11-04T01:30:00/' many >local
    for workers in 1 4; do
        input=many
        small convert --workers $workers "$release"
        small convert --workers $workers --append --style iso --unit ms "$release"
        small convert --workers $workers --tree release
        input=local
        small convert --workers $workers --from local --keep-going "$release"
    done
else
    echo "skipped: a small stack: $release isn't there"
fi

leave safe

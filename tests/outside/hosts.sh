#!/usr/bin/env bash
# Converts files by GNU parallel on two hosts, one of which goes away, beside one run.
# Both hosts are folders of this machine: a program in the place of ssh runs each command in one of them, and answers for `gone` no
# more after some calls. Jobs that fail there are tried on the other; and where only `gone` is named, the same call with the other host
# makes the parts that are missing. The parts are those of one run, octet for octet.
# Needs: tzdata, parallel, rsync
# Alone: it has processes of its own.
set -euo pipefail
cd "$(dirname "${BASH_SOURCE[0]}")/../.."
. tests/common.sh
build zic_main
enter
mkdir bin hosts days
cat >bin/ssh <<'END'
#!/usr/bin/env bash
while [[ $1 == -* ]]; do
    case $1 in -l | -p | -o | -S) shift 2 ;; *) shift ;; esac
done
host=$1
shift
[[ ${1-} != -- ]] || shift
mkdir -p "$HOSTS/$host"
cd "$HOSTS/$host"
echo >>../calls-$host
# calls: prints how often `gone` was called.
calls() { cat ../calls-gone 2>../no-calls | wc -l; }
[[ $host != gone || $(calls) -le ${LAST_CALL:-20} ]] || exit 255
# Where both hosts have jobs, the other begins with its own once `gone` is away.
if [[ ${WAIT-} && $host == here && $* == *convert* ]]; then
    for _ in {1..600}; do
        [[ $(calls) -le ${LAST_CALL:-20} ]] || break
        sleep 0.1
    done
fi
HOME=$PWD exec bash -c "$*"
END
chmod +x bin/ssh
ln -s "$program" bin/pzic
# A login sets SHELL, by which parallel runs jobs there.
export PATH=$PWD/bin:$PATH HOSTS=$PWD/hosts SHELL=$BASH
for day in 1 2 3 4 5 6 7 8 9; do
    for row in 1 2 3 4 5 6 7 8; do echo "Europe/Dublin,$((day * row * 12345678))"; done >days/$day.csv
done
cp "$release" tzdata.zi
cat days/*.csv | pzic convert tzdata.zi >wanted

# hosts NAMES WORD...: converts all days on hosts. Prints how many jobs were done there.
hosts() {
    parallel --will-cite --sshlogin "$1" --basefile tzdata.zi --transferfile {} --return {.}.rows --cleanup --joblog hosts.log \
        "${@:2}" 'pzic convert --workers 1 tzdata.zi <{} >{.}.new && mv {.}.new {.}.rows' ::: days/*.csv 2>>../err || true
}

WAIT=1 hosts 1/here,1/gone --retries 3
cat days/*.rows | cmp - wanted
done_there=$(awk '$2 == "gone" && $7 == 0' hosts.log | wc -l)
[ "$done_there" -gt 0 ] && [ "$(wc -l <hosts/calls-gone)" -gt 20 ] || { echo "hosts: gone did $done_there jobs" >&2; exit 1; }
rm -rf days/*.rows hosts.log hosts/*
hosts 1/gone
made=$(find days -name '*.rows' | wc -l)
[ "$made" -gt 0 ] && [ "$made" -lt 9 ] || { echo "hosts: $made parts before gone went" >&2; exit 1; }
hosts 1/here --resume-failed
cat days/*.rows | cmp - wanted
echo "hosts: 9 parts, of which the host that went away made $made"

# Completes the command line of pzic in bash. Source it, or install it as
# ~/.local/share/bash-completion/completions/pzic.

# Prints the names of zones in the source or the tree that the words give, or in the system's release.
_pzic_zones() {
    local index word source=/usr/share/zoneinfo/tzdata.zi
    for ((index = 2; index < ${#COMP_WORDS[@]}; index++)); do
        word=${COMP_WORDS[index]}
        case ${COMP_WORDS[index - 1]} in
        --tree)
            find -L "$word/" -type f -printf '%P\n' 2>/dev/null
            return
            ;;
        --zone | --faults | --rejects | --against | --against-tree | --against-summary) ;;
        *) [ ! -f "$word" ] || source=$word ;;
        esac
    done
    pzic check "$source" 2>/dev/null | cut -d ' ' -f 1
}

_pzic() {
    local current=${COMP_WORDS[COMP_CWORD]} previous=${COMP_WORDS[COMP_CWORD - 1]} options='' takes=''
    COMPREPLY=()
    # made by tools/options: bash-commands
    local commands='check build verify diff convert show dump export explain help'
    # made by hand again
    if [ "$COMP_CWORD" -eq 1 ]; then
        if [[ $current = -* ]]; then takes='--help --version'; else takes=$commands; fi
        _pzic_offer "$takes"
        return
    fi
    # What the command takes, and what the option before the current word takes.
    case ${COMP_WORDS[1]} in
    # made by tools/options: bash-options
    check) options='--workers --zone-piece --explain --help' ;;
    build) options='--links --sync --release --tables --workers --zone-piece --explain --help' ;;
    verify) options='--strict --release --tables --workers --zone-piece --explain --help' ;;
    diff) options='--old --new --trees --from --to --ignore --summary --now --style --group-links --status --show-release --workers --zone-piece --explain --help' ;;
    convert) options='--source --ignore --tree --against --against-tree --against-summary --workers --zone-piece --row-piece --max-rows --max-bytes --max-record --header --skip-header --prefix --zone --zone-field --time-field --delimiter --unit --from --ambiguous --show-ambiguous --empty --style --only --records --quotes --append --replace --keep-going --faults --faults-with --rejects --max-faults --progress --show-release --explain --help' ;;
    show) options='--local --next --weekdays --disambiguation --explain --help' ;;
    dump) options='--from --to --explain --help' ;;
    export) options='--ics --name --since --until --explain --help' ;;
    explain) options='--help' ;;
    help) options='--help' ;;
    # made by hand again
    *) return ;;
    esac
    case ${COMP_WORDS[1]}:$previous in
    # made by tools/options: bash-words
    *:--links) takes='copy hard symlink' ;;
    *:--release) takes='from-source' ;;
    *:--tables | *:--tree | *:--against-tree) takes='folders' ;;
    *:--old | *:--new | *:--source | *:--against | *:--against-summary | *:--faults | *:--rejects) takes='files' ;;
    diff:--from | dump:--from | *:--to | *:--now | *:--zone-piece | *:--row-piece | *:--max-rows | *:--max-bytes | *:--max-record | *:--prefix | *:--zone-field | *:--time-field | *:--only | *:--max-faults | *:--next | *:--name | *:--since | *:--until) takes='none' ;;
    *:--ignore) takes='daylight abbreviation daylight,abbreviation' ;;
    diff:--style) takes='count iso' ;;
    *:--workers) takes='1 2 4 8 16 32 64' ;;
    *:--zone) takes='zones' ;;
    *:--delimiter) takes='tab' ;;
    *:--unit) takes='s ms us ns' ;;
    convert:--from) takes='count seconds rfc3339 utc local' ;;
    *:--ambiguous) takes='reject earlier later compatible' ;;
    *:--empty) takes='fault keep' ;;
    convert:--style) takes='fields iso utc' ;;
    *:--records) takes='csv lines' ;;
    *:--quotes) takes='strict lenient' ;;
    *:--faults-with) takes='line value line,value' ;;
    *:--weekdays) takes='all mon tue wed thu fri sat sun mon-fri sat-sun' ;;
    *:--disambiguation) takes='compatible earlier later skip' ;;
    # made by hand again
    *)
        case ${COMP_WORDS[1]}:$current in
        *:-*) takes=$options ;;
        explain:*) takes=errors ;;
        help:*) takes=$commands ;;
        *) takes=files ;;
        esac
        ;;
    esac
    _pzic_offer "$takes"
}

# Offers the words that begin as the current one does, of these, or of what one of these words stands for.
_pzic_offer() {
    local current=${COMP_WORDS[COMP_CWORD]} how=-W words=$1
    case $words in
    none) words='' ;;
    files) how=-f ;;
    folders) how=-d ;;
    zones) words=$(_pzic_zones) ;;
    errors) words=$(pzic explain | cut -d : -f 1 | grep -v ' ') ;;
    esac
    # shellcheck disable=SC2207
    if [ $how = -W ]; then COMPREPLY=($(compgen -W "$words" -- "$current")); else COMPREPLY=($(compgen $how -- "$current")); fi
}
complete -o filenames -F _pzic pzic

# Completion of ga144 for bash. Made of the help of ga144 by .ci/completions --write.
_ga144() {
    local word=${COMP_WORDS[COMP_CWORD]} before=${COMP_WORDS[COMP_CWORD - 1]} options='' is_file=''
    COMPREPLY=()
    if [ "$COMP_CWORD" -eq 1 ] || [ "${COMP_WORDS[1]}" = help ]; then
        [ "$COMP_CWORD" -gt 2 ] ||
            mapfile -t COMPREPLY < <(compgen -W "debug explore race check dap asm list dis draw help --help --version" -- "$word")
        return
    fi
    case ${COMP_WORDS[1]} in
    debug) options='--limit -h --help' ;;
    explore) is_file=yes options='--strict --json --chip --limit -h --help' ;;
    race) options='--workers --calls --limit -h --help' ;;
    check) is_file=yes options='--most --seconds --settled --session --never --ends --same --json --progress -h --help' ;;
    dap) options='-h --help' ;;
    asm) is_file=yes options='--json -h --help' ;;
    list) is_file=yes options='-h --help' ;;
    dis) is_file=yes options='-h --help' ;;
    draw) is_file=yes options='--cause --rewind --from --to --all --only --fold --races --chip --limit -h --help' ;;
    esac
    case $before in
    --chip) is_file=yes options='' ;;
    --calls|--cause|--fold|--from|--limit|--most|--never|--rewind|--seconds|--session|--to|--workers) return ;;
    esac
    if [[ $word == -* ]]; then
        mapfile -t COMPREPLY < <(compgen -W "$options" -- "$word")
    elif [ -n "$is_file" ]; then
        compopt -o default
    fi
}
complete -F _ga144 ga144

# Completion of bitsum's arguments for bash.
_bitsum() {
    local before=${COMP_WORDS[COMP_CWORD - 1]} now=${COMP_WORDS[COMP_CWORD]}
    case $before in
        # A file name, by the default of bash.
        --files-from | *[\<\>]) return ;;
        --bytes | --depth | --values | --drop-block | --drop-record | --jobs | -j | --scheduler) return ;;
    esac
    # Without an option begun, a file name.
    [[ $now == -* ]] || return
    mapfile -t COMPREPLY < <(compgen -W "--check --quiet --ignore-missing --tag --zero --recursive --files-from --null --jobs --scheduler
        --drop-info --drop-block --drop-record --shapes-at-use --bytes --depth --values --version --help" -- "$now")
}
complete -o default -F _bitsum bitsum

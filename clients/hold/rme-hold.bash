# Completions of rme-hold for bash.
_rme_hold() {
    local word=${COMP_WORDS[COMP_CWORD]} before=${COMP_WORDS[COMP_CWORD - 1]} at
    COMPREPLY=()
    for ((at = 1; at < COMP_CWORD; at++)); do
        if [[ ${COMP_WORDS[at]} == -- ]]; then
            mapfile -t COMPREPLY < <(compgen -c -f -- "$word")
            return
        fi
    done
    case $before in
        --file | --socket | --key-file)
            compopt -o filenames 2>/dev/null
            mapfile -t COMPREPLY < <(compgen -f -- "$word")
            ;;
        --on-failure) mapfile -t COMPREPLY < <(compgen -W 'hold commit' -- "$word") ;;
        --port | --worker | --wait | --script | --space) ;;
        *)
            local options='--port --socket --file --worker --any --key-file --space -n --wait --kill --script --on-failure --help --'
            mapfile -t COMPREPLY < <(compgen -W "$options" -- "$word")
            ;;
    esac
}
complete -F _rme_hold rme-hold

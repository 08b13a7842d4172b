# Completion for bash of the words of pct-expand.

_pct_expand() {
    local current=${COMP_WORDS[COMP_CWORD]} before=${COMP_WORDS[COMP_CWORD - 1]}
    COMPREPLY=()
    if [[ $before == --choice ]]; then
        return
    elif [[ $current == --* ]]; then
        mapfile -t COMPREPLY < <(compgen -W '--choice --lines --help' -- "$current")
    else
        mapfile -t COMPREPLY < <(compgen -f -- "$current")
        compopt -o filenames 2>/dev/null
    fi
}
complete -F _pct_expand pct-expand

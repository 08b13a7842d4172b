# Completion for bash of the words of pct-hunt.

_pct_hunt_files() {
    mapfile -t COMPREPLY < <(compgen -f -- "$1")
    compopt -o filenames 2>/dev/null
}

_pct_hunt() {
    local current=${COMP_WORDS[COMP_CWORD]} before=${COMP_WORDS[COMP_CWORD - 1]} words=''
    COMPREPLY=()
    case $COMP_CWORD,${COMP_WORDS[1]} in
    1,*) [[ $current == --* ]] && words='--page --why' ;;
    2,--why) words='run races locks find expose certify campaign sweep replay big --explain' ;;
    *,--why | 2,--page | 4,--page) _pct_hunt_files "$current"; return ;;
    3,--page) words='--html' ;;
    *,--page) return ;;
    esac
    case $before in
    --html | --junit) _pct_hunt_files "$current"; return ;;
    --depth) words='1 2 3 4 5 6 7 8' ;;
    --seeds | --from | --limit | --time | --certify | --jobs | --sshlogin) return ;;
    *)
        if [[ ${COMP_WORDS[1]} != --page && ${COMP_WORDS[1]} != --why && $current == --* ]]; then
            words+=' --depth --seeds --from --limit --time --first --certify --jobs --sshlogin --json
                --html --junit --quiet --help'
        elif [[ -z $words ]]; then
            _pct_hunt_files "$current"
            return
        fi
        ;;
    esac
    mapfile -t COMPREPLY < <(compgen -W "$words" -- "$current")
}
complete -F _pct_hunt pct-hunt

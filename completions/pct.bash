# Completion for bash of the words of pct.

# The threads of a script in their order, joined by commas.
_pct_threads() {
    sed -n 's/^[[:space:]]*thread[[:space:]]\{1,\}\([A-Za-z0-9_]*\).*/\1/p' "$1" 2>/dev/null |
        paste -s -d , -
}

_pct() {
    local current=${COMP_WORDS[COMP_CWORD]} before=${COMP_WORDS[COMP_CWORD - 1]}
    local command=${COMP_WORDS[1]} words=''
    COMPREPLY=()
    case $command in
    run | races | locks | find) words='--order --points --seed --depth --steps --limit' ;;
    expose) words='--order --steps --limit' ;;
    certify) words='--steps --limit --serve' ;;
    campaign) words='--from --count --depth --steps --limit --form --serve' ;;
    sweep) words='--depth --steps --limit --form --serve' ;;
    big) words='--serve' ;;
    esac
    case $before in
    --order) words=$(_pct_threads "${COMP_WORDS[2]}") ;;
    --form) words='text json' ;;
    --serve) words='caller threads' ;;
    --explain) ;;
    --*) return ;;
    esac
    case $COMP_CWORD,$command in
    1,*) words='run races locks find expose certify campaign sweep replay big --help
        --version --explain' ;;
    2,--explain) words='NotUtf8 LineTooLong TooManyLines BadHeader BadToken BadStatement
        UnknownName TwiceNamed NumberRange NoEnd StrayEnd NoThread TooMany TooLong BadLine
        OutOfOrder NoVerdict MoreAfterVerdict passed failed stuck misuse fault cut notowner semfull
        alreadystarted toomanyreads overflow zerodivisor spin 0 1 2 3 4 5 6 7 8' ;;
    2,big | *,--explain) return ;;
    2,* | 3,replay | 3,expose | 3,certify)
        mapfile -t COMPREPLY < <(compgen -f -- "$current")
        compopt -o filenames 2>/dev/null
        return
        ;;
    esac
    mapfile -t COMPREPLY < <(compgen -W "$words" -- "$current")
}
complete -F _pct pct

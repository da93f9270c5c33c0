# Completion of mtxkit for bash: source this file, or put it into ~/.local/share/bash-completion/completions/mtxkit.

_mtxkit() {
    local word=${COMP_WORDS[COMP_CWORD]} before=${COMP_WORDS[COMP_CWORD - 1]} words=""
    if [ "$COMP_CWORD" -eq 1 ]; then
        words="info spy copy field integer symmetric order permute fill eval solve check help --help --version"
        mapfile -t COMPREPLY < <(compgen -W "$words" -- "$word")
        return
    fi
    case ${COMP_WORDS[1]} in
    info) words="--json" ;;
    spy) words="--size -o --svg --text" ;;
    field) [ "$COMP_CWORD" -ne 2 ] || words="integer pattern" ;;
    integer) words="--scale" ;;
    order) [ "$COMP_CWORD" -ne 2 ] || words="amd rcm" ;;
    fill) words="--order --json" ;;
    eval) words="--mod --rows --columns" ;;
    solve) words="--mod --order" ;;
    check) words="--mod" ;;
    help)
        mapfile -t COMPREPLY < <(compgen -W "info spy copy field integer symmetric order permute fill eval solve check" -- "$word")
        return
        ;;
    esac
    case $before in
    --mod) words="2 3 5 7 11 13 101 65537 998244353 1000000007 2305843009213693951" ;;
    --order) words="natural amd rcm" ;;
    --size | --scale) return ;;
    *) words="$words --help" ;;
    esac
    compopt -o filenames
    mapfile -t COMPREPLY < <(compgen -W "$words" -- "$word"; compgen -f -- "$word")
}

complete -F _mtxkit mtxkit

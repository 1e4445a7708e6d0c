# Completion of bsp for bash: source this file, or put it into ~/.local/share/bash-completion/completions/ as bsp.
_bsp() {
    local word=${COMP_WORDS[COMP_CWORD]} before=${COMP_WORDS[COMP_CWORD-1]}
    local commands="trace check upgrade run draw explain help"
    case $before in
        --workers) COMPREPLY=($(compgen -W "1 2 4 8 16 32 64" -- "$word")); return ;;
        --tree) COMPREPLY=($(compgen -W "flat 2x2 2x3 4x4" -- "$word")); return ;;
        --limit) COMPREPLY=($(compgen -W "1000 1000000" -- "$word")); return ;;
        -f | --file) COMPREPLY=($(compgen -f -- "$word")); return ;;
        --trace) COMPREPLY=($(compgen -W "1 2 3 4 6 7 12" -- "$word")); return ;;
        --fault) COMPREPLY=($(compgen -W "1 2 3 4 5 6 7 8" -- "$word")); return ;;
    esac
    if [ "$COMP_CWORD" = 1 ]; then
        COMPREPLY=($(compgen -W "$commands --help --version" -- "$word"))
        return
    fi
    case ${COMP_WORDS[1]} in
        run) COMPREPLY=($(compgen -W "--file --workers --tree --limit --progress --json --stream --why --help" -- "$word")) ;;
        draw) COMPREPLY=($(compgen -W "--file --workers --tree --limit --width --over-time --title --why --help" -- "$word")) ;;
        explain) COMPREPLY=($(compgen -W "1 2 3 4 5 6 7 8 9 10 11 12 13 14 --fault --trace --why --help" -- "$word")) ;;
        check) COMPREPLY=($(compgen -W "--file --all --why --help" -- "$word")) ;;
        trace | upgrade) COMPREPLY=($(compgen -W "--file --why --help" -- "$word")) ;;
        help) COMPREPLY=($(compgen -W "$commands" -- "$word")) ;;
    esac
}
complete -F _bsp bsp

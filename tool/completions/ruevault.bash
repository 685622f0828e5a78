# Completion of ruevault for bash.
_ruevault() {
    local word=${COMP_WORDS[COMP_CWORD]} command=${COMP_WORDS[1]}
    local words=
    if [ "$COMP_CWORD" -eq 1 ]; then
        words="read show check proof rests help --help --version"
    elif [ "$command" = help ]; then
        words="read show check proof rests help"
    elif [[ $word == -* ]]; then
        case $command in
            read | proof) words="-o --output --help" ;;
            show) words="--json --help" ;;
            check) words="--json --all --help" ;;
            rests) words="--help" ;;
        esac
    fi
    if [ -n "$words" ]; then
        COMPREPLY=($(compgen -W "$words" -- "$word"))
    elif [ "$command" != rests ]; then
        compopt -o filenames 2>/dev/null
        COMPREPLY=($(compgen -f -- "$word"))
    fi
}
complete -F _ruevault ruevault

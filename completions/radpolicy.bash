# Completes the words of radpolicy in bash.
_radpolicy() {
    local word=${COMP_WORDS[COMP_CWORD]} before=${COMP_WORDS[COMP_CWORD - 1]} options=
    local IFS=$' \t\n'
    COMPREPLY=()
    if [[ $COMP_CWORD -eq 1 ]]; then
        COMPREPLY=($(compgen -W 'run step encode decode check --help' -- "$word"))
        return
    fi
    case $before in
        -i | --authenticator) return ;;
    esac
    case ${COMP_WORDS[1]} in
        run) options='-f --hex --acct -i -S --authenticator --policy --help' ;;
        step) options='-f --hex -S --policy --script --help' ;;
        encode) options='-f --acct -i -S --authenticator --help' ;;
        decode) options='-f -S --help' ;;
        check) options='--policy --help' ;;
    esac
    if [[ $word == -* ]]; then
        COMPREPLY=($(compgen -W "$options" -- "$word"))
    else
        # bash takes the `=` of an option for a word of its own.
        [[ $word == = ]] && word=
        IFS=$'\n'
        COMPREPLY=($(compgen -f -- "$word"))
    fi
}
complete -o filenames -F _radpolicy radpolicy

# Completion of nomyake-play for bash.

_nomyake_play() {
    local word="${COMP_WORDS[COMP_CWORD]}" previous="${COMP_WORDS[COMP_CWORD - 1]}"
    COMPREPLY=()
    # A file, also after --program: the option -o default below.
    case "$previous" in
        --program|--port|=) return ;;
    esac
    [ "${word#-}" != "$word" ] || return
    # bash 3 has no mapfile, and no option has a blank.
    # shellcheck disable=SC2207
    COMPREPLY=($(compgen -W "--port --program --no-browser --help -h --version -V" -- "$word"))
}

complete -o default -F _nomyake_play nomyake-play

# Completion of sno_rewrite for bash. Made by tools/pages_of.

_sno_rewrite() {
    local word="${COMP_WORDS[COMP_CWORD]}" previous="${COMP_WORDS[COMP_CWORD - 1]}"
    local options=" --workers --tries --anchor --json --trials --help -h --version -V "
    local given index
    # In --workers=4, bash makes the equals sign a word of its own.
    if [ "$word" = "=" ]; then
        word=""
    elif [ "$previous" = "=" ]; then
        previous="${COMP_WORDS[COMP_CWORD - 2]}"
    fi
    case "$previous" in
        --workers) options="1 2 3 4 5 6 7 8 9 10 11 12 13 14 15 16" ;;
        --tries) options="1 10 100 1000" ;;
        --trials) options="1000 1000000 1000000000" ;;
        *)
            # An option may be given once.
            for ((index = 1; index < COMP_CWORD; index++)); do
                given="${COMP_WORDS[index]}"
                options="${options/ $given / }"
            done
            ;;
    esac
    # bash 3 has no mapfile, and no option or number has a blank.
    # shellcheck disable=SC2207
    COMPREPLY=($(compgen -W "$options" -- "$word"))
}

complete -F _sno_rewrite sno_rewrite

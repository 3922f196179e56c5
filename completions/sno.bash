# Completion of sno for bash. Made by tools/pages_of.

_sno() {
    local word="${COMP_WORDS[COMP_CWORD]}" previous="${COMP_WORDS[COMP_CWORD - 1]}"
    local options=" run check edit find trace serve store --help -h --version -V "
    local given index
    # In --trials=4, bash makes the equals sign a word of its own.
    if [ "$word" = "=" ]; then
        word=""
    elif [ "$previous" = "=" ]; then
        previous="${COMP_WORDS[COMP_CWORD - 2]}"
    fi
    if [ "$COMP_CWORD" -gt 1 ]; then
        case "${COMP_WORDS[1]}" in
            run) options=" --workers --tries --anchor --json --trials --help -h --version -V " ;;
            check) options=" --json --strict --rules --rule -e --file -f --define -d --with -w --help -h " ;;
            edit) options=" --diff --check --json --sync --backup --anchor --trials --rule -e --file -f --define -d --with -w --name -n --files-from --null -0 --threads --help -h " ;;
            find) options=" --paths -l --count -c --json --only --after-context -A --before-context -B --context -C --anchor --trials --rule -e --file -f --define -d --with -w --name -n --files-from --null -0 --threads --help -h " ;;
            trace) options=" --statement --match --from --to --lines --html --on --anchor --trials --rule -e --file -f --define -d --with -w --help -h " ;;
            serve) options=" --seats --tries --trials --listing --store --keep --help -h " ;;
            store)
                options=" check list compact salvage --help -h "
                case "$previous" in
                    check|list|compact|salvage)
                        COMPREPLY=()
                        return
                        ;;
                esac
                ;;
            *) options="" ;;
        esac
    fi
    case "$previous" in
        --workers) options="1 2 3 4 5 6 7 8 9 10 11 12 13 14 15 16" ;;
        --tries) options="1 10 100 1000" ;;
        --trials) options="1000 1000000 1000000000" ;;
        --with|-w) options="c html json markdown python shell" ;;
        --backup) options=".bak .orig" ;;
        --threads) options="1 2 4 8 16" ;;
        --after-context|-A) options="1 2 3 5 10" ;;
        --before-context|-B) options="1 2 3 5 10" ;;
        --context|-C) options="1 2 3 5 10" ;;
        --statement) options="1 2 3 4 5 6 7 8 9" ;;
        --match) options="1 2 3 4 5 6 7 8 9" ;;
        --lines) options="100 1000 10000" ;;
        --seats) options="1 2 4 8 16" ;;
        --keep) options="1000 10000 100000" ;;
        --listing|--store|--file|-f|--files-from|--on)
            # A file: the option -o default below.
            COMPREPLY=()
            return
            ;;
        *)
            if [ "$COMP_CWORD" -gt 1 ] && [ "${word#-}" = "$word" ]; then
                # Documents, rules and files: those of the folder, by the option -o default below.
                COMPREPLY=()
                return
            fi
            # An option may be given once, but for rules and definitions.
            for ((index = 1; index < COMP_CWORD; index++)); do
                given="${COMP_WORDS[index]}"
                case "$given" in
                    --rule|-e|--file|-f|--define|-d|--with|-w|--name|-n) ;;
                    *) options="${options/ $given / }" ;;
                esac
            done
            ;;
    esac
    # bash 3 has no mapfile, and no option or number has a blank.
    # shellcheck disable=SC2207
    COMPREPLY=($(compgen -W "$options" -- "$word"))
}

complete -o default -F _sno sno

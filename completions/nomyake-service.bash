# Completion of nomyake-service for bash.

_nomyake_service() {
    local word="${COMP_WORDS[COMP_CWORD]}" previous="${COMP_WORDS[COMP_CWORD - 1]}"
    local options=" --store --listen --unix --token-file --tokens --host --origin --access-log --program --trials --seats --keep --keep-bytes --grace --max-body --max-clients --max-rate --max-trials-rate --max-lines --max-unread --max-unread-total --max-wait --max-lag --patience --look-trials --look-seconds --look-processes --help -h --version -V "
    local given index
    # In --trials=4, bash makes the equals sign a word of its own.
    if [ "$word" = "=" ]; then
        word=""
    elif [ "$previous" = "=" ]; then
        previous="${COMP_WORDS[COMP_CWORD - 2]}"
    fi
    case "$previous" in
        --trials) options="1000 1000000 1000000000" ;;
        --seats) options="1 2 4 8 16" ;;
        --keep) options="10000 100000 900000" ;;
        --keep-bytes) options="268435456 1073741824" ;;
        --grace) options="5 10 30" ;;
        --max-body) options="1048576 4194304 16777216" ;;
        --max-clients) options="128 1024 10000" ;;
        --max-rate) options="1000 100000" ;;
        --max-trials-rate) options="1000000 10000000 100000000" ;;
        --max-lines) options="64 1024 4096" ;;
        --max-unread) options="1048576 4194304 16777216" ;;
        --max-unread-total) options="16777216 67108864 268435456" ;;
        --max-wait) options="5 30 120" ;;
        --max-lag) options="1000 10000 100000" ;;
        --patience) options="5 20 60" ;;
        --look-trials) options="10000 200000 1000000" ;;
        --look-seconds) options="1 2 5" ;;
        --look-processes) options="1 2 4" ;;
        --listen|--host|--origin) options="" ;;
        --store|--unix|--token-file|--tokens|--access-log|--program)
            # A file: the option -o default below.
            COMPREPLY=()
            return
            ;;
        *)
            if [ "${word#-}" = "$word" ] && [ -n "$word" ]; then
                COMPREPLY=()
                return
            fi
            # An option may be given once, but for names and origins.
            for ((index = 1; index < COMP_CWORD; index++)); do
                given="${COMP_WORDS[index]}"
                case "$given" in
                    --host|--origin) ;;
                    *) options="${options/ $given / }" ;;
                esac
            done
            ;;
    esac
    # bash 3 has no mapfile, and no option or number has a blank.
    # shellcheck disable=SC2207
    COMPREPLY=($(compgen -W "$options" -- "$word"))
}

complete -o default -F _nomyake_service nomyake-service

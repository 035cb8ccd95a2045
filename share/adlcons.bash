# Completes the words of adlcons in bash: source it, or put it into the folder of completions as 'adlcons'.
_adlcons() {
    local word=${COMP_WORDS[COMP_CWORD]} last=${COMP_WORDS[COMP_CWORD - 1]} options=--help
    case ${COMP_WORDS[1]} in
        check) options='--all --search --report --help' ;;
        consolidate) options='--all --search --handle --report --digests --verify --help' ;;
        show) options='--all --search --handle --from --to --help' ;;
        compare) options='--all --search --report --from --to --channels --help' ;;
        render | resume) options='--all --search --from --to --channels --depth --order --report --help' ;;
    esac
    if ((COMP_CWORD == 1)); then
        local commands='check consolidate render resume compare show explain help --help --version'
        mapfile -t COMPREPLY < <(compgen -W "$commands" -- "$word")
    elif [[ $last == --depth ]]; then
        mapfile -t COMPREPLY < <(compgen -W "16 24 32" -- "$word")
    elif [[ $last == --order ]]; then
        mapfile -t COMPREPLY < <(compgen -W "time source" -- "$word")
    elif [[ $last == --handle || $last == --from || $last == --to || $last == --channels ]]; then
        COMPREPLY=()
    elif [[ $word == -* ]]; then
        mapfile -t COMPREPLY < <(compgen -W "$options" -- "$word")
    else
        case $COMP_CWORD:${COMP_WORDS[1]} in
            2:explain)
                local numbers
                numbers=$(adlcons explain 2>/dev/null | awk '
                    /^[0-9]/ { number = $1; sub(/:$/, "", number); answered[number] = 1 }
                    /answer it\.$/ { delete answered[number] }
                    END { for (number in answered) print number }' | sort)
                mapfile -t COMPREPLY < <(compgen -W "$numbers notice" -- "$word")
                ;;
            3:explain)
                if [[ $last == notice ]]; then
                    numbers=$(adlcons explain notice 2>/dev/null | grep -oE '^notice [0-9]+' | grep -oE '[0-9]+')
                    mapfile -t COMPREPLY < <(compgen -W "$numbers" -- "$word")
                fi
                ;;
            2:help)
                mapfile -t COMPREPLY < <(compgen -W 'check consolidate render resume compare show explain' -- "$word")
                ;;
            2:check | 2:consolidate | 2:render | 2:resume | 2:show | 2:compare | 4:compare)
                mapfile -t COMPREPLY < <(compgen -f -- "$word")
                ;;
            3:check | 3:consolidate | 3:render | 3:resume | 3:show | 4:consolidate | 4:render | 4:resume | \
                3:compare | 5:compare)
                mapfile -t COMPREPLY < <(compgen -d -- "$word")
                ;;
            *:check | *:consolidate | *:render | *:resume | *:compare | *:show)
                mapfile -t COMPREPLY < <(compgen -W "$options" -- "$word")
                ;;
        esac
    fi
}
complete -o filenames -F _adlcons adlcons

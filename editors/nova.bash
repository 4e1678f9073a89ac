# Completion of nova's words for bash. Written by editors/complete.
_nova() {
    local word=${COMP_WORDS[COMP_CWORD]} before=${COMP_WORDS[COMP_CWORD - 1]} command=${COMP_WORDS[1]} it
    local commands="asm build check explain fmt forms help list lsp mem page replay run test trace version"
    COMPREPLY=()
    if [ "$COMP_CWORD" -eq 1 ]; then
        mapfile -t COMPREPLY < <(compgen -W "$commands --help --version" -- "$word")
        return
    fi
    for it in "${COMP_WORDS[@]:2:COMP_CWORD-2}"; do
        if [ "$it" = -- ]; then
            mapfile -t COMPREPLY < <(compgen -f -- "$word")
            return
        fi
    done
    case $before in
        --slots | --budget | --store | --steps | --line | --at | --args | --length | --table | --drop | --limit) return ;;
        --allow) mapfile -t COMPREPLY < <(compgen -W "unused wide read condition endless address size" -- "$word") && return ;;
        --until) mapfile -t COMPREPLY < <(compgen -W "write raise" -- "$word") && return ;;
    esac
    case $command:$word in
        *:--*=*) ;;
        build:-*) mapfile -t COMPREPLY < <(compgen -W "-o --report --slots --budget --store --weights --deny-warnings --allow --json --sarif --help" -- "$word") ;;
        run:-*) mapfile -t COMPREPLY < <(compgen -W "--budget --steps --profile --counts --trace --until --json --help" -- "$word") ;;
        list:-*) mapfile -t COMPREPLY < <(compgen -W "--budget --json --help" -- "$word") ;;
        check:-*) mapfile -t COMPREPLY < <(compgen -W "--deny-warnings --allow --json --sarif --verbose --help" -- "$word") ;;
        forms:-*) mapfile -t COMPREPLY < <(compgen -W "--json --help" -- "$word") ;;
        test:-*) mapfile -t COMPREPLY < <(compgen -W "--budget --steps --case --update --coverage --interpret --tap --junit --json --help" -- "$word") ;;
        trace:-*) mapfile -t COMPREPLY < <(compgen -W "--steps --line --json --help" -- "$word") ;;
        page:-*) mapfile -t COMPREPLY < <(compgen -W "-o --budget --steps --json --help" -- "$word") ;;
        fmt:-*) mapfile -t COMPREPLY < <(compgen -W "--json --check --help" -- "$word") ;;
        asm:-*) mapfile -t COMPREPLY < <(compgen -W "-o --json --help" -- "$word") ;;
        mem:-*) mapfile -t COMPREPLY < <(compgen -W "--json --help" -- "$word") ;;
        replay:-*) mapfile -t COMPREPLY < <(compgen -W "--steps --json --at --args --length --table --memory --keep --drop --limit --help" -- "$word") ;;
        *:-*) mapfile -t COMPREPLY < <(compgen -W "--help" -- "$word") ;;
        help:*) mapfile -t COMPREPLY < <(compgen -W "$commands" -- "$word") ;;
        explain:*)
            case $before in
                type) mapfile -t COMPREPLY < <(compgen -W "1 2 3 4 5 6 7 8 9 10 11 12 13 14 15 16 17 18 19 20 21 22 23 24" -- "$word") ;;
                syntax) mapfile -t COMPREPLY < <(compgen -W "char number name syntax deep" -- "$word") ;;
                *) mapfile -t COMPREPLY < <(compgen -W "type syntax status warnings" -- "$word") ;;
            esac
            ;;
        forms:*) mapfile -t COMPREPLY < <(compgen -f -- "$word"; [ "$COMP_CWORD" -lt 3 ] || compgen -W "flat lowered inlined closed contracted simplified single measures" -- "$word") ;;
        *) mapfile -t COMPREPLY < <(compgen -f -- "$word") ;;
    esac
}
complete -o filenames -F _nova nova

# Completions of `ladder` for bash: subcommands, options, files, and the names of the program that stands on the line.

# The variables that a coil of the program writes.
_ladder_coils() {
    ladder uses "$1" 2> /dev/null | awk -F, '$2 ~ /coil/ && !seen[$1]++ { print $1 }'
}

# What can come ON: these variables, and the outputs of the blocks, as the trace of no scan names them.
_ladder_targets() {
    _ladder_coils "$1"
    printf 'moment\n' | ladder sim --watch-all "$1" - 2> /dev/null | tr , '\n' | grep -E '\.Q1?$'
}

# All variables and instances of the program.
_ladder_names() {
    ladder uses "$1" 2> /dev/null | awk -F, 'NR > 1 && !seen[$1]++ { print $1 }'
}

# The inputs that the program declares, where each declaration has its line.
_ladder_inputs() {
    sed -n 's/^[[:space:]]*\([A-Za-z_][A-Za-z0-9_]*\)[[:space:]]*\((\*[^*]*\*)\)\{0,1\}[[:space:]]\{1,\}[Aa][Tt][[:space:]]\{1,\}%[Ii].*/\1/p' "$1" 2> /dev/null
}

# The codes of all faults.
_ladder_codes() {
    ladder explain 2> /dev/null | sed 's/:.*//'
}

_ladder() {
    local word=${COMP_WORDS[COMP_CWORD]} before=${COMP_WORDS[COMP_CWORD - 1]} subcommand=${COMP_WORDS[1]}
    local options file='' coil='' every='' place=0 number
    COMPREPLY=()
    if ((COMP_CWORD == 1)); then
        mapfile -t COMPREPLY < <(compgen -W 'check causes show sim uses never reach diff draw export import explain help --help' -- "$word")
        return
    fi
    case $subcommand in
        causes) options='--state --at --after --upto --limit --scans --for --every --assume --assumed --grouped --terms --st --order --any --off --must --reachable --looks --runs --states --relevant --all-inputs --all-coils --progress --quiet --aliases --why --help' ;;
        show) options='--state --at --number --assume --assumed --html --stimulus --coil --all-inputs --aliases --why --help' ;;
        sim) options='--state --save --every --watch --watch-all --changes --expect --progress --vcd --aliases --why --help' ;;
        check) options='--warn --aliases --why --help' ;;
        uses) options='--aliases --why --help' ;;
        draw) options='--why --help' ;;
        export) options='--st --xml --name --bits --codesys --aliases --why --help' ;;
        import) options='--open --control --hal --pou --why --help' ;;
        never) options='--state --assume --assumed --off --pairs --quiet --aliases --why --help' ;;
        reach) options='--state --at --every --scans --states --both --gap --assume --assumed --progress --why --help' ;;
        diff) options='--state --new-state --at --after --upto --limit --scans --for --every --assume --assumed --grouped --terms --st --order --looks --reachable --runs --states --save --all-inputs --progress --quiet --aliases --why --help' ;;
        explain) options='--help' ;;
        help)
            mapfile -t COMPREPLY < <(compgen -W 'check causes show sim uses never reach diff draw export import explain' -- "$word")
            return
            ;;
    esac
    # What stands at the places of the line before this word.
    for ((number = 2; number < COMP_CWORD; number++)); do
        case ${COMP_WORDS[number]} in
            --all-coils)
                ((number++))
                every=1
                ;;
            --state | --new-state | --at | --after | --upto | --limit | --scans | --for | --every | --assume | --looks | --order | --number | --stimulus | --coil | --save | --watch | --expect | --states | --both | --gap | --control | --hal | --pou | --name) ((number++)) ;;
            -*) ;;
            *)
                ((place++))
                if ((place == 1)); then file=${COMP_WORDS[number]}; fi
                if ((place == 2)); then coil=${COMP_WORDS[number]}; fi
                ;;
        esac
    done
    case $before in
        --save) if [[ $subcommand == diff ]]; then mapfile -t COMPREPLY < <(compgen -d -- "$word"); else mapfile -t COMPREPLY < <(compgen -f -- "$word"); fi ;;
        --state | --new-state | --stimulus | --expect | --hal) mapfile -t COMPREPLY < <(compgen -f -- "$word") ;;
        --at | --after | --upto | --limit | --scans | --for | --every | --assume | --looks | --number | --states | --gap | --pou | --name) ;;
        --all-coils) mapfile -t COMPREPLY < <(compgen -d -- "$word") ;;
        --order) mapfile -t COMPREPLY < <(compgen -W 'auto given' -- "$word") ;;
        --control) mapfile -t COMPREPLY < <(compgen -W 'on' -- "$word") ;;
        --coil) mapfile -t COMPREPLY < <(compgen -W "$(_ladder_coils "$file")" -- "$word") ;;
        --both) mapfile -t COMPREPLY < <(compgen -W "$(_ladder_targets "$file")" -- "$word") ;;
        --watch) mapfile -t COMPREPLY < <(compgen -W "$(_ladder_names "$file")" -- "$word") ;;
        *)
            if [[ $word == -* ]]; then
                mapfile -t COMPREPLY < <(compgen -W "$options" -- "$word")
            elif [[ $subcommand == explain ]]; then
                mapfile -t COMPREPLY < <(compgen -W "$(_ladder_codes)" -- "$word")
            elif ((place == 0)) || [[ ($subcommand == sim || $subcommand == diff) && $place == 1 ]]; then
                mapfile -t COMPREPLY < <(compgen -f -- "$word")
            elif [[ $subcommand == causes && -z $coil && -z $every ]]; then
                mapfile -t COMPREPLY < <(compgen -W "$(_ladder_coils "$file")" -- "$word")
            elif [[ $subcommand == diff && $place == 2 ]]; then
                mapfile -t COMPREPLY < <(compgen -W "$(_ladder_coils "$file")" -- "$word")
            elif [[ $subcommand == reach && -z $coil ]]; then
                mapfile -t COMPREPLY < <(compgen -W "$(_ladder_targets "$file")" -- "$word")
            elif [[ $subcommand == causes || $subcommand == show || $subcommand == reach || $subcommand == diff ]]; then
                mapfile -t COMPREPLY < <(compgen -W "$(_ladder_inputs "$file")" -- "$word")
            fi
            ;;
    esac
}

complete -o filenames -F _ladder ladder

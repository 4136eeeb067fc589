# Completion of the program boost for bash: commands, options, and files. It is installed as
# share/bash-completion/completions/boost, or read by a line `source contrib/boost.bash` of ~/.bashrc.

# The options of a command.
_boost_options() {
    case "$1" in
        format) echo '--area --format --reserve --group --force --help' ;;
        listen) echo '--idle --shell --log --help' ;;
        serve) echo '--why --help' ;;
        show) echo '--read-only --help' ;;
        stat) echo '--json --help' ;;
        copy) echo '--area --group --without --rename --help' ;;
        status) echo '--json --prometheus --watch --help' ;;
        play | check | upgrade | lint | demo) echo '--help' ;;
        '') echo '--help --version' ;;
    esac
}

# The commands; of the script `boost` of the sources, which has the folder `release` beside it, its own too.
_boost_commands() {
    echo 'format play serve listen show check stat copy upgrade lint demo help'
    [[ $1 == */* && -d ${1%/*}/release ]] && echo 'build test which status install uninstall --quiet'
}

_boost() {
    local word=${COMP_WORDS[COMP_CWORD]} before=${COMP_WORDS[COMP_CWORD - 1]} command= at
    for ((at = 1; at < COMP_CWORD; at++)); do
        [[ ${COMP_WORDS[at]} == -* ]] || { command=${COMP_WORDS[at]}; break; }
    done
    COMPREPLY=()
    case "$before" in
        --area) COMPREPLY=($(compgen -W '64K 1M 64M 1G' -- "$word")); return ;;
        --format) COMPREPLY=($(compgen -W '1 2' -- "$word")); return ;;
        --idle) return ;;
    esac
    if [[ $word == -* ]]; then
        COMPREPLY=($(compgen -W "$(_boost_options "$command")" -- "$word"))
    elif [[ -z $command || $command == help && $before == help ]]; then
        COMPREPLY=($(compgen -W "$(_boost_commands "${COMP_WORDS[0]}")" -- "$word"))
    elif [[ $command != demo && $command != help ]]; then
        compopt -o filenames 2>/dev/null
        mapfile -t COMPREPLY < <(compgen -f -- "$word")
    fi
}

complete -F _boost boost

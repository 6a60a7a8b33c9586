# Completions of bitemporal, bitemporal_file and the tools for bash.

# The words that begin as what is written; where that is no option, files of an ending too, or all:
# WORDS [ENDING]
_bitemporal_complete() {
    local word=${COMP_WORDS[COMP_CWORD]}
    if [[ $word == -* || $# = 1 ]]; then
        mapfile -t COMPREPLY < <(compgen -W "$1" -- "$word")
    elif [[ $2 ]]; then
        compopt -o filenames 2> /dev/null
        mapfile -t COMPREPLY < <(compgen -d -- "$word"; compgen -f -X "!*$2" -- "$word")
    else
        compopt -o filenames 2> /dev/null
        mapfile -t COMPREPLY < <(compgen -f -- "$word")
    fi
}

_bitemporal() {
    case $COMP_CWORD,${COMP_WORDS[1]} in
        1,*) _bitemporal_complete 'run check help --help --version' ;;
        *,run) _bitemporal_complete '--audit --help' '.sql' ;;
        *,check) _bitemporal_complete '--help' '.sql' ;;
        2,help) _bitemporal_complete 'run check help' ;;
        *) COMPREPLY=() ;;
    esac
}

# The first file is the store.
_bitemporal_file() {
    local options='--audit --stop --now --clock-ahead --tables --verify --read-only --backup --wait' place names=0
    if [[ ${COMP_WORDS[COMP_CWORD-1]} == --backup ]]; then
        _bitemporal_complete '' ''
        return
    fi
    for ((place = 1; place < COMP_CWORD; place++)); do
        [[ ${COMP_WORDS[place]} == -* ]] || names=$((names + 1))
    done
    if ((names)); then
        _bitemporal_complete "$options --help" '.sql'
    else
        _bitemporal_complete "$options --help --version" ''
    fi
}

# A tool takes files, and the options that its help names.
_bitemporal_tool() {
    _bitemporal_complete "$("$1" --help 2> /dev/null | grep -oE -e '--[a-z][a-z-]*' | sort -u)" ''
}

complete -F _bitemporal bitemporal
complete -F _bitemporal_file bitemporal_file
complete -F _bitemporal_tool @tools@

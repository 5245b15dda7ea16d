# Completion of gamefile's commands, options and files, for bash. `make install` puts it in place; to try it:
#
#     source completions/gamefile.bash

_gamefile() {
    local word=${COMP_WORDS[COMP_CWORD]} options
    case ${COMP_WORDS[1]} in
        canon) options="--check --explain --help --no-names --quiet --write" ;;
        check) options="--explain --help --quiet" ;;
        table) options="--explain --help --reduced" ;;
        same) options="--explain --help --map --no-names" ;;
        hash | duplicates) options="--explain --files-from --help --no-names --null --quiet --zero" ;;
    esac
    if ((COMP_CWORD == 1)); then
        mapfile -t COMPREPLY < <(compgen -W "canon check table same hash duplicates help --help --version" -- "$word")
    elif [[ ${COMP_WORDS[1]} == help ]]; then
        mapfile -t COMPREPLY < <(compgen -W "canon check table same hash duplicates" -- "$word")
    elif [[ $word == -* ]]; then
        mapfile -t COMPREPLY < <(compgen -W "$options" -- "$word")
    else
        mapfile -t COMPREPLY < <(compgen -f -- "$word")
    fi
}

complete -o filenames -F _gamefile gamefile

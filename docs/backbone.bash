# Completion of the commands, options and files of backbone for bash. Source it, or install it as
# /usr/share/bash-completion/completions/backbone.

_backbone() {
    local word=${COMP_WORDS[COMP_CWORD]} before=${COMP_WORDS[COMP_CWORD - 1]} options=
    COMPREPLY=()
    if [ "$COMP_CWORD" -eq 1 ]; then
        mapfile -t COMPREPLY < <(compgen -W 'extract check sample' -- "$word")
        return
    fi
    case ${COMP_WORDS[1]} in
    extract) options='--workers --budget --seed --proof --witness' ;;
    sample) options='--vars --clauses --workers --budget --seed' ;;
    esac
    case $before in
    --workers) mapfile -t COMPREPLY < <(compgen -W '1 2 4 8 16' -- "$word") && return ;;
    --budget | --seed | --vars | --clauses) return ;;
    esac
    if [[ $word == -* ]]; then
        mapfile -t COMPREPLY < <(compgen -W "$options" -- "$word")
    elif [ "${COMP_WORDS[1]}" != sample ]; then
        compopt -o filenames
        mapfile -t COMPREPLY < <(compgen -f -- "$word")
    fi
}

complete -F _backbone backbone

# Completion of p21check for bash.
_p21check() {
    local word=${COMP_WORDS[COMP_CWORD]} previous=${COMP_WORDS[COMP_CWORD - 1]} place=0 index
    case $previous in
    --lanes) mapfile -t COMPREPLY < <(compgen -W '1 2 4 8 16 32 64' -- "$word") && return ;;
    --capacity) mapfile -t COMPREPLY < <(compgen -W '1 16 64 256 1024 4096' -- "$word") && return ;;
    --schemas) compopt -o filenames && mapfile -t COMPREPLY < <(compgen -d -- "$word") && return ;;
    --write-schema) compopt -o filenames && mapfile -t COMPREPLY < <(compgen -f -- "$word") && return ;;
    --format) mapfile -t COMPREPLY < <(compgen -W 'text json' -- "$word") && return ;;
    --color) mapfile -t COMPREPLY < <(compgen -W 'auto always never' -- "$word") && return ;;
    esac
    if [[ $word == -* ]]; then
        mapfile -t COMPREPLY < <(compgen -W '--schemas --any-schema-name --mend --write-schema --lanes --capacity --all --summary --distinct --rules --steps --explain --format --color --progress --help --version' -- "$word")
        return
    fi
    # The first word that is no option and no value of one is the schema, the second the file.
    for ((index = 1; index < COMP_CWORD; index++)); do
        case ${COMP_WORDS[index]} in
        --schemas) ((index++, place++)) ;;
        --write-schema | --lanes | --capacity | --steps | --format | --color) ((index++)) ;;
        --*) ;;
        *) ((place++)) ;;
        esac
    done
    compopt -o filenames
    if [ "$place" = 0 ]; then
        mapfile -t COMPREPLY < <(compgen -d -- "$word" && compgen -f -X '!*.exp' -- "$word")
    else
        mapfile -t COMPREPLY < <(compgen -d -- "$word" && compgen -f -X '!*.@(stp|step|ifc|p21)' -- "$word")
    fi
}
complete -F _p21check p21check

# Completion of p21archive for bash.
_p21archive() {
    local word=${COMP_WORDS[COMP_CWORD]} previous=${COMP_WORDS[COMP_CWORD - 1]}
    case $previous in
    --jobs) mapfile -t COMPREPLY < <(compgen -W '1 2 4 8 16 32 64' -- "$word") && return ;;
    --part) mapfile -t COMPREPLY < <(compgen -W '1/2 1/4 1/8 1/16' -- "$word") && return ;;
    --hosts) compopt -o filenames && mapfile -t COMPREPLY < <(compgen -f -- "$word") && return ;;
    esac
    if [[ $word == -* ]]; then
        mapfile -t COMPREPLY < <(compgen -W '--schemas --jobs --hosts --transfer --all --rules --mend --limit --seconds --part --out --resume --version --help' -- "$word")
        return
    fi
    compopt -o filenames
    mapfile -t COMPREPLY < <(compgen -d -- "$word")
}
complete -F _p21archive p21archive

# Completion of sqlkeep's words for bash.
_sqlkeep() {
    local word=${COMP_WORDS[COMP_CWORD]} before=${COMP_WORDS[COMP_CWORD-1]}
    case $before in
        --depth) mapfile -t COMPREPLY < <(compgen -W '1 8 16 32 64' -- "$word"); return ;;
        --changes) mapfile -t COMPREPLY < <(compgen -W '1 1000 65536' -- "$word"); return ;;
    esac
    if [[ $word == -* ]]; then
        mapfile -t COMPREPLY < <(compgen -W '--depth --changes --explain --json --dump --format --help --version' -- "$word")
        return
    fi
    compopt -o filenames
    mapfile -t COMPREPLY < <(compgen -f -X '!*.sql' -- "$word"; compgen -d -- "$word")
}
complete -F _sqlkeep sqlkeep

# Written by tools/completions.py for what `retractor --help` says.
_retractor() {
    COMPREPLY=()
    if [ "$COMP_CWORD" -eq 1 ]; then
        COMPREPLY=($(compgen -W "check explain play san spell unmoves study report solve settle verdict tree length atleast line dossier sample --help --version" -- "${COMP_WORDS[1]}"))
    fi
}
complete -F _retractor retractor

# Completion of elfshow for bash: the mode, the file, and calls.
_elfshow() {
    local word=${COMP_WORDS[COMP_CWORD]}
    case $COMP_CWORD in
        1) mapfile -t COMPREPLY < <(compgen -W "bytes stream both" -- "$word") ;;
        2)
            compopt -o filenames
            mapfile -t COMPREPLY < <(compgen -f -- "$word")
            ;;
        *)
            # A word break at = would cut the calls that take a value.
            compopt -o nospace
            mapfile -t COMPREPLY < <(compgen -W "header sections segments name= data= strings= rels= relas= notes= \
                seg= segnotes= symbols dynsyms dynamic versions sysv= gnu=" -- "$word")
            ;;
    esac
}
complete -F _elfshow elfshow

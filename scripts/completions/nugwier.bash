# Completion of nugwier for bash: commands, options and files.
_nugwier() {
    local word=${COMP_WORDS[COMP_CWORD]} before=${COMP_WORDS[COMP_CWORD - 1]}
    local commands="list symbols needed exports build-id plan check harden address tree bindings starts"
    COMPREPLY=()
    # The sign in --root=FOLDER is a word of its own.
    if [ "$word" = = ]; then
        word=''
    elif [ "$before" = = ]; then
        before=${COMP_WORDS[COMP_CWORD - 2]}
    fi
    if [ "$COMP_CWORD" -eq 1 ]; then
        mapfile -t COMPREPLY < <(compgen -W \
            "$commands help --json -R --recursive --color=always --color=never -h --help -V --version" -- "$word")
        return
    fi
    if [ "${COMP_WORDS[1]}" = help ]; then
        mapfile -t COMPREPLY < <(compgen -W "$commands" -- "$word")
        return
    fi
    if [ "${COMP_WORDS[1]}" = list ]; then
        case $before in
            -x | -p) return ;;
        esac
        case $word in
            -*)
                mapfile -t COMPREPLY < <(compgen -W "-h -S -g -l -s -D -d -r -n -V -I -A -k -a -x -p -W --wide \
--color=always --color=never --json -R --recursive --help" -- "$word")
                return
                ;;
        esac
    elif [[ ${COMP_WORDS[1]} =~ ^(tree|bindings|starts)$ ]]; then
        if [ "$before" = --search ] || [ "$before" = --root ]; then
            mapfile -t COMPREPLY < <(compgen -d -- "$word")
            return
        elif [ "${word#-}" != "$word" ]; then
            mapfile -t COMPREPLY < <(compgen -W "--search --root --no-cache --color=always --color=never --json -R --recursive --help" -- "$word")
            return
        fi
    elif [ "${COMP_WORDS[1]}" = harden ]; then
        if [ "$before" = --require ]; then
            mapfile -t COMPREPLY < <(compgen -W \
                "pie relro bindnow nx wx canary fortify runpath ibt shstk bti pac stripped" -- "$word")
            return
        elif [ "${word#-}" != "$word" ]; then
            mapfile -t COMPREPLY < <(compgen -W "--require --color=always --color=never --json -R --recursive --help" -- "$word")
            return
        fi
    elif [ "${COMP_WORDS[1]}" = symbols ] && { [ "$before" = --format ] || [ "$before" = -f ]; }; then
        mapfile -t COMPREPLY < <(compgen -W "posix bsd" -- "$word")
        return
    elif [ "${COMP_WORDS[1]}" = symbols ] && [ "${word#-}" != "$word" ]; then
        mapfile -t COMPREPLY < <(compgen -W \
            "-D -g -u -n -p -S -P --dynamic --extern-only --undefined-only --defined-only --numeric-sort --size-sort \
--no-sort --print-size --format=posix --format -f --color=always --color=never --json -R --recursive --help" -- "$word")
        return
    elif [ "${COMP_WORDS[1]}" = exports ] && [ "${word#-}" != "$word" ]; then
        mapfile -t COMPREPLY < <(compgen -W "--functions --color=always --color=never --json -R --recursive --help" -- "$word")
        return
    elif [ "${word#-}" != "$word" ]; then
        mapfile -t COMPREPLY < <(compgen -W "--color=always --color=never --json -R --recursive --help" -- "$word")
        return
    fi
    mapfile -t COMPREPLY < <(compgen -f -- "$word")
}
complete -o filenames -F _nugwier nugwier

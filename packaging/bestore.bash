# Bash completion for the command bestore.

# Sets COMPREPLY to the files whose names begin with this word.
_bestore_files() {
    compopt -o filenames 2>/dev/null
    mapfile -t COMPREPLY < <(compgen -f -- "$1")
}

# Sets COMPREPLY to the words that may come next on the command line.
_bestore() {
    local word=${COMP_WORDS[COMP_CWORD]} before=${COMP_WORDS[COMP_CWORD-1]} options
    COMPREPLY=()
    if [ "$COMP_CWORD" -eq 1 ]; then
        mapfile -t COMPREPLY < <(compgen -W 'run race shell check dump --help --version' -- "$word")
        return
    fi
    case $before in
        --pages | --commits) return ;; # a number
        --journal)
            if [ "${COMP_WORDS[1]}" = shell ]; then
                _bestore_files "$word"
                return
            fi
            ;;
    esac
    case ${COMP_WORDS[1]} in
        run) options='--journal --strict --pages --commits --help' ;;
        race) options='--pages --commits --help' ;;
        shell) options='--journal --pages --commits --help' ;;
        dump) options='--state --help' ;;
        check) options='--help' ;;
        *) return ;;
    esac
    case $word in
        -*) mapfile -t COMPREPLY < <(compgen -W "$options" -- "$word") ;;
        *) _bestore_files "$word" ;;
    esac
}

complete -F _bestore bestore

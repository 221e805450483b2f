# Bash completion for be, using the functions of the package bash-completion. Source this file, or install it as be in
# /usr/share/bash-completion/completions.

# Prints where the value of the option at this place is. Bash splits --socket=PATH into three words.
_be_value_at() {
    local next=$(($1 + 1))
    [ "${words[next]-}" != = ] || ((next++))
    echo "$next"
}

# Prints the names of the indices on the server that the command line specifies, if that server replies.
_be_indices() {
    local at value socket=()
    for ((at = 1; at < cword - 1; at++)); do
        value=$(_be_value_at "$at")
        [ "${words[at]}" != --socket ] || socket=(--socket "${words[value]}")
    done
    be lsindex "${socket[@]}" 2>/dev/null
}

# Prints the subcommand before the cursor, if there is one.
_be_command() {
    local at
    for ((at = 1; at < cword; at++)); do
        case ${words[at]} in
        --socket | --wait | --timeout) at=$(_be_value_at "$at") ;;
        -*) ;;
        *)
            echo "${words[at]}"
            return
            ;;
        esac
    done
}

_be_options() {
    case $1 in
    "") echo --version ;;
    query) printf '%s\n' --columns --limit --sort --reverse --after --any --count --watch --escape --explain --json --path --null --dates ;;
    addattr) printf '%s\n' --type --file --new ;;
    catattr) printf '%s\n' --raw --json ;;
    listattr) printf '%s\n' --long --hexdump --json ;;
    mkindex) echo --type ;;
    import) printf '%s\n' --follow --xattr --one-file-system --reread --verbose --json ;;
    lsindex) printf '%s\n' --long --verbose --json ;;
    status) echo --json ;;
    info) echo --json ;;
    clients) echo --json ;;
    backup) echo --json ;;
    restore) printf '%s\n' --json --until ;;
    esac
    printf '%s\n' --socket --wait --timeout --help
}

# Offers those input lines that begin with the word at the cursor.
_be_offer() {
    local line
    while IFS= read -r line; do
        [[ -z $line || $line != "$cur"* ]] || COMPREPLY+=("$(printf %q "$line")")
    done
    __ltrim_colon_completions "$cur"
}

_be() {
    local cur prev words cword command
    COMPREPLY=()
    _get_comp_words_by_ref -n : cur prev words cword
    command=$(_be_command)
    case $command:$prev in
    *:--wait | *:--timeout | query:-n | query:--limit | query:--after | query:--any) ;;
    *:--socket | addattr:-f | addattr:--file) compopt -o default ;;
    query:-s | query:--sort) _be_offer < <(_be_indices) ;;
    addattr:-t | addattr:--type | mkindex:-t | mkindex:--type)
        _be_offer < <(printf '%s\n' string mime int32 int64 uint32 uint64 raw)
        ;;
    *)
        case $command:$cur in
        *:-*) _be_offer < <(_be_options "$command") ;;
        :*) _be_offer < <(printf '%s\n' query addattr catattr listattr rmattr rmnode import mkindex lsindex rmindex reindex status info clients kick backup restore dump) ;;
        query:* | rmindex:* | reindex:*) _be_offer < <(_be_indices) ;;
        addattr:* | catattr:* | rmattr:*)
            compopt -o default
            _be_offer < <(_be_indices)
            ;;
        import:*) compopt -o dirnames ;;
        listattr:* | rmnode:* | backup:* | restore:*) compopt -o default ;;
        esac
        ;;
    esac
}

complete -F _be be

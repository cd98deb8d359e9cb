# Completion of bash for net_tool: commands, the options of each, files of nets and archives. The subcommands in Python
# and their options are those that net_tool lists.
# It belongs in share/bash-completion/completions/net_tool.

_net_tool() {
    local commands="check place key identify components symmetry cover add duplicates migrate union same verify workload"
    local word=${COMP_WORDS[COMP_CWORD]} before=${COMP_WORDS[COMP_CWORD - 1]} command="" i
    # = parts words, so that `--archive=PATH` comes as three
    if [ "$word" = "=" ]; then
        word=""
    elif [ "$before" = "=" ]; then
        before=${COMP_WORDS[COMP_CWORD - 2]}
    fi
    for ((i = 1; i < COMP_CWORD; i++)); do
        if [[ " $commands " == *" ${COMP_WORDS[i]} "* ]]; then
            command=${COMP_WORDS[i]}
            break
        fi
        [[ $i -gt 1 || ${COMP_WORDS[i]} == -* ]] || break # a subcommand in Python
    done
    COMPREPLY=()
    if [ "$before" = --archive ]; then
        _net_tool_files "$word" archive
    elif [ "$before" = --name ] || [ "$before" = --cell ]; then
        return
    elif [ -z "$command" ]; then
        _net_tool_of_python "$1"
    elif [ "${COMP_WORDS[1]}" = help ]; then
        return
    elif [[ $word == -* ]]; then
        case $command in
        identify | duplicates | migrate | union) mapfile -t COMPREPLY < <(compgen -W "--archive" -- "$word") ;;
        add) mapfile -t COMPREPLY < <(compgen -W "--archive --name" -- "$word") ;;
        cover) mapfile -t COMPREPLY < <(compgen -W "--cell" -- "$word") ;;
        esac
    elif [[ $command == union ]]; then
        _net_tool_files "$word" archive arc
    elif [[ $command == verify ]]; then
        _net_tool_files "$word" maps
    elif [[ " check place key identify components symmetry cover same add " == *" $command "* ]]; then
        _net_tool_files "$word" cgd
    fi
}

# files with one of the endings, and folders on the way to them; any file where there is none
_net_tool_files() {
    local word=$1 ending
    shift
    compopt -o filenames 2>/dev/null
    mapfile -t COMPREPLY < <(for ending in "$@"; do compgen -f -X "!*.$ending" -- "$word"; done; compgen -d -- "$word")
    [ ${#COMPREPLY[@]} -gt 0 ] || mapfile -t COMPREPLY < <(compgen -f -- "$word")
}


# the first word, or what follows a subcommand in Python: its second word, its options, any file
_net_tool_of_python() {
    local subcommands word=${COMP_WORDS[COMP_CWORD]} first=${COMP_WORDS[1]:-}
    subcommands=$("$1" --commands 2>/dev/null)
    if [ "$COMP_CWORD" -eq 1 ]; then
        mapfile -t COMPREPLY < <(compgen -W "$(cut -d ' ' -f 1 <<<"$subcommands" | sort -u) help --help --version" -- "$word")
    elif [ "$COMP_CWORD" -eq 2 ] && [ "$first" = help ]; then
        mapfile -t COMPREPLY < <(compgen -W "$(cut -d ' ' -f 1 <<<"$subcommands" | sort -u)" -- "$word")
    elif [ "$COMP_CWORD" -eq 2 ] && grep -q "^$first " <<<"$subcommands"; then
        mapfile -t COMPREPLY < <(compgen -W "$(sed -n "s/^$first //p" <<<"$subcommands")" -- "$word")
    elif [[ $word == -* ]]; then
        local words=("$first")
        ! grep -q "^$first " <<<"$subcommands" || words+=("${COMP_WORDS[2]}")
        mapfile -t COMPREPLY < <(compgen -W "$("$1" "${words[@]}" --help 2>/dev/null |
            sed -n 's/^ \{2,\}\(-[A-Za-z], \)\{0,1\}\(--[a-z][a-z-]*\).*/\2/p')" -- "$word")
    else
        compopt -o default -o filenames 2>/dev/null
    fi
}

complete -F _net_tool net_tool

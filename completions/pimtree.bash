# Completion of pimtree for bash.

# Prints the options of a command.
_pimtree_options() {
    local run='--rp --routes --limit --after --at --vlan --interface'
    local messages='--upstream --own --holdtime --budget'
    case $1 in
        check) echo --src --dst --partial --help ;;
        build) echo --src --dst --help ;;
        replay) echo "$run" --input --help ;;
        trace) echo "$run" --input --from --group --source --time --all --state --json --help ;;
        audit) echo "$run" --input --upstream --local --grace --from --group --time --json --help ;;
        same | mirror | emit | change) echo "$run" "$messages" --input --help ;;
        session) echo --help ;;
    esac
}

# Completes a word by those of a list: _pimtree_words 'WORD ..' START
_pimtree_words() {
    mapfile -t COMPREPLY < <(compgen -W "$1" -- "$2")
}

# Completes a file, whose name follows a prefix in its word: _pimtree_files PREFIX START
_pimtree_files() {
    local file
    while IFS= read -r file; do
        [[ -d $file ]] && file+=/
        printf -v file '%s%q' "$1" "$file"
        COMPREPLY+=("$file")
    done < <(compgen -f -- "$2")
    if [[ ${COMPREPLY[*]} == */ ]]; then
        compopt -o nospace
    fi
}

# Completes a word that isn't the value of an option: _pimtree_argument COMMAND START
_pimtree_argument() {
    case $2 in
        +*) _pimtree_files + "${2#+}" ;;
        *@*) _pimtree_files "${2%@*}@" "${2##*@}" ;;
        *) _pimtree_words "$(_pimtree_options "$1")" "$2" ;;
    esac
}

_pimtree() {
    local commands='check build replay trace audit same mirror emit change session'
    local command=${COMP_WORDS[1]} before=$3
    COMPREPLY=()
    # Bash makes a word of =, too: those of `--time=utc` are `--time`, `=` and `utc`.
    if [[ $before == = ]]; then
        before=${COMP_WORDS[COMP_CWORD - 2]}
    fi
    if ((COMP_CWORD == 1)); then
        _pimtree_words "$commands --help --version" "$2"
        return
    fi
    case $before in
        --time) _pimtree_words 'ms epoch utc' "$2" ;;
        --input)
            case $command in
                trace | audit) _pimtree_words any "$2" ;;
                *) _pimtree_words 'classic any' "$2" ;;
            esac
            ;;
        --routes | --local | [\<\>]*) _pimtree_files '' "$2" ;;
        --all | --state | --json | --partial) _pimtree_argument "$command" "$2" ;;
        --*) ;;
        *) _pimtree_argument "$command" "$2" ;;
    esac
}

complete -F _pimtree pimtree

# What bash completes of the words of workbench. `./tools/dev help-files` compares it with the program's own help.

# completes files that fit a pattern, and folders
_workbench_files()
{
    mapfile -t COMPREPLY < <(compgen -f -X "!$1" -- "$2"; compgen -d -- "$2")
    compopt -o filenames 2> /dev/null
}

# completes some words
_workbench_words()
{
    mapfile -t COMPREPLY < <(compgen -W "$1" -- "$2")
}

_workbench()
{
    local at=$COMP_CWORD word=${COMP_WORDS[COMP_CWORD]} options values given
    COMPREPLY=()
    if ((COMP_CWORD == 1)); then
        _workbench_words 'run size lengths sweep check help --help --version' "$word"
        return
    fi
    case ${COMP_WORDS[1]} in
        run)
            options='--limit --fail --also --every --fail-from --set --follow --follow-steps --follow-around --budget --min --step --moving --json --quiet --picture --sarif --help'
            values='--limit --fail --also --every --fail-from --set --follow-steps --follow-around --budget --min --step --picture --sarif'
            ;;
        size)
            options='--brief --budget --min --step --moving --json --quiet --picture --sarif --help'
            values='--budget --min --step --picture --sarif'
            ;;
        lengths)
            options='--brief --budget --min --step --moving --json --quiet --picture --sarif --help'
            values='--budget --min --step --picture --sarif'
            ;;
        sweep)
            options='--every --persistent --pairs --all --ends --failures --sets --states --from --to --budget --min --step --moving --json --quiet --picture --sarif --help'
            values='--failures --states --from --to --budget --min --step --picture --sarif'
            ;;
        check)
            options='--every --persistent --pairs --all --ends --failures --sets --states --brief --budget --min --step --moving --json --quiet --picture --sarif --help'
            values='--failures --states --budget --min --step --picture --sarif'
            ;;
        help)
            _workbench_words 'run size lengths sweep check help' "$word"
            return
            ;;
        *) return ;;
    esac
    # a value may follow its option in the same word, with `=` between, which is a word of its own here
    if [[ $word == '=' ]]; then
        word=''
    elif [[ ${COMP_WORDS[at - 1]} == '=' ]]; then
        ((at--))
    fi
    if [[ " $values " == *" ${COMP_WORDS[at - 1]} "* ]]; then
        # a number is not completed
        [[ " --picture " == *" ${COMP_WORDS[at - 1]} "* ]] && _workbench_files '*.svg' "$word"
        [[ " --sarif " == *" ${COMP_WORDS[at - 1]} "* ]] && _workbench_files '*.sarif' "$word"
    elif [[ $word == -* ]]; then
        # an option may be given once
        for given in "${COMP_WORDS[@]:2:COMP_CWORD - 2}"; do
            options=" $options "
            options=${options/ "$given" / }
        done
        _workbench_words "$options" "$word"
    else
        _workbench_files '*.oom' "$word"
    fi
}

complete -F _workbench workbench

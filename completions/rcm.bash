# Completion of rcm for bash: commands, their options, numbers and answers for explain, texts and folders for
# test. Other files are left to readline.

_rcm_options() {
    case $1 in
    asm) echo "-o --unchecked --no-map --help" ;;
    dis) echo "--raw --help" ;;
    check) echo "--json --help" ;;
    run) echo "--budget --arguments --state --output --trace --json --help" ;;
    pages) echo "--address --svg --json --help" ;;
    list) echo "--budget --arguments --text --csv --json --help" ;;
    test | explain) echo "--help" ;;
    esac
}

_rcm() {
    local current=${COMP_WORDS[COMP_CWORD]} previous=${COMP_WORDS[COMP_CWORD - 1]} words=
    COMPREPLY=()
    # An option's value may stand behind `=`, which is a word of its own here.
    if [[ $current == = ]]; then
        current=
    elif [[ $previous == = ]]; then
        previous=${COMP_WORDS[COMP_CWORD - 2]}
    fi
    if ((COMP_CWORD == 1)); then
        words="asm dis check run pages test list explain help --help --version -h -V"
    else
        case $previous in
        --budget | --arguments | --trace | --address)
            # A number: no file fits.
            compopt +o default
            return 0
            ;;
        -o | --state | --output | --svg) return 0 ;;
        esac
        if [[ $current == -* ]]; then
            words=$(_rcm_options "${COMP_WORDS[1]}")
        elif [[ ${COMP_WORDS[1]} == explain ]]; then
            words="accepted refused ended stopped running 1 2 3 4 5 6 7 8 9 20 21 22 31 32 33 34 35 36 37 38 39"
        fi
    fi
    if [[ ${COMP_WORDS[1]} == test && $COMP_CWORD -gt 1 && $current != -* ]]; then
        compopt -o filenames
        mapfile -t COMPREPLY < <(compgen -o plusdirs -f -X '!*.asm' -- "$current")
        return 0
    fi
    mapfile -t COMPREPLY < <(compgen -W "$words" -- "$current")
}

complete -o default -F _rcm rcm

#compdef rcm
# Completion of rcm for zsh: commands, their options, files, numbers and answers for explain.

_rcm() {
    local context state state_descr line
    local -A opt_args
    local -a commands budget
    commands=(
        'asm:the module file of a text'
        'dis:the text of a module file'
        'check:the verdict'
        'run:open a module and go on with a form'
        'pages:the memory of a state'
        'test:the expectations in texts'
        'list:the list that a module makes of a form'
        'explain:numbers and answers in plain words'
        'help:the commands'
    )
    budget=(
        '--budget=[at most so many steps]:steps:'
        '--arguments=[the arguments of function 0]:numbers with commas between them:'
    )
    _arguments -C '(- *)'{-h,--help}'[the commands]' '(- *)'{-V,--version}'[the version]' '1:command:->command' '*::word:->word'
    case $state in
    command)
        _describe -t commands 'command' commands
        ;;
    word)
        case $words[1] in
        asm)
            _arguments '--help[what asm takes]' '-o[where the module is written]:module:_files' \
                '--unchecked[also what the checker would refuse]' '--no-map[no map of names and lines]' '1:text:_files -g "*.asm"'
            ;;
        dis)
            _arguments '--help[what dis takes]' '--raw[the records of any file]' '1:module:_files'
            ;;
        check)
            _arguments '--help[what check takes]' '--json[as JSON]' '1:module:_files'
            ;;
        run)
            _arguments '--help[what run takes]' $budget '--state=[go on from and save to]:state:_files' \
                '--output=[where the output is written]:output:_files' '--trace=[the last steps]:steps:' '--json[as JSON]' \
                '1:module:_files' '2:form:_files'
            ;;
        pages)
            _arguments '--help[what pages takes]' '*--address=[the object around an address]:address:' \
                '--svg=[a picture]:file:_files' '--json[as JSON]' '1:module:_files' '2:state:_files'
            ;;
        test)
            _arguments '--help[what test takes]' '*:text or folder:_files -g "*.asm"'
            ;;
        list)
            _arguments '--help[what list takes]' $budget '(--csv --json)--text[as characters]' '(--text --json)--csv[for a spreadsheet]' \
                '(--text --csv)--json[as JSON]' '1:module:_files' '2:form:_files'
            ;;
        explain)
            _arguments '--help[what explain takes]' '*:number or answer:(accepted refused ended stopped running 1 2 3 4 5 6 7 8 9 20 21 22 31 32 33 34 35 36 37 38 39)'
            ;;
        esac
        ;;
    esac
}

_rcm "$@"

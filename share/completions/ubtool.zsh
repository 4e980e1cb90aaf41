#compdef ubtool
# Completion of ubtool for zsh: subcommands, options, files, and the names of variables that the configuration on the
# command line, or /etc/fw_env.config, leads to.

_ubtool_names() {
    local -a from names
    (( ! ${+opt_args[-c]} )) || from+=(-c "${(Q)opt_args[-c]}")
    (( ! ${+opt_args[--config]} )) || from+=(-c "${(Q)opt_args[--config]}")
    (( ! ${+opt_args[--big-endian]} )) || from+=(--big-endian)
    names=(${(f)"$(_call_program variables ubtool printenv ${(q)from} 2>/dev/null </dev/null |
        sed -n 's/^\([A-Za-z0-9_.-]*\)=.*/\1/p')"})
    local expl
    _wanted variables expl variable compadd -a names
}

# options: completions
# _ubtool_options COMMAND: the options of the command, as _arguments takes them, in `specs`.
_ubtool_options() {
    case $1 in
        printenv)
            specs=(
                '(-c --config)'{-c,--config}'[Configuration, at most 1048576 bytes]:file:_files'
                '(-i --image)'{-i,--image}'[Image, at most 1048576 bytes\: the whole FILE, in place of -c]:file:_files'
                '--second[Second copy of a redundant pair, beside -i\: the whole FILE]:file:_files'
                '--text[Text for mkenvimage, at most 1048576 bytes, in place of -c]:file:_files'
                '--big-endian[The CRC is stored big-endian]'
                '(-l --lock)'{-l,--lock}'[Wait for the lock file in DIR]:folder:_files -/'
                '--one-copy[If one copy of a pair cannot be read, use the other]'
                '(-n --noheader)'{-n,--noheader}'[Print the value alone, of exactly one NAME]'
                '(-0 --null)'{-0,--null}'[End each variable with a NUL byte]'
                '--escaped[Print newlines as \\n and other bytes by their digits]'
                '(- *)'{-h,--help}'[Print help]'
                '(- *)'{-V,--version}'[Print version]'
            )
            ;;
        setenv)
            specs=(
                '(-c --config)'{-c,--config}'[Configuration, at most 1048576 bytes]:file:_files'
                '(-i --image)'{-i,--image}'[Image, at most 1048576 bytes\: the whole FILE, in place of -c]:file:_files'
                '--second[Second copy of a redundant pair, beside -i\: the whole FILE]:file:_files'
                '--big-endian[The CRC is stored big-endian]'
                '(-l --lock)'{-l,--lock}'[Folder of the lock file]:folder:_files -/'
                '--one-copy[If one copy of a pair cannot be read, use the other]'
                '(-s --script)'{-s,--script}'[Script of changes, at most 1048576 bytes]:file:_files'
                '(- *)'{-h,--help}'[Print help]'
                '(- *)'{-V,--version}'[Print version]'
            )
            ;;
        rehearse)
            specs=(
                '(-c --config)'{-c,--config}'[Configuration, at most 1048576 bytes]:file:_files'
                '(-i --image)'{-i,--image}'[Image, at most 1048576 bytes\: the whole FILE, in place of -c]:file:_files'
                '--second[Second copy of a redundant pair, beside -i\: the whole FILE]:file:_files'
                '--text[Text for mkenvimage, at most 1048576 bytes, in place of -c]:file:_files'
                '--big-endian[The CRC is stored big-endian]'
                '(-d --device-list)'{-d,--device-list}'[Device list, or a folder of them, at most 1048576 bytes\: a command that may fail a line]:file:_files'
                '--files[Folder of the files that the list names, at most 1048576 bytes each]:folder: '
                '--steady[Each question has one answer in a run]'
                '--given[The Kth alternative of the lines given, 1 to 64]:k: '
                '(-b --variable)'{-b,--variable}'[Variable whose text is run]:name:_ubtool_names'
                '--script[Script or script image, at most 1048576 bytes, in place of NAME]:file:_files'
                '--devices[At most N device commands a run, 0 to 32; up to 1000 with --word, or with --failures of at most 3]:n: '
                '--steps[At most N steps (commands begun) a run, 0 to 1000000]:n: '
                '--shell[Run the scripts as this shell does\: profile, old-2023.01, old-2025.01, old, modern-2025.01 or modern]:name:(profile old-2023.01 old-2025.01 old modern-2025.01 modern)'
                '--word[The run of WORD alone, . for the empty one]:word: '
                '--failures[The runs in which at most N answers are failures, 0 to 32]:n: '
                '--after[Start after the run of WORD, . for the empty one]:word: '
                '--limit[At most N records, 1 to 4294967295]:n: '
                '(- *)'{-h,--help}'[Print help]'
                '(- *)'{-V,--version}'[Print version]'
            )
            ;;
        endings)
            specs=(
                '(-c --config)'{-c,--config}'[Configuration, at most 1048576 bytes]:file:_files'
                '(-i --image)'{-i,--image}'[Image, at most 1048576 bytes\: the whole FILE, in place of -c]:file:_files'
                '--second[Second copy of a redundant pair, beside -i\: the whole FILE]:file:_files'
                '--text[Text for mkenvimage, at most 1048576 bytes, in place of -c]:file:_files'
                '--big-endian[The CRC is stored big-endian]'
                '(-d --device-list)'{-d,--device-list}'[Device list, or a folder of them, at most 1048576 bytes\: a command that may fail a line]:file:_files'
                '--files[Folder of the files that the list names, at most 1048576 bytes each]:folder: '
                '--steady[Each question has one answer in a run]'
                '--given[The Kth alternative of the lines given, 1 to 64]:k: '
                '(-b --variable)'{-b,--variable}'[Variable whose text is run]:name:_ubtool_names'
                '--script[Script or script image, at most 1048576 bytes, in place of NAME]:file:_files'
                '--devices[At most N device commands a run, 0 to 1000]:n: '
                '--steps[At most N steps (commands begun) a run, 0 to 1000000]:n: '
                '--shell[Run the scripts as this shell does\: profile, old-2023.01, old-2025.01, old, modern-2025.01 or modern]:name:(profile old-2023.01 old-2025.01 old modern-2025.01 modern)'
                '--states[At most N states in all, 0 to 4294967295]:n: '
                '--work[At most N steps (commands begun) in all, 0 to 4294967295]:n: '
                '--memory[At most N MiB of states in all, 0 to 4294967295]:n: '
                '--flow[Write the states as a graph, a line each]'
                '(- *)'{-h,--help}'[Print help]'
                '(- *)'{-V,--version}'[Print version]'
            )
            ;;
        boots)
            specs=(
                '(-c --config)'{-c,--config}'[Configuration, at most 1048576 bytes]:file:_files'
                '(-i --image)'{-i,--image}'[Image, at most 1048576 bytes\: the whole FILE, in place of -c]:file:_files'
                '--second[Second copy of a redundant pair, beside -i\: the whole FILE]:file:_files'
                '--text[Text for mkenvimage, at most 1048576 bytes, in place of -c]:file:_files'
                '--big-endian[The CRC is stored big-endian]'
                '(-d --device-list)'{-d,--device-list}'[Device list, or a folder of them, at most 1048576 bytes\: a command that may fail a line]:file:_files'
                '--files[Folder of the files that the list names, at most 1048576 bytes each]:folder: '
                '--steady[Each question has one answer in a run]'
                '--given[The Kth alternative of the lines given, 1 to 64]:k: '
                '(-b --variable)'{-b,--variable}'[Variable whose text is run]:name:_ubtool_names'
                '--script[Script or script image, at most 1048576 bytes, in place of NAME]:file:_files'
                '--devices[At most N device commands a run, 0 to 1000]:n: '
                '--steps[At most N steps (commands begun) a run, 0 to 1000000]:n: '
                '--shell[Run the scripts as this shell does\: profile, old-2023.01, old-2025.01, old, modern-2025.01 or modern]:name:(profile old-2023.01 old-2025.01 old modern-2025.01 modern)'
                '--states[At most N states in all, 0 to 4294967295]:n: '
                '--work[At most N steps (commands begun) in all, 0 to 4294967295]:n: '
                '--memory[At most N MiB of states in all, 0 to 4294967295]:n: '
                '--boots[At most N boots]:n: '
                '--failures[Only endings that N failures or fewer lead to, 0 to 32]:n: '
                '--then[Script of changes, as for setenv -s, that may follow a boot that booted]:file:_files'
                '--expect[Whether each boot leads on to ENDING; status 1 if not]:ending: '
                '--within[With --expect\: within N boots, 1 to 4294967295]:n: '
                '*--expect-var[With --expect\: ENDING leaves NAME with VALUE; may be repeated]:name=value: '
                '(- *)'{-h,--help}'[Print help]'
                '(- *)'{-V,--version}'[Print version]'
            )
            ;;
        causes)
            specs=(
                '(-c --config)'{-c,--config}'[Configuration, at most 1048576 bytes]:file:_files'
                '(-i --image)'{-i,--image}'[Image, at most 1048576 bytes\: the whole FILE, in place of -c]:file:_files'
                '--second[Second copy of a redundant pair, beside -i\: the whole FILE]:file:_files'
                '--text[Text for mkenvimage, at most 1048576 bytes, in place of -c]:file:_files'
                '--big-endian[The CRC is stored big-endian]'
                '(-d --device-list)'{-d,--device-list}'[Device list, or a folder of them, at most 1048576 bytes\: a command that may fail a line]:file:_files'
                '--files[Folder of the files that the list names, at most 1048576 bytes each]:folder: '
                '--steady[Each question has one answer in a run]'
                '--given[The Kth alternative of the lines given, 1 to 64]:k: '
                '(-b --variable)'{-b,--variable}'[Variable whose text is run]:name:_ubtool_names'
                '--script[Script or script image, at most 1048576 bytes, in place of NAME]:file:_files'
                '--devices[At most N device commands a run, 0 to 1000]:n: '
                '--steps[At most N steps (commands begun) a run, 0 to 1000000]:n: '
                '--shell[Run the scripts as this shell does\: profile, old-2023.01, old-2025.01, old, modern-2025.01 or modern]:name:(profile old-2023.01 old-2025.01 old modern-2025.01 modern)'
                '--failures[The runs in which at most N answers are failures, 0 to 3]:n: '
                '--check[Only what does not boot; status 1 if there is any]'
                '(- *)'{-h,--help}'[Print help]'
                '(- *)'{-V,--version}'[Print version]'
            )
            ;;
        image)
            specs=(
                '--size[Bytes of the image, at most 1048576]:n: '
                '--redundant[A copy of a redundant pair, with a flag]'
                '--big-endian[The CRC is stored big-endian]'
                '--fill[What the free bytes are, 0 to 255 or 0x0 to 0xff]:byte: '
                '(-o --output)'{-o,--output}'[The new image; refused if there is such a file]:file:_files'
                '(- *)'{-h,--help}'[Print help]'
                '(- *)'{-V,--version}'[Print version]'
            )
            ;;
        inspect)
            specs=(
                '(-c --config)'{-c,--config}'[Configuration, at most 1048576 bytes]:file:_files'
                '(-i --image)'{-i,--image}'[Image, at most 1048576 bytes\: the whole FILE, in place of -c]:file:_files'
                '--second[Second copy of a redundant pair, beside -i\: the whole FILE]:file:_files'
                '--big-endian[The CRC is stored big-endian]'
                '(- *)'{-h,--help}'[Print help]'
                '(- *)'{-V,--version}'[Print version]'
            )
            ;;
    esac
}
# end

_ubtool() {
    local curcontext=$curcontext state line
    local -A opt_args
    local -a specs commands words_alone
    commands=(
        'printenv:print variables of the environment'
        'setenv:set or delete variables of the environment'
        'rehearse:list every run of a boot script'
        'endings:tell how all runs of a boot script end'
        'boots:tell which boots follow one another'
        'causes:tell what has to fail for each ending of a boot script'
        'image:make an image of a text of variables'
        'inspect:tell what a configuration or an image is'
    )
    words_alone=('help:print help' 'version:print version')
    _arguments -C '(- *)'{-h,--help}'[print help]' '(- *)'{-V,--version}'[print version]' \
        '1: :->command' '*:: :->words' && return
    case $state in
        command) _describe -t commands command commands -- words_alone ;;
        words)
            curcontext=${curcontext%:*:*}:ubtool-$words[1]:
            _ubtool_options $words[1]
            case $words[1] in
                help) (( CURRENT != 2 )) || _describe -t commands command commands ;;
                printenv|rehearse|endings|boots) _arguments -S $specs '*: :_ubtool_names' ;;
                causes|inspect) _arguments -S $specs ;;
                image) _arguments -S $specs '1:file:_files' ;;
                setenv) _arguments -S $specs '1: :_ubtool_names' '*:value: ' ;;
            esac
            ;;
    esac
}

_ubtool "$@"

#compdef hushcheck
# Completion of hushcheck for zsh: options, files, and the names of variables that the configuration on the command line,
# or /etc/fw_env.config, leads to, as ubtool prints them.

_hushcheck_names() {
    local -a from names
    (( ! ${+opt_args[-c]} )) || from+=(-c "${(Q)opt_args[-c]}")
    (( ! ${+opt_args[--config]} )) || from+=(-c "${(Q)opt_args[--config]}")
    (( ! ${+opt_args[--big-endian]} )) || from+=(--big-endian)
    names=(${(f)"$(_call_program variables ubtool printenv ${(q)from} 2>/dev/null </dev/null |
        sed -n 's/^\([A-Za-z0-9_.-]*\)=.*/\1/p')"})
    local expl
    _wanted variables expl variable compadd -a names
}

# options: completions
# _hushcheck_options COMMAND: the options of the command, as _arguments takes them, in `specs`.
_hushcheck_options() {
    case $1 in
        hushcheck)
            specs=(
                '(-c --config)'{-c,--config}'[Configuration, at most 1048576 bytes]:file:_files'
                '(-i --image)'{-i,--image}'[Image, at most 1048576 bytes\: the whole FILE, in place of -c]:file:_files'
                '--second[Second copy of a redundant pair, beside -i\: the whole FILE]:file:_files'
                '--text[Text for mkenvimage, at most 1048576 bytes, in place of -c]:file:_files'
                '--big-endian[The CRC is stored big-endian]'
                '(-d --device-list)'{-d,--device-list}'[Device list, at most 1048576 bytes, that the commands are looked up in]:file:_files'
                '--files[Folder of the files that the list names, at most 1048576 bytes each]:folder: '
                '--script[Script or script image, at most 1048576 bytes, in place of NAME]:file:_files'
                '--all[Check every variable of the image, after the NAMEs]'
                '--shell[Name what a rehearsal by this shell does not follow\: profile, old-2023.01, old-2025.01, old, modern-2025.01 or modern]:name:(profile old-2023.01 old-2025.01 old modern-2025.01 modern)'
                '--strict[Exit with status 1 if there is a warning]'
                '(- *)'{-h,--help}'[Print help]'
                '(- *)'{-V,--version}'[Print version]'
            )
            ;;
    esac
}
# end

_hushcheck() {
    local -A opt_args
    local -a specs
    _hushcheck_options hushcheck
    _arguments -S $specs '*: :_hushcheck_names'
}

_hushcheck "$@"

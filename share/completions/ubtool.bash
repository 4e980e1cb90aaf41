# Completion of ubtool for bash: subcommands, options, files, and the names of variables that the configuration on the
# command line, or /etc/fw_env.config, leads to.

# _ubtool_line: the words up to the one that is completed, in `line`. Bash cuts at the `=` of `--config=FILE`; here the
# option and its value are two words.
_ubtool_line() {
    local number
    line=()
    for ((number = 0; number <= COMP_CWORD; number++)); do
        if [[ ${COMP_WORDS[number]} != = || ${COMP_WORDS[number - 1]} != --?* ]]; then
            line+=("${COMP_WORDS[number]}")
        elif [ "$number" = "$COMP_CWORD" ]; then
            line+=('')
        fi
    done
    last=$((${#line[@]} - 1))
}

# _ubtool_names PROGRAM: the names of the variables.
_ubtool_names() {
    local from=() number
    for ((number = 2; number < last; number++)); do
        case ${line[number]} in
            --) break ;;
            -c | --config) from+=(-c "${line[number + 1]}") ;;
            --big-endian) from+=(--big-endian) ;;
        esac
    done
    "$1" printenv "${from[@]}" 2>/dev/null </dev/null | sed -n 's/^\([A-Za-z0-9_.-]*\)=.*/\1/p'
}

# options: completions
# _ubtool_options COMMAND: the options of the command, in `options`.
_ubtool_options() {
    case $1 in
        printenv) options='-c --config -i --image --second --text --big-endian -l --lock --one-copy -n --noheader -0 --null --escaped -h --help -V --version' ;;
        setenv) options='-c --config -i --image --second --big-endian -l --lock --one-copy -s --script -h --help -V --version' ;;
        rehearse) options='-c --config -i --image --second --text --big-endian -d --device-list --files --steady --given -b --variable --script --devices --steps --shell --word --failures --after --limit -h --help -V --version' ;;
        endings) options='-c --config -i --image --second --text --big-endian -d --device-list --files --steady --given -b --variable --script --devices --steps --shell --states --work --memory --flow -h --help -V --version' ;;
        boots) options='-c --config -i --image --second --text --big-endian -d --device-list --files --steady --given -b --variable --script --devices --steps --shell --states --work --memory --boots --failures --then --expect --within --expect-var -h --help -V --version' ;;
        causes) options='-c --config -i --image --second --text --big-endian -d --device-list --files --steady --given -b --variable --script --devices --steps --shell --failures --check -h --help -V --version' ;;
        image) options='--size --redundant --big-endian --fill -o --output -h --help -V --version' ;;
        inspect) options='-c --config -i --image --second --big-endian -h --help -V --version' ;;
        *) options='' ;;
    esac
}

# _ubtool_value WORD: if the word is an option with a value, what the value is, in `value`.
_ubtool_value() {
    case $1 in
        -c | --config | -i | --image | --second | --text | -s | --script | -d | --device-list | --then | -o | --output) value='file' ;;
        -l | --lock) value='folder' ;;
        -b | --variable) value='name' ;;
        --files | --given | --devices | --steps | --word | --failures | --after | --limit | --states | --work | --memory | --boots | --expect | --within | --expect-var | --size | --fill) value='other' ;;
        --shell) value='listed profile old-2023.01 old-2025.01 old modern-2025.01 modern' ;;
        *) value='' ;;
    esac
}
# end

# _ubtool_first: this is the first word of its subcommand that is no option.
_ubtool_first() {
    local number value
    for ((number = 2; number < last; number++)); do
        _ubtool_value "${line[number]}"
        case ${value:+with-value}${line[number]} in
            with-value*) ((number++)) ;;
            -*) ;;
            *) return 1 ;;
        esac
    done
}

_ubtool() {
    local line last word options value='' words='' number
    _ubtool_line
    word=${line[last]}
    COMPREPLY=()
    case $last-${line[1]} in
        1-*)
            mapfile -t COMPREPLY < <(compgen -W 'printenv setenv rehearse endings boots causes image inspect help version -h --help -V --version' -- "$word")
            return
            ;;
        2-help)
            mapfile -t COMPREPLY < <(compgen -W 'printenv setenv rehearse endings boots causes image inspect' -- "$word")
            return
            ;;
        *) _ubtool_options "${line[1]}" ;;
    esac
    [ -n "$options" ] || return
    for ((number = 2; number < last; number++)); do
        [ "${line[number]}" != -- ] || options=''
    done
    [ -z "$options" ] || _ubtool_value "${line[last - 1]}"
    [[ ${line[1]} != image || -n $value || $word == -* ]] || value=file
    case $value in
        file)
            compopt -o filenames 2>/dev/null
            mapfile -t COMPREPLY < <(compgen -f -- "$word")
            return
            ;;
        folder)
            compopt -o filenames 2>/dev/null
            mapfile -t COMPREPLY < <(compgen -d -- "$word")
            return
            ;;
        listed\ *)
            mapfile -t COMPREPLY < <(compgen -W "${value#listed }" -- "$word")
            return
            ;;
        other) return ;;
    esac
    if [[ $word == -* && -n $options ]]; then
        words=$options
    elif [ "$value" = name ]; then
        words=$(_ubtool_names "$1")
    else
        case ${line[1]} in
            printenv | rehearse | endings | boots) words=$(_ubtool_names "$1") ;;
            setenv) ! _ubtool_first || words=$(_ubtool_names "$1") ;;
        esac
    fi
    mapfile -t COMPREPLY < <(compgen -W "$words" -- "$word")
}

complete -F _ubtool ubtool

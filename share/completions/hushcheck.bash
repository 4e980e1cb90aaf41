# Completion of hushcheck for bash: options, files, and the names of variables that the configuration on the command line,
# or /etc/fw_env.config, leads to, as ubtool prints them.

# _hushcheck_line: the words up to the one that is completed, in `line`. Bash cuts at the `=` of `--config=FILE`; here
# the option and its value are two words.
_hushcheck_line() {
    local number
    line=()
    for ((number = 0; number <= COMP_CWORD; number++)); do
        if [[ ${COMP_WORDS[number]} != = || ${COMP_WORDS[number - 1]} != --?* ]]; then
            line+=("${COMP_WORDS[number]}")
        elif [ "$number" = "$COMP_CWORD" ]; then
            line+=('')
        fi
    done
    last=$((${#line[@]} - 1))
}

# _hushcheck_names: the names of the variables.
_hushcheck_names() {
    local from=() number
    for ((number = 1; number < last; number++)); do
        case ${line[number]} in
            --) break ;;
            -c | --config) from+=(-c "${line[number + 1]}") ;;
            --big-endian) from+=(--big-endian) ;;
        esac
    done
    ubtool printenv "${from[@]}" 2>/dev/null </dev/null | sed -n 's/^\([A-Za-z0-9_.-]*\)=.*/\1/p'
}

# options: completions
# _hushcheck_options COMMAND: the options of the command, in `options`.
_hushcheck_options() {
    case $1 in
        hushcheck) options='-c --config -i --image --second --text --big-endian -d --device-list --files --script --all --shell --strict -h --help -V --version' ;;
        *) options='' ;;
    esac
}

# _hushcheck_value WORD: if the word is an option with a value, what the value is, in `value`.
_hushcheck_value() {
    case $1 in
        -c | --config | -i | --image | --second | --text | -d | --device-list | --script) value='file' ;;
        --files) value='other' ;;
        --shell) value='listed profile old-2023.01 old-2025.01 old modern-2025.01 modern' ;;
        *) value='' ;;
    esac
}
# end

_hushcheck() {
    local line last word options value='' words number
    _hushcheck_line
    _hushcheck_options hushcheck
    word=${line[last]}
    COMPREPLY=()
    for ((number = 1; number < last; number++)); do
        [ "${line[number]}" != -- ] || options=''
    done
    [ -z "$options" ] || _hushcheck_value "${line[last - 1]}"
    case $value in
        file)
            compopt -o filenames 2>/dev/null
            mapfile -t COMPREPLY < <(compgen -f -- "$word")
            return
            ;;
        listed\ *)
            mapfile -t COMPREPLY < <(compgen -W "${value#listed }" -- "$word")
            return
            ;;
    esac
    if [[ $word == -* && -n $options ]]; then
        words=$options
    else
        words=$(_hushcheck_names)
    fi
    mapfile -t COMPREPLY < <(compgen -W "$words" -- "$word")
}

complete -F _hushcheck hushcheck

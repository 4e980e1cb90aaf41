# How a board starts, as lines of a device list: what its C code sets before the script (share/boards/set_before), and `before
# preboot` if its configuration runs that. Usage: awk -v board=BOARD -f given_lines.awk SET_BEFORE VARIABLES CONFIG; VARIABLES has
# the environment, a line NAME=VALUE each, and CONFIG is the board's `.config`.

FNR == 1 { file++ }

# a line of set_before
file == 1 && $1 == board {
    at = index($0, $3)
    text = substr($0, at)
    why = ""
    left_out = 0
    if (match(text, / #-? /)) {
        why = substr(text, RSTART + RLENGTH)
        left_out = substr(text, RSTART, RLENGTH) == " #- "
        text = substr(text, 1, RSTART - 1)
    }
    lines[++count] = text
    from[count] = $2 (why == "" ? "" : ": " why)
    is_left_out[count] = left_out
}

# the environment: a name that is there twice has its last value
file == 2 && (at = index($0, "=")) { stored[substr($0, 1, at - 1)] = substr($0, at + 1) }

file == 3 && $0 == "CONFIG_USE_PREBOOT=y" { runs_preboot = 1 }

# the value as a line `given` has it
function in_quotes(value) {
    return value ~ /[ \t]/ ? quote value quote : value
}

END {
    quote = sprintf("%c", 39)
    for (at = 1; at <= count; at++) {
        name = substr(lines[at], 1, index(lines[at], "=") - 1)
        value = substr(lines[at], length(name) + 2)
        if (is_left_out[at]) {
            print "# Left out: " name "=" value " (" from[at] ")"
            continue
        }
        said = value == "" ? ": as the environment has it" : value ~ /^</ ? ": " value ", here one of our own" : ""
        print "# " from[at] said
        if (value == "" && name in stored)
            value = stored[name]
        if (value ~ /^</)
            value = 70 + computed++ "000000"
        print "given " name "=" in_quotes(value)
    }
    if (runs_preboot)
        print "# CONFIG_USE_PREBOOT\nbefore preboot"
}

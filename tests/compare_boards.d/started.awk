# The environment with which a board starts, by its list and by its default environment, a line NAME=VALUE each: what the list
# gives, by its first alternative, and, if it has a line `before preboot`, a bootcmd that runs that before the board's own.
# Usage: awk -f started.awk BOARD.given ENVIRONMENT

FNR == 1 { file++ }

file == 1 && $1 == "before" { before = $2 }

file == 1 && $1 == "given" {
    name = substr($2, 1, index($2, "=") - 1)
    value = substr($0, index($0, "=") + 1)
    gsub(sprintf("%c", 39), "", value)
    if (!(name in given))
        names[++many] = name
    if (!(name in given))
        given[name] = value
}

file == 2 && $0 != "" {
    lines[++count] = $0
    has_before = has_before || before != "" && index($0, before "=") == 1 && length($0) > length(before) + 1
}

END {
    for (at = 1; at <= count; at++)
        print (has_before && lines[at] ~ /^bootcmd=/ ? "board_" : "") lines[at]
    for (at = 1; at <= many; at++)
        print names[at] "=" given[names[at]]
    if (has_before)
        print "bootcmd=run " before "; run board_bootcmd"
}

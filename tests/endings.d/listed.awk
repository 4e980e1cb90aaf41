# Of the listing on standard input, each run's word, device commands, variables and last line; the first file is the device list.
# A command that this calls steady is here once a run: its answer is given again after that, which is no choice. Nor is a call that
# always has the same answer, which is not here, and one that fails since no call that it needs has succeeded.
# fits: whether the words of a line `dev` are those of a pattern.
function fits(pattern,   parts, count, i) {
    count = split(pattern, parts, " ")
    for (i = 1; i <= count; i++) {
        if (i == count && parts[i] == "**") return 1
        if (i + 2 > NF) return 0
        if (parts[i] ~ /[*]$/ ? index($(i + 2), substr(parts[i], 1, length(parts[i]) - 1)) != 1 : $(i + 2) != parts[i]) return 0
    }
    return i + 2 > NF
}
# always: whether the first line `call` that fits has the answer.
function always(   i) {
    for (i = 1; i <= calls; i++) if (fits(pattern[i])) return constant[i]
    return 0
}
# lacks: whether the first line `call` that fits needs a call that has not succeeded.
function lacks(   i) {
    for (i = 1; i <= calls; i++) if (fits(pattern[i])) return need[i] != "" && !(need[i] in succeeded)
    return 0
}
NR == FNR && $1 == "absent" { $0 = "call " $2 " ** : always 1" }
NR == FNR && $1 == "call" {
    constant[++calls] = /: .*always [01]/
    for (i = NF; i > 0 && $i != ":"; i--)
        if ($i == "needs") need[calls] = $(i + 1) ($(i + 2) ~ /^$|^(final|restart|halt|steady|always)$|=/ ? "" : " " $(i + 2))
    sub(/^call /, "")
    sub(/ *: .*| *:$/, "")
    pattern[calls] = $0
    next
}
NR == FNR {
    first = $1 == "steady" ? 2 : 1
    call = $first == "sub" ? $(first + 1) " " $(first + 2) : $first
    steady[call] = first == 2
}
NR == FNR { next }
/^run / { split("", answered); split("", succeeded) }
/^dev / && lacks() { next }
/^dev 0 / { succeeded[$3] = succeeded[$3 " " $4] = 1 }
/^dev / && always() { next }
/^dev / && steady[$3 " " $4 in steady ? $3 " " $4 : $3] {
    call = substr($0, 7)
    if (call in answered) next
    answered[call] = 1
}
/^(run|dev|var|unset|end|cut|stop|booted|restarted|halted) /

# The causes among the runs of what listed.awk writes: each run is compared with all others. And in the file `checked` the status
# of a check, and the causes that it tells: those that do not boot.
function within(v, w,   lines, count, i, left, at) {
    left = "\n" why[w]
    count = split(why[v], lines, "\n")
    for (i = 1; i < count; i++) {
        at = index(left, "\n" lines[i] "\n")
        if (!at) return 0
        left = substr(left, 1, at) substr(left, at + length(lines[i]) + 2)
    }
    return 1
}
function needless(w,   v) {
    for (v = 1; v <= runs; v++)
        if (v != w && last[v] == last[w] && within(v, w) && (v < w || !within(w, v))) return 1
    return 0
}
/^run / { failures = 0; failed = "" }
/^dev 1 / { failed = failed "fails " substr($0, 7) "\n"; failures++ }
/^(end|cut|stop|booted|restarted|halted) / { last[++runs] = $0; why[runs] = failed; count[runs] = failures }
END {
    for (w = 1; w <= runs; w++) {
        if (needless(w)) continue
        cause = sprintf("cause %d %s\n%s", count[w], last[w], why[w])
        printf "%s", cause
        if (last[w] !~ /^booted /) wrong = wrong cause
    }
    printf "%d, %s", wrong != "", wrong >"checked"
}

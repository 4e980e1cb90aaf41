# The endings of what listed.awk writes, without the last line's number of states: in the file `all`, and in `by_values` apart by
# the values that the runs leave of the listed variables. And in `logs` the runs without these.
BEGIN { printf "" >"logs" }
!/^(var|unset) / { print >"logs" }
/^run / { word = $2; failed = left = "" }
/^(var|unset) / { left = left $0 "\n" }
/^dev 1 / { failed = failed "fails " substr($0, 7) "\n" }
/^(end|cut|stop|booted|restarted|halted) / {
    fails = gsub(/1/, "1", word)
    count("all", $0 "\n")
    count("by_values", $0 "\n" left)
    runs++
}
function count(file, ending,   key) {
    key = file SUBSEP ending
    if (!(key in often)) { order[file, ++endings[file]] = ending; first[key] = word; least[key] = fails + 1 }
    often[key]++
    if (fails < least[key]) { least[key] = fails; fewest[key] = word; why[key] = failed }
}
function write(file,   i, e, key) {
    for (i = 1; i <= endings[file]; i++) {
        e = order[file, i]
        key = file SUBSEP e
        printf "ends %d first %s fewest %d %s %s%s", often[key], first[key], least[key], fewest[key], e, why[key] >file
    }
    printf "all %d states\n", runs >file
}
END { write("all"); write("by_values") }

# What listed.awk writes but the variables, of all ways through the flow in a file; and in the file `asks` how many states ask.
function walk(number, word, log_lines) {
    if (number in last) {
        printf "run %s\n%s%s\n", word == "" ? "." : word, log_lines, last[number]
    } else {
        walk(won[number], word "0", log_lines "dev 0 " asks[number] "\n")
        walk(lost[number], word "1", log_lines "dev 1 " asks[number] "\n")
    }
}
$1 != NR { print "line " NR " has the number " $1 }
$2 == "ends" { last[$1] = $0; sub(/^[0-9]* ends /, "", last[$1]); if (seen[last[$1]]++) print "twice: " last[$1] }
$2 == "ask" {
    asking++
    won[$1] = $(NF - 2); lost[$1] = $NF
    if (won[$1] <= $1 || lost[$1] <= $1) print "line " NR " leads up"
    asks[$1] = $0; sub(/^[0-9]* ask /, "", asks[$1]); sub(/ success [0-9]* failure [0-9]*$/, "", asks[$1])
}
END { walk(1, "", ""); print asking + 0 >"asks" }

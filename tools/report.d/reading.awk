# Reads what ubtool and hushcheck wrote for the page of an environment. Before each file comes its name, as part=NAME.

part == "facts" { fact[$1] = substr($0, index($0, "\t") + 1) }
part == "devices" && $1 == "absent" && NF > 1 { absent++ }
part == "devices" && NF && $1 !~ /^#/ { known++ }
part == "start" && sub(/^var /, "") { variables++; value[substr($0, 1, index($0, "=") - 1)] = substr($0, index($0, "=") + 1) }
part == "causes" && $1 == "cause" {
    failures[++causes] = $2
    cause_ending[causes] = rest($0, 2)
    note(cause_ending[causes])
    if (!(cause_ending[causes] in first_cause) || $2 < first_cause[cause_ending[causes]]) first_cause[cause_ending[causes]] = $2
}
part == "causes" && $1 == "fails" { fails[causes, ++failing[causes]] = rest($0, 1) }
part == "endings" && $1 == "ends" {
    last = rest($0, 7)
    note(last)
    runs[last] = $2
    fewest[last] = $6
}
part == "endings" && $1 == "fails" { fewest_fails[last, ++fewest_failing[last]] = rest($0, 1) }
part == "endings" && $1 == "all" { all = $2 }
part == "flow" && $2 == "ask" { states++; asked_words(rest($0, 2)) }
part == "runs" { read_runs() }
part == "check" || part == "more" { read_check() }

function rest(text, number) {
    while (number-- > 0) sub(/^[^ ]* ?/, "", text)
    return text
}

# note(ENDING): an ending, each once.
function note(it) {
    if (it in noted) return
    noted[it]
    ending[++endings] = it
}

# asked_words(TEXT): of a line of the flow, the command.
function asked_words(text) {
    sub(/ success [0-9]+ failure [0-9]+$/, "", text)
    if (!(text in asked)) asked[text] = ++questions
    question[asked[text]] = text
}

function read_runs(    parts) {
    split($0, parts, "\t")
    if (parts[1] == "run") {
        run[parts[2], ++run_lines[parts[2]]] = parts[3]
        if (parts[3] ~ /^dev /) asked_words(rest(parts[3], 2))
        if (parts[3] ~ /^var /) set_in_runs[substr(parts[3], 5, index(parts[3], "=") - 5)]
    }
    if (parts[1] == "count") { note(parts[3]); runs_with[parts[2], parts[3]] = parts[4] }
    if (parts[1] == "alone") { alone_ending[++alone] = parts[2]; alone_words[alone] = parts[3] }
    if (parts[1] == "both") both[++boths] = parts[2]
    if (parts[1] == "listing") cut_short = parts[2] != "done"
}

# read_check: a line of hushcheck: of a text that is right, a place with what is said of it, or the two lines that show the place.
# What nothing sets of texts beside a script, the script itself may set: it is left out if a run has the variable.
function read_check() {
    if (left > 0) {
        left--
        if (!is_dropped) shown[findings, 2 - left] = $0
    } else if ($0 ~ /^[^ ]+:[0-9]+:[0-9]+: /) {
        left = 2
        match($0, /:[0-9]+:[0-9]+: /)
        place[++findings] = substr($0, 1, RSTART + RLENGTH - 3)
        said[findings] = substr($0, RSTART + RLENGTH)
        is_dropped = part == "more" && unset_name(findings) in set_in_runs
        findings -= is_dropped
    } else if (sub(/: ok$/, "")) right[++rights] = $0
    else if ($0 != "") { place[++findings] = ""; said[findings] = $0 }
}

# unset_name(FINDING): the variable that nothing sets, or an empty text.
function unset_name(it,    text) {
    text = said[it]
    return sub(/^warning: nothing sets /, "", text) ? text : ""
}

# The page of one environment, from what reading.awk has read: its parts, what it is about, and how runs end.

END {
    sort_endings()
    judge()
    put_head(fact["title"], "Does this board always boot?", fact["data"])
    put_verdict()
    put_facts()
    put_endings()
    put_causes()
    put_flows()
    put_boots()
    put_check()
    put_limits()
    put_calls()
    print "</main>\n<footer><p>Made with " html(fact["version"]) ".</p></footer>\n</body>\n</html>"
    print verdict_class "\t" headline "\t" why "\t" fact["page"] "\t" fact["title"] >> (fact["work"] "/rows")
}

# sort_endings: those that do not boot come first, each kind by the fewest failures.
function sort_endings(    i, j, it) {
    for (i = 2; i <= endings; i++) {
        it = ending[i]
        for (j = i; j > 1 && rank(it) < rank(ending[j - 1]); j--) ending[j] = ending[j - 1]
        ending[j] = it
    }
}

function rank(it) {
    return index("bad open again good", class_of(it)) * 10000 + least_of(it)
}

# least_of(ENDING): the fewest failures with which a run ends so.
function least_of(it) { return it in fewest ? fewest[it] : first_cause[it] }

function put_facts() {
    print "<dl>"
    fact_line("Environment", many(variables + 0, "variable") (fact["image"] ~ /[^ ]/ ? ", by " code(fact["image"]) : ""))
    fact_line("Script", fact["script"] == "" ? "the variable " code(fact["variable"]) : "the file " code(fact["script"]))
    fact_line("Shell", shell_name())
    fact_line("Device list", code(fact["device-list"]) ", with " many(known + 0, "line") \
        (absent ? ", and " many(absent, "command") " that the board lacks" : ""))
    fact_line("Answers", fact["steady"] ? "each question has one answer in a run" : \
        "a question may be answered anew, unless the list says <code>steady</code>")
    fact_line("Looked at", "the runs in which at most " many(fact["failures"], "command") " fail" (fact["failures"] == 1 ? "s" : ""))
    print "</dl>"
}

function fact_line(name, text) { print "<dt>" name "</dt><dd>" text "</dd>" }

function shell_name() {
    if (fact["shell"] == "profile") return "none named: ubtool's own reading of the language, which is no board's"
    if (fact["shell"] == "old") return "U-Boot's old shell, as in 2025.01"
    return "U-Boot's old shell, as in " html(substr(fact["shell"], length("old-") + 1))
}

function put_endings(    i, k, it) {
    print "<h2 id=\"endings\">How it ends</h2>"
    para("The fewest failures with which a run ends so, and how many runs do, by how many commands fail in them.")
    print "<table class=\"ends\" style=\"--columns: " fact["failures"] + (all == "" ? 2 : 3) "\">"
    print "<thead><tr><th>Ending</th><th class=\"number\">Fewest</th>"
    for (k = 0; k <= fact["failures"]; k++) print "<th class=\"number\">" (k ? k " fail" (k == 1 ? "s" : "") : "None") "</th>"
    print (all == "" ? "" : "<th class=\"number\">Any</th>") "</tr></thead>\n<tbody>"
    for (i = 1; i <= endings; i++) {
        it = ending[i]
        print "<tr><td>" tag(class_of(it)) " " said_of(it) "</td><td class=\"number\">" least_of(it) "</td>"
        for (k = 0; k <= fact["failures"]; k++) print "<td class=\"number\">" runs_with[k, it] + 0 "</td>"
        print (all == "" ? "" : "<td class=\"number\">" count(runs[it]) "</td>") "</tr>"
    }
    print "</tbody></table>"
    put_counted()
}

# put_counted: what the numbers of runs say, or why there are none.
function put_counted() {
    if (all == "") soft("All runs could not be counted: " html(refusal()) ".")
    else soft("The script has " count(all) " run" (all == 1 ? "" : "s") " in all, one for each way in which its commands can succeed" \
        " or fail. These are counts, and say nothing of how likely an ending is: a way that asks more questions has more runs.")
    if (cut_short) soft("Of the runs with few failures, the first 100,000 were looked at.")
}

# refusal: why ubtool did not count all runs.
function refusal(    line) {
    getline line < (fact["work"] "/refused")
    sub(/^report: (ubtool: )?/, "", line)
    return line
}

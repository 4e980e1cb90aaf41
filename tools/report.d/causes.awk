# What has to fail, with the run of each cause.

function put_causes(    i, it) {
    print "<h2 id=\"causes\">What has to fail</h2>"
    para("A cause is a set of failures of which none can be left out: with fewer of them, no run ends so. Each has its run, command" \
        " by command.")
    for (i = 1; i <= endings; i++) {
        it = ending[i]
        print "<section>\n<h3>" tag(class_of(it)) " " said_of(it) " <code class=\"soft\">" html(it) "</code></h3>"
        if (it in first_cause) put_causes_of(it)
        else put_far_cause(it)
        print "</section>"
    }
}

# put_causes_of(ENDING): its causes, those with fewer failures first. Those of a board that boots are folded.
function put_causes_of(it,    k, i, number, folded) {
    for (i = 1; i <= causes; i++) number += cause_ending[i] == it
    folded = class_of(it) == "good" && number > 1
    if (folded) print "<details><summary>" many(number, "cause") "</summary>"
    number = 0
    for (k = 0; k <= fact["failures"]; k++) {
        for (i = 1; i <= causes; i++) {
            if (cause_ending[i] == it && failures[i] == k && ++number <= 200) put_cause(i)
        }
    }
    if (number > 200) soft("And " number - 200 " more, which <code>ubtool causes</code> writes.")
    if (folded) print "</details>"
}

function put_cause(i) {
    print "<div class=\"cause\">"
    para(failures[i] == 0 ? "Nothing fails." : failures[i] == 1 ? "If this fails:" : "If these " failures[i] " fail:")
    if (failures[i]) put_fails(i)
    if (run_lines[i]) put_run(i)
    else soft("Its run is not among those that were looked at.")
    print "</div>"
}

# put_far_cause(ENDING): of an ending that takes more failures than were looked at, the run with the fewest.
function put_far_cause(it,    i) {
    if (!(it in fewest)) return
    print "<div class=\"cause\">"
    para("Takes at least " many(fewest[it], "failure") ", for example " (fewest[it] == 1 ? "this:" : "these:"))
    print "<ul class=\"words fails\">"
    for (i = 1; i <= fewest_failing[it]; i++) print "<li>" html(fewest_fails[it, i]) "</li>"
    print "</ul>\n</div>"
}

# put_run(CAUSE): its run, folded.
function put_run(cause,    i, line, wanted, text, left_behind) {
    split("", wanted)
    for (i = 1; i <= failures[cause]; i++) wanted[fails[cause, i]]++
    print "<details><summary>The run, command by command</summary>\n<ol class=\"run\">"
    for (i = 1; i <= run_lines[cause]; i++) {
        line = run[cause, i]
        if (line ~ /^dev /) put_step(substr(line, 5, 1), rest(line, 2), wanted)
        else if (line ~ /^text /) text = rest(line, 1)
        else if (line ~ /^(var|unset) /) left_behind = left_behind "<li>" (line ~ /^unset/ ? "deleted: " : "") html(rest(line, 1)) "</li>\n"
    }
    print "</ol>"
    if (text != "") print "<p>It writes:</p>\n<pre>" html(console(text)) "</pre>"
    if (left_behind != "") print "<p>Variables that it leaves changed:</p>\n<ul class=\"words\">\n" left_behind "</ul>"
    soft("Ends as " code(run[cause, run_lines[cause]]) ". Its word is " code(rest(run[cause, 1], 1)) ".")
    print "</details>"
}

# put_step(OUTCOME, WORDS, WANTED): a device command of a run. A failure of the cause is marked; another is one that follows from
# an answer before it, or from the list.
function put_step(outcome, words, wanted) {
    if (outcome == 0) put_line("", "✓", "succeeds", words)
    else if (wanted[words]-- > 0) put_line(" class=\"fail\"", "✗", "fails", words)
    else put_line(" class=\"no\"", "✗", "fails, as the list or an answer before says", words)
}

function put_line(class, mark, said, words) {
    print "<li" class "><span>" mark "<span class=\"hidden\"> " said ": </span></span><span>" html(words) "</span></li>"
}

# console(TEXT): the text of a record with its line ends.
function console(text,    out, at, next_byte) {
    while (at = index(text, "\\")) {
        next_byte = substr(text, at + 1, 1)
        out = out substr(text, 1, at - 1) (next_byte == "n" ? "\n" : next_byte == "\\" ? "\\" : "\\" next_byte)
        text = substr(text, at + 2)
    }
    out = out text
    sub(/\n+$/, "", out)
    return out
}

# What the rehearsal cannot see of this board, and how to have the same by hand. What misleads most comes first.

function put_limits() {
    print "<h2 id=\"limits\">What is not seen</h2>"
    para("This page says what the script does, by the lists and the environment that it was given. It does not know the board.")
    print "<ul class=\"notes\">"
    put_unknown_board()
    put_handed_over()
    put_open_questions()
    put_otherwise()
    put_booted()
    limit("More failures at once", "Causes are those with at most " many(fact["failures"], "failure") ".")
    if (fact["boots"] == "-") limit("Time and the next boot", "A watchdog, a delay, what <code>saveenv</code> stores and what the next" \
        " boot does with it are not followed.")
    else limit("Time, and what others save", "A watchdog and a delay are not followed, and from boot to boot only what the script saves.")
    print "</ul>"
}

function limit(head, text) { print "<li><b>" head ".</b> " text "</li>" }

function list_add(text) { if (!(text in listed)) { listed[text]; list[++list_length] = text } }

# limit_list(HEAD, TEXT): the same with the list that was gathered, folded from its seventh word on. Nothing if it is empty.
function limit_list(head, text,    i) {
    if (list_length) {
        print "<li><b>" head ".</b> " text "\n<ul class=\"words\">"
        for (i = 1; i <= list_length; i++) {
            if (i == 7) print "</ul>\n<details><summary>" list_length - 6 " more</summary>\n<ul class=\"words\">"
            print "<li>" html(list[i]) "</li>"
        }
        print "</ul>" (list_length > 6 ? "</details>" : "") "</li>"
    }
    list_length = 0
    split("", listed)
}

# put_unknown_board: the shell, the variables and the commands of the board that nothing tells.
function put_unknown_board(    i) {
    if (fact["shell"] == "profile") limit("No shell was named", "Scripts were read by ubtool's own rules, which are those of no board." \
        " <code>--shell</code> names the board's.")
    for (i = 1; i <= findings; i++) if (unset_name(i) != "") list_add(unset_name(i))
    limit_list("Variables that nothing sets", "The texts read them, and neither the environment nor a text sets them, so here they" \
        " are empty. U-Boot's own code may set them before the script runs.")
    if ("preboot" in value && !is_right("preboot")) limit("<code>preboot</code>", "U-Boot runs it before the script, and this" \
        " rehearsal does not: " code(value["preboot"]))
    if (!absent) limit("Commands that the board lacks", "The device list says of no command that the board does not have it, so" \
        " each may succeed here.")
}

function is_right(name,    i) {
    for (i = 1; i <= rights; i++) if (right[i] == name) return 1
    return 0
}

# put_handed_over: the commands after which the board runs, or takes over, what no list tells.
function put_handed_over(    i) {
    for (i = 1; i <= questions; i++) {
        if (question[i] ~ /^(source|sysboot|bootefi|go|bootelf|pxe boot|bootflow (scan|boot)|env (import|load|default))( |$)/) {
            list_add(question[i])
        }
    }
    if (fact["files"] != "") limit_list("What is handed over", "What these run, or set, is in a file. This page has the files that" \
        " the device list names by <code>runs</code>, and no others.")
    limit_list("What is handed over", "What these run, or set, is in a file that this page does not have. A script that" \
        " <code>source</code> runs has a page of its own by <code>--script</code>.")
}

# put_open_questions: what a run with few failures asks twice, and is answered otherwise.
function put_open_questions(    i) {
    for (i = 1; i <= boths; i++) list_add(both[i])
    limit_list("Questions answered both ways", "In some run with few failures, one of these is asked again and answered otherwise." \
        " If the board cannot do that, say <code>steady</code> of the command in the list, or take <code>--steady</code>.")
}

# put_otherwise: what hushcheck warns of, and does not follow.
function put_otherwise(    i, warnings, notes) {
    for (i = 1; i <= findings; i++) {
        if (said[i] ~ /^warning: / && unset_name(i) == "") warnings++
        if (said[i] ~ /^note: not followed/) notes++
    }
    if (warnings) limit("What the shell reads otherwise", "At " many(warnings, "place") (fact["shell"] == "profile" ? \
        " a shell of U-Boot does something else than this rehearsal" : " a rehearsal by this shell stops") \
        ": <a href=\"#check\">the script</a> has each.")
    if (notes) limit("Texts that are run by a name with a variable in it", "hushcheck does not know which they are. The page takes" \
        " all variables whose names fit.")
}

# put_booted: what `booted` means of the commands that may come back.
function put_booted(    i, words) {
    for (i = 1; i <= endings; i++) {
        split(ending[i], words, " ")
        if (words[1] == "booted" && words[2] ~ /^(sysboot|pxe|bootflow|bootefi|go)$/) list_add(words[2])
    }
    limit_list("Commands that may come back", "These count as booted if they succeed. In U-Boot they also succeed, and come back, if" \
        " no system of the menu boots or the program ends. Without <code>final</code> in the list, runs go on after them.")
    limit("The right kernel", "A run boots if a command that boots succeeds. Whether a kernel was loaded before it, and which, is to" \
        " be read in the run.")
}

# put_calls: how to have the same by hand.
function put_calls(    words) {
    words = fact["image"] " -d " quoted(fact["device-list"])
    if (fact["shell"] != "profile") words = words " --shell " quoted(fact["shell"])
    if (fact["files"] != "") words = words " --files " quoted(fact["files"])
    if (fact["steady"]) words = words " --steady"
    if (fact["script"] != "") words = words " --script " quoted(fact["script"])
    else if (fact["variable"] != "bootcmd") words = words " -b " quoted(fact["variable"])
    print "<h2 id=\"calls\">The same by hand</h2>\n<pre>" html("ubtool causes" words " --failures " fact["failures"])
    print html("ubtool endings" words)
    print html("ubtool rehearse" words " --word WORD") "</pre>"
}

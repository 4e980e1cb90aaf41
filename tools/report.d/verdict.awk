# The verdict: whether the board boots whatever fails, what is enough to keep it from booting, and what is not.

# judge: the verdict, from the causes that do not boot and have the fewest failures.
function judge(    i, class) {
    least = -1
    for (i = 1; i <= causes; i++) {
        class = class_of(cause_ending[i])
        if (!failures[i]) { start_ending = cause_ending[i]; start_class = class }
        if (class != "good" && (least < 0 || failures[i] < least)) least = failures[i]
    }
    verdict_class = start_class == "good" ? (least == 1 ? "weak" : "good") : start_class
    headline = headline_of()
    why = ""
    for (i = causes; i > 0; i--) {
        if (least == 1 && failures[i] == 1 && class_of(cause_ending[i]) != "good") {
            why = why (why == "" ? "" : "; ") fails[i, 1]
        }
    }
}

function headline_of() {
    if (start_class == "bad") return "Does not boot, though nothing fails"
    if (start_class == "again") return "Does not boot, though nothing fails: it starts anew"
    if (start_class == "open") return "Not known: the rehearsal stops, though nothing fails"
    if (least == 1) return "Does not always boot: one failure is enough"
    if (least > 1) return "Boots, whatever " number_of[least - 1] ", but " least " failures can be too many"
    return fact["failures"] == 0 ? "Boots if nothing fails" : "Boots, whatever " number_of[fact["failures"]]
}

function put_verdict() {
    print "<div class=\"verdict " verdict_class "\" id=\"verdict\">\n<p>" headline ".</p>"
    if (start_class != "good") {
        para("If every command succeeds, it " low(said_of(start_ending)) " (" code(start_ending) ").")
        put_way_to_boot()
    } else if (least == 1) {
        para("If nothing fails, the script calls " many(alone, "command") " that can fail. It does not boot if one of these fails:")
        put_single_failures()
    } else {
        if (alone) {
            para("If nothing fails, the script calls " many(alone, "command") " that can fail, and boots if any one of them does.")
        }
        if (least > 1) put_least()
    }
    put_margin()
    if (start_class == "good") put_harmless()
    print "</div>"
    print "<nav><ul><li><a href=\"#endings\">How it ends</a></li><li><a href=\"#causes\">What has to fail</a></li>"
    if (states) print "<li><a href=\"#flow\">The way there</a></li>"
    print "<li><a href=\"#check\">The script</a></li><li><a href=\"#limits\">What is not seen</a></li></ul></nav>\n</header>\n<main>"
}

# put_single_failures: each failure that is enough by itself, in the order of the run.
function put_single_failures(    i, number, class) {
    print "<ul class=\"words fails\">"
    for (i = causes; i > 0; i--) {
        class = class_of(cause_ending[i])
        if (failures[i] != 1 || class == "good") continue
        is_enough[fails[i, 1]]
        if (++number > 12) continue
        print "<li>" html(fails[i, 1]) (class == "bad" ? "" : " (" name_of[class] ")") "</li>"
    }
    print "</ul>"
    if (number > 12) para("And " number - 12 " more.")
}

# put_harmless: the failures after which a board that boots by itself boots all the same.
function put_harmless(    i, number, list) {
    for (i = alone; i > 0; i--) {
        if (class_of(alone_ending[i]) != "good") continue
        number++
        list = list "<li>" html(alone_words[i]) (alone_words[i] in is_enough ? " (asked another time)" : "") "</li>\n"
    }
    if (!number) return
    print "<details><summary>It boots all the same if " (number == 1 ? "this" : "one of these " number) " fails</summary>"
    print "<ul class=\"words fails\">\n" list "</ul></details>"
}

# put_least: of a board that boots whatever one thing fails, the first cause of a run that does not.
function put_least(    i) {
    for (i = 1; failures[i] != least || class_of(cause_ending[i]) == "good"; i++);
    para("These are enough together:")
    put_fails(i)
}

# put_way_to_boot: of a board that does not boot by itself, the first cause of a run that boots.
function put_way_to_boot(    i, found) {
    for (i = 1; i <= causes; i++) {
        if (class_of(cause_ending[i]) == "good" && (!found || failures[i] < failures[found])) found = i
    }
    if (!found) para("No run with at most " many(fact["failures"], "failure") " boots.")
    else {
        para("It boots only if something fails, for example:")
        put_fails(found)
    }
}

# put_margin: what the count of all runs adds to the verdict.
function put_margin(    i, it, far) {
    if (all == "") return
    for (i = 1; i <= endings; i++) {
        it = ending[i]
        if (class_of(it) != "good" && (far == "" || fewest[it] < far)) far = fewest[it]
    }
    if (far == "") para("There is no run that does not boot.")
    else if (far > 1 && start_class == "good") {
        para("Counted over all runs: it takes at least " many(far, "failure") " to keep it from booting.")
    }
}

function low(text) { return tolower(substr(text, 1, 1)) substr(text, 2) }

function put_fails(cause,    i) {
    print "<ul class=\"words fails\">"
    for (i = 1; i <= failures[cause]; i++) print "<li>" html(fails[cause, i]) "</li>"
    print "</ul>"
}

BEGIN {
    number_of[1] = "one thing fails"
    number_of[2] = "two things fail"
    number_of[3] = "three things fail"
}

# Of the runs with few failures, in their order: the run of each cause, how many runs end how, and which questions one run
# answers both ways. Before them come the variables that a run starts with, and what `ubtool causes` wrote.
# Writes lines of words with tabs between them: `run CAUSE LINE`, `alone ENDING WORDS` for each run in which one command fails,
# `count FAILURES ENDING RUNS`, and `both WORDS RUNS`. Of the variables there are those alone that the run has changed, and those
# that it has deleted, as `unset NAME`.

part == "start" && sub(/^var /, "") {
    names[++known] = substr($0, 1, index($0, "=") - 1)
    start[names[known]] = substr($0, index($0, "=") + 1)
    next
}
part == "start" { next }
part == "causes" && $1 == "cause" { causes++; failures[causes] = $2; ending[causes] = after($0, 2); next }
part == "causes" { fails[causes, ++failing[causes]] = after($0, 1); next }
/^run / { lines = asked = 0; word = $2; split("", held); split("", answers); split("", fallen); split("", changed) }
/^dev / {
    words = after($0, 2)
    answer[++asked] = $0
    if ($2 == 1) fallen[words]++
    if (words in answers && answers[words] != $2 && !(words in changed)) {
        changed[words]
        if (!both[words]++) both_words[++number_both] = words
    }
    answers[words] = $2
}
sub(/^var /, "") {
    name = substr($0, 1, index($0, "=") - 1)
    held[name]
    if (!(name in start) || start[name] != substr($0, index($0, "=") + 1)) line[++lines] = "var " $0
    next
}
/^(more |done$)/ { print "listing\t" $1; next }
{ line[++lines] = $0 }
/^(end|cut|stop|booted|restarted|halted) / { finish($0) }
END {
    for (it in counts) print "count\t" it "\t" counts[it]
    for (i = 1; i <= number_both; i++) print "both\t" both_words[i] "\t" both[both_words[i]]
}

# after(LINE, NUMBER): the line without so many words in front.
function after(text, number) {
    while (number-- > 0) sub(/^[^ ]* ?/, "", text)
    return text
}

# finish(ENDING): counts the run, and writes it where it is the run of a cause: the first that ends so in which as many
# commands fail, and all of these.
function finish(last,    number, i) {
    number = gsub(/1/, "", word)
    counts[number "\t" last]++
    if (number == 0) for (i = 1; i <= asked; i++) won[i] = answer[i]
    if (number == 1) print "alone\t" last "\t" first_failure()
    for (i = 1; i <= causes; i++) {
        if (!done[i] && failures[i] == number && ending[i] == last && has_failed(i)) {
            done[i] = 1
            write(i)
            return
        }
    }
}

# first_failure: what fails first in a run that is otherwise, up to there, the run without a failure.
function first_failure(    i) {
    for (i = 1; answer[i] == won[i]; i++);
    return after(answer[i], 2)
}

function has_failed(cause,    i, wanted) {
    split("", wanted)
    for (i = 1; i <= failing[cause]; i++) {
        if (++wanted[fails[cause, i]] > fallen[fails[cause, i]]) return 0
    }
    return 1
}

function write(cause,    i) {
    for (i = 1; i < lines; i++) print "run\t" cause "\t" line[i]
    for (i = 1; i <= known; i++) if (!(names[i] in held)) print "run\t" cause "\tunset " names[i]
    print "run\t" cause "\t" line[lines]
}

# Random device lists and scripts, as files listN and scriptN, and which alternative of the list is named, if one is, as choiceN.
# Usage: awk -v seed=S -v count=N -v folder=DIR -f random.awk

# one of these words
function one_of(words,    all) {
    return all[1 + int(rand() * split(words, all, " "))]
}

function chance(percent) {
    return rand() * 100 < percent
}

# words of a call, up to this many
function some_words(most,    text, left) {
    for (left = int(rand() * (most + 1)); left > 0; left--)
        text = text " " one_of("0 1 ab abc : a=b -x")
    return text
}

# a setting, of a line that names words of a call if `called` says so
function setting(called,    left, value) {
    left = called && chance(40) ? one_of("@1 @2 @02 @last") : one_of("a b p")
    if (chance(2))
        left = one_of("@0 @x @ @1 -a " quote "p " quote "p" quote " =")
    if (called == 2 && chance(40))
        return left "=" (chance(97) ? one_of("@1 @3 @last") : one_of("@0 @ @1x"))
    value = one_of("1 2 xyz")
    if (called == 2 && chance(40))
        value = quote value " : " one_of("@1 y  z") (chance(97) ? quote : "") (chance(30) ? value : "")
    return left "=" (chance(90) ? value : "")
}

function settings(called, most,    text, left) {
    for (left = int(rand() * (most + 1)); left > 0; left--)
        text = text " " setting(called)
    return text (chance(1) ? " " one_of("load final @1") : "")
}

function name() {
    if (chance(2))
        return one_of("echo test setenv m*")
    return chance(80) ? one_of("load mmc") : one_of("final restart halt steady sub call absent env given before")
}

function pattern(    text, left) {
    for (left = int(rand() * 3); left > 0; left--)
        text = text " " one_of("0 1 ab * a* ab*")
    if (chance(40))
        text = text " **" (chance(2) ? " 0" : "")
    return text (chance(1) ? " " quote "0" quote : "")
}

function clauses(    text, left) {
    for (left = int(rand() * 3); left > 0; left--)
        text = text " " (chance(50) ? setting(2) : one_of("final restart halt steady always always normal normal needs needs needs" (chance(2) ? " known" : "")))
    gsub(/needs/, "needs " (chance(97) ? one_of("load mmc") : "") (chance(60) ? " " one_of("0 1 ab abc" (chance(3) ? " a* :" : "")) : ""), text)
    gsub(/normal/, "normal" (chance(98) ? " 1" : one_of(" 0 2")), text)
    gsub(/always/, "always " int(rand() * 2 + (chance(2) ? 1 : 0)), text)
    return text
}

# a line of one of the forms
function line(    form) {
    form = int(rand() * 20)
    if (form < 6)
        return "call " (chance(99) ? name() : "") pattern() " :" clauses()
    if (form < 7)
        return "absent " (chance(98) ? name() : ":") (chance(2) ? " x" : "")
    if (form < 8)
        return "known " one_of("env env itest" (chance(5) ? " load" : ""))
    if (form < 9)
        return one_of("# \t ") (chance(50) ? "load" : "")
    if (form < 10)
        return chance(50) ? "steady test" (chance(3) ? " a=1" : "") \
            : "call test " one_of("-e *") (chance(50) ? " **" : " * * " one_of("f g")) " : normal 1" (chance(3) ? " steady" : "")
    return (chance(35) ? one_of("final final restart halt") " " : "") (chance(30) ? "steady " : "") \
        (chance(40) ? "sub " name() " " one_of("0 1 ab" (chance(5) ? " a=b" : "")) settings(1, 2) : name() settings(0, 3))
}

function call(    of) {
    of = int(rand() * 10)
    if (of < 1)
        return "test -e mmc 0 " one_of("f g")
    if (of < 3)
        return "env exists " one_of("a b p")
    return (chance(85) ? one_of("load mmc") : one_of("final halt steady sub call absent given before")) some_words(3)
}

# a value of a line of the start: that of `c` and `d` is a text of calls
function start_value(of,    text) {
    if (chance(5))
        return chance(60) ? "" : one_of(quote "1 1" quote "2 1" quote "x" quote "y" quote "z @1 :")
    if (of !~ /^[cd]$/)
        return chance(80) ? one_of("1 2 xyz") : quote one_of("y  z : @1") " " quote one_of("1 2")
    text = call() (chance(30) ? "; " call() : "") (chance(5) ? "; none" : "")
    if (chance(50))
        return quote text quote
    gsub(/ /, quote " " quote, text)
    return text
}

# a line of a boot counter, or one that is nearly one, and lines that say what its variables have before the run
function count_line(    counter, limit, text) {
    counter = one_of("a b p e")
    limit = one_of("a b p f f")
    text = "count " (chance(97) ? counter : one_of("-a a/b " quote "a" quote)) (chance(98) ? " limit " : " below ") \
        limit (chance(98) ? " else " : "  or ") (chance(97) ? one_of("c c d q") : one_of("-c c=1")) (chance(2) ? " d" : "")
    if (chance(80))
        text = text "\ngiven " limit "=" counted(limit, one_of("0 1 1 2 0x2 01 1x"))
    if (chance(80))
        text = text "\ngiven " counter "=" counted(counter, one_of("0 1 2 3 0x1 18446744073709551615"))
    return text "\ngiven upgrade_available=" counted("upgrade_available", chance(90) ? 1 : one_of("0 0x1 4294967296 yes"))
}

# a line of the start, or one that is nearly one
function start_line(    of, value) {
    if (chance(8))
        return count_line()
    if (chance(30))
        return "before " (chance(95) ? one_of("c c d d a q") : one_of("a/b -c c=1 " quote "c" quote)) (chance(3) ? " d" : "")
    of = chance(97) ? one_of("a b p c c d") : one_of("-a @1 a.b " quote "a" quote " = a" quote)
    value = start_value(of) (chance(3) ? one_of("c d a=1") : "") (chance(2) ? " 1" : "")
    return "given" (chance(90) ? " " : " \t ") of "=" counted(of, value)
}

# the value, which is counted among those of the variable
function counted(of, value) {
    if (!((of, value) in seen)) {
        seen[of, value]
        if (values[of])
            several = several * (values[of] + 1) / values[of]
        values[of]++
    }
    return value
}

# the number of the alternative that is named, now and then one that is not there; mostly none is named if there are not several
function choice() {
    if (chance(several > 1 ? 8 : 80))
        return ""
    return chance(92) ? 1 + int(rand() * (several > 64 ? 64 : several)) : one_of("2 3 9 64")
}

BEGIN {
    srand(seed)
    quote = sprintf("%c", 39)
    for (number = 1; number <= count; number++) {
        starts = chance(50)
        several = 1
        split("", seen); split("", values)
        for (left = 2 + int(rand() * 5); left > 0; left--) {
            print (chance(10) ? " " : "") line() (chance(10) ? "\t\r" : "") >(folder "/list" number)
            for (more = starts ? int(rand() * 3) : 0; more > 0; more--)
                print (chance(10) ? "\t" : "") start_line() (chance(10) ? " \r" : "") >(folder "/list" number)
        }
        for (left = starts && chance(8) ? 4 + int(rand() * 40) : 0; left > 0; left--)
            print "given " (of = one_of("a b p e f g")) "=" counted(of, one_of("1 2 3")) >(folder "/list" number)
        print choice() >(folder "/choice" number)
        if (chance(60))
            print "load\nmmc b=2\nknown env" >(folder "/list" number)
        for (left = 1 + int(rand() * 4); left > 0; left--)
            print call() >(folder "/script" number)
        close(folder "/list" number)
        close(folder "/script" number)
        close(folder "/choice" number)
    }
}

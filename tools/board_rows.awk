# What `ubtool endings` says of a board, as rows of the tables of docs/BOARDS.md. BY_SHELL, OWN and STEADY have for each
# alternative of the board its line `given ..` (`given` alone if there is one alternative), what `endings` wrote, and a line
# `ms N`: by the board's shell, by ubtool's own reading, and by the shell with each answer as it is. VARIABLES is what comes before
# the runs in a row. Writes PATH.row, PATH.own of what ends otherwise by that reading, and PATH.steady: a row of all alternatives if
# they end alike, else rows of those that do; and PATH.endings, the lines of `endings` of the first of each row of PATH.row, each
# after the board.
# Usage: awk -v board=BOARD -v before=VARIABLES -v files=PATH -f board_rows.awk BY_SHELL OWN STEADY

FNR == 1 { file++; at = 0 }
/^given( |$)/ { part[file, ++at] = $0; next }
$1 == "ms" { ms[at, file] = $2; next }
/^ubtool: / { refused[file, at] = substr($0, 9) }
{ text[file, at] = text[file, at] $0 "\n" }
$1 == "ends" { ends[file, at] = ends[file, at] $0 "\n" }
$1 == "all" { runs[file, at] = $2; states[file, at] = $4 }

# of all runs the share of each ending, if they can be counted, and the fewest failures with which a run ends so
function shares(file, at,    all, lines, count, i, k, word, share, said, ending) {
    all = runs[file, at]
    count = split(ends[file, at], lines, "\n") - 1
    for (i = 1; i <= count; i++) {
        split(lines[i], word, " ")
        share = all ~ /^>=/ ? "" : 100 * word[2] / all
        ending = lines[i]
        for (k = 1; k <= 7; k++)
            sub(/^[^ ]+ /, "", ending)
        said = said (i == 1 ? "" : ", ") (share == "" ? "" : share < 0.1 ? "<0.1% " : sprintf("%.1f%% ", share))
        said = said "`" ending "` " word[6]
    }
    return said refused[file, at]
}

# what gives an alternative; of a value of many words the first three
function shown(given,    words, count, i, word) {
    sub(/^given ?/, "", given)
    count = split(given, words, " ")
    given = ""
    for (i = 1; i <= count; i++) {
        if (split(words[i], word, /\\x20/) > 3)
            words[i] = word[1] " " word[2] " " word[3] " .."
        gsub(/\\x20/, " ", words[i])
        given = given (i == 1 ? "" : " ") words[i]
    }
    return "`" given "`"
}

# the board, and which of its alternatives a row is about: those that have this row, if these are not all
function subject(file, at, among,    i, many, all) {
    many = 0
    for (i = 1; i <= count; i++)
        if (row[file, i] == row[file, at] && among[i])
            all = all (++many > 1 ? ", " : " ") shown(part[1, i])
    return board (count == 1 ? "" : many == count ? ", " count " alternatives" : all)
}

# whether no alternative before this one has its row
function is_first(file, at, among,    i) {
    for (i = 1; i < at; i++)
        if (row[file, i] == row[file, at] && among[i])
            return 0
    return among[at]
}

END {
    count = at
    for (at = 1; at <= count; at++) {
        every[at] = 1
        differs[at] = ends[1, at] != ends[2, at]
        row[1, at] = runs[1, at] " | " states[1, at] " | " shares(1, at) " | " (differs[at] ? "differs" : "same")
        row[2, at] = runs[2, at] " | " shares(2, at)
        row[3, at] = runs[3, at] " | " states[3, at] " | " shares(3, at)
    }
    for (at = 1; at <= count; at++) {
        if (is_first(1, at, every)) {
            print "| " subject(1, at, every) " | " before " | " row[1, at] " | " ms[at, 1] " |" >>(files ".row")
            lines = split((count == 1 ? "" : part[1, at] "\n") text[1, at], line, "\n") - 1
            for (i = 1; i <= lines; i++)
                print board ": " line[i] >(files ".endings")
        }
        if (is_first(2, at, differs))
            print "| " subject(2, at, differs) " | " row[2, at] " |" >(files ".own")
        if (is_first(3, at, every))
            print "| " subject(3, at, every) " | " row[3, at] " | " ms[at, 3] " |" >(files ".steady")
    }
}

# Rows of the tables of docs/BOARDS.md about scripts on a card, of the lines of share/boards/endings_of_scripts: for Debian's script
# on a card, and for the texts of share/handover, a row for each way to end, with the boards that end so; for others a row for each
# script and board.

/^#/ { next }

{
    subject = substr($0, 1, index($0, ":") - 1)
    if (!(subject in ends))
        order[++count] = subject
}

$4 == "ends" {
    for (at = 5; $at != "fewest"; at++);
    ending = $(at + 3)
    for (last = at + 4; last <= NF; last++)
        ending = ending " " $last
    ends[subject] = ends[subject] (ends[subject] == "" ? "" : ", ") "`" ending "` " $(at + 1)
}

$4 == "all" { states[subject] = $NF }

END {
    for (at = 1; at <= count; at++) {
        subject = order[at]
        split(subject, word, " ")
        way = word[1] SUBSEP ends[subject]
        if (word[1] != "handover" && word[1] != "bootscr.uboot-generic")
            print "| `" word[1] "` | " word[3] " | " states[subject] " | " ends[subject] " |"
        else if (way in boards)
            boards[way] = boards[way] ", " word[3]
        else if (word[1] == "handover" || word[2] != "any") {
            ways[++many] = way
            boards[way] = word[3]
        }
    }
    for (at = 1; at <= many; at++)
        print "| " substr(ways[at], index(ways[at], SUBSEP) + 1) " | " boards[ways[at]] " |"
}

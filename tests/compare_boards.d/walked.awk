# Words of the flow on standard input: in each a share of the device commands fails, three of ten at most.
$2 == "ask" { won[$1] = $(NF - 2); lost[$1] = $NF }
END {
    for (srand(1); count < walks && ++tries <= 20 * walks; count += !seen[word]++) {
        share = 0.3 * rand()
        word = ""
        for (at = 1; at in won; at = fails ? lost[at] : won[at]) word = word (fails = rand() < share)
        if (!(word in seen)) print word == "" ? "." : word
    }
}

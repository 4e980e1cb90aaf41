# What hushcheck says of the texts, with the lines of the script.

function put_check(    i, list) {
    print "<h2 id=\"check\">The script</h2>"
    para("What <code>hushcheck</code> says of the texts that the script runs, or may run. The mark is under the byte that is meant.")
    for (i = 1; i <= rights; i++) list = list (i > 1 ? ", " : "") code(right[i])
    if (rights) soft("Well-formed: " list ".")
    if (!findings) para("Nothing is said against " (rights == 1 ? "it" : "them") ".")
    for (i = 1; i <= findings; i++) {
        if (!(said[i] in told)) put_findings(i)
        told[said[i]]
    }
}

# put_findings(FIRST): all places of which the same is said as of this one.
function put_findings(first,    i, text, kind, number) {
    text = said[first]
    kind = "bad\">wrong"
    if (sub(/^warning: /, "", text)) kind = "again\">warning"
    if (sub(/^note: /, "", text) || place[first] == "") kind = "open\">note"
    print "<h3><span class=\"tag " kind "</span> " html(text) "</h3>"
    for (i = first; i <= findings; i++) {
        if (said[i] != said[first] || place[i] == "") continue
        if (++number == 4) print "<details><summary>More places</summary>"
        print "<p class=\"place\">" code(place[i]) "</p>\n<pre>" html(shown[i, 1]) "\n" html(shown[i, 2]) "</pre>"
    }
    if (number > 3) print "</details>"
}

# The table of the pages of a folder. Three lines are its title, the folder of this program and the version of ubtool. Each other is a
# row: the class of the verdict, the verdict, what is enough by itself to keep the board from booting, the page and the title, with tabs
# between them.

BEGIN { FS = "\t" }
NR <= 3 { given[NR] = $0; next }
{
    boots += $2 ~ /^Boots, whatever/
    row[++rows] = "<tr><td>" ($4 == "" ? html($5) : "<a href=\"" address($4) "\">" html($5) "</a>") "</td>\n<td>" \
        tag($1) " " html($2) "</td><td>" commands($3) "</td></tr>"
}
END {
    put_head(given[1], "Do these boards always boot?", given[2])
    print "<p>Of " many(rows, "board") ", " boots + 0 (boots == 1 ? " boots" : " boot") " whatever one thing fails.</p>\n</header>\n<main>"
    print "<table class=\"boards\">\n<thead><tr><th>Board</th><th>Verdict</th><th>Enough by itself</th></tr></thead>\n<tbody>"
    for (i = 1; i <= rows; i++) print row[i]
    print "</tbody></table>\n</main>\n<footer><p>Made with " html(given[3]) ".</p></footer>\n</body>\n</html>"
}

# commands(TEXT): commands between which there are semicolons, the first three of them.
function commands(text,    parts, number, i, out) {
    number = split(text, parts, "; ")
    for (i = 1; i <= number && i <= 3; i++) out = out (i > 1 ? "<br>" : "") code(parts[i])
    return out (number > 3 ? "<br>and " number - 3 " more" : "")
}

# The pictures of the ways to the endings that do not boot, which tools/choices and Graphviz draw from the flow.

function put_flows(    i, it) {
    if (!states) return
    print "<h2 id=\"flow\">The way there</h2>"
    if (fact["choices"] == "" || system("command -v dot >/dev/null && command -v python3 >/dev/null")) {
        soft("There are no pictures, since Graphviz or python3 was not installed when this page was made.")
        return
    }
    para("Of each ending that does not boot: the commands from which a run can still end so, without those after which all goes on" \
        " alike. A full line is success, a dashed line is failure.")
    for (i = 1; i <= endings; i++) {
        it = ending[i]
        if (class_of(it) != "good" && it in runs) put_flow(it)
    }
}

function put_flow(it) {
    print "<figure>\n<figcaption>" tag(class_of(it)) " " said_of(it) " (" code(it) ")</figcaption>"
    choose(it)
    if (boxes > 150) soft("The picture would have " boxes " boxes, too many to read.")
    else if (!boxes) soft("Whatever a command answers, the run ends so.")
    else {
        print "<div class=\"flow\" tabindex=\"0\">"
        put_picture(fact["work"] "/picture", "The choices that lead to this ending")
        print "</div>"
    }
    print "</figure>"
}

# put_boots: the boots that follow one another, if they are asked for.
function put_boots() {
    if (fact["boots"] == "-") return
    print "<h2 id=\"boots\">From boot to boot</h2>"
    if (fact["choices"] == "" || system("command -v dot >/dev/null && command -v python3 >/dev/null")) {
        soft("There is no picture, since Graphviz or python3 was not installed when this page was made.")
        return
    }
    para("A box is a boot, with what it finds saved otherwise than the first one. A line leads to the boot that follows: green if the" \
        " board boots, red if it does not, dashed if something fails. Of several ways to it, the one with the fewest failures.")
    draw("--fold " quoted(fact["work"] "/boots"), "^  n[0-9]+ \\[")
    if (boxes > 150) soft("The picture would have " boxes " boxes, too many to read.")
    else {
        print "<figure>\n<div class=\"flow\" tabindex=\"0\">"
        put_picture(fact["work"] "/picture", "The boots that follow one another")
        print "</div>\n</figure>"
    }
}

# choose(ENDING): the lines that Graphviz draws of the way there.
function choose(it) { draw("--fold --toward " quoted(it) " " quoted(fact["work"] "/flow"), "shape=box\\]") }

# draw(WORDS, BOX): the lines that Graphviz draws for these words, without a legend and in letters of one width.
function draw(words, box,    call, line, inside) {
    boxes = dots = 0
    call = "python3 " quoted(fact["choices"]) " " words
    while ((call | getline line) > 0) {
        if (line ~ /subgraph cluster_legend/) inside = 1
        boxes += !inside && line ~ box
        gsub(/fontname="Helvetica"/, "fontname=\"DejaVu Sans Mono\"", line)
        if (!inside) dot[++dots] = line
        if (line ~ /^  }$/) inside = 0
    }
    close(call)
}

# put_picture(FILE, LABEL): the picture, by this file, as it can be part of a page: without the names of its boxes.
function put_picture(file, label,    i, call, line, inside) {
    call = "dot -Tsvg >" quoted(file)
    for (i = 1; i <= dots; i++) print dot[i] | call
    close(call)
    while ((getline line < file) > 0) {
        if (sub(/^<svg/, "<svg role=\"img\" aria-label=\"" label "\"", line)) inside = 1
        if (!inside || line ~ /^<!--.*-->$/ || line ~ /^<title>/) continue
        gsub(/ (id|font-family|xmlns|xmlns:xlink)="[^"]*"/, "", line)
        line = in_pixels(line)
        sub(/<title>[^<]*<\/title>/, "", line)
        print line
    }
    close(file)
}

# in_pixels(LINE): with the sizes of a picture in pixels, a quarter more than its points.
function in_pixels(line,    size) {
    while (match(line, /="[0-9.]+pt"/)) {
        size = substr(line, RSTART + 2, RLENGTH - 5) * 1.25
        line = substr(line, 1, RSTART + 1) int(size + .5) substr(line, RSTART + RLENGTH - 1)
    }
    return line
}

# Random scripts, so many: the variables of seed N in the file entriesN. Commands ask, set, print, test, loop, run and end the script; some
# texts are none, and some commands are in no list.
function any(list,   parts) { return parts[1 + int(rand() * split(list, parts, "~"))] }
function simple() {
    return any("load a~load $x~dhcp~probe~bootm~bootm $addr~setenv x 1~setenv x~setenv y ${x}z~x=0~x=$?~echo a~echo $x $y $?~" \
        "test \"$x\" = 1~test -n \"$y\"~test -e mmc 0 f~true~false~run t~run u~run t u~run none~exit~exit 3~odd~load '' $addr")
}
function command(depth,   kind) {
    kind = depth > 2 ? 9 : int(rand() * 10)
    if (kind == 0) return "if " list(depth + 1) "; then " list(depth + 1) "; else " list(depth + 1) "; fi"
    if (kind == 1) return "if " list(depth + 1) "; then " list(depth + 1) "; fi"
    if (kind == 2) return any("while~until") " " list(depth + 1) "; do " list(depth + 1) "; done"
    if (kind == 3) return "for x in " any("a~a b~$y c~1") "; do " list(depth + 1) "; done"
    return simple()
}
function chain(depth,   text, left) {
    text = command(depth)
    for (left = int(rand() * 3); left > 0; left--) text = text " " any("&&~||") " " command(depth)
    return text
}
function list(depth,   text, left) {
    text = chain(depth)
    for (left = int(rand() * (3 - depth)); left > 0; left--) text = text "; " chain(depth)
    return text
}
BEGIN {
    for (seed = 1; seed <= count; seed++) {
        srand(seed)
        file = "entries" seed
        print "bootcmd=" list(0) (rand() < 0.02 ? " fi" : "") >file
        print "t=" list(1) >file
        print "u=" any("load u~run t~probe && bootm~setenv x 1~run u~fi") >file
        if (rand() < 0.5) print "x=" any("1~2~a b") >file
        close(file)
    }
}

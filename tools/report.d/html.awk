# What the pages of tools/report share: their head, text as HTML, big numbers, and how a run ended, in words.

function put_head(title, question, data,    line) {
    print "<!DOCTYPE html>\n<html lang=\"en\">\n<head>\n<meta charset=\"utf-8\">"
    print "<meta name=\"viewport\" content=\"width=device-width, initial-scale=1\">"
    print "<title>" html(title) "</title>\n<style>"
    while ((getline line < (data "/page.css")) > 0) print line
    print "</style>\n</head>\n<body>\n<header>"
    print "<p class=\"over\">" question "</p>\n<h1>" html(title) "</h1>"
}

function html(text) {
    gsub(/[\001-\010\013-\037\177]/, "?", text)
    gsub(/&/, "\\&amp;", text)
    gsub(/</, "\\&lt;", text)
    gsub(/>/, "\\&gt;", text)
    gsub(/"/, "\\&quot;", text)
    return text
}

function para(text) { print "<p>" text "</p>" }

function soft(text) { print "<p class=\"soft\">" text "</p>" }

function code(text) { return "<code>" html(text) "</code>" }

# tag(CLASS): what a class of endings is called.
function tag(class) {
    return "<span class=\"tag " class "\">" name_of[class] "</span>"
}

# count(DIGITS): a number as it is read: small ones whole, others by their first two digits.
function count(digits,    least, power, front) {
    least = sub(/^>=/, "", digits) ? "at least " : ""
    if (length(digits) <= 6) return least digits
    power = length(digits) - 1
    front = int(substr(digits, 1, 3) / 10 + .5)
    if (front == 100) { front = 10; power++ }
    return least int(front / 10) "." front % 10 " × 10<sup>" power "</sup>"
}

# many(NUMBER, THING): as `1 run` or `2 runs`.
function many(number, thing) {
    return number " " thing (number == 1 ? "" : "s")
}

# class_of(ENDING): good where the board boots, again where it starts anew or is switched off, bad where it is left at the
# prompt or its shell gives up, open where the rehearsal does not know.
function class_of(ending) {
    if (ending ~ /^(restarted|halted) /) return "again"
    if (ending ~ /^booted /) return "good"
    return ending ~ /^(end|stop panic) / ? "bad" : "open"
}

# said_of(ENDING): the ending in words, as HTML.
function said_of(ending,    words) {
    split(ending, words, " ")
    if (words[1] == "restarted") return "Starts the board anew, by " code(words[2])
    if (words[1] == "halted") return "Halts the board, by " code(words[2])
    if (words[1] == "booted") return "Boots by " code(words[2])
    if (ending == "end 0") return "Ends at U-Boot's prompt"
    if (words[1] == "end") return "Ends at U-Boot's prompt, with status " html(words[2])
    if (words[1] == "cut") return "Goes on without an end: more " (words[2] == "steps" ? "steps" : "device commands") " than a run may have"
    if (words[2] == "unknown") return "Stops at " code(words[3]) ", which is no command of the device list"
    if (words[2] == "syntax") return "Stops at the text of " code(words[3]) ", which is no script"
    if (words[2] == "unsupported") return "Stops at " code(words[3]) ": what the shell does there is not followed"
    if (words[2] == "panic") return "Resets or hangs the board at the text of " code(words[3]) ", by which the shell gives up"
    return "Stops at words that grow too large"
}

# address(FILE): the name of a file beside the page, as a link has it.
function address(text,    i, out, byte) {
    for (i = 1; i <= length(text); i++) {
        byte = substr(text, i, 1)
        out = out (byte ~ /[A-Za-z0-9._-]/ ? byte : sprintf("%%%02X", code_of[byte]))
    }
    return out
}

# quoted(WORD): the word as the shell reads it.
function quoted(word) {
    if (word ~ /^[A-Za-z0-9.,:\/@_=+-]+$/) return word
    gsub(/'/, "'\\''", word)
    return "'" word "'"
}

BEGIN {
    for (code_of[""] = 0; code_of[""] < 256; code_of[""]++) code_of[sprintf("%c", code_of[""])] = code_of[""]
    name_of["good"] = "boots"
    name_of["again"] = "starts anew"
    name_of["weak"] = "one failure"
    name_of["bad"] = "does not boot"
    name_of["open"] = "not known"
}

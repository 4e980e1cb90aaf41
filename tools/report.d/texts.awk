# Of a report of hushcheck: the variables that texts may run by a name with a variable in it, as `run boot_$target`, and that the
# report has no line for. Before it come the names of all variables, a line each.

FILENAME == ARGV[1] { names[++known] = $0; next }
match($0, /: /) && $0 !~ /^[ \t]/ {
    place = substr($0, 1, RSTART - 1)
    sub(/:[0-9]+:[0-9]+$/, "", place)
    reported[place]
}
/: note: not followed, since the name holds a variable$/ { at = FNR }
at && FNR == at + 1 { line = $0 }
at && FNR == at + 2 { add(substr(line, index($0, "^"))) }

# add(WORD..): the word that this text starts with, as the parts between its variables.
function add(word) {
    sub(/[ \t;&|#].*/, "", word)
    gsub(/["'\\]/, "", word)
    gsub(/\$\{[^}]*\}|\$[A-Za-z0-9_]+|\$\?/, "*", word)
    if (word ~ /[A-Za-z0-9]/) patterns[word]
}

function fits(name, pattern,    parts, number, i, at) {
    number = split(pattern, parts, "*")
    if (substr(name, 1, length(parts[1])) != parts[1]) return 0
    name = substr(name, length(parts[1]) + 1)
    for (i = 2; i < number; i++) {
        at = index(name, parts[i])
        if (!at) return 0
        name = substr(name, at + length(parts[i]))
    }
    at = length(name) - length(parts[number])
    return at >= 0 && substr(name, at + 1) == parts[number]
}

END {
    for (i = 1; i <= known; i++) {
        if (names[i] in reported) continue
        for (pattern in patterns) {
            if (fits(names[i], pattern)) { print names[i]; break }
        }
    }
}

# Of C sources: the conditions, the macros without parameters, and the names of U-Boot's commands as strings that start with @.

FNR == 1 { held = ""; wanted = 0 }
{ line = held $0; held = "" }
sub(/\\$/, "", line) { held = line; next }
{ gsub(/\/\*([^*]|\*+[^*\/])*\*+\//, "", line); sub(/\/\*.*/, "", line) }
line ~ /^[ \t]*#[ \t]*(if|ifdef|ifndef|elif|else|endif|undef)/ || line ~ /^[ \t]*#[ \t]*define[ \t]+[A-Za-z0-9_]+([ \t]|$)/ {
    print line
    next
}
line ~ /^[ \t]*#/ { next }
sub(/.*U_BOOT_CMD(_COMPLETE|_WITH_SUBCMDS|REP_COMPLETE)?[ \t]*\(/, "", line) { wanted = 1 }
wanted && match(line, /[A-Za-z0-9_]+/) { print "\"@" substr(line, RSTART, RLENGTH) "\""; wanted = 0 }

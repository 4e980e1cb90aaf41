# Checks that each refused change left the state of the line before it, and that there was one at most.

/:/ { found = $0; sub(/^[^:]*:/, "", found) }
/^refused/ {
    count++
    if (found != state) {
        print "a refused change left another state: " $0
        exit 1
    }
}
/:/ { state = found }
END { if (count > 1) { print "refused more than once"; exit 1 } }

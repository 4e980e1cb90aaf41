#!/usr/bin/env bash
# growths.sh PROGRAM [PART..]: runs each part of the built program crates/tests_libraries/out/tests_libraries, or these
# parts, once for each growth of memory that it makes, with that one growth refused, until a run meets no refusal. What each
# part shows, docs/ROBUSTNESS.md tells. In `store`, `calls` and `rehearse` the program prints a line NAME:STATE for the beginning
# and after each change, and a line `refused NAME:STATE` after a change that was refused, and is then made again: that is the
# state of the line before it, and without these lines it prints what it prints with ample memory.
. "$(dirname "$0")/../tests/lib"
set -e
program=$(realpath "$1")
subject='refused growths'
needs gcc
cd "$folder"
gcc -O2 -shared -fPIC -o refuse.so "$repository/tools/refuse.c" -ldl

fail() {
    echo "$part, growth $number: $1"
    exit 1
}

# meets: runs the part with this growth refused. Status 1 if it met no refusal.
meets() {
    REFUSE=$number REFUSE_MET=met LD_PRELOAD=./refuse.so "$program" growths "$part" >output 2>error || fail "status $?"
    [ "$(cat met)" != 'not met' ]
}

# changes: a part whose changes are made again.
changes() {
    local refusals=0
    "$program" growths "$part" >ample
    for ((number = 1; ; number++)); do
        meets || break
        [ "$(cat output)" != 'no memory to begin with' ] || continue
        grep -v '^refused' output >kept || true
        cmp -s ample kept || fail 'another output'
        awk -f "$repository/tools/growths.awk" output >why || fail "$(cat why)"
        refusals=$((refusals + $(grep -c '^refused' output || true)))
    done
    cmp -s ample output || fail 'another output without a refusal'
    echo "$part: $((number - 1)) growths refused in turn, $refusals of them in a call that was then made again"
}

# script: the script that stops at its line. The lines that it does are never fewer than at the growth before.
script() {
    local lines=0 found place
    printf 'refused: %s g=8 h=9\n' 'a=1 b=2' 'a=1 b=2 c=3' 'b=2 c=3' 'b=2 c=3 d=4' 'b=5 c=3 d=4' 'b=5 c=3 d=4 e=6' >states
    for ((number = 1; ; number++)); do
        meets || break
        found=$(cat output)
        case $found in
        refused:*)
            place=$(grep -nxF "$found" states | cut -d: -f1)
            [ -n "$place" ] || fail "no state after some lines: $found"
            [ "$place" -eq 1 ] || [ "$place" -ge "$lines" ] || fail "fewer lines than before: $found"
            [ "$place" -lt "$lines" ] || lines=$place
            ;;
        'no memory to begin with' | 'applied: b=5 c=3 d=4 e=6 f=7 g=8 h=9') ;;
        *) fail "another output: $found" ;;
        esac
    done
    [ "$(cat output)" = 'applied: b=5 c=3 d=4 e=6 f=7 g=8 h=9' ] || fail "without a refusal: $(cat output)"
    [ "$lines" -eq 6 ] || fail "no refusal in the last line, but after $((lines - 1)) lines"
    echo "$part: $((number - 1)) growths refused in turn: a script stops at its line," \
        'and the lines before it stay, or nothing changes'
}

# long: the script with a late growth refused; if every run were run from its start, there would be so many.
long() {
    number=100000
    ! meets || fail 'it was met'
    printf '%s: 128 runs, 1127 steps\n' plain trail | cmp - output
    echo "$part: 128 runs after 1,000 commands, each begun once, in less than 100,000 growths"
}

[ $# -gt 1 ] || set -- "$1" store calls rehearse script long
for part in "${@:2}"; do
    case $part in
    script | long) "$part" ;;
    *) changes ;;
    esac
done

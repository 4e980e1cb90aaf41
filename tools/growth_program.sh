#!/usr/bin/env bash
# growth_program.sh PROGRAM: runs the built program ubtool once for each growth of memory that it makes, with that one
# growth refused, for each of its commands. What it then does, docs/ROBUSTNESS.md tells.
. "$(dirname "$0")/../tests/lib"
set -e
program=$(realpath "$1")
subject='refused growths of the program'
needs gcc
cd "$folder"

gcc -O2 -shared -fPIC -o refuse.so "$repository/tools/refuse.c" -ldl
gcc -O2 -shared -fPIC -o calls.so "$repository/tools/refuse_io.c" -ldl
mkdir given
cd given
for flag in 00 01; do head -c 507 /dev/zero | to_image_of little "$flag"; done >env.img
printf 'env.img 0x0 0x200\nenv.img 0x200 0x200\n' >fw_env.config
printf '# d\nload v=1\nfinal boot\n' >devices.txt
"$program" setenv -c fw_env.config bootcmd \
    'x=1 y=$x; for i in $x "a b"; do if load $i; then setenv a "$x"; else run t; fi; done; test -e mmc 0:1 /a && boot || exit 2'
"$program" setenv -c fw_env.config t "echo t '' \$x; load t; exit 3"
printf 'b 1\n# c\n\nt\nc=2 3\n' >changes.txt
{ cat devices.txt; printf 'saves saveenv\ncount n limit m else t\n'; } >counting.txt
printf 'a=1\nbootcmd=load\\\nboot\n' >env.txt
printf 'if load; then\n  boot\nfi\n' >boot.cmd
mkdir lists
printf 'load v=1' >lists/a
printf 'final boot\n' >lists/b
cp env.img image
entries a=1 | to_image >single
cd ..
ln -s "$program" fw_setenv

# texts FILE..: the texts of these files, in variables of their names. (There are too many files to start a process for each.)
texts() {
    local it
    # shellcheck disable=SC2094 # it reads the file, and writes the variable
    for it; do IFS= read -rd '' "$it" <"$it" || true; done
}

# each_growth NUMBER CALLED INPUT WORD..: the command of the words, called so, with this on its standard input, with
# each growth refused, in a folder of its own.
each_growth() {
    local called=$2 input=$3 words=("${@:4}") number before=2 status ample met calls output error
    cp -r given "$1" && cd "$1"
    # fail WHY: tells what is wrong.
    fail() {
        echo "${words[*]}, growth $number: $1"
        exit 1
    }
    "$called" "${words[@]}" <"$input" >ample
    texts ample
    cp env.img changed && cp image env.img && rm -f new.img
    for ((number = 1; ; number++)); do
        status=0
        REFUSE=$number REFUSE_MET=met TELL_CALLS=calls LD_PRELOAD="../refuse.so ../calls.so" "$called" "${words[@]}" \
            <"$input" >output 2>error || status=$?
        texts met calls output error
        [[ $met != 'not met'* ]] || break
        [[ $calls != *$'\nwrite '[1\>]*$'\nread'* ]] || fail 'a write before a read'
        if [ "$status" -eq 0 ]; then
            [ "$output" = "$ample" ] || fail 'another output'
            cmp -s env.img changed || fail 'another changed image'
            cp image env.img && rm -f new.img
            continue
        fi
        [ "$status" -le "$before" ] || fail "status $status"
        [ "$status" -eq 1 ] || [ -z "$output" ] || fail 'an output'
        [[ $error == $'ubtool: out of memory\n' || "$called $error" == $'../fw_setenv fw_setenv: out of memory\n' ]] ||
            fail "$error"
        cmp -s env.img image || fail 'another image'
        [ ! -e new.img ] || fail 'a new image'
        [[ $ample == "$output"* ]] || fail 'no front of the output'
        [ "${words[0]-}" != rehearse ] || goes_on
        [[ ${words[0]-} != @(endings|boots|causes) ]] || [ -z "$output" ] || fail 'an output'
        before=$status
    done
    [ "$status" -eq 0 ] || fail "status $status without a refusal"
    [ "$before" -eq 1 ] || fail 'no growth was refused after the words'
    echo "${words[*]:-no words}: $((number - 1)) growths refused in turn, each reported as out of memory"
}

# goes_on: the listing that was broken off goes on after its last record, or anew.
goes_on() {
    local after last rest
    after=$(sed -n 's/^run //p' output | tail -n 1)
    last=$(tail -n 1 output)
    [[ -z $output || $last =~ ^(end|cut|stop|booted|restarted|halted)\  ]] || fail "a record in part: $last"
    "$program" "${words[@]}" ${after:+--after "$after"} >rest
    texts rest
    [ "$output$rest" = "$ample" ] || fail 'another rest of the listing'
}

begun=()
# begin WORD..: the same beside the other commands.
begin() {
    each_growth "${#begun[@]}" "$called" "$input" "$@" &
    begun+=($!)
}
called=$program input=single
begin rehearse -c fw_env.config -d devices.txt
begin rehearse -c fw_env.config -d devices.txt a v
begin endings -c fw_env.config -d devices.txt
begin endings -c fw_env.config -d devices.txt --devices 5 --steps 40
begin endings -c fw_env.config -d devices.txt --flow
begin boots -c fw_env.config -d devices.txt bootdelay
begin boots -c fw_env.config -d counting.txt --then changes.txt --expect booted --within 3 bootdelay
begin causes -c fw_env.config -d devices.txt
begin rehearse --script boot.cmd -c fw_env.config -d devices.txt
begin endings --script boot.cmd -d lists
begin image --size 64 -o new.img env.txt
begin inspect -c fw_env.config
begin
begin printenv -c fw_env.config
begin printenv -c fw_env.config t bootcmd t
begin printenv -c fw_env.config -n t
begin setenv -c fw_env.config b 1
begin setenv -c fw_env.config b 1 2 3
begin setenv -c fw_env.config t
begin setenv -c fw_env.config -s changes.txt
begin setenv -c fw_env.config -l . b 1
begin printenv -c fw_env.config -l . t
called=../fw_setenv input=changes.txt
begin -c fw_env.config -s -
for process in "${begun[@]}"; do
    wait "$process" || failed=1
done
exit "$failed"

  $ . "$TESTDIR/../setup"

How boots follow one another: what a run saves last is what the next boot finds.

  $ boots() { printf '%s' "$1" >it.cmd; printf '%s\n' "$2" >list; ubtool boots --script it.cmd --text it.txt -d list "${@:3}"; }
  $ printf 'left=2\n' >it.txt

a board that saves nothing has one boot
  $ boots 'load && bootm' $'load\nfinal bootm' left
  boot 1
  ends 1 first 00 fewest 0 00 booted bootm next 1
  var left=2
  ends 2 first 01 fewest 1 01 end 1 next 1
  var left=2
  fails bootm
  all 1

a counter is lowered and saved, whatever becomes of the boot; if it cannot be saved, the same boot follows again
  $ boots 'if test ${left} -gt 0; then setexpr left ${left} - 1; saveenv; bootm B; else bootm A; fi' $'final bootm\nsaves saveenv\nknown setexpr'
  boot 1
  ends 1 first 00 fewest 0 00 booted bootm next 2
  ends 1 first 01 fewest 1 01 end 1 next 2
  fails bootm B
  ends 1 first 10 fewest 1 10 booted bootm next 1
  fails saveenv
  ends 1 first 11 fewest 2 11 end 1 next 1
  fails saveenv
  fails bootm B
  boot 2
  var left=1
  ends 1 first 00 fewest 0 00 booted bootm next 3
  ends 1 first 01 fewest 1 01 end 1 next 3
  fails bootm B
  ends 1 first 10 fewest 1 10 booted bootm next 2
  fails saveenv
  ends 1 first 11 fewest 2 11 end 1 next 2
  fails saveenv
  fails bootm B
  boot 3
  var left=0
  ends 1 first 0 fewest 0 0 booted bootm next 3
  ends 1 first 1 fewest 1 1 end 1 next 3
  fails bootm A
  all 3

saved before it is lowered, the counter never falls
  $ boots 'if test ${left} -gt 0; then saveenv; setexpr left ${left} - 1; bootm B; else bootm A; fi' $'final bootm\nsaves saveenv\nknown setexpr' --failures 0
  boot 1
  ends 1 first 00 fewest 0 00 booted bootm next 1
  all 1

of the endings, those that one failure leads to
  $ boots 'setenv left; saveenv; load || bootm' $'load\nfinal bootm\nsaves saveenv' --failures 1
  boot 1
  ends 1 first 00 fewest 0 00 end 0 next 2
  ends 1 first 010 fewest 1 010 booted bootm next 2
  fails load
  ends 1 first 10 fewest 1 10 end 0 next 1
  fails saveenv
  boot 2
  unset left
  ends 1 first 00 fewest 0 00 end 0 next 2
  ends 1 first 010 fewest 1 010 booted bootm next 2
  fails load
  ends 1 first 10 fewest 1 10 end 0 next 2
  fails saveenv
  all 2

a variable that no text names is in each boot as in the first; one that a text sets is kept also if it is not asked for
  $ boots 'setenv note 1; saveenv; load ${note}${left}' $'call load ** : steady\nsaves saveenv' --failures 0 left
  boot 1
  ends 1 first 00 fewest 0 00 end 0 next 2
  var left=2
  boot 2
  var note=1
  ends 1 first 00 fewest 0 00 end 0 next 2
  var left=2
  all 2

the texts that are reached count, in the environment too
  $ printf 'left=2\nstep=setenv left 1\n' >it.txt
  $ boots 'run step; saveenv' 'saves saveenv' --failures 0
  boot 1
  ends 1 first 0 fewest 0 0 end 0 next 2
  boot 2
  var left=1
  ends 1 first 0 fewest 0 0 end 0 next 2
  all 2

which variables are kept has to be known
  $ boots 'setenv $which 1; saveenv' 'saves saveenv'
  ! ubtool: which variables the scripts change is not known: name those that are kept
  [1]
  $ boots 'setenv $which 1; saveenv' 'saves saveenv' --failures 0 left
  boot 1
  ends 1 first 0 fewest 0 0 end 0 next 1
  var left=2
  all 1

no more boots than are allowed
  $ boots 'setexpr left ${left} + 1; saveenv' $'saves saveenv\nknown setexpr' --boots 5 --failures 0
  ! ubtool: more boots than allowed
  [1]
  $ boots 'load' 'load' --boots 0
  ! ubtool: more boots than allowed
  [1]
  $ boots 'load' 'load' --boots 1
  boot 1
  ends 1 first 0 fewest 0 0 end 0 next 1
  ends 1 first 1 fewest 1 1 end 1 next 1
  fails load
  all 1

what the list says of the start holds in each boot
  $ boots 'setenv left ${left}${more}; saveenv; test ${left} = 2xx && setenv left 2; saveenv' $'given more=x\nsaves saveenv' --failures 0
  boot 1
  ends 2 first 00 fewest 0 00 end 0 next 2
  boot 2
  var left=2x
  ends 2 first 00 fewest 0 00 end 0 next 1
  all 2
  $ boots 'load' $'load\ngiven more=x\ngiven more=y'
  ! ubtool: the device list has 2 alternatives: name one by --given
  [1]
  $ boots 'load' $'load\ngiven more=x\ngiven more=y' --given 2 --failures 0
  boot 1
  ends 1 first 0 fewest 0 0 end 0 next 1
  all 1

an image has room for so much: saving what it has no room for fails, without a digit
  $ printf 'bootcmd=setenv note ${note}12345678; saveenv\n' >it.txt
  $ ubtool image --size 80 -o it.img it.txt
  $ printf 'saves saveenv\n' >list
  $ ubtool boots -i it.img -d list --failures 0
  boot 1
  ends 1 first 0 fewest 0 0 end 0 next 2
  boot 2
  var note=12345678
  ends 1 first 0 fewest 0 0 end 0 next 3
  boot 3
  var note=1234567812345678
  ends 1 first 0 fewest 0 0 end 0 next 4
  boot 4
  var note=123456781234567812345678
  ends 1 first . fewest 0 . end 1 next 4
  all 4
  $ ubtool boots -i it.img -d list --expect 'end 0' | tail -n 4
  boot 4
  var note=123456781234567812345678
  ends 1 first . fewest 0 . end 1 next 4
  lost 4
  $ printf 'bootcmd=setenv note ${note}12345678; saveenv || setenv note 1; saveenv\n' >it.txt
  $ ubtool image --size 92 -o less.img it.txt
  $ ubtool boots -i less.img -d list --failures 0
  boot 1
  ends 1 first 00 fewest 0 00 end 0 next 2
  boot 2
  var note=12345678
  ends 1 first 0 fewest 0 0 end 0 next 3
  boot 3
  var note=1
  ends 1 first 00 fewest 0 00 end 0 next 4
  boot 4
  var note=112345678
  ends 1 first 0 fewest 0 0 end 0 next 3
  all 4

a variable that is not set, and a script that asks in too many states
  $ boots 'load' 'load' -b none
  ! ubtool: --script takes no -b
  [2]
  $ ubtool boots --text it.txt -d list -b none
  ! ubtool: no variable none
  [1]
  $ boots 'load; load; load' 'load' --states 2
  ! ubtool: more states than allowed
  [1]

the system changes something after an ending that boots, and after no other
  $ printf 'left=2\n' >it.txt; printf 'ok 1\n' >mark
  $ boots 'setenv ok; saveenv; bootm' $'final bootm\nsaves saveenv' --then mark --failures 1
  boot 1
  ends 1 first 00 fewest 0 00 booted bootm next 1 then 2
  ends 1 first 01 fewest 1 01 end 1 next 1
  fails bootm
  ends 1 first 10 fewest 1 10 booted bootm next 1 then 2
  fails saveenv
  boot 2
  var ok=1
  ends 1 first 00 fewest 0 00 booted bootm next 1 then 2
  ends 1 first 01 fewest 1 01 end 1 next 1
  fails bootm
  ends 1 first 10 fewest 1 10 booted bootm next 2 then 2
  fails saveenv
  all 2

what the changes leave otherwise is kept, and what they leave as it is stays
  $ printf '# good\nmark 1\nleft\nsame 3\n' >mark; printf 'left=2\nsame=3\n' >it.txt
  $ boots 'load && bootm' $'load\nfinal bootm' --then mark --failures 0
  boot 1
  ends 1 first 00 fewest 0 00 booted bootm next 1 then 2
  boot 2
  unset left
  var mark=1
  ends 1 first 00 fewest 0 00 booted bootm next 2 then 2
  all 2

changes that have no room are not made
  $ printf 'bootcmd=bootm\n' >it.txt; ubtool image --size 32 -o small.img it.txt; printf 'note 1234567\n' >mark
  $ printf 'final bootm\n' >list; ubtool boots -i small.img -d list --then mark --failures 0
  boot 1
  ends 1 first 0 fewest 0 0 booted bootm next 1 then 2
  boot 2
  var note=1234567
  ends 1 first 0 fewest 0 0 booted bootm next 2 then 2
  all 2
  $ printf 'note 123456789\n' >mark; ubtool boots -i small.img -d list --then mark --failures 0
  boot 1
  ends 1 first 0 fewest 0 0 booted bootm next 1 then 1
  all 1

a script of changes with a faulty line, and none that can be read
  $ printf 'left=2\n' >it.txt; printf 'a 1\n=2\n' >mark
  $ boots 'load' 'load' --then mark
  ! ubtool: script line 2: bad name
  [1]
  $ boots 'load' 'load' --then nothing
  ! ubtool: cannot read nothing
  [1]

a board that counts its boots: beyond the limit, the alternative runs, and what it changes is kept, too
  $ printf 'upgrade_available=1\nbootcount=2\nbootlimit=3\nbootcmd=load && bootm\n' >counts.txt
  $ printf 'altbootcmd=setenv upgrade_available; saveenv; bootm alt\n' >>counts.txt
  $ printf 'load\nfinal bootm\nsaves saveenv\ncount bootcount limit bootlimit else altbootcmd\n' >list
  $ ubtool boots --text counts.txt -d list --failures 0
  boot 1
  ends 1 first 00 fewest 0 00 booted bootm next 2
  boot 2
  var bootcount=3
  ends 1 first 00 fewest 0 00 booted bootm next 3
  boot 3
  unset upgrade_available
  var bootcount=4
  ends 1 first 00 fewest 0 00 booted bootm next 3
  all 3
  $ ubtool boots --text counts.txt -d list --failures 0 --expect 'booted bootm'
  all 3

the counter is saved, whatever becomes of the boot; so one that nothing sets back has no end
  $ ubtool boots --text counts.txt -d list --boots 20
  ! ubtool: more boots than allowed
  [1]
  $ sed -i s/upgrade_available=1/upgrade_available=0/ counts.txt
  $ ubtool boots --text counts.txt -d list
  boot 1
  ends 1 first 00 fewest 0 00 booted bootm next 1
  ends 2 first 01 fewest 1 01 end 1 next 1
  fails bootm
  all 1

whether each boot leads on to an ending
  $ printf 'left=2\n' >it.txt; counting=$'final bootm\nsaves saveenv\nknown setexpr'
  $ down='if test ${left} = 0; then bootm; else setexpr left ${left} - 1; saveenv; fi'
  $ boots "$down" "$counting" --expect booted
  all 3
  $ boots "$down" "$counting" --expect booted --within 3
  all 3
  $ boots "$down" "$counting" --expect booted --within 2
  boot 1
  ends 1 first 0 fewest 0 0 end 0 next 2
  ends 1 first 1 fewest 1 1 end 1 next 1
  fails saveenv
  lost 1
  [1]
  $ boots "$down" "$counting" --expect 'booted boot'
  boot 1
  ends 1 first 0 fewest 0 0 end 0 next 2
  ends 1 first 1 fewest 1 1 end 1 next 1
  fails saveenv
  lost 1
  [1]

the boots on the way to the first one that is lost
  $ boots 'test ${left} = 0 || setexpr left ${left} - 1; saveenv; test ${left} = 0 || bootm' "$counting" --expect booted
  boot 1
  ends 1 first 00 fewest 0 00 booted bootm next 2
  boot 2
  var left=1
  ends 1 first 0 fewest 0 0 end 0 next 3
  ends 1 first 1 fewest 1 1 end 0 next 2
  fails saveenv
  lost 2
  [1]

a way through a failure does not count
  $ boots 'load && bootm A; bootm B' $'load\nfinal bootm' --expect 'end 1'
  boot 1
  ends 3 first 00 fewest 0 00 booted bootm next 1
  ends 2 first 011 fewest 2 011 end 1 next 1
  fails bootm A
  fails bootm B
  lost 1
  [1]

with values that the ending leaves, of variables that then count as named
  $ boots 'setenv slot B; bootm' 'final bootm' --expect booted --expect-var slot=B
  all 1
  $ boots 'setenv slot B; bootm' 'final bootm' --expect booted --expect-var slot=B --expect-var none=
  all 1
  $ boots 'setenv slot B; bootm' 'final bootm' --expect booted --expect-var slot=A
  boot 1
  ends 1 first 0 fewest 0 0 booted bootm next 1
  var slot=B
  ends 1 first 1 fewest 1 1 end 1 next 1
  var slot=B
  fails bootm
  lost 1
  [1]

what the system changes leads on, too
  $ printf 'left 0\n' >mark
  $ boots 'test ${left} = 0 && bootm A; bootm B' 'final bootm' --then mark --expect 'booted bootm' --expect-var left=0
  all 2
  $ boots 'test ${left} = 0 && bootm A; bootm B' 'final bootm' --expect 'booted bootm' --expect-var left=0
  boot 1
  ends 1 first 0 fewest 0 0 booted bootm next 1
  var left=2
  ends 1 first 1 fewest 1 1 end 1 next 1
  var left=2
  fails bootm B
  lost 1
  [1]

the rows of docs/RUNNING.md
  $ printf 'left=1\n' >it.txt; list=$'load\nknown setexpr\nsaves saveenv'
  $ boots 'test ${left} = 0 || setexpr left ${left} - 1; saveenv' "$list"
  boot 1
  ends 1 first 0 fewest 0 0 end 0 next 2
  ends 1 first 1 fewest 1 1 end 1 next 1
  fails saveenv
  boot 2
  var left=0
  ends 1 first 0 fewest 0 0 end 0 next 2
  ends 1 first 1 fewest 1 1 end 1 next 2
  fails saveenv
  all 2
  $ boots 'test ${left} = 0 || setexpr left ${left} - 1; saveenv' "$list" --failures 0
  boot 1
  ends 1 first 0 fewest 0 0 end 0 next 2
  boot 2
  var left=0
  ends 1 first 0 fewest 0 0 end 0 next 2
  all 2

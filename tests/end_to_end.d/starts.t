  $ . "$TESTDIR/../setup"

What the page says of lines of the start: each row of its table, and what follows it.

  $ runs() { printf '%s\n' 'a=0' 'p=probe' 'bootcmd=load $a $b' 'odd name=load' >env.txt; printf '%s\n' load probe "$@" >list; ubtool "${call[@]}" --text env.txt -d list "${behind[@]}"; }
  $ call=(rehearse --limit 1) behind=(a b)

a variable before the run, in place of one that is stored
  $ runs 'given a=1' 'given b=mmc'
  run 0
  dev 0 load 1 mmc
  var a=1
  var b=mmc
  end 0
  more 0

a value with a blank
  $ runs "given a='1 2'"
  run 0
  dev 0 load 1 2
  var a=1 2
  unset b
  end 0
  more 0

an empty value deletes
  $ runs 'given a='
  run 0
  dev 0 load
  unset a
  unset b
  end 0
  more 0

lines of the start may be anywhere, and say nothing of commands
  $ printf 'a=0\nbootcmd=given; before\n' >env.txt
  $ printf 'given a=1\ngiven\nbefore p\nbefore\n' >list
  $ ubtool rehearse --text env.txt -d list --limit 1 a
  run 00
  dev 0 given
  dev 0 before
  var a=1
  end 0
  more 00

commands that are called so
  $ printf 'bootcmd=before; given\n' >env.txt
  $ printf 'before a=1\ngiven\n' >list
  $ ubtool rehearse --text env.txt -d list --limit 1 a
  run 00
  dev 0 before
  dev 0 given
  var a=1
  end 0
  more 00

a text that fails, sets, and ends before its last command: U-Boot 2025.01 answered the same
  $ printf '%s\n' a=0 'p=setenv a 2; c=3; false; exit; setenv a 4' 'bootcmd=echo $a $c' >env.txt
  $ printf '%s\n' 'before p' >list; ubtool rehearse --text env.txt -d list a
  run .
  text 2 3\n
  var a=2
  end 0
  done

a text that runs first, and one that is not set
  $ runs 'before p' 'before q'
  run 00
  dev 0 probe
  dev 0 load 0
  var a=0
  unset b
  end 0
  more 00

in the order of the lines, whatever the status is, and it may set what is rehearsed
  $ printf '%s\n' 'p=probe; false' 'q=setenv bootcmd load $a' 'a=1' 'bootcmd=probe' >env.txt
  $ printf '%s\n' load probe 'before q' 'before p' >list
  $ ubtool rehearse --text env.txt -d list a
  run 00
  dev 0 probe
  dev 0 load 1
  var a=1
  end 0
  run 01
  dev 0 probe
  dev 1 load 1
  var a=1
  end 1
  run 10
  dev 1 probe
  dev 0 load 1
  var a=1
  end 0
  run 11
  dev 1 probe
  dev 1 load 1
  var a=1
  end 1
  done

in front of a script
  $ printf 'load script' >boot.cmd
  $ ubtool rehearse --script boot.cmd --text env.txt -d list --limit 1 a
  run 00
  dev 0 probe
  dev 0 load script
  var a=1
  end 0
  more 00

a text that runs first and cannot be read
  $ printf '%s\n' 'p=if' 'bootcmd=load' >env.txt
  $ printf '%s\n' load 'before p' >list
  $ ubtool rehearse --text env.txt -d list a
  run .
  unset a
  stop syntax p
  done

the variable that is rehearsed has to be set before
  $ printf '%s\n' 'p=setenv x load' >env.txt
  $ ubtool rehearse --text env.txt -d list -b x
  ! ubtool: no variable x
  [1]

and its name is one that run takes
  $ printf '%s\n' 'p=true' 'odd name=load' >env.txt
  $ ubtool rehearse --text env.txt -d list -b 'odd name'
  ! ubtool: a text runs before the variable, whose name has other bytes than letters, digits, _, - and .
  [1]
  $ grep -v before list >plain
  $ ubtool rehearse --text env.txt -d plain -b 'odd name' --limit 1 a
  run 0
  dev 0 load
  unset a
  end 0
  more 0

alternatives: a listing is that of one
  $ runs 'given a=1' 'given b=x' 'given a=2' 'given b=y'
  ! ubtool: the device list has 4 alternatives: name one by --given
  [1]
  $ for k in 1 2 3 4; do call=(rehearse --limit 1 --given "$k") && runs 'given a=1' 'given b=x' 'given a=2' 'given b=y' | grep dev; done
  dev 0 load 1 x
  dev 0 load 1 y
  dev 0 load 2 x
  dev 0 load 2 y
  $ call=(rehearse --given 5)
  $ runs 'given a=1' 'given b=x' 'given a=2' 'given b=y'
  ! ubtool: no alternative 5: the device list has 4
  [1]
  $ runs
  ! ubtool: no alternative 5: the device list has 1
  [1]

the endings of each, in turn
  $ call=(endings) behind=()
  $ runs 'given a=1' 'given b=x' 'given a=2' 'given b=y' 'given c=1'
  given a=1 b=x
  ends 1 first 0 fewest 0 0 end 0
  ends 1 first 1 fewest 1 1 end 1
  fails load 1 x
  all 2 states 1
  given a=1 b=y
  ends 1 first 0 fewest 0 0 end 0
  ends 1 first 1 fewest 1 1 end 1
  fails load 1 y
  all 2 states 1
  given a=2 b=x
  ends 1 first 0 fewest 0 0 end 0
  ends 1 first 1 fewest 1 1 end 1
  fails load 2 x
  all 2 states 1
  given a=2 b=y
  ends 1 first 0 fewest 0 0 end 0
  ends 1 first 1 fewest 1 1 end 1
  fails load 2 y
  all 2 states 1

of one that is named, and of a list that has no other
  $ call=(endings --given 2)
  $ runs 'given a=1' 'given a='
  ends 1 first 0 fewest 0 0 end 0
  ends 1 first 1 fewest 1 1 end 1
  fails load
  all 2 states 1
  $ call=(endings)
  $ runs 'given a=1'
  ends 1 first 0 fewest 0 0 end 0
  ends 1 first 1 fewest 1 1 end 1
  fails load 1
  all 2 states 1

a value that is no word is written as one
  $ call=(causes --failures 0)
  $ runs 'given b=' "given b='x  y'"
  given b=
  cause 0 end 0
  given b=x\x20\x20y
  cause 0 end 0

a check tells those alone that have something to tell
  $ printf '%s\n' 'bootcmd=test $a = 2 || boot' >env.txt
  $ printf '%s\n' 'final boot' 'given a=1' 'given a=2' >list
  $ ubtool causes --text env.txt -d list --check --failures 0
  given a=2
  cause 0 end 0
  [1]
  $ ubtool causes --text env.txt -d list --check --failures 0 --given 1

what refuses one refuses all, and nothing is written
  $ printf '%s\n' 'final boot' 'given bootcmd=boot' 'given bootcmd=' >list
  $ ubtool endings --text env.txt -d list
  ! ubtool: no variable bootcmd
  [1]

the flow of each
  $ printf '%s\n' 'final boot' 'given a=1' 'given a=2' >list
  $ ubtool endings --text env.txt -d list --flow
  given a=1
  1 ask boot success 3 failure 2
  2 ends end 1
  3 ends booted boot
  given a=2
  1 ends end 0

faulty lines: the first one counts
  $ for line in 'given a=1 2' "given a='1" 'given =1' 'given -a=1' "given 'a'=1" 'before a/b' 'before a b' 'count -a limit b else c' 'count a limit b'; do
  >     printf '%s\n' "$line" 'load x' >list && ubtool endings --text env.txt -d list
  > done
  ! ubtool: device list line 1: bad line
  ! ubtool: device list line 1: bad line
  ! ubtool: device list line 1: bad line
  ! ubtool: device list line 1: bad line
  ! ubtool: device list line 1: bad line
  ! ubtool: device list line 1: bad line
  ! ubtool: device list line 1: bad line
  ! ubtool: device list line 1: bad line
  ! ubtool: device list line 1: bad line
  [1]
  $ printf '%s\n' 'load x' 'given a=1 2' >list
  $ ubtool endings --text env.txt -d list
  ! ubtool: device list line 1: bad line
  [1]

the boot counter: the last try, and the boot after it
  $ counts() { printf '%s\n' "bootcount=$1" bootlimit=3 upgrade_available=1 altbootcmd=probe bootcmd=load >env.txt; printf '%s\n' load probe 'count bootcount limit bootlimit else altbootcmd' "${@:2}" >list; ubtool rehearse --text env.txt -d list bootcount; }
  $ counts 2
  run 0
  dev 0 load
  var bootcount=3
  end 0
  run 1
  dev 1 load
  var bootcount=3
  end 1
  done
  $ counts 3
  run 0
  dev 0 probe
  var bootcount=4
  end 0
  run 1
  dev 1 probe
  var bootcount=4
  end 1
  done

no update is tried, a limit of 0, and an alternative that is not set
  $ counts 9 'given upgrade_available=0'
  run 0
  dev 0 load
  var bootcount=1
  end 0
  run 1
  dev 1 load
  var bootcount=1
  end 1
  done
  $ counts 9 'given bootlimit=0'
  run 0
  dev 0 load
  var bootcount=10
  end 0
  run 1
  dev 1 load
  var bootcount=10
  end 1
  done
  $ counts 9 'given altbootcmd='
  run .
  var bootcount=10
  end 0
  done

64 alternatives, and one more
  $ seq -f 'given a=%g' 64 >list
  $ printf 'final boot\n' >>list
  $ ubtool endings --text env.txt -d list | grep -c '^given a='
  64
  $ printf 'given a=1\ngiven a=65\n' >>list
  $ ubtool endings --text env.txt -d list
  ! ubtool: device list line 67: more than 64 alternatives
  [1]

20,000 values of one name, and 20,000 names
  $ seq -f 'given a=%g' 20000 >list
  $ ubtool endings --text env.txt -d list
  ! ubtool: device list line 65: more than 64 alternatives
  [1]
  $ (seq -f 'given a%g=1' 20000 && echo final boot && seq -f 'before a%g' 20000) >list
  $ timeout 10 "$UBTOOL" rehearse --text env.txt -d list --limit 1 a1
  run .
  var a1=1
  stop unknown 1
  done

20,000 names that are stored: each gets another value, or is deleted
  $ (seq -f 'a%g=0' 20000 && echo 'bootcmd=echo $a1 $a20000') >env.txt
  $ (seq -f 'given a%g=1' 20000 && echo final boot) >list
  $ timeout 10 "$UBTOOL" rehearse --text env.txt -d list a2
  run .
  text 1 1\n
  var a2=1
  end 0
  done
  $ (seq -f 'given a%g=' 20000 && echo final boot) >list
  $ timeout 10 "$UBTOOL" rehearse --text env.txt -d list a2
  run .
  text \n
  unset a2
  end 0
  done

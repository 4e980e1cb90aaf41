  $ . "$TESTDIR/../setup"

What a run saves: the values of the variables that are asked for, as they are after a call that saves.

  $ printf 'left=3\n' >it.txt
  $ runs() { printf '%s' "$1" >it.cmd; printf '%s\n' "${@:2}" >list; ubtool rehearse --script it.cmd --text it.txt -d list left; }

before the counter is lowered, and after it
  $ runs 'saveenv; setenv left 2' 'saves saveenv'
  run 0
  dev 0 saveenv
  var left=2
  saved left=3
  end 0
  run 1
  dev 1 saveenv
  var left=2
  end 0
  done
  $ runs 'setenv left 2; saveenv' 'saves saveenv'
  run 0
  dev 0 saveenv
  var left=2
  saved left=2
  end 0
  run 1
  dev 1 saveenv
  var left=2
  end 1
  done

what is saved last counts, and a variable may be saved as one that is not set
  $ runs 'saveenv; setenv left; saveenv; setenv left 1' 'saves saveenv'
  run 00
  dev 0 saveenv
  dev 0 saveenv
  var left=1
  saved unset left
  end 0
  run 01
  dev 0 saveenv
  dev 1 saveenv
  var left=1
  saved left=3
  end 0
  run 10
  dev 1 saveenv
  dev 0 saveenv
  var left=1
  saved unset left
  end 0
  run 11
  dev 1 saveenv
  dev 1 saveenv
  var left=1
  end 0
  done

it distinguishes the endings
  $ ubtool endings --script it.cmd --text it.txt -d list left
  ends 2 first 00 fewest 0 00 end 0
  var left=1
  saved unset left
  ends 1 first 01 fewest 1 01 end 0
  var left=1
  saved left=3
  fails saveenv
  ends 1 first 11 fewest 2 11 end 0
  var left=1
  fails saveenv
  fails saveenv
  all 4 states 3
  $ ubtool endings --script it.cmd --text it.txt -d list --shell old-2023.01 left
  ends 2 first 00 fewest 0 00 end 0
  var left=1
  saved unset left
  ends 1 first 01 fewest 1 01 end 0
  var left=1
  saved left=3
  fails saveenv
  ends 1 first 11 fewest 2 11 end 0
  var left=1
  fails saveenv
  fails saveenv
  all 4 states 3

without a name there are no such lines, and it distinguishes no runs
  $ ubtool endings --script it.cmd --text it.txt -d list
  ends 4 first 00 fewest 0 00 end 0
  all 4 states 2
  $ ubtool rehearse --script it.cmd --text it.txt -d list --limit 1
  run 00
  dev 0 saveenv
  dev 0 saveenv
  var left=1
  end 0
  more 00
  $ ubtool causes --script it.cmd --text it.txt -d list
  cause 0 end 0

a list that says of no command that it saves tells what it told
  $ echo saveenv >list
  $ ubtool endings --script it.cmd --text it.txt -d list left
  ends 4 first 00 fewest 0 00 end 0
  var left=1
  all 4 states 2

a call that fits a pattern, and what it sets itself; other calls save nothing
  $ runs 'env save' 'call env save : saves'
  run 0
  dev 0 env save
  var left=3
  saved left=3
  end 0
  run 1
  dev 1 env save
  var left=3
  end 1
  done
  $ runs 'store left' 'call store * : saves @1=7'
  run 0
  dev 0 store left
  var left=7
  saved left=7
  end 0
  run 1
  dev 1 store left
  var left=3
  end 1
  done
  $ runs 'store left' 'call store other : saves' store
  run 0
  dev 0 store left
  var left=3
  end 0
  run 1
  dev 1 store left
  var left=3
  end 1
  done

several names, a name with a blank, and values that are escaped
  $ printf 'a b=1\nc=x\\y\n' >it.txt; echo saveenv >it.cmd; echo 'saves saveenv' >list
  $ ubtool rehearse --script it.cmd --text it.txt -d list --limit 1 c 'a b' c none
  run 0
  dev 0 saveenv
  var c=x\\y
  var a\x20b=1
  var c=x\\y
  unset none
  saved c=x\\y
  saved a\x20b=1
  saved c=x\\y
  saved unset none
  end 0
  more 0

it shows the same if it starts after a word, and in one run
  $ ubtool rehearse --script it.cmd --text it.txt -d list --after 0 c
  run 1
  dev 1 saveenv
  var c=x\\y
  end 1
  done
  $ ubtool rehearse --script it.cmd --text it.txt -d list --word 0 c
  run 0
  dev 0 saveenv
  var c=x\\y
  saved c=x\\y
  end 0
  done

in each alternative of a list
  $ printf 'saves saveenv\ngiven c=1\ngiven c=2\n' >list
  $ ubtool endings --script it.cmd --text it.txt -d list c
  given c=1
  ends 1 first 0 fewest 0 0 end 0
  var c=1
  saved c=1
  ends 1 first 1 fewest 1 1 end 1
  var c=1
  fails saveenv
  all 2 states 1
  given c=2
  ends 1 first 0 fewest 0 0 end 0
  var c=2
  saved c=2
  ends 1 first 1 fewest 1 1 end 1
  var c=2
  fails saveenv
  all 2 states 1

a script cannot read what is saved, nor a variable of the same name
  $ echo 'saves saveenv' >list; runs 'saveenv; setenv left $saved' 'saves saveenv'
  run 0
  dev 0 saveenv
  unset left
  saved unset left
  end 0
  run 1
  dev 1 saveenv
  unset left
  end 0
  done

nor by a name with a byte 0 in it, which no script can have
  $ printf 'left=3\n' >it.txt; printf 'saveenv; echo "${\0left}"' >it.cmd
  $ for shell in profile old-2023.01 old-2025.01 modern-2025.01; do
  >     ubtool rehearse --script it.cmd --text it.txt -d list --shell $shell left | grep -v '^run\|^var\|^done'
  > done
  stop syntax it.cmd
  stop unsupported it.cmd
  stop unsupported it.cmd
  end 1

the clause is there once, and the line has one name
  $ echo 'call saveenv : saves saves' >list; ubtool endings --script it.cmd --text it.txt -d list
  ! ubtool: device list line 1: bad line
  [1]
  $ echo 'saves saveenv other' >list; ubtool endings --script it.cmd --text it.txt -d list
  ! ubtool: device list line 1: bad line
  [1]
  $ echo 'saves test' >list; ubtool endings --script it.cmd --text it.txt -d list
  ! ubtool: device list line 1: built-in command
  [1]

`hushcheck` knows the command, and that nothing is set
  $ printf 'bootcmd=saveenv; echo $left\n' >it.txt; echo 'saves saveenv' >list
  $ hushcheck --text it.txt -d list
  bootcmd: ok
  bootcmd:1:15: warning: nothing sets left
  saveenv; echo $left
                ^

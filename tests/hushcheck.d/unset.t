  $ . "$TESTDIR/../setup"

Variables that nothing sets, after the lines of all texts.

  $ printf 'load filesize=1\nsub part uuid @last=1\ncall mmc conf * * : @3=1\ncall ls * : seen=@2\nls\ndhcp\nknown setexpr\nknown env\n' >one.list
one, at the first word that reads it
  $ text 'echo a; echo $x\necho "b${x}"'
  bootcmd: ok
  bootcmd:1:14: warning: nothing sets x
  echo a; echo $x
               ^

two in one word, in their order
  $ text 'echo a$y${x}'
  bootcmd: ok
  bootcmd:1:6: warning: nothing sets y
  echo a$y${x}
       ^
  bootcmd:1:6: warning: nothing sets x
  echo a$y${x}
       ^

in quotes, in an assignment, and among the words of a for
  $ text 'echo "$x"; y=a$z; for i in $u; do echo $i $y; done'
  bootcmd: ok
  bootcmd:1:6: warning: nothing sets x
  echo "$x"; y=a$z; for i in $u; do echo $i $y; done
       ^
  bootcmd:1:12: warning: nothing sets z
  echo "$x"; y=a$z; for i in $u; do echo $i $y; done
             ^
  bootcmd:1:28: warning: nothing sets u
  echo "$x"; y=a$z; for i in $u; do echo $i $y; done
                             ^

in a condition, a loop and a block after else
  $ text 'if test "$a" = 1; then true; elif test "$b" = 1; then true; else echo $c; fi; while test "$d" = 1; do echo $e; done'
  bootcmd: ok
  bootcmd:1:9: warning: nothing sets a
  if test "$a" = 1; then true; elif test "$b" = 1; then true; else echo $c; fi; wh
          ^
  bootcmd:1:40: warning: nothing sets b
  if test "$a" = 1; then true; elif test "$b" = 1; then true; else echo $c; fi; wh
                                         ^
  bootcmd:1:71: warning: nothing sets c
  lif test "$b" = 1; then true; else echo $c; fi; while test "$d" = 1; do echo $e;
                                          ^
  bootcmd:1:90: warning: nothing sets d
  est "$b" = 1; then true; else echo $c; fi; while test "$d" = 1; do echo $e; done
                                                        ^
  bootcmd:1:108: warning: nothing sets e
  est "$b" = 1; then true; else echo $c; fi; while test "$d" = 1; do echo $e; done
                                                                          ^

a name of run, and a command
  $ text 'run $x; $y a'
  bootcmd: ok
  bootcmd:1:5: note: not followed, since the name holds a variable
  run $x; $y a
      ^
  bootcmd:1:9: note: which variables this sets is not known
  run $x; $y a
          ^
  bootcmd:1:5: warning: nothing sets x
  run $x; $y a
      ^
  bootcmd:1:9: warning: nothing sets y
  run $x; $y a
          ^

the status, a byte after $, and a variable that is asked for by name alone
  $ text 'echo $? ${?} $ \$x '"'"'$y'"'"'; env exists z'
  bootcmd: ok
  bootcmd:1:9: warning: ${?} is empty in U-Boot's old shell
  echo $? ${?} $ \$x '$y'; env exists z
          ^

one of the environment
  $ image env 'bootcmd=echo $a $b' a=1
  $ hushcheck -c env.config
  bootcmd: ok
  bootcmd:1:9: warning: nothing sets b
  echo $a $b
          ^

one that is set later, or only in a branch
  $ text 'echo $a $b $c $i; a=1; if false; then setenv b 1; fi; for i in 1; do env set -f c 2; done'
  bootcmd: ok

setenv without a value deletes
  $ text 'setenv a; setenv b ""; echo $a $b'
  bootcmd: ok
  bootcmd:1:29: warning: nothing sets a
  setenv a; setenv b ""; echo $a $b
                              ^

setexpr
  $ text 'setexpr a 1 + 2; setexpr b $c; echo $a $b'
  bootcmd: ok
  bootcmd:1:28: warning: nothing sets c
  setexpr a 1 + 2; setexpr b $c; echo $a $b
                             ^

a text that is run sets it
  $ image env 'bootcmd=run a; echo $x' 'a=setenv x 1; echo $y' 'b=setenv y 1'
  $ hushcheck -c env.config
  bootcmd: ok
  a: ok
  a:1:18: warning: nothing sets y
  setenv x 1; echo $y
                   ^

a text that is named sets it
  $ hushcheck -c env.config bootcmd b
  bootcmd: ok
  b: ok
  a: ok

each once, at the text that comes first
  $ image env 'bootcmd=run a; echo $y $x' 'a=echo $x $z'
  $ hushcheck -c env.config
  bootcmd: ok
  a: ok
  bootcmd:1:13: warning: nothing sets y
  run a; echo $y $x
              ^
  bootcmd:1:16: warning: nothing sets x
  run a; echo $y $x
                 ^
  a:1:9: warning: nothing sets z
  echo $x $z
          ^

a text that is refused reads and sets nothing
  $ image env 'bootcmd=run a b; echo $x' 'a=setenv x 1; fi' 'b=echo $y; fi'
  $ hushcheck -c env.config
  bootcmd: ok
  a:1:13: unexpected token
  setenv x 1; fi
              ^
  b:1:10: unexpected token
  echo $y; fi
           ^
  bootcmd:1:15: warning: nothing sets x
  run a b; echo $x
                ^
  [1]

settings of a device list: of a name, a call, a word and the last word
  $ text 'load $a; ls $b; mmc conf 0 d; part uuid mmc e; echo $filesize $seen $d $e' -d one.list
  bootcmd: ok
  bootcmd:1:6: warning: nothing sets a
  load $a; ls $b; mmc conf 0 d; part uuid mmc e; echo $filesize $seen $d $e
       ^
  bootcmd:1:13: warning: nothing sets b
  load $a; ls $b; mmc conf 0 d; part uuid mmc e; echo $filesize $seen $d $e
              ^
  $ text 'dhcp; echo $filesize $seen' -d one.list
  bootcmd: ok
  bootcmd:1:12: warning: nothing sets filesize
  dhcp; echo $filesize $seen
             ^
  bootcmd:1:22: warning: nothing sets seen
  dhcp; echo $filesize $seen
                       ^

without a device list
  $ text 'load mmc 0; echo $filesize'
  bootcmd: ok
  bootcmd:1:18: warning: nothing sets filesize
  load mmc 0; echo $filesize
                   ^

names that are not written out
  $ text 'setenv $a 1; env import -t 1000; mmc conf 0 $b; part uuid $c; setexpr x$d 1; env $e y; echo $z' -d one.list
  bootcmd: ok
  bootcmd:1:1: note: which variables this sets is not known
  setenv $a 1; env import -t 1000; mmc conf 0 $b; part uuid $c; setexpr x$d 1; env
  ^
  bootcmd:1:14: note: which variables this sets is not known
  setenv $a 1; env import -t 1000; mmc conf 0 $b; part uuid $c; setexpr x$d 1; env
               ^
  bootcmd:1:34: note: which variables this sets is not known
  setenv $a 1; env import -t 1000; mmc conf 0 $b; part uuid $c; setexpr x$d 1; env
                                   ^
  bootcmd:1:49: note: which variables this sets is not known
  a 1; env import -t 1000; mmc conf 0 $b; part uuid $c; setexpr x$d 1; env $e y; e
                                          ^
  bootcmd:1:63: note: which variables this sets is not known
  nv import -t 1000; mmc conf 0 $b; part uuid $c; setexpr x$d 1; env $e y; echo $z
                                                  ^
  bootcmd:1:78: note: which variables this sets is not known
  nv import -t 1000; mmc conf 0 $b; part uuid $c; setexpr x$d 1; env $e y; echo $z
                                                                 ^
  bootcmd:1:8: warning: nothing sets a
  setenv $a 1; env import -t 1000; mmc conf 0 $b; part uuid $c; setexpr x$d 1; env
         ^
  bootcmd:1:45: warning: nothing sets b
  nv $a 1; env import -t 1000; mmc conf 0 $b; part uuid $c; setexpr x$d 1; env $e 
                                          ^
  bootcmd:1:59: warning: nothing sets c
  nv import -t 1000; mmc conf 0 $b; part uuid $c; setexpr x$d 1; env $e y; echo $z
                                              ^
  bootcmd:1:71: warning: nothing sets d
  nv import -t 1000; mmc conf 0 $b; part uuid $c; setexpr x$d 1; env $e y; echo $z
                                                          ^
  bootcmd:1:82: warning: nothing sets e
  nv import -t 1000; mmc conf 0 $b; part uuid $c; setexpr x$d 1; env $e y; echo $z
                                                                     ^
  bootcmd:1:93: warning: nothing sets z
  nv import -t 1000; mmc conf 0 $b; part uuid $c; setexpr x$d 1; env $e y; echo $z
                                                                                ^

a script in a file, before the variables
  $ printf 'run a; echo $x $y\n' >boot.cmd; printf 'a=setenv x 1; echo $z\n' >env.txt
  $ hushcheck --script boot.cmd
  boot.cmd: ok
  a: not set
  boot.cmd:1:13: warning: nothing sets x
  run a; echo $x $y
              ^
  boot.cmd:1:16: warning: nothing sets y
  run a; echo $x $y
                 ^
  $ hushcheck --script boot.cmd --text env.txt
  boot.cmd: ok
  a: ok
  boot.cmd:1:16: warning: nothing sets y
  run a; echo $x $y
                 ^
  a:1:18: warning: nothing sets z
  setenv x 1; echo $z
                   ^

with a shell
  $ text 'echo $x' --shell profile
  bootcmd: ok
  bootcmd:1:6: warning: nothing sets x
  echo $x
       ^
  $ text 'echo $x' --shell old
  bootcmd: ok
  bootcmd:1:6: warning: nothing sets x
  echo $x
       ^

Warnings are faults.

  $ text 'echo a' --strict
  bootcmd: ok
  $ text 'echo $x' --strict
  bootcmd: ok
  bootcmd:1:6: warning: nothing sets x
  echo $x
       ^
  [1]
  $ text 'echo $x; x=1' --strict
  bootcmd: ok
  $ text 'ls || # a comment\n\nls' --strict
  bootcmd: ok
  bootcmd:1:4: warning: U-Boot's old shell ends the list with this line, and runs the next one
  ls || # a comment
     ^
  [1]
  $ text 'ls || # a comment\n\nls' --strict --shell profile
  bootcmd: ok
  $ text 'run boot_$?' --strict
  bootcmd: ok
  bootcmd:1:5: note: not followed, since the name holds a variable
  run boot_$?
      ^

a warning of a text that is run
  $ image env 'bootcmd=run a b' 'a=ls || # \nls' b=true
  $ hushcheck -c env.config --strict
  bootcmd: ok
  a: ok
  a:1:4: warning: U-Boot's old shell ends the list with this line, and runs the next one
  ls || # 
     ^
  b: ok
  [1]
  $ hushcheck --strict -c env.config b
  b: ok

a script
  $ hushcheck --script boot.cmd --text env.txt --strict
  boot.cmd: ok
  a: ok
  boot.cmd:1:16: warning: nothing sets y
  run a; echo $x $y
                 ^
  a:1:18: warning: nothing sets z
  setenv x 1; echo $z
                   ^
  [1]

A board whose script tests what its C code sets: bananapi_m64, as U-Boot 2023.01 has it.

  $ cat "$repository"/share/devices/* >devices.txt; cat "$repository/share/boards/bananapi_m64.given" devices.txt >board.txt
  $ printf '%s\n' 'mmc_boot=if mmc dev ${devnum}; then devtype=mmc; run scan_dev_for_boot_part; fi' \
  >     'scan_dev_for_boot_part=part list ${devtype} ${devnum} -bootable devplist; env exists devplist || setenv devplist 1' \
  >     'bootcmd_mmc0=devnum=0; run mmc_boot' 'bootcmd_mmc1=devnum=1; run mmc_boot' \
  >     'bootcmd_mmc_auto=if test ${mmc_bootdev} -eq 1; then run bootcmd_mmc1; run bootcmd_mmc0; elif test ${mmc_bootdev} -eq 0; then run bootcmd_mmc0; run bootcmd_mmc1; fi' \
  >     'boot_targets=mmc_auto' 'distro_bootcmd=for target in ${boot_targets}; do run bootcmd_${target}; done' \
  >     'bootcmd=run distro_bootcmd' >bananapi.txt
  $ hushcheck --text bananapi.txt -d devices.txt bootcmd bootcmd_mmc_auto | grep -A 2 nothing
  bootcmd_mmc_auto:1:9: warning: nothing sets mmc_bootdev
  if test ${mmc_bootdev} -eq 1; then run bootcmd_mmc1; run bootcmd_mmc0; elif test
          ^
  $ hushcheck --text bananapi.txt -d board.txt bootcmd bootcmd_mmc_auto | grep nothing
  [1]

  $ . "$TESTDIR/../setup"

Device lists.

a list that has each command
  $ printf 'load\nfinal bootz\nsub mmc dev\nknown setexpr\nsteady test\nsteady ping x=1\n' >one.list
  $ text 'if test -e mmc 0 a; then mmc rescan; fi; load x; setexpr a 1; ping; "boot"z; echo a' -d one.list
  bootcmd: ok

a command that is lacking
  $ printf 'ls\n' >one.list
  $ text 'echo a;  load mmc 0' -d one.list
  bootcmd: ok
  bootcmd:1:10: the device list lacks load
  echo a;  load mmc 0
           ^
  [1]

an empty list, and two commands on two lines
  $ printf '' >one.list
  $ text 'if load; then\n\t"a b" load\nfi' -d one.list
  bootcmd: ok
  bootcmd:1:4: the device list lacks load
  if load; then
     ^
  bootcmd:2:2: the device list lacks a\x20b
  \t"a b" load (esc)
  \t^ (esc)
  [1]

built-in commands
  $ printf '' >one.list
  $ text 'for i in a; do true; false; done; setenv a; echo; test' -d one.list
  bootcmd: ok

a command that holds a variable
  $ printf '' >one.list
  $ text '$load x; x${a}; $?' -d one.list
  bootcmd: ok
  bootcmd:1:1: note: which variables this sets is not known
  $load x; x${a}; $?
  ^
  bootcmd:1:10: note: which variables this sets is not known
  $load x; x${a}; $?
           ^
  bootcmd:1:17: note: which variables this sets is not known
  $load x; x${a}; $?
                  ^
  bootcmd:1:1: warning: nothing sets load
  $load x; x${a}; $?
  ^
  bootcmd:1:10: warning: nothing sets a
  $load x; x${a}; $?
           ^

a warning, a command and a note
  $ printf 'ls\n' >one.list
  $ text 'if ls; then if ls; then load;fi fi; run $a; load' -d one.list
  bootcmd: ok
  bootcmd:1:33: warning: U-Boot's old shell needs ; before this word
  if ls; then if ls; then load;fi fi; run $a; load
                                  ^
  bootcmd:1:25: the device list lacks load
  if ls; then if ls; then load;fi fi; run $a; load
                          ^
  bootcmd:1:41: note: not followed, since the name holds a variable
  if ls; then if ls; then load;fi fi; run $a; load
                                          ^
  bootcmd:1:45: the device list lacks load
  if ls; then if ls; then load;fi fi; run $a; load
                                              ^
  bootcmd:1:41: warning: nothing sets a
  if ls; then if ls; then load;fi fi; run $a; load
                                          ^
  [1]

a text that is run
  $ printf 'load\n' >load.list
  $ image run 'bootcmd=load; run a' a=ls b=boom
  $ hushcheck -c run.config -d load.list
  bootcmd: ok
  a: ok
  a:1:1: the device list lacks ls
  ls
  ^
  [1]

a text that runs first by the list: what it calls is looked up, what it sets counts, and one that is not set is none
  $ image first 'bootcmd=load $b' 'preboot=setenv b 1; ls'
  $ printf 'load\nbefore preboot\nbefore none\n' >first.list
  $ hushcheck -c first.config -d first.list
  preboot: ok
  preboot:1:13: the device list lacks ls
  setenv b 1; ls
              ^
  bootcmd: ok
  [1]
  $ printf 'load\nls\nbefore none\n' >none.list
  $ hushcheck -c first.config -d none.list
  bootcmd: ok
  bootcmd:1:6: warning: nothing sets b
  load $b
       ^

the alternative of a boot counter, after the names that are asked for; the counter is set
  $ image counter bootcmd=load 'altbootcmd=ls; echo $bootcount'
  $ printf 'load\ncount bootcount limit bootlimit else altbootcmd\n' >counter.list
  $ hushcheck -c counter.config -d counter.list
  bootcmd: ok
  altbootcmd: ok
  altbootcmd:1:1: the device list lacks ls
  ls; echo $bootcount
  ^
  [1]
  $ printf 'load\ncount bootcount limit bootlimit else recovery\n' >counter.list
  $ hushcheck -c counter.config -d counter.list
  bootcmd: ok

one that is no script, before another name and before all, and one that the list gives
  $ image broken bootcmd=load 'p=if load' q=load
  $ printf 'load\nbefore p\ngiven r=boot\nbefore r\n' >broken.list
  $ hushcheck -c broken.config -d broken.list q
  p:1:8: unexpected end of the text
  if load
         ^
  r: ok
  r:1:1: the device list lacks boot
  boot
  ^
  q: ok
  [1]
  $ hushcheck -c broken.config -d broken.list --all | grep -v '^[ ^bi]'
  p:1:8: unexpected end of the text
  r: ok
  r:1:1: the device list lacks boot
  q: ok

after a script
  $ printf 'load' >boot.cmd
  $ hushcheck --script boot.cmd -c first.config -d first.list
  boot.cmd: ok
  preboot: ok
  preboot:1:13: the device list lacks ls
  setenv b 1; ls
              ^
  [1]

the long form of the option
  $ hushcheck -c run.config --device-list=load.list b
  b: ok
  b:1:1: the device list lacks boom
  boom
  ^
  [1]

no device list
  $ hushcheck -c run.config
  bootcmd: ok
  a: ok

a device list with a bad line
  $ printf 'load\nfinal load x\n' >bad.list
  $ hushcheck -c run.config -d bad.list
  ! hushcheck: device list line 2: bad line
  [3]

a device list that names a built-in command
  $ printf '\n\nsetenv\n' >builtin.list
  $ hushcheck -c run.config -d builtin.list
  ! hushcheck: device list line 3: built-in command
  [3]

a device list with a byte order mark
  $ printf '\xef\xbb\xbfload\n' >marked.list
  $ hushcheck -c run.config -d marked.list
  ! hushcheck: device list line 1: byte order mark
  [3]

a device list that is missing
  $ hushcheck -c run.config -d missing
  ! hushcheck: cannot read missing
  [3]

a device list that is too long
  $ head -c 1048577 /dev/zero >long.list
  $ hushcheck -c run.config -d long.list
  ! hushcheck: long.list is too long
  [3]

an image that is refused, and a device list with a bad line
  $ hushcheck -c run.config --big-endian -d bad.list
  ! hushcheck: no image with a right CRC
  [3]

an output that is full, with a device list
  $ hushcheck -c run.config -d load.list >/dev/full
  ! hushcheck: output failed
  [3]

the list boot
  $ image share a=echo
  $ hushcheck -c share.config -d "$repository"/share/devices/boot a
  a: ok

the list network
  $ hushcheck -c share.config -d "$repository"/share/devices/network a
  a: ok

the list queries
  $ hushcheck -c share.config -d "$repository"/share/devices/queries a
  a: ok

the list storage
  $ hushcheck -c share.config -d "$repository"/share/devices/storage a
  a: ok

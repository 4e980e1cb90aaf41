  $ . "$TESTDIR/../setup"

Files of a device list, whose texts run after calls.

  $ mkdir card
  $ printf 'load\ncall source 1 : runs one.cmd\ncall source ** : runs boot.cmd\n' >list
  $ printf 'true\n' >card/one.cmd
  $ checked() { printf '%s\n' "$@" >env.txt; hushcheck --text env.txt -d list --files card; }

after the texts of variables, under its name
  $ printf 'load\n' >card/boot.cmd
  $ checked 'bootcmd=load; source 5; run b' b=true
  bootcmd: ok
  b: ok
  boot.cmd: ok

a fault on its third line
  $ printf 'load\ntrue\nif load; fi\n' >card/boot.cmd
  $ checked 'bootcmd=load; source 5; run b' b=true
  bootcmd: ok
  b: ok
  boot.cmd:3:10: unexpected token
  if load; fi
           ^
  [1]

a command that it lacks
  $ printf 'load && dhcp\n' >card/boot.cmd
  $ checked 'bootcmd=source 5; run b' b=true
  bootcmd: ok
  b: ok
  boot.cmd: ok
  boot.cmd:1:9: the device list lacks dhcp
  load && dhcp
          ^
  [1]

what only it sets, what it runs, and what nothing sets
  $ printf 'setenv d 1; run c b\n' >card/boot.cmd
  $ checked 'bootcmd=load $d; source 5; run b' b=true 'c=load $e'
  bootcmd: ok
  b: ok
  boot.cmd: ok
  c: ok
  c:1:6: warning: nothing sets e
  load $e
       ^

a file that is named and not called
  $ printf 'fi\n' >card/boot.cmd
  $ checked 'bootcmd=load 5'
  bootcmd: ok

each once, in the order in which they are found, and those that files call
  $ printf 'source 1; source 2; run b\n' >card/boot.cmd
  $ checked 'bootcmd=source a; source $b 1' 'b=source 1'
  bootcmd: ok
  boot.cmd: ok
  b: ok
  one.cmd: ok

a word that holds a variable is what is written out of it, with the variable as ${NAME}
  $ printf 'true\n' >card/boot.cmd
  $ checked 'bootcmd=source $bootcmd' ''
  bootcmd: ok
  boot.cmd: ok
  $ checked 'bootcmd=source 1$bootcmd' ''
  bootcmd: ok
  boot.cmd: ok

a script leads to it, and is no file of the list
  $ printf 'source 5\n' >it.cmd
  $ hushcheck --script it.cmd -d list --files card
  it.cmd: ok
  boot.cmd: ok

a script image, whose script is checked
  $ printf 'true\nload &\n' >it.cmd; script_image it.cmd >card/boot.cmd
  $ checked 'bootcmd=source 5'
  bootcmd: ok
  boot.cmd:2:6: a single &
  load &
       ^
  [1]

a warning in it, with --strict
  $ printf 'load $e\n' >card/boot.cmd
  $ hushcheck --text env.txt -d list --files card --strict
  bootcmd: ok
  boot.cmd: ok
  boot.cmd:1:6: warning: nothing sets e
  load $e
       ^
  [1]

a file that is not there, also if nothing calls it
  $ rm card/one.cmd
  $ checked 'bootcmd=true'
  ! hushcheck: cannot read card/one.cmd
  [3]

without a folder
  $ printf 'bootcmd=true\n' >env.txt
  $ hushcheck --text env.txt -d list
  ! hushcheck: device list line 2: bad line
  [3]

without a list
  $ hushcheck --text env.txt --files card
  ! error: the argument '--files <FOLDER>' needs '--device-list <FILE>'
  !
  ! For more information, try '--help'.
  [2]

a variable that an imported file sets is set, and one that it deletes is not
  $ printf 'a=1\nb\n' >card/uEnv.txt
  $ printf '%s\n' 'call fetch : imports uEnv.txt' 'call load : filesize=@size(uEnv.txt)' >list
  $ checked 'bootcmd=fetch; load; echo $a $b $filesize'
  bootcmd: ok
  bootcmd:1:22: warning: nothing sets b
  fetch; load; echo $a $b $filesize
                       ^

a variable in a pattern, which fits a word that is this variable
  $ printf 'load\ncall source ${addr} : runs boot.cmd\ncall source ** : always 0\n' >list; printf 'fi\n' >card/boot.cmd
  $ checked 'bootcmd=source 5; source $other; source 0$addr' addr=5 other=5
  bootcmd: ok
  $ checked 'bootcmd=source $addr' addr=5
  bootcmd: ok
  boot.cmd:1:1: unexpected token
  fi
  ^
  [1]

a call that may run one of two files leads to both
  $ printf 'load\ncall source ** : runs boot.cmd\nor call source ** : runs one.cmd\n' >list; printf 'true\n' >card/boot.cmd; printf 'fi\n' >card/one.cmd
  $ checked 'bootcmd=source 5'
  bootcmd: ok
  boot.cmd: ok
  one.cmd:1:1: unexpected token
  fi
  ^
  [1]

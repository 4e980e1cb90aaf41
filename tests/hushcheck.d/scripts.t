  $ . "$TESTDIR/../setup"

Scripts.

  $ printf 'load\n' >load.list; : >empty.txt
  $ printf 'bootcmd=ls\0\0' | new_image new little 02
a fault in boot.cmd
  $ printf 'run a\nload & b\n' >boot.cmd
  $ printf '\0\0\0\17\0\0\0\2\0\0\0\0run a\nload & b\n\0fi' | image_of_type 06 >boot.scr
  $ hushcheck --script boot.cmd
  boot.cmd:2:6: a single &
  load & b
       ^
  [1]

a fault in boot.scr
  $ hushcheck --script boot.scr
  boot.scr:2:6: a single &
  load & b
       ^
  [1]

a fault in ./boot.scr
  $ hushcheck --script ./boot.scr
  ./boot.scr:2:6: a single &
  load & b
       ^
  [1]

The text ends before its first NUL byte. What is after the data of an image does not count.

two.cmd, and no environment
  $ printf 'run a b\0fi' >two.cmd
  $ printf '\0\0\0\12\0\0\0\0run a b\0fi' | image_of_type 06 >two.scr
  $ printf 'fi' >>two.scr
  $ printf 'a=ls\nb=fi\nbootcmd=fi\ntwo.cmd=fi\n' >behind.txt
  $ hushcheck --script two.cmd
  two.cmd: ok
  a: not set
  b: not set

two.cmd, and what it runs
  $ hushcheck --script two.cmd --text behind.txt
  two.cmd: ok
  a: ok
  b:1:1: unexpected token
  fi
  ^
  [1]

two.cmd, and a device list
  $ hushcheck --script two.cmd --text behind.txt -d load.list
  two.cmd: ok
  a: ok
  a:1:1: the device list lacks ls
  ls
  ^
  b:1:1: unexpected token
  fi
  ^
  [1]

two.scr, and no environment
  $ hushcheck --script two.scr
  two.scr: ok
  a: not set
  b: not set

two.scr, and what it runs
  $ hushcheck --script two.scr --text behind.txt
  two.scr: ok
  a: ok
  b:1:1: unexpected token
  fi
  ^
  [1]

two.scr, and a device list
  $ hushcheck --script two.scr --text behind.txt -d load.list
  two.scr: ok
  a: ok
  a:1:1: the device list lacks ls
  ls
  ^
  b:1:1: unexpected token
  fi
  ^
  [1]

a script, and every variable
  $ printf 'b=true\nc=fi\n' >behind.txt
  $ hushcheck --script two.cmd --all --text behind.txt
  two.cmd: ok
  b: ok
  c:1:1: unexpected token
  fi
  ^
  a: not set
  [1]

a script, and every variable of none
  $ hushcheck --script two.cmd --all
  two.cmd: ok
  a: not set
  b: not set

a script of an image that is refused
  $ hushcheck --script two.cmd -i new
  ! hushcheck: no image with a right CRC
  [3]

an empty script
  $ hushcheck --script empty.txt
  empty.txt: ok

no script: the script image is cut off
  $ head -c 63 two.scr >bad.scr
  $ hushcheck --script bad.scr
  ! hushcheck: bad.scr: the script image is cut off
  [3]

no script: the script image is cut off
  $ head -c 81 two.scr >bad.scr
  $ hushcheck --script bad.scr
  ! hushcheck: bad.scr: the script image is cut off
  [3]

no script: the header's checksum is wrong
  $ { head -c 40 two.scr && printf x && tail -c +42 two.scr; } >bad.scr
  $ hushcheck --script bad.scr
  ! hushcheck: bad.scr: the header's checksum is wrong
  [3]

no script: the data's checksum is wrong
  $ { head -c 72 two.scr && printf x && tail -c +74 two.scr; } >bad.scr
  $ hushcheck --script bad.scr
  ! hushcheck: bad.scr: the data's checksum is wrong
  [3]

no script: the image is no script
  $ printf '\0\0\0\2\0\0\0\0ls' | image_of_type 02 >bad.scr
  $ hushcheck --script bad.scr
  ! hushcheck: bad.scr: the image is no script
  [3]

no script: the list of its texts does not end
  $ printf '\0\0\0\2ls' | image_of_type 06 >bad.scr
  $ hushcheck --script bad.scr
  ! hushcheck: bad.scr: the list of its texts does not end
  [3]

no script: it has no script
  $ printf '\0\0\0\0ls' | image_of_type 06 >bad.scr
  $ hushcheck --script bad.scr
  ! hushcheck: bad.scr: it has no script
  [3]

no script: its script does not fit the image
  $ printf '\0\0\0\3\0\0\0\0ls' | image_of_type 06 >bad.scr
  $ hushcheck --script bad.scr
  ! hushcheck: bad.scr: its script does not fit the image
  [3]

a script that is too long
  $ head -c 1048577 /dev/zero >long.cmd
  $ hushcheck --script long.cmd
  ! hushcheck: long.cmd is too long
  [3]

no script
  $ rm long.cmd
  $ hushcheck --script missing
  ! hushcheck: cannot read missing
  [3]

no device list, and no script
  $ hushcheck --script missing -d no.list
  ! hushcheck: cannot read no.list
  [3]

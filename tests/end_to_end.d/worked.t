  $ . "$TESTDIR/../setup"

rehearse: listings that are worked by hand, and what is refused.

  $ script boot 'bootcmd=load a || load b; echo $?'
  $ printf '# devices\nload\n' >devices
  $ script flow 'bootcmd=run load; bootm $addr || sleep 1; echo $?' 'load=load mmc; test -e mmc 0:1 /x' \
  >     'q=while load; do true; done'
  $ printf '\t# each kind of line\r\n\n  load addr=10 name=  \r\nfinal bootm\nsleep\nfinal sleep\nload addr=20\nfinal\n' >kinds
  $ head -c 1048576 /dev/zero | tr '\0' a >devices.long
  $ long=$(printf '%0999d' 0)
  $ size=8192

a loop over a device command
  $ echo load >list
  $ script worked 'bootcmd=while load; do true; done'
  $ ubtool rehearse -c worked.config -d list --devices 2 z
  run 00
  dev 0 load
  dev 0 load
  unset z
  cut devices
  run 01
  dev 0 load
  dev 1 load
  unset z
  end 0
  run 1
  dev 1 load
  unset z
  end 0
  done

a loop without an end
  $ script worked 'bootcmd=while true; do true; done'
  $ ubtool rehearse -c worked.config -d list --steps 5 z
  run .
  unset z
  cut steps
  done

loops over nothing
  $ script worked 'bootcmd=while for x in; do true; done; do for y in; do true; done; done'
  $ ubtool rehearse -c worked.config -d list --steps 4 z
  run .
  unset z
  cut steps
  done

a text that runs itself
  $ script worked 'bootcmd=run bootcmd'
  $ ubtool rehearse -c worked.config -d list --steps 3 z
  run .
  unset z
  cut steps
  done

an empty script
  $ script worked bootcmd=
  $ ubtool rehearse -c worked.config -d list --steps 0 z
  run .
  unset z
  end 0
  done

no device command allowed
  $ script worked bootcmd=load
  $ ubtool rehearse -c worked.config -d list --devices 0 z
  run .
  unset z
  cut devices
  done

a bound that is just used up
  $ script worked bootcmd=load
  $ ubtool rehearse -c worked.config -d list --devices 1 z
  run 0
  dev 0 load
  unset z
  end 0
  run 1
  dev 1 load
  unset z
  end 1
  done

a variable set on success
  $ script worked 'bootcmd=x=1; load && setenv a $x; echo "$a"'
  $ ubtool rehearse -c worked.config -d list a
  run 0
  dev 0 load
  text 1\n
  var a=1
  end 0
  run 1
  dev 1 load
  text \n
  unset a
  end 0
  done

exit inside run
  $ script worked 'bootcmd=run t; echo $?' 't=load; exit 3; load'
  $ ubtool rehearse -c worked.config -d list z
  run 0
  dev 0 load
  text 3\n
  unset z
  end 0
  run 1
  dev 1 load
  text 3\n
  unset z
  end 0
  done

words and quotes
  $ script worked 'bootcmd=echo $x "$x" '\'''\''' 'x=a  b'
  $ ubtool rehearse -c worked.config -d list z
  run .
  text a b a  b \n
  unset z
  end 0
  done

test with a variable that is not set
  $ script worked 'bootcmd=test -n "$x" -a $x = 1; echo $?'
  $ ubtool rehearse -c worked.config -d list z
  run .
  text 1\n
  unset z
  end 0
  done

test from the left
  $ script worked 'bootcmd=test a = a -o a = b -a a = b; echo $?'
  $ ubtool rehearse -c worked.config -d list z
  run .
  text 1\n
  unset z
  end 0
  done

numbers of test
  $ script worked 'bootcmd=test 0x10 -eq 16 -a 010 -eq 8 -a -3 -lt 2z; echo $?'
  $ ubtool rehearse -c worked.config -d list z
  run .
  text 0\n
  unset z
  end 0
  done

an unknown command
  $ script worked 'bootcmd=foo; load'
  $ ubtool rehearse -c worked.config -d list z
  run .
  unset z
  stop unknown foo
  done

a text that is none
  $ script worked 'bootcmd=if true; then'
  $ ubtool rehearse -c worked.config -d list z
  run .
  unset z
  stop syntax bootcmd
  done

one step of two
  $ script worked 'bootcmd=true; true'
  $ ubtool rehearse -c worked.config -d list --steps 1 z
  run .
  unset z
  cut steps
  done

two steps of two
  $ script worked 'bootcmd=true; true'
  $ ubtool rehearse -c worked.config -d list --steps 2 z
  run .
  unset z
  end 0
  done

test -e asks
  $ script worked 'bootcmd=if test -e mmc 0:1 /a; then echo y; elif load x; then echo l; else exit 7; fi'
  $ ubtool rehearse -c worked.config -d list z
  run 0
  dev 0 test -e mmc 0:1 /a
  text y\n
  unset z
  end 0
  run 10
  dev 1 test -e mmc 0:1 /a
  dev 0 load x
  text l\n
  unset z
  end 0
  run 11
  dev 1 test -e mmc 0:1 /a
  dev 1 load x
  unset z
  end 7
  done

run of two texts
  $ script worked 'bootcmd=run a b; echo $?' a=load 'b=echo b'
  $ ubtool rehearse -c worked.config -d list z
  run 0
  dev 0 load
  text b\n0\n
  unset z
  end 0
  run 1
  dev 1 load
  text 1\n
  unset z
  end 0
  done

words in word form
  $ script worked 'bootcmd=load '\''a b'\'' '\'''\'' \\'
  $ ubtool rehearse -c worked.config -d list z
  run 0
  dev 0 load a\x20b \e \\
  unset z
  end 0
  run 1
  dev 1 load a\x20b \e \\
  unset z
  end 1
  done

a value that doubles
  $ script worked 'bootcmd=setenv a 0123456789abcdef; while true; do setenv a $a$a; done'
  $ ubtool rehearse -c worked.config -d list z
  run .
  unset z
  stop size
  done

a shell variable that doubles
  $ script worked 'bootcmd=x=0123456789abcdef; while true; do x=$x$x; done'
  $ ubtool rehearse -c worked.config -d list z
  run .
  unset z
  stop size
  done

until
  $ script worked 'bootcmd=until load; do echo n; done'
  $ ubtool rehearse -c worked.config -d list --devices 2 z
  run 0
  dev 0 load
  unset z
  end 0
  run 10
  dev 1 load
  dev 0 load
  text n\n
  unset z
  end 0
  run 11
  dev 1 load
  dev 1 load
  text n\nn\n
  unset z
  cut devices
  done

sixty-four levels
  $ script worked 'bootcmd=if true; then if true; then if true; then if true; then if true; then if true; then if true; then if true; then if true; then if true; then if true; then if true; then if true; then if true; then if true; then if true; then if true; then if true; then if true; then if true; then if true; then if true; then if true; then if true; then if true; then if true; then if true; then if true; then if true; then if true; then if true; then if true; then if true; then if true; then if true; then if true; then if true; then if true; then if true; then if true; then if true; then if true; then if true; then if true; then if true; then if true; then if true; then if true; then if true; then if true; then if true; then if true; then if true; then if true; then if true; then if true; then if true; then if true; then if true; then if true; then if true; then if true; then if true; then if true; then echo x; fi; fi; fi; fi; fi; fi; fi; fi; fi; fi; fi; fi; fi; fi; fi; fi; fi; fi; fi; fi; fi; fi; fi; fi; fi; fi; fi; fi; fi; fi; fi; fi; fi; fi; fi; fi; fi; fi; fi; fi; fi; fi; fi; fi; fi; fi; fi; fi; fi; fi; fi; fi; fi; fi; fi; fi; fi; fi; fi; fi; fi; fi; fi; fi; '
  $ ubtool rehearse -c worked.config -d list --steps 100 z
  run .
  text x\n
  unset z
  end 0
  done

sixty-five levels
  $ script worked 'bootcmd=if true; then if true; then if true; then if true; then if true; then if true; then if true; then if true; then if true; then if true; then if true; then if true; then if true; then if true; then if true; then if true; then if true; then if true; then if true; then if true; then if true; then if true; then if true; then if true; then if true; then if true; then if true; then if true; then if true; then if true; then if true; then if true; then if true; then if true; then if true; then if true; then if true; then if true; then if true; then if true; then if true; then if true; then if true; then if true; then if true; then if true; then if true; then if true; then if true; then if true; then if true; then if true; then if true; then if true; then if true; then if true; then if true; then if true; then if true; then if true; then if true; then if true; then if true; then if true; then if true; then echo x; fi; fi; fi; fi; fi; fi; fi; fi; fi; fi; fi; fi; fi; fi; fi; fi; fi; fi; fi; fi; fi; fi; fi; fi; fi; fi; fi; fi; fi; fi; fi; fi; fi; fi; fi; fi; fi; fi; fi; fi; fi; fi; fi; fi; fi; fi; fi; fi; fi; fi; fi; fi; fi; fi; fi; fi; fi; fi; fi; fi; fi; fi; fi; fi; fi; '
  $ ubtool rehearse -c worked.config -d list --steps 100 z
  run .
  unset z
  stop syntax bootcmd
  done

names asked for twice
  $ script worked 'bootcmd=echo -n "$t"' $'t=a\n\\\x80'
  $ ubtool rehearse -c worked.config -d list t t
  run .
  text a\n\\\x80
  var t=a\n\\\x80
  var t=a\n\\\x80
  end 0
  done

a text that runs itself for long
  $ script worked 'bootcmd=run bootcmd'
  $ ubtool rehearse -c worked.config -d list --steps 100000 z
  run .
  unset z
  cut steps
  done

texts that run each other
  $ script worked 'bootcmd=run a' 'a=run b' 'b=run a'
  $ ubtool rehearse -c worked.config -d list --steps 100000 z
  run .
  unset z
  cut steps
  done

a million steps
  $ script worked 'bootcmd=while true; do true; done'
  $ ubtool rehearse -c worked.config -d list --steps 1000000 z
  run .
  unset z
  cut steps
  done

settings, and a boot
  $ printf 'load filesize=1000\nfinal bootm\n' >list
  $ script worked 'bootcmd=load && bootm; echo no'
  $ ubtool rehearse -c worked.config -d list filesize
  run 00
  dev 0 load
  dev 0 bootm
  var filesize=1000
  booted bootm
  run 01
  dev 0 load
  dev 1 bootm
  text no\n
  var filesize=1000
  end 0
  run 1
  dev 1 load
  text no\n
  unset filesize
  end 0
  done

a boot inside run
  $ echo 'final bootm' >list
  $ script worked 'bootcmd=run t; echo x' t=bootm
  $ ubtool rehearse -c worked.config -d list z
  run 0
  dev 0 bootm
  unset z
  booted bootm
  run 1
  dev 1 bootm
  text x\n
  unset z
  end 0
  done

a setting and a shell variable
  $ echo 'load v=e' >list
  $ script worked 'bootcmd=v=s; load; echo $v'
  $ ubtool rehearse -c worked.config -d list v
  run 0
  dev 0 load
  text e\n
  var v=e
  end 0
  run 1
  dev 1 load
  text s\n
  unset v
  end 0
  done

a call by its first word, which sets what its words name
  $ printf 'part x=1\nsub part list @last=1 @3=2\n' >list
  $ script worked 'bootcmd=part list mmc 0:1 v || part uuid mmc'
  $ ubtool rehearse -c worked.config -d list v 0:1 x
  run 0
  dev 0 part list mmc 0:1 v
  var v=1
  var 0:1=2
  unset x
  end 0
  run 10
  dev 1 part list mmc 0:1 v
  dev 0 part uuid mmc
  unset v
  unset 0:1
  var x=1
  end 0
  run 11
  dev 1 part list mmc 0:1 v
  dev 1 part uuid mmc
  unset v
  unset 0:1
  unset x
  end 1
  done

words that name no variable, and words that are not there
  $ script worked 'bootcmd=part list'
  $ ubtool rehearse -c worked.config -d list
  run 0
  dev 0 part list
  var bootcmd=part list
  var list=1
  end 0
  run 1
  dev 1 part list
  var bootcmd=part list
  end 1
  done

a word that can be no name
  $ script worked 'bootcmd=part list a -v'
  $ ubtool rehearse -c worked.config -d list
  run 0
  dev 0 part list a -v
  var bootcmd=part list a -v
  end 0
  run 1
  dev 1 part list a -v
  var bootcmd=part list a -v
  end 1
  done

a final call
  $ printf 'pxe\nfinal sub pxe boot\nload @1=x\nsub mmc dev\n' >list
  $ script worked 'bootcmd=pxe boot || pxe get'
  $ ubtool rehearse -c worked.config -d list z
  run 0
  dev 0 pxe boot
  unset z
  booted pxe
  run 10
  dev 1 pxe boot
  dev 0 pxe get
  unset z
  end 0
  run 11
  dev 1 pxe boot
  dev 1 pxe get
  unset z
  end 1
  done

an @ in a line of all calls
  $ script worked bootcmd=load
  $ ubtool rehearse -c worked.config -d list @1
  run 0
  dev 0 load
  var @1=x
  end 0
  run 1
  dev 1 load
  unset @1
  end 1
  done

a call that no line speaks of
  $ script worked 'bootcmd=mmc list'
  $ ubtool rehearse -c worked.config -d list z
  run .
  unset z
  stop unknown mmc
  done

a listing on a full output
  $ ubtool rehearse -c boot.config -d devices >/dev/full
  ! ubtool: output failed
  [1]

a device list with a word that is no setting
  $ printf 'load x\n' >devices.bad
  $ ubtool rehearse -c boot.config -d devices.bad
  ! ubtool: device list line 1: bad line
  [1]

a setting without a name
  $ printf '# a\nload =x\n' >devices.bad
  $ ubtool rehearse -c boot.config -d devices.bad
  ! ubtool: device list line 2: bad line
  [1]

a setting of an option
  $ printf 'load -a=1\n' >devices.bad
  $ ubtool rehearse -c boot.config -d devices.bad
  ! ubtool: device list line 1: bad line
  [1]

a device list with NUL
  $ printf 'lo\0ad\n' >devices.bad
  $ ubtool rehearse -c boot.config -d devices.bad
  ! ubtool: device list line 1: bad line
  [1]

a built-in command
  $ printf 'load\n\nfinal echo\n' >devices.bad
  $ ubtool rehearse -c boot.config -d devices.bad
  ! ubtool: device list line 3: built-in command
  [1]

a sub line without a word
  $ printf 'sub part\n' >devices.bad
  $ ubtool rehearse -c boot.config -d devices.bad
  ! ubtool: device list line 1: bad line
  [1]

a word of the call by no number
  $ printf 'sub part list @0=1\n' >devices.bad
  $ ubtool rehearse -c boot.config -d devices.bad
  ! ubtool: device list line 1: bad line
  [1]

a call of a built-in command
  $ printf 'sub echo x\n' >devices.bad
  $ ubtool rehearse -c boot.config -d devices.bad
  ! ubtool: device list line 1: built-in command
  [1]

steady before final
  $ printf 'steady final load\n' >devices.bad
  $ ubtool rehearse -c boot.config -d devices.bad
  ! ubtool: device list line 1: bad line
  [1]

a setting of test
  $ printf 'steady test a=1\n' >devices.bad
  $ ubtool rehearse -c boot.config -d devices.bad
  ! ubtool: device list line 1: built-in command
  [1]

a byte order mark
  $ printf '\357\273\277load\n' >devices.bad
  $ ubtool rehearse -c boot.config -d devices.bad
  ! ubtool: device list line 1: byte order mark
  [1]

two faulty lines
  $ printf 'test a=1\nload x\n' >devices.bad
  $ ubtool rehearse -c boot.config -d devices.bad
  ! ubtool: device list line 1: built-in command
  [1]

a device list that is too long
  $ printf a >>devices.long
  $ ubtool rehearse -c boot.config -d devices.long
  ! ubtool: devices.long is too long
  [1]

a device list that is missing
  $ ubtool rehearse -c boot.config -d missing
  ! ubtool: cannot read missing
  [1]

a variable that is not set
  $ ubtool rehearse -c boot.config -d devices -b q
  ! ubtool: no variable q
  [1]

a variable without a name
  $ ubtool rehearse -c boot.config -d devices -b ''
  ! ubtool: no variable \e
  [1]

the word 1
  $ ubtool rehearse -c boot.config -d devices --after=1
  ! ubtool: no run has the word 1
  [1]

the word .
  $ ubtool rehearse -c boot.config -d devices --after=.
  ! ubtool: no run has the word .
  [1]

the word x
  $ ubtool rehearse -c boot.config -d devices --after=x
  ! ubtool: no run has the word x
  [1]

the word 100
  $ ubtool rehearse -c boot.config -d devices --after=100
  ! ubtool: no run has the word 100
  [1]

the word 00
  $ ubtool rehearse -c boot.config -d devices --after=00
  ! ubtool: no run has the word 00
  [1]

the word -1
  $ ubtool rehearse -c boot.config -d devices --after=-1
  ! ubtool: no run has the word -1
  [1]

the word 1 alone
  $ ubtool rehearse -c boot.config -d devices --word=1
  ! ubtool: no run has the word 1
  [1]

the word . alone
  $ ubtool rehearse -c boot.config -d devices --word=.
  ! ubtool: no run has the word .
  [1]

the word x alone
  $ ubtool rehearse -c boot.config -d devices --word=x
  ! ubtool: no run has the word x
  [1]

the word 100 alone
  $ ubtool rehearse -c boot.config -d devices --word=100
  ! ubtool: no run has the word 100
  [1]

the word 012 alone
  $ ubtool rehearse -c boot.config -d devices --word=012
  ! ubtool: no run has the word 012
  [1]

the word 0111111111111111111111111111111111111 alone
  $ ubtool rehearse -c boot.config -d devices --word=0111111111111111111111111111111111111
  ! ubtool: no run has the word 0111111111111111111111111111111111111
  [1]

a word of more than 1,000 digits
  $ ubtool rehearse -c flow.config -d devices -b q --word 00
  ! ubtool: no run has the word 00
  [1]

the empty text for the word
  $ ubtool rehearse -c boot.config -d devices --word=
  ! ubtool: no run has the word \e
  [1]

a word that --devices cuts off
  $ ubtool rehearse -c boot.config -d devices --devices 1 --word 10
  ! ubtool: no run has the word 10
  [1]

a variable that is not set, and a word alone that is no run
  $ ubtool rehearse -c boot.config -d devices -b q --word x
  ! ubtool: no variable q
  [1]

the empty text for a word
  $ ubtool rehearse -c boot.config -d devices --after=
  ! ubtool: no run has the word \e
  [1]

a word with more failures than the listing has
  $ ubtool rehearse -c boot.config -d devices --failures 1 --after 11
  ! ubtool: no run has the word 11
  [1]

a variable that is not set, and a word with too many failures
  $ ubtool rehearse -c boot.config -d devices -b q --failures 0 --after 1
  ! ubtool: no variable q
  [1]

a word with a space
  $ ubtool rehearse -c boot.config -d devices --after '0 '
  ! ubtool: no run has the word 0\x20
  [1]

What is refused first: the configuration, the image, the device list, the variable, the word.

a rehearsal without its configuration
  $ printf 'echo\n' >devices.bad
  $ printf 'gone 0 9\n' >gone.config
  $ bytes '3b 06 98 45 61 3d 31 00 01' >e.wrong
  $ printf 'e.wrong 0 9\n' >wrong.config
  $ ubtool rehearse -c missing -d none
  ! ubtool: cannot read missing
  [1]

a rehearsal without an image
  $ ubtool rehearse -c gone.config -d none
  ! ubtool: cannot read gone
  [1]

a wrong image that is read before the device list
  $ ubtool rehearse -c wrong.config -d none
  ! ubtool: cannot read none
  [1]

a wrong image and a wrong device list
  $ ubtool rehearse -c wrong.config -d devices.bad -b q --after x
  ! ubtool: no image with a right CRC
  [1]

a little-endian image as a big-endian one
  $ ubtool rehearse -c boot.config --big-endian -d devices.bad
  ! ubtool: no image with a right CRC
  [1]

a wrong device list and a variable that is not set
  $ ubtool rehearse -c boot.config -d devices.bad -b q --after x
  ! ubtool: device list line 1: built-in command
  [1]

a variable that is not set and a word that is no run
  $ ubtool rehearse -c boot.config -d devices -b q --after x
  ! ubtool: no variable q
  [1]

a rehearsal without the option -d
  $ ubtool rehearse
  ! error: the following required arguments were not provided:
  !   --device-list <FILE>
  !
  ! Usage: ubtool rehearse --device-list <FILE> [NAME]...
  !
  ! For more information, try '--help'.
  [2]

too many devices for a listing
  $ ubtool rehearse -d devices --devices 33
  ! ubtool: --devices above 32 needs --word, or --failures of at most 3
  [2]

too many devices for a listing with more than three failures
  $ ubtool rehearse -d devices --devices 33 --failures 4
  ! ubtool: --devices above 32 needs --word, or --failures of at most 3
  [2]

too many failures
  $ ubtool rehearse -d devices --failures 33
  ! error: invalid value '33' for '--failures <N>': 33 is not in 0..=32
  !
  ! For more information, try '--help'.
  [2]

too many devices
  $ ubtool rehearse -d devices --devices 1001
  ! error: invalid value '1001' for '--devices <N>': 1001 is not in 0..=1000
  !
  ! For more information, try '--help'.
  [2]

a word and --after 0
  $ ubtool rehearse -d devices --word 0 --after 0
  ! ubtool: --word takes no --failures, no --after and no --limit
  [2]

a word and --limit 1
  $ ubtool rehearse -d devices --word 0 --limit 1
  ! ubtool: --word takes no --failures, no --after and no --limit
  [2]

a word and --limit 1 --after 0
  $ ubtool rehearse -d devices --word 0 --limit 1 --after 0
  ! ubtool: --word takes no --failures, no --after and no --limit
  [2]

a word and --failures 1
  $ ubtool rehearse -d devices --word 0 --failures 1
  ! ubtool: --word takes no --failures, no --after and no --limit
  [2]

a word and --failures 0 --after 0
  $ ubtool rehearse -d devices --word 0 --failures 0 --after 0
  ! ubtool: --word takes no --failures, no --after and no --limit
  [2]

no record
  $ ubtool rehearse -d devices --limit 0
  ! error: invalid value '0' for '--limit <N>': 0 is not in 1..=4294967295
  !
  ! For more information, try '--help'.
  [2]

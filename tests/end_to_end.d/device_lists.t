  $ . "$TESTDIR/../setup"

The device lists that come with the program.

the device list boot
  $ script image bootcmd=bootm
  $ ubtool rehearse -c image.config -d "$repository/share/devices/boot" x | grep -c '^dev [01] bootm$'
  2

the device list network
  $ script image bootcmd=tftpboot
  $ ubtool rehearse -c image.config -d "$repository/share/devices/network" x | grep -c '^dev [01] tftpboot$'
  2

the device list queries
  $ script image bootcmd=part
  $ ubtool rehearse -c image.config -d "$repository/share/devices/queries" x | grep -c '^dev [01] part$'
  2

the device list storage
  $ script image bootcmd=load
  $ ubtool rehearse -c image.config -d "$repository/share/devices/storage" x | grep -c '^dev [01] load$'
  2

all device lists as one
  $ cat "$repository"/share/devices/* >lists
  $ ubtool rehearse -c image.config -d lists x >wanted

a folder of device lists
  $ ubtool rehearse -c image.config -d "$repository/share/devices" x | cmp wanted

a list from two files of a folder
  $ mkdir folder folder/sub
  $ printf probe >folder/b
  $ printf 'load\n# note\n' >folder/a
  $ printf 'if\n' >folder/.hidden
  $ ln -s nothing folder/dangling
  $ script image 'bootcmd=load; probe'
  $ ubtool rehearse -c image.config -d folder --failures 0 x
  run 00
  dev 0 load
  dev 0 probe
  unset x
  end 0
  done

a line of a folder of lists
  $ printf 'x =1\n' >folder/c
  $ ubtool rehearse -c image.config -d folder/
  ! ubtool: device list line 4: bad line
  [1]

a folder of lists that is too long
  $ rm folder/c
  $ head -c 1048576 /dev/zero | tr '\0' '#' >folder/c
  $ ubtool rehearse -c image.config -d folder
  ! ubtool: folder is too long
  [1]

an empty folder of lists
  $ rm -r folder/*
  $ ubtool rehearse -c image.config -d folder x
  run .
  unset x
  stop unknown load
  done

Commands that the list has computed, and those whose words cannot be.

computed commands
  $ script image 'bootcmd=env exists n || load; setexpr n 9 + 9; itest $n == 12 && echo $n'
  $ printf '%s\n' load 'known env' 'known itest' 'known setexpr' >lists
  $ ubtool rehearse -c image.config -d lists n
  run 0
  dev 0 load
  text 12\n
  var n=12
  end 0
  run 1
  dev 1 load
  text 12\n
  var n=12
  end 0
  done

the same commands, asked
  $ script image 'bootcmd=env exists n && itest 1 == 2'
  $ printf '%s\n' env itest >lists
  $ ubtool rehearse -c image.config -d lists n
  run 00
  dev 0 env exists n
  dev 0 itest 1 == 2
  unset n
  end 0
  run 01
  dev 0 env exists n
  dev 1 itest 1 == 2
  unset n
  end 1
  run 1
  dev 1 env exists n
  unset n
  end 1
  done

words that cannot be computed
  $ script image 'bootcmd=env default -a || itest *1000 == 0'
  $ printf '%s\n' 'known env' env 'known itest' >lists
  $ ubtool rehearse -c image.config -d lists n
  run 0
  dev 0 env default -a
  unset n
  end 0
  run 1
  dev 1 env default -a
  unset n
  stop unknown itest
  done

a shell variable is not of the environment
  $ script image 'bootcmd=n=1; env exists n; exit $?'
  $ printf '%s\n' 'known env' >lists
  $ ubtool rehearse -c image.config -d lists n
  run .
  unset n
  end 1
  done

a command that may not be computed
  $ script image bootcmd=load
  $ printf '%s\n' 'known load' >lists
  $ ubtool rehearse -c image.config -d lists n
  ! ubtool: device list line 1: bad line
  [1]

a byte order mark
  $ script image bootcmd=load
  $ printf '%s\n' $'\xef\xbb\xbfload' >lists
  $ ubtool rehearse -c image.config -d lists n
  ! ubtool: device list line 1: byte order mark
  [1]

a mark in a later line is a name
  $ script image bootcmd=load
  $ printf '%s\n' load $'\xef\xbb\xbfload' >lists
  $ ubtool rehearse -c image.config -d lists n
  run 0
  dev 0 load
  unset n
  end 0
  run 1
  dev 1 load
  unset n
  end 1
  done

a counter that is not set
  $ script image 'bootcmd=setexpr n $n + 1 || load'
  $ printf '%s\n' load 'known setexpr' setexpr >lists
  $ ubtool rehearse -c image.config -d lists n
  run 0
  dev 0 load
  unset n
  end 0
  run 1
  dev 1 load
  unset n
  end 1
  done

zeros in front of the number of a word
  $ script image 'bootcmd=part list n'
  $ printf '%s\n' 'sub part list @02=x' >lists
  $ ubtool rehearse -c image.config -d lists n
  run 0
  dev 0 part list n
  var n=x
  end 0
  run 1
  dev 1 part list n
  unset n
  end 1
  done

a steady command asked again
  $ script image 'bootcmd=load a || load a; setenv n 2; load a'
  $ printf '%s\n' 'steady load n=1' >lists
  $ ubtool rehearse -c image.config -d lists n
  run 0
  dev 0 load a
  dev 0 load a
  var n=1
  end 0
  run 1
  dev 1 load a
  dev 1 load a
  dev 1 load a
  var n=2
  end 1
  done

a file that is there stays there
  $ script image 'bootcmd=test -e mmc 0 f && test -e mmc 0 f; test -e mmc 0 g'
  $ printf '%s\n' 'steady test' >lists
  $ ubtool rehearse -c image.config -d lists n
  run 00
  dev 0 test -e mmc 0 f
  dev 0 test -e mmc 0 f
  dev 0 test -e mmc 0 g
  unset n
  end 0
  run 01
  dev 0 test -e mmc 0 f
  dev 0 test -e mmc 0 f
  dev 1 test -e mmc 0 g
  unset n
  end 1
  run 10
  dev 1 test -e mmc 0 f
  dev 0 test -e mmc 0 g
  unset n
  end 0
  run 11
  dev 1 test -e mmc 0 f
  dev 1 test -e mmc 0 g
  unset n
  end 1
  done

the endings of a steady command
  $ script image 'bootcmd=load a; load a'
  $ echo 'steady load' >lists
  $ ubtool endings -c image.config -d lists
  ends 1 first 0 fewest 0 0 end 0
  ends 1 first 1 fewest 1 1 end 1
  fails load a
  all 2 states 1

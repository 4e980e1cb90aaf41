  $ . "$TESTDIR/../setup"

causes.

  $ script boot 'bootcmd=load a || load b; echo $?'
  $ printf '# devices\nload\n' >devices
  $ cp boot before
  $ tail -c 508 boot | new_image big big
  $ script flow 'bootcmd=run load; bootm $addr || sleep 1; echo $?' 'load=load mmc; test -e mmc 0:1 /x' \
  >     'q=while load; do true; done'
  $ printf '\t# each kind of line\r\n\n  load addr=10 name=  \r\nfinal bootm\nsleep\nfinal sleep\nload addr=20\nfinal\n' >kinds
  $ : >devices.none
  $ printf 'echo\n' >devices.bad
  $ printf 'gone 0 9\n' >gone.config
  $ bytes '3b 06 98 45 61 3d 31 00 01' >e.wrong
  $ printf 'e.wrong 0 9\n' >wrong.config

one cause
  $ ubtool causes -c boot.config -d devices
  cause 0 end 0

the causes of a big-endian image
  $ ubtool causes -c big.config --big-endian -d devices
  cause 0 end 0

causes in the order of their runs
  $ ubtool causes -c flow.config -d kinds
  cause 0 booted bootm
  cause 1 booted sleep
  fails bootm 20
  cause 2 end 0
  fails bootm 20
  fails sleep 1
  cause 2 booted sleep
  fails load mmc
  fails bootm

causes of at most two failures
  $ ubtool causes -c flow.config -d kinds --failures 2
  cause 0 booted bootm
  cause 1 booted sleep
  fails bootm 20
  cause 2 end 0
  fails bootm 20
  fails sleep 1
  cause 2 booted sleep
  fails load mmc
  fails bootm

causes of at most three
  $ ubtool causes -c flow.config -d kinds --failures 3
  cause 0 booted bootm
  cause 1 booted sleep
  fails bootm 20
  cause 2 end 0
  fails bootm 20
  fails sleep 1
  cause 2 booted sleep
  fails load mmc
  fails bootm
  cause 3 end 0
  fails load mmc
  fails bootm
  fails sleep 1

causes of at most one
  $ ubtool causes -c flow.config -d kinds --failures 1
  cause 0 booted bootm
  cause 1 booted sleep
  fails bootm 20

the run in which nothing fails
  $ ubtool causes -c flow.config -d kinds --failures 0
  cause 0 booted bootm

causes of runs that meet the device bound
  $ ubtool causes -c flow.config -d devices -b q --devices 2
  cause 0 cut devices
  cause 1 end 0
  fails load

the cause of a run that meets the step bound
  $ ubtool causes -c flow.config -d devices -b q --steps 0
  cause 0 cut steps

the cause of a run without device commands
  $ ubtool causes -c flow.config -d devices.none -b load
  cause 0 stop unknown load

two causes of an ending
  $ script and 'bootcmd=load a && load b' 'again=load; load; exit $?' 'or=load a || load b'
  $ ubtool causes -c and.config -d devices
  cause 0 end 0
  cause 1 end 1
  fails load b
  cause 1 end 1
  fails load a

a command that fails twice
  $ ubtool causes -c and.config -d devices -b again
  cause 0 end 0
  cause 1 end 1
  fails load

two commands that have to fail
  $ ubtool causes -c and.config -d devices -b or
  cause 0 end 0
  cause 2 end 1
  fails load a
  fails load b

one command of the two
  $ ubtool causes -c and.config -d devices -b or --failures 1
  cause 0 end 0

a steady command that fails
  $ printf 'steady load\n' >steady.load
  $ ubtool causes -c and.config -d steady.load -b again --failures 1
  cause 0 end 0
  cause 1 end 1
  fails load

causes of two ways to load
  $ script disk 'disk=load mmc 0:1 1000 /kernel && bootm 1000' 'net=dhcp && tftp 1000 kernel && bootm 1000' 'bootcmd=if test -e mmc 0:1 /kernel; then run disk; else setenv bootdelay 9; run net; fi; echo no boot: $?'
  $ printf 'load\ndhcp\ntftp filesize=4a0000\nfinal bootm\n' >board.list
  $ ubtool causes -c disk.config -d board.list
  cause 0 booted bootm
  cause 1 end 0
  fails bootm 1000
  cause 1 end 0
  fails load mmc 0:1 1000 /kernel
  cause 2 end 0
  fails test -e mmc 0:1 /kernel
  fails tftp 1000 kernel
  cause 2 end 0
  fails test -e mmc 0:1 /kernel
  fails dhcp

a check of two ways to load, for any one failure
  $ ubtool causes -i disk -d board.list --failures 1 --check
  cause 1 end 0
  fails bootm 1000
  cause 1 end 0
  fails load mmc 0:1 1000 /kernel
  [1]

causes on a full output
  $ ubtool causes -c boot.config -d devices >/dev/full
  ! ubtool: output failed
  [1]

A check: what boots is left out, and the status says whether anything is left.

a check that finds something
  $ ubtool causes -c flow.config -d kinds --check
  cause 2 end 0
  fails bootm 20
  fails sleep 1
  [1]

a check of fewer failures
  $ ubtool causes -c flow.config -d kinds --failures 1 --check

a check of a script that does not boot
  $ ubtool causes -c boot.config -d devices --check
  cause 0 end 0
  [1]

a check of runs that meet a bound
  $ ubtool causes -c flow.config -d kinds --steps 0 --check
  cause 0 cut steps
  [1]

a check on a full output
  $ ubtool causes -c boot.config -d devices --check >/dev/full
  ! ubtool: output failed
  [1]

a check that has nothing to write on a full output
  $ ubtool causes -c flow.config -d kinds --failures 1 --check >/dev/full

an image whose causes were told
  $ cmp boot before
What is refused first: the configuration, the image, the device list, the variable.

causes without their configuration
  $ ubtool causes -c missing -d none
  ! ubtool: cannot read missing
  [1]

causes without an image
  $ ubtool causes -c gone.config -d none
  ! ubtool: cannot read gone
  [1]

causes of a wrong image, without a device list
  $ ubtool causes -c wrong.config -d none
  ! ubtool: cannot read none
  [1]

causes of a wrong image
  $ ubtool causes -c wrong.config -d devices.bad -b q
  ! ubtool: no image with a right CRC
  [1]

causes by a wrong device list
  $ ubtool causes -c boot.config -d devices.bad -b q
  ! ubtool: device list line 1: built-in command
  [1]

causes of a variable that is not set
  $ ubtool causes -c boot.config -d devices -b q
  ! ubtool: no variable q
  [1]

a check of a variable that is not set
  $ ubtool causes -c boot.config -d devices -b q --check
  ! ubtool: no variable q
  [1]

causes without the option -d
  $ ubtool causes
  ! error: the following required arguments were not provided:
  !   --device-list <FILE>
  !
  ! Usage: ubtool causes --device-list <FILE>
  !
  ! For more information, try '--help'.
  [2]

too many devices for the causes
  $ ubtool causes -d devices --devices 1001
  ! error: invalid value '1001' for '--devices <N>': 1001 is not in 0..=1000
  !
  ! For more information, try '--help'.
  [2]

too many steps for the causes
  $ ubtool causes -d devices --steps 1000001
  ! error: invalid value '1000001' for '--steps <N>': 1000001 is not in 0..=1000000
  !
  ! For more information, try '--help'.
  [2]

too many failures for the causes
  $ ubtool causes -d devices --failures 4
  ! error: invalid value '4' for '--failures <N>': 4 is not in 0..=3
  !
  ! For more information, try '--help'.
  [2]

two checks
  $ ubtool causes -d devices --check --check
  ! error: the argument '--check' cannot be used multiple times
  !
  ! Usage: ubtool causes [OPTIONS] --device-list <FILE>
  !
  ! For more information, try '--help'.
  [2]

causes of a NAME
  $ ubtool causes -d devices bootargs
  ! error: unexpected argument 'bootargs' found
  !
  ! Usage: ubtool causes [OPTIONS] --device-list <FILE>
  !
  ! For more information, try '--help'.
  [2]

--states for the causes
  $ ubtool causes -d devices --states 1
  ! error: unexpected argument '--states' found
  !
  !   tip: a similar argument exists: '--steps'
  !
  ! Usage: ubtool causes --device-list <FILE> --steps <N>
  !
  ! For more information, try '--help'.
  [2]

--word for the causes
  $ ubtool causes -d devices --word
  ! error: unexpected argument '--word' found
  !
  ! Usage: ubtool causes --device-list <FILE>
  !
  ! For more information, try '--help'.
  [2]

--after for the causes
  $ ubtool causes -d devices --after
  ! error: unexpected argument '--after' found
  !
  ! Usage: ubtool causes --device-list <FILE>
  !
  ! For more information, try '--help'.
  [2]

--limit for the causes
  $ ubtool causes -d devices --limit
  ! error: unexpected argument '--limit' found
  !
  ! Usage: ubtool causes --device-list <FILE>
  !
  ! For more information, try '--help'.
  [2]

--flow for the causes
  $ ubtool causes -d devices --flow
  ! error: unexpected argument '--flow' found
  !
  ! Usage: ubtool causes --device-list <FILE>
  !
  ! For more information, try '--help'.
  [2]

a check of endings
  $ ubtool endings -d devices --check
  ! error: unexpected argument '--check' found
  !
  !   tip: to pass '--check' as a value, use '-- --check'
  !
  ! Usage: ubtool endings --device-list <FILE> [NAME]...
  !
  ! For more information, try '--help'.
  [2]

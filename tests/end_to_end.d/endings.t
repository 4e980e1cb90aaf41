  $ . "$TESTDIR/../setup"

endings.

  $ script boot 'bootcmd=load a || load b; echo $?'
  $ printf '# devices\nload\n' >devices
  $ cp boot before
  $ tail -c 508 boot | new_image big big
  $ script flow 'bootcmd=run load; bootm $addr || sleep 1; echo $?' 'load=load mmc; test -e mmc 0:1 /x' \
  >     'q=while load; do true; done'
  $ printf '\t# each kind of line\r\n\n  load addr=10 name=  \r\nfinal bootm\nsleep\nfinal sleep\nload addr=20\nfinal\n' >kinds
  $ printf 'echo\n' >devices.bad
  $ printf 'gone 0 9\n' >gone.config
  $ bytes '3b 06 98 45 61 3d 31 00 01' >e.wrong
  $ printf 'e.wrong 0 9\n' >wrong.config

one ending
  $ ubtool endings -c boot.config -d devices
  ends 3 first 0 fewest 0 0 end 0
  all 3 states 2

the endings of a big-endian image
  $ ubtool endings -c big.config --big-endian -d devices
  ends 3 first 0 fewest 0 0 end 0
  all 3 states 2

endings in the order of their first runs
  $ ubtool endings -c flow.config -d kinds
  ends 4 first 000 fewest 0 000 booted bootm
  ends 4 first 0010 fewest 1 0010 booted sleep
  fails bootm 20
  ends 4 first 0011 fewest 2 0011 end 0
  fails bootm 20
  fails sleep 1
  all 12 states 6

endings of runs that meet the device bound
  $ ubtool endings -c flow.config -d devices -b q --devices 2
  ends 1 first 00 fewest 0 00 cut devices
  ends 2 first 01 fewest 1 01 end 0
  fails load
  all 3 states 2

the ending of a run that meets the step bound
  $ ubtool endings -c flow.config -d devices -b q --steps 0
  ends 1 first . fewest 0 . cut steps
  all 1 states 0

a variable that is not set has no endings
  $ ubtool endings -c flow.config -d devices -b bootm
  ! ubtool: no variable bootm
  [1]

as many states as are allowed
  $ ubtool endings -c flow.config -d devices -b load --states 2
  ends 2 first 00 fewest 0 00 end 0
  ends 2 first 01 fewest 1 01 end 1
  fails test -e mmc 0:1 /x
  all 4 states 2

one state more than allowed
  $ ubtool endings -c flow.config -d devices -b load --states 1
  ! ubtool: more states than allowed
  [1]

as many steps in all as are allowed
  $ ubtool endings -c flow.config -d devices -b load --work 3
  ends 2 first 00 fewest 0 00 end 0
  ends 2 first 01 fewest 1 01 end 1
  fails test -e mmc 0:1 /x
  all 4 states 2

one step more than allowed
  $ ubtool endings -c flow.config -d devices -b load --work 2
  ! ubtool: more steps than allowed (states: 2)
  [1]

one step is more than none
  $ ubtool endings -c flow.config -d devices -b load --work 0
  ! ubtool: more steps than allowed (states: 0)
  [1]

more states than allowed, before more steps than allowed are begun
  $ ubtool endings -c flow.config -d devices -b load --states 0 --work 1
  ! ubtool: more states than allowed
  [1]

a flow takes the same steps
  $ ubtool endings -c flow.config -d devices -b load --flow --work 2
  ! ubtool: more steps than allowed (states: 2)
  [1]

a loop without an end, by the steps in all that a call may begin, and by the default
  $ script loop 'bootcmd=load; while true; do true; done'
  $ ubtool endings -c loop.config -d devices --work 100000
  ! ubtool: more steps than allowed (states: 1)
  [1]
  $ ubtool endings -c loop.config -d devices
  ends 2 first 0 fewest 0 0 cut steps
  all 2 states 1

as much memory as the states count
  $ ubtool endings -c flow.config -d devices -b load --memory 1
  ends 2 first 00 fewest 0 00 end 0
  ends 2 first 01 fewest 1 01 end 1
  fails test -e mmc 0:1 /x
  all 4 states 2

one state counts more than nothing
  $ ubtool endings -c flow.config -d devices -b load --memory 0
  ! ubtool: more memory than allowed (states: 2)
  [1]

more memory than allowed, before more steps than allowed are begun
  $ ubtool endings -c flow.config -d devices -b load --memory 0 --work 2
  ! ubtool: more memory than allowed (states: 2)
  [1]

more states than allowed, before one is kept
  $ ubtool endings -c flow.config -d devices -b load --states 1 --memory 0
  ! ubtool: more states than allowed
  [1]

a flow takes the same memory
  $ ubtool endings -c flow.config -d devices -b load --flow --memory 0
  ! ubtool: more memory than allowed (states: 2)
  [1]

no device command, and no state
  $ : >devices.none
  $ ubtool endings -c flow.config -d devices.none -b load --states 0 --memory 0
  ends 1 first . fewest 0 . stop unknown load
  all 1 states 0

endings on a full output
  $ ubtool endings -c boot.config -d devices >/dev/full
  ! ubtool: output failed
  [1]

an image whose endings were counted
  $ cmp boot before
Runs that leave other values of the variables of the call are told apart.

the values that are left
  $ ubtool endings -c flow.config -d kinds addr z
  ends 2 first 000 fewest 0 000 booted bootm
  var addr=20
  unset z
  ends 2 first 0010 fewest 1 0010 booted sleep
  var addr=20
  unset z
  fails bootm 20
  ends 2 first 0011 fewest 2 0011 end 0
  var addr=20
  unset z
  fails bootm 20
  fails sleep 1
  ends 2 first 100 fewest 1 100 booted bootm
  unset addr
  unset z
  fails load mmc
  ends 2 first 1010 fewest 2 1010 booted sleep
  unset addr
  unset z
  fails load mmc
  fails bootm
  ends 2 first 1011 fewest 3 1011 end 0
  unset addr
  unset z
  fails load mmc
  fails bootm
  fails sleep 1
  all 12 states 7

another value
  $ script values 'bootcmd=load a && setenv v "x  y"; load b; true' 'two=if load a; then setenv v 1; else setenv v; fi; true' v=0
  $ ubtool endings -c values.config -d devices v
  ends 2 first 00 fewest 0 00 end 0
  var v=x  y
  ends 2 first 10 fewest 1 10 end 0
  var v=0
  fails load a
  all 4 states 3

one ending, in which nothing has to fail
  $ ubtool endings -c values.config -d devices
  ends 4 first 00 fewest 0 00 end 0
  all 4 states 2

a value that is no value
  $ ubtool endings -c values.config -d devices -b two v v
  ends 1 first 0 fewest 0 0 end 0
  var v=1
  var v=1
  ends 1 first 1 fewest 1 1 end 0
  unset v
  unset v
  fails load a
  all 2 states 1

a flow has no values
  $ ubtool endings -c values.config -d devices -b two --flow v
  1 ask load a success 2 failure 2
  2 ends end 0

values on a full output
  $ ubtool endings -c values.config -d devices v >/dev/full
  ! ubtool: output failed
  [1]

The flow: each state once, each way to end once, and lines that lead on.

a flow
  $ ubtool endings -c boot.config -d devices --flow
  1 ask load a success 3 failure 2
  2 ask load b success 3 failure 3
  3 ends end 0

the flow of a run without device commands
  $ ubtool endings -c flow.config -d devices.none -b load --flow --states 0
  1 ends stop unknown load

the flow of one state more than allowed
  $ ubtool endings -c boot.config -d devices --flow --states 1
  ! ubtool: more states than allowed
  [1]

a flow on a full output
  $ ubtool endings -c boot.config -d devices --flow >/dev/full
  ! ubtool: output failed
  [1]

What is refused first: the configuration, the image, the device list, the variable, the states.

endings without their configuration
  $ ubtool endings -c missing -d none
  ! ubtool: cannot read missing
  [1]

endings without an image
  $ ubtool endings -c gone.config -d none
  ! ubtool: cannot read gone
  [1]

endings of a wrong image, without a device list
  $ ubtool endings -c wrong.config -d none
  ! ubtool: cannot read none
  [1]

endings of a wrong image
  $ ubtool endings -c wrong.config -d devices.bad -b q
  ! ubtool: no image with a right CRC
  [1]

endings by a wrong device list
  $ ubtool endings -c boot.config -d devices.bad -b q
  ! ubtool: device list line 1: built-in command
  [1]

endings of a variable that is not set
  $ ubtool endings -c boot.config -d devices -b q --states 0
  ! ubtool: no variable q
  [1]

endings without the option -d
  $ ubtool endings
  ! error: the following required arguments were not provided:
  !   --device-list <FILE>
  !
  ! Usage: ubtool endings --device-list <FILE> [NAME]...
  !
  ! For more information, try '--help'.
  [2]

too many devices for the endings
  $ ubtool endings -d devices --devices 1001
  ! error: invalid value '1001' for '--devices <N>': 1001 is not in 0..=1000
  !
  ! For more information, try '--help'.
  [2]

too many steps for the endings
  $ ubtool endings -d devices --steps 1000001
  ! error: invalid value '1000001' for '--steps <N>': 1000001 is not in 0..=1000000
  !
  ! For more information, try '--help'.
  [2]

two flows
  $ ubtool endings -d devices --flow --flow
  ! error: the argument '--flow' cannot be used multiple times
  !
  ! Usage: ubtool endings [OPTIONS] --device-list <FILE> [NAME]...
  !
  ! For more information, try '--help'.
  [2]

a limit for the endings
  $ ubtool endings -d devices --limit 1
  ! error: unexpected argument '--limit' found
  !
  !   tip: to pass '--limit' as a value, use '-- --limit'
  !
  ! Usage: ubtool endings --device-list <FILE> [NAME]...
  !
  ! For more information, try '--help'.
  [2]

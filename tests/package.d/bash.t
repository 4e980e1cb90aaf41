  $ . "$TESTDIR/../setup"
  $ . "$repository/tests/package.d/setup"

The completions for bash.

  $ needs bash

subcommands
  $ by_bash 'ubtool r'
  rehearse
  $ by_bash 'ubtool set'
  setenv
  $ by_bash 'ubtool help set'
  setenv

subcommands, of nothing
  $ by_bash 'ubtool ' | grep -v '^-'
  boots
  causes
  endings
  help
  image
  inspect
  printenv
  rehearse
  setenv
  version
  $ by_bash 'ubtool help ' | grep -v '^-'
  boots
  causes
  endings
  image
  inspect
  printenv
  rehearse
  setenv

ubtool printenv: its options, as its help has them, and a configuration
  $ by_bash 'ubtool printenv -' | cmp - <(options ubtool printenv)
  $ by_bash 'ubtool printenv -c env.c'
  env.config
  $ by_bash 'ubtool printenv --config env.c'
  env.config
  $ by_bash 'ubtool printenv --config=env.c'
  env.config

ubtool setenv: its options, as its help has them, and a configuration
  $ by_bash 'ubtool setenv -' | cmp - <(options ubtool setenv)
  $ by_bash 'ubtool setenv -c env.c'
  env.config
  $ by_bash 'ubtool setenv --config env.c'
  env.config
  $ by_bash 'ubtool setenv --config=env.c'
  env.config

ubtool rehearse: its options, as its help has them, and a configuration
  $ by_bash 'ubtool rehearse -' | cmp - <(options ubtool rehearse)
  $ by_bash 'ubtool rehearse -c env.c'
  env.config
  $ by_bash 'ubtool rehearse --config env.c'
  env.config
  $ by_bash 'ubtool rehearse --config=env.c'
  env.config

ubtool boots: its options, as its help has them
  $ by_bash 'ubtool boots -' | cmp - <(options ubtool boots)

ubtool endings: its options, as its help has them, and a configuration
  $ by_bash 'ubtool endings -' | cmp - <(options ubtool endings)
  $ by_bash 'ubtool endings -c env.c'
  env.config
  $ by_bash 'ubtool endings --config env.c'
  env.config
  $ by_bash 'ubtool endings --config=env.c'
  env.config

ubtool causes: its options, as its help has them, and a configuration
  $ by_bash 'ubtool causes -' | cmp - <(options ubtool causes)
  $ by_bash 'ubtool causes -c env.c'
  env.config
  $ by_bash 'ubtool causes --config env.c'
  env.config
  $ by_bash 'ubtool causes --config=env.c'
  env.config

ubtool inspect: its options, as its help has them, and a configuration
  $ by_bash 'ubtool inspect -' | cmp - <(options ubtool inspect)
  $ by_bash 'ubtool inspect -c env.c'
  env.config
  $ by_bash 'ubtool inspect --config env.c'
  env.config
  $ by_bash 'ubtool inspect --config=env.c'
  env.config

hushcheck: its options, as its help has them, and a configuration
  $ by_bash 'hushcheck -' | cmp - <(options hushcheck)
  $ by_bash 'hushcheck -c env.c'
  env.config
  $ by_bash 'hushcheck --config env.c'
  env.config
  $ by_bash 'hushcheck --config=env.c'
  env.config

files
  $ by_bash 'ubtool rehearse -d dev'
  devices.txt
  $ by_bash 'ubtool rehearse --device-list dev'
  devices.txt
  $ by_bash 'ubtool endings -d dev'
  devices.txt
  $ by_bash 'ubtool causes -d dev'
  devices.txt
  $ by_bash 'hushcheck -d dev'
  devices.txt
  $ by_bash 'ubtool setenv -s chan'
  changes.txt
  $ by_bash 'ubtool setenv --script chan'
  changes.txt
  $ by_bash 'ubtool rehearse --script chan'
  changes.txt
  $ by_bash 'ubtool endings --script chan'
  changes.txt
  $ by_bash 'ubtool causes --script chan'
  changes.txt
  $ by_bash 'ubtool image chan'
  changes.txt
  $ by_bash 'ubtool image --size 16 chan'
  changes.txt
  $ by_bash 'ubtool image -o chan'
  changes.txt
  $ by_bash 'ubtool image --output chan'
  changes.txt
  $ by_bash 'ubtool setenv -l loc'
  locks
  $ by_bash 'ubtool printenv --lock loc'
  locks

names of variables
  $ by_bash 'ubtool printenv -c env.config boot'
  bootcmd
  bootdelay
  $ by_bash 'ubtool printenv --config env.config boot'
  bootcmd
  bootdelay
  $ by_bash 'hushcheck -c env.config boot'
  bootcmd
  bootdelay
  $ by_bash 'hushcheck --config env.config boot'
  bootcmd
  bootdelay
  $ by_bash 'ubtool setenv -c env.config bootd'
  bootdelay
  $ by_bash 'ubtool setenv --config env.config bootd'
  bootdelay
  $ by_bash 'ubtool rehearse -c env.config -d devices.txt bootcmd bootd'
  bootdelay
  $ by_bash 'ubtool endings -c env.config -d devices.txt bootcmd bootd'
  bootdelay
  $ by_bash 'ubtool rehearse -c env.config -b bootc'
  bootcmd
  $ by_bash 'ubtool rehearse -c env.config --variable bootc'
  bootcmd
  $ by_bash 'ubtool endings -c env.config -b bootc'
  bootcmd
  $ by_bash 'ubtool causes -c env.config -b bootc'
  bootcmd
  $ by_bash 'ubtool printenv -c big.config --big-endian a'
  a.b_c
  $ by_bash 'hushcheck -c big.config --big-endian a'
  a.b_c

shells
  $ by_bash 'ubtool rehearse -d devices.txt --shell o'
  old
  old-2023.01
  old-2025.01
  $ by_bash 'ubtool endings -d devices.txt --shell o'
  old
  old-2023.01
  old-2025.01
  $ by_bash 'ubtool causes -d devices.txt --shell o'
  old
  old-2023.01
  old-2025.01

nothing
  $ by_bash 'ubtool setenv -c env.config bootdelay boot'
  $ by_bash 'ubtool rehearse -c env.config --limit b'
  $ by_bash 'ubtool endings -c env.config --states b'
  $ by_bash 'ubtool causes -c env.config bootc'

Bash cuts the word at the = between a long option and its value.

after =
  $ by_bash 'ubtool printenv --config=' | grep -x env.config
  env.config
  $ by_bash 'ubtool setenv --script=chan'
  changes.txt
  $ by_bash 'ubtool rehearse --device-list=dev'
  devices.txt
  $ by_bash 'hushcheck --device-list=dev'
  devices.txt
  $ by_bash 'ubtool rehearse --config=env.config --variable=bootc'
  bootcmd
  $ by_bash 'ubtool rehearse --config=env.config --limit=b'
  $ by_bash 'ubtool rehearse --shell=p'
  profile
  $ by_bash 'ubtool printenv --config=env.config boot'
  bootcmd
  bootdelay
  $ by_bash 'hushcheck --config=env.config boot'
  bootcmd
  bootdelay
  $ by_bash 'ubtool setenv --config=env.config bootd'
  bootdelay

  $ . "$TESTDIR/../setup"
  $ . "$repository/tests/package.d/setup"

The completions for fish.

  $ needs fish

subcommands
  $ by_fish 'ubtool r'
  rehearse
  $ by_fish 'ubtool set'
  setenv
  $ by_fish 'ubtool help set'
  setenv

subcommands, of nothing
  $ by_fish 'ubtool ' | grep -v '^-'
  boots
  causes
  endings
  help
  image
  inspect
  printenv
  rehearse
  setenv
  version
  $ by_fish 'ubtool help ' | grep -v '^-'
  boots
  causes
  endings
  image
  inspect
  printenv
  rehearse
  setenv

ubtool printenv: its options, as its help has them, and a configuration
  $ by_fish 'ubtool printenv -' | cmp - <(options ubtool printenv)
  $ by_fish 'ubtool printenv --' | cmp - <(options ubtool printenv | grep '^--')
  $ by_fish 'ubtool printenv -c env.c'
  env.config
  $ by_fish 'ubtool printenv --config env.c'
  env.config

ubtool setenv: its options, as its help has them, and a configuration
  $ by_fish 'ubtool setenv -' | cmp - <(options ubtool setenv)
  $ by_fish 'ubtool setenv --' | cmp - <(options ubtool setenv | grep '^--')
  $ by_fish 'ubtool setenv -c env.c'
  env.config
  $ by_fish 'ubtool setenv --config env.c'
  env.config

ubtool rehearse: its options, as its help has them, and a configuration
  $ by_fish 'ubtool rehearse -' | cmp - <(options ubtool rehearse)
  $ by_fish 'ubtool rehearse --' | cmp - <(options ubtool rehearse | grep '^--')
  $ by_fish 'ubtool rehearse -c env.c'
  env.config
  $ by_fish 'ubtool rehearse --config env.c'
  env.config

ubtool boots: its options, as its help has them
  $ by_fish 'ubtool boots -' | cmp - <(options ubtool boots)

ubtool endings: its options, as its help has them, and a configuration
  $ by_fish 'ubtool endings -' | cmp - <(options ubtool endings)
  $ by_fish 'ubtool endings --' | cmp - <(options ubtool endings | grep '^--')
  $ by_fish 'ubtool endings -c env.c'
  env.config
  $ by_fish 'ubtool endings --config env.c'
  env.config

ubtool causes: its options, as its help has them, and a configuration
  $ by_fish 'ubtool causes -' | cmp - <(options ubtool causes)
  $ by_fish 'ubtool causes --' | cmp - <(options ubtool causes | grep '^--')
  $ by_fish 'ubtool causes -c env.c'
  env.config
  $ by_fish 'ubtool causes --config env.c'
  env.config

ubtool inspect: its options, as its help has them, and a configuration
  $ by_fish 'ubtool inspect -' | cmp - <(options ubtool inspect)
  $ by_fish 'ubtool inspect --' | cmp - <(options ubtool inspect | grep '^--')
  $ by_fish 'ubtool inspect -c env.c'
  env.config
  $ by_fish 'ubtool inspect --config env.c'
  env.config

hushcheck: its options, as its help has them, and a configuration
  $ by_fish 'hushcheck -' | cmp - <(options hushcheck)
  $ by_fish 'hushcheck --' | cmp - <(options hushcheck | grep '^--')
  $ by_fish 'hushcheck -c env.c'
  env.config
  $ by_fish 'hushcheck --config env.c'
  env.config

files
  $ by_fish 'ubtool rehearse -d dev'
  devices.txt
  $ by_fish 'ubtool rehearse --device-list dev'
  devices.txt
  $ by_fish 'ubtool endings -d dev'
  devices.txt
  $ by_fish 'ubtool causes -d dev'
  devices.txt
  $ by_fish 'hushcheck -d dev'
  devices.txt
  $ by_fish 'ubtool setenv -s chan'
  changes.txt
  $ by_fish 'ubtool setenv --script chan'
  changes.txt
  $ by_fish 'ubtool rehearse --script chan'
  changes.txt
  $ by_fish 'ubtool endings --script chan'
  changes.txt
  $ by_fish 'ubtool causes --script chan'
  changes.txt
  $ by_fish 'ubtool image chan'
  changes.txt
  $ by_fish 'ubtool image --size 16 chan'
  changes.txt
  $ by_fish 'ubtool image -o chan'
  changes.txt
  $ by_fish 'ubtool image --output chan'
  changes.txt
  $ by_fish 'ubtool setenv -l loc'
  locks
  $ by_fish 'ubtool printenv --lock loc'
  locks

names of variables
  $ by_fish 'ubtool printenv -c env.config boot'
  bootcmd
  bootdelay
  $ by_fish 'ubtool printenv --config env.config boot'
  bootcmd
  bootdelay
  $ by_fish 'hushcheck -c env.config boot'
  bootcmd
  bootdelay
  $ by_fish 'hushcheck --config env.config boot'
  bootcmd
  bootdelay
  $ by_fish 'ubtool setenv -c env.config bootd'
  bootdelay
  $ by_fish 'ubtool setenv --config env.config bootd'
  bootdelay
  $ by_fish 'ubtool rehearse -c env.config -d devices.txt bootcmd bootd'
  bootdelay
  $ by_fish 'ubtool endings -c env.config -d devices.txt bootcmd bootd'
  bootdelay
  $ by_fish 'ubtool rehearse -c env.config -b bootc'
  bootcmd
  $ by_fish 'ubtool rehearse -c env.config --variable bootc'
  bootcmd
  $ by_fish 'ubtool endings -c env.config -b bootc'
  bootcmd
  $ by_fish 'ubtool causes -c env.config -b bootc'
  bootcmd
  $ by_fish 'ubtool printenv -c big.config --big-endian a'
  a.b_c
  $ by_fish 'hushcheck -c big.config --big-endian a'
  a.b_c

shells
  $ by_fish 'ubtool rehearse -d devices.txt --shell o'
  old
  old-2023.01
  old-2025.01
  $ by_fish 'ubtool endings -d devices.txt --shell o'
  old
  old-2023.01
  old-2025.01
  $ by_fish 'ubtool causes -d devices.txt --shell o'
  old
  old-2023.01
  old-2025.01

nothing
  $ by_fish 'ubtool setenv -c env.config bootdelay boot'
  $ by_fish 'ubtool rehearse -c env.config --limit b'
  $ by_fish 'ubtool endings -c env.config --states b'
  $ by_fish 'ubtool causes -c env.config bootc'

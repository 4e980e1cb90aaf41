  $ . "$TESTDIR/../setup"
  $ . "$repository/tests/package.d/setup"

The completions for zsh.

  $ needs zsh

subcommands
  $ by_zsh 'ubtool r'
  rehearse
  $ by_zsh 'ubtool set'
  setenv
  $ by_zsh 'ubtool help set'
  setenv

subcommands, of nothing
  $ by_zsh 'ubtool ' | grep -v '^-'
  boots
  causes
  endings
  help
  image
  inspect
  printenv
  rehearse
  setenv
  version
  $ by_zsh 'ubtool help ' | grep -v '^-'
  boots
  causes
  endings
  image
  inspect
  printenv
  rehearse
  setenv

ubtool printenv: its options, as its help has them, and a configuration
  $ by_zsh 'ubtool printenv -' | cmp - <(options ubtool printenv)
  $ by_zsh 'ubtool printenv -c env.c'
  env.config
  $ by_zsh 'ubtool printenv --config env.c'
  env.config

ubtool setenv: its options, as its help has them, and a configuration
  $ by_zsh 'ubtool setenv -' | cmp - <(options ubtool setenv)
  $ by_zsh 'ubtool setenv -c env.c'
  env.config
  $ by_zsh 'ubtool setenv --config env.c'
  env.config

ubtool rehearse: its options, as its help has them, and a configuration
  $ by_zsh 'ubtool rehearse -' | cmp - <(options ubtool rehearse)
  $ by_zsh 'ubtool rehearse -c env.c'
  env.config
  $ by_zsh 'ubtool rehearse --config env.c'
  env.config

ubtool boots: its options, as its help has them
  $ by_zsh 'ubtool boots -' | cmp - <(options ubtool boots)

ubtool endings: its options, as its help has them, and a configuration
  $ by_zsh 'ubtool endings -' | cmp - <(options ubtool endings)
  $ by_zsh 'ubtool endings -c env.c'
  env.config
  $ by_zsh 'ubtool endings --config env.c'
  env.config

ubtool causes: its options, as its help has them, and a configuration
  $ by_zsh 'ubtool causes -' | cmp - <(options ubtool causes)
  $ by_zsh 'ubtool causes -c env.c'
  env.config
  $ by_zsh 'ubtool causes --config env.c'
  env.config

ubtool inspect: its options, as its help has them, and a configuration
  $ by_zsh 'ubtool inspect -' | cmp - <(options ubtool inspect)
  $ by_zsh 'ubtool inspect -c env.c'
  env.config
  $ by_zsh 'ubtool inspect --config env.c'
  env.config

hushcheck: its options, as its help has them, and a configuration
  $ by_zsh 'hushcheck -' | cmp - <(options hushcheck)
  $ by_zsh 'hushcheck -c env.c'
  env.config
  $ by_zsh 'hushcheck --config env.c'
  env.config

files
  $ by_zsh 'ubtool rehearse -d dev'
  devices.txt
  $ by_zsh 'ubtool rehearse --device-list dev'
  devices.txt
  $ by_zsh 'ubtool endings -d dev'
  devices.txt
  $ by_zsh 'ubtool causes -d dev'
  devices.txt
  $ by_zsh 'hushcheck -d dev'
  devices.txt
  $ by_zsh 'ubtool setenv -s chan'
  changes.txt
  $ by_zsh 'ubtool setenv --script chan'
  changes.txt
  $ by_zsh 'ubtool rehearse --script chan'
  changes.txt
  $ by_zsh 'ubtool endings --script chan'
  changes.txt
  $ by_zsh 'ubtool causes --script chan'
  changes.txt
  $ by_zsh 'ubtool image chan'
  changes.txt
  $ by_zsh 'ubtool image --size 16 chan'
  changes.txt
  $ by_zsh 'ubtool image -o chan'
  changes.txt
  $ by_zsh 'ubtool image --output chan'
  changes.txt
  $ by_zsh 'ubtool setenv -l loc'
  locks
  $ by_zsh 'ubtool printenv --lock loc'
  locks

names of variables
  $ by_zsh 'ubtool printenv -c env.config boot'
  bootcmd
  bootdelay
  $ by_zsh 'ubtool printenv --config env.config boot'
  bootcmd
  bootdelay
  $ by_zsh 'hushcheck -c env.config boot'
  bootcmd
  bootdelay
  $ by_zsh 'hushcheck --config env.config boot'
  bootcmd
  bootdelay
  $ by_zsh 'ubtool setenv -c env.config bootd'
  bootdelay
  $ by_zsh 'ubtool setenv --config env.config bootd'
  bootdelay
  $ by_zsh 'ubtool rehearse -c env.config -d devices.txt bootcmd bootd'
  bootdelay
  $ by_zsh 'ubtool endings -c env.config -d devices.txt bootcmd bootd'
  bootdelay
  $ by_zsh 'ubtool rehearse -c env.config -b bootc'
  bootcmd
  $ by_zsh 'ubtool rehearse -c env.config --variable bootc'
  bootcmd
  $ by_zsh 'ubtool endings -c env.config -b bootc'
  bootcmd
  $ by_zsh 'ubtool causes -c env.config -b bootc'
  bootcmd
  $ by_zsh 'ubtool printenv -c big.config --big-endian a'
  a.b_c
  $ by_zsh 'hushcheck -c big.config --big-endian a'
  a.b_c

shells
  $ by_zsh 'ubtool rehearse -d devices.txt --shell o'
  old
  old-2023.01
  old-2025.01
  $ by_zsh 'ubtool endings -d devices.txt --shell o'
  old
  old-2023.01
  old-2025.01
  $ by_zsh 'ubtool causes -d devices.txt --shell o'
  old
  old-2023.01
  old-2025.01

nothing
  $ by_zsh 'ubtool setenv -c env.config bootdelay boot'
  $ by_zsh 'ubtool rehearse -c env.config --limit b'
  $ by_zsh 'ubtool endings -c env.config --states b'
  $ by_zsh 'ubtool causes -c env.config bootc'

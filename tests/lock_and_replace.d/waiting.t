  $ . "$TESTDIR/../setup"
  $ . "$repository/tests/lock_and_replace.d/setup"

A lock that is held.

  $ needs flock

a lock that is held for a second
  $ fresh; held locks/fw_printenv.lock 'sleep 1' marked ./fw_setenv -l locks -c config a 2
  $ hex e
  62 b8 de 47 61 3d 32 00 00

a lock that is held for long
  $ fresh; held locks/fw_printenv.lock "$until_told" marked ./fw_setenv -l locks -c config a 2
  ! fw_setenv: waiting for locks/fw_printenv.lock
  $ hex e
  62 b8 de 47 61 3d 32 00 00
  $ [ "$took" -ge 5 ] && [ "$took" -lt 30 ]

printing under a lock that is held for long
  $ held locks/fw_printenv.lock "$until_told" marked ./fw_printenv -l locks -c config
  a=2
  ! fw_printenv: waiting for locks/fw_printenv.lock

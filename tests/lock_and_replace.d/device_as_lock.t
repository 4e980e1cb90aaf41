  $ . "$TESTDIR/../setup"
  $ . "$repository/tests/lock_and_replace.d/setup"

A device in the place of a lock file.

  $ [ -n "${MAY_MOUNT-}" ] || left_out 'a device in the place of a lock file, since this is not run as root'

a lock file that is a device
  $ lock_file device locks/fw_printenv.lock
  $ sets timeout 5 ./fw_setenv -l locks -c config a 2
  ! fw_setenv: Error opening lock file locks/fw_printenv.lock
  [1]
  $ hex e
  3b 06 98 45 61 3d 31 00 00
  $ ls locks
  fw_printenv.lock

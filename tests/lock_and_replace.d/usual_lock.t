  $ . "$TESTDIR/../setup"
  $ . "$repository/tests/lock_and_replace.d/setup"

The usual lock, where what covers the folder above it is seen here alone.

  $ [ -n "${MAY_MOUNT-}" ] || left_out 'the usual lock, since this is not run as root or no mount can be made'
  $ lock_folder=$(realpath -m "$(dirname "$usual")")
  $ mount -t tmpfs tmpfs "$(dirname "$lock_folder")" || left_out 'the usual lock, since no mount can be made'

no folder of the usual lock, and none is made
  $ sets ./fw_setenv -c config a 2
  $ hex e
  62 b8 de 47 61 3d 32 00 00
  $ ls -A "$(dirname "$lock_folder")"

  $ mkdir "$lock_folder"

a usual lock file that is a folder; printing is done beside it
  $ lock_file folder "$usual"
  $ sets timeout 5 ./fw_setenv -c config a 2
  ! fw_setenv: Error opening lock file /var/lock/fw_printenv.lock
  [1]
  $ hex e
  3b 06 98 45 61 3d 31 00 00
  $ marked ./fw_printenv -c config
  a=1
  $ rm -rf "${lock_folder:?}"/*

a usual lock file that is a pipe; printing is done beside it
  $ lock_file pipe "$usual"
  $ sets timeout 5 ./fw_setenv -c config a 2
  ! fw_setenv: Error opening lock file /var/lock/fw_printenv.lock
  [1]
  $ hex e
  3b 06 98 45 61 3d 31 00 00
  $ marked ./fw_printenv -c config
  a=1
  $ rm -rf "${lock_folder:?}"/*

a usual lock file that is a link; printing is done beside it
  $ lock_file link "$usual"
  $ sets timeout 5 ./fw_setenv -c config a 2
  ! fw_setenv: Error opening lock file /var/lock/fw_printenv.lock
  [1]
  $ hex e
  3b 06 98 45 61 3d 31 00 00
  $ marked ./fw_printenv -c config
  a=1
  $ rm -rf "${lock_folder:?}"/*

a usual lock file that is a dangling link; printing is done beside it
  $ lock_file dangling "$usual"
  $ sets timeout 5 ./fw_setenv -c config a 2
  ! fw_setenv: Error opening lock file /var/lock/fw_printenv.lock
  [1]
  $ hex e
  3b 06 98 45 61 3d 31 00 00
  $ marked ./fw_printenv -c config
  a=1
  $ rm -rf "${lock_folder:?}"/*

a usual lock file that is a link to itself; printing is done beside it
  $ lock_file loop "$usual"
  $ sets timeout 5 ./fw_setenv -c config a 2
  ! fw_setenv: Error opening lock file /var/lock/fw_printenv.lock
  [1]
  $ hex e
  3b 06 98 45 61 3d 31 00 00
  $ marked ./fw_printenv -c config
  a=1
  $ rm -rf "${lock_folder:?}"/*

a usual lock file that is a device; printing is done beside it
  $ lock_file device "$usual"
  $ sets timeout 5 ./fw_setenv -c config a 2
  ! fw_setenv: Error opening lock file /var/lock/fw_printenv.lock
  [1]
  $ hex e
  3b 06 98 45 61 3d 31 00 00
  $ marked ./fw_printenv -c config
  a=1
  $ rm -rf "${lock_folder:?}"/*

the file of the usual lock
  $ sets ./fw_setenv -c config a 2
  $ hex e
  62 b8 de 47 61 3d 32 00 00
  $ [ "$(find "$lock_folder" -type f -size 0)" = "$lock_folder/fw_printenv.lock" ]

the usual lock, held for long
  $ fresh; held "$usual" "$until_told" marked ./fw_setenv -c config a 2
  ! fw_setenv: waiting for /var/lock/fw_printenv.lock
  $ hex e
  62 b8 de 47 61 3d 32 00 00

a usual lock file below a file
  $ rm -r "$lock_folder"; : >"$lock_folder"
  $ sets timeout 5 ./fw_setenv -c config a 2
  ! fw_setenv: Error opening lock file /var/lock/fw_printenv.lock
  [1]
  $ hex e
  3b 06 98 45 61 3d 31 00 00

  $ umount "$(dirname "$lock_folder")"

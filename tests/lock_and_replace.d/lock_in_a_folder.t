  $ . "$TESTDIR/../setup"
  $ . "$repository/tests/lock_and_replace.d/setup"

The lock in a folder.

a lock file that is a folder; what a link names is not made
  $ lock_file folder locks/fw_printenv.lock
  $ sets timeout 5 ./fw_setenv -l locks -c config a 2
  ! fw_setenv: Error opening lock file locks/fw_printenv.lock
  [1]
  $ hex e
  3b 06 98 45 61 3d 31 00 00
  $ ls locks
  fw_printenv.lock
  $ rm -rf locks/*

a lock file that is a pipe; what a link names is not made
  $ lock_file pipe locks/fw_printenv.lock
  $ sets timeout 5 ./fw_setenv -l locks -c config a 2
  ! fw_setenv: Error opening lock file locks/fw_printenv.lock
  [1]
  $ hex e
  3b 06 98 45 61 3d 31 00 00
  $ ls locks
  fw_printenv.lock
  $ rm -rf locks/*

a lock file that is a link; what a link names is not made
  $ lock_file link locks/fw_printenv.lock
  $ sets timeout 5 ./fw_setenv -l locks -c config a 2
  ! fw_setenv: Error opening lock file locks/fw_printenv.lock
  [1]
  $ hex e
  3b 06 98 45 61 3d 31 00 00
  $ ls locks
  fw_printenv.lock
  fw_printenv.lock.target
  $ rm -rf locks/*

a lock file that is a dangling link; what a link names is not made
  $ lock_file dangling locks/fw_printenv.lock
  $ sets timeout 5 ./fw_setenv -l locks -c config a 2
  ! fw_setenv: Error opening lock file locks/fw_printenv.lock
  [1]
  $ hex e
  3b 06 98 45 61 3d 31 00 00
  $ ls locks
  fw_printenv.lock
  $ rm -rf locks/*

a lock file that is a link to itself; what a link names is not made
  $ lock_file loop locks/fw_printenv.lock
  $ sets timeout 5 ./fw_setenv -l locks -c config a 2
  ! fw_setenv: Error opening lock file locks/fw_printenv.lock
  [1]
  $ hex e
  3b 06 98 45 61 3d 31 00 00
  $ ls locks
  fw_printenv.lock
  $ rm -rf locks/*

a lock file with bytes, which it keeps
  $ printf 'kept\n' >locks/fw_printenv.lock
  $ sets ./fw_setenv -l locks -c config a 2
  $ hex e
  62 b8 de 47 61 3d 32 00 00
  $ cat locks/fw_printenv.lock
  kept

a lock file in no folder
  $ sets timeout 5 ./fw_setenv -l missing -c config a 2
  ! fw_setenv: Error opening lock file missing/fw_printenv.lock
  [1]
  $ hex e
  3b 06 98 45 61 3d 31 00 00

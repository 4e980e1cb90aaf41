  $ . "$TESTDIR/../setup"
  $ . "$repository/tests/lock_and_replace.d/setup"

Calls that are refused, by the shim.

  $ needs gcc
  $ gcc -O2 -Wall -Wextra -shared -fPIC -o shim.so "$repository/tools/refuse_io.c" -ldl

no call refused
  $ with REFUSE_NUMBER=0
  $ hex e
  62 b8 de 47 61 3d 32 00 00
  $ beside
  nothing else
  $ cp calls calls.ample

the calls that replace the file
  $ sed -n '/^open >e$/,$p' calls | grep -v '^chown ' | sed "s|$PWD|.|; s|\.e\.[0-9]*\.|.e.N.|"
  open >e
  close >e
  open <.
  open >./.e.N.0
  chmod >./.e.N.0
  write >./.e.N.0
  fsync >./.e.N.0
  rename ./e
  fsync <.
  close >./.e.N.0
  close <.
  close >locks/fw_printenv.lock

open of >e\$, EIO
  $ refused open ">e\$" EIO
  ! fw_setenv: cannot write e
  [1]
  $ hex e
  3b 06 98 45 61 3d 31 00 00
  $ beside
  nothing else

open of >e\$, ENOSPC
  $ refused open ">e\$" ENOSPC
  ! fw_setenv: cannot write e
  [1]
  $ hex e
  3b 06 98 45 61 3d 31 00 00
  $ beside
  nothing else

open of >e\$, EPERM
  $ refused open ">e\$" EPERM
  ! fw_setenv: cannot write e
  [1]
  $ hex e
  3b 06 98 45 61 3d 31 00 00
  $ beside
  nothing else

open of <$PWD\$, EIO
  $ refused open "<$PWD\$" EIO
  ! fw_setenv: cannot replace e, writing it in place
  $ hex e
  62 b8 de 47 61 3d 32 00 00
  $ beside
  nothing else

open of <$PWD\$, EPERM
  $ refused open "<$PWD\$" EPERM
  ! fw_setenv: cannot replace e, writing it in place
  $ hex e
  62 b8 de 47 61 3d 32 00 00
  $ beside
  nothing else

open of >$PWD/\.e\., EIO
  $ refused open ">$PWD/\.e\." EIO
  ! fw_setenv: cannot replace e, writing it in place
  $ hex e
  62 b8 de 47 61 3d 32 00 00
  $ beside
  nothing else

open of >$PWD/\.e\., ENOSPC
  $ refused open ">$PWD/\.e\." ENOSPC
  ! fw_setenv: cannot replace e, writing it in place
  $ hex e
  62 b8 de 47 61 3d 32 00 00
  $ beside
  nothing else

open of >$PWD/\.e\., EPERM
  $ refused open ">$PWD/\.e\." EPERM
  ! fw_setenv: cannot replace e, writing it in place
  $ hex e
  62 b8 de 47 61 3d 32 00 00
  $ beside
  nothing else

chmod of , EIO
  $ refused chmod "" EIO
  ! fw_setenv: cannot replace e, writing it in place
  $ hex e
  62 b8 de 47 61 3d 32 00 00
  $ beside
  nothing else

chmod of , EPERM
  $ refused chmod "" EPERM
  ! fw_setenv: cannot replace e, writing it in place
  $ hex e
  62 b8 de 47 61 3d 32 00 00
  $ beside
  nothing else

write of >$PWD/\.e\., EIO
  $ refused write ">$PWD/\.e\." EIO
  ! fw_setenv: cannot write e
  [1]
  $ hex e
  3b 06 98 45 61 3d 31 00 00
  $ beside
  nothing else

write of >$PWD/\.e\., ENOSPC
  $ refused write ">$PWD/\.e\." ENOSPC
  ! fw_setenv: cannot write e
  [1]
  $ hex e
  3b 06 98 45 61 3d 31 00 00
  $ beside
  nothing else

write of >$PWD/\.e\., EINTR
  $ refused write ">$PWD/\.e\." EINTR
  ! fw_setenv: cannot write e
  [1]
  $ hex e
  3b 06 98 45 61 3d 31 00 00
  $ beside
  nothing else

fsync of >$PWD/\.e\., EIO
  $ refused fsync ">$PWD/\.e\." EIO
  ! fw_setenv: cannot write e
  [1]
  $ hex e
  3b 06 98 45 61 3d 31 00 00
  $ beside
  nothing else

fsync of >$PWD/\.e\., ENOSPC
  $ refused fsync ">$PWD/\.e\." ENOSPC
  ! fw_setenv: cannot write e
  [1]
  $ hex e
  3b 06 98 45 61 3d 31 00 00
  $ beside
  nothing else

fsync of >$PWD/\.e\., EINVAL
  $ refused fsync ">$PWD/\.e\." EINVAL
  $ hex e
  62 b8 de 47 61 3d 32 00 00
  $ beside
  nothing else

fsync of >$PWD/\.e\., EINTR
  $ refused fsync ">$PWD/\.e\." EINTR
  $ hex e
  62 b8 de 47 61 3d 32 00 00
  $ beside
  nothing else

rename of $PWD/e\$, EIO
  $ refused rename "$PWD/e\$" EIO
  ! fw_setenv: cannot write e
  [1]
  $ hex e
  3b 06 98 45 61 3d 31 00 00
  $ beside
  nothing else

rename of $PWD/e\$, ENOSPC
  $ refused rename "$PWD/e\$" ENOSPC
  ! fw_setenv: cannot write e
  [1]
  $ hex e
  3b 06 98 45 61 3d 31 00 00
  $ beside
  nothing else

rename of $PWD/e\$, EBUSY
  $ refused rename "$PWD/e\$" EBUSY
  ! fw_setenv: cannot replace e, writing it in place
  $ hex e
  62 b8 de 47 61 3d 32 00 00
  $ beside
  nothing else

rename of $PWD/e\$, EPERM
  $ refused rename "$PWD/e\$" EPERM
  ! fw_setenv: cannot replace e, writing it in place
  $ hex e
  62 b8 de 47 61 3d 32 00 00
  $ beside
  nothing else

fsync of <$PWD\$, EIO
  $ refused fsync "<$PWD\$" EIO
  ! fw_setenv: cannot write e
  [1]
  $ hex e
  62 b8 de 47 61 3d 32 00 00
  $ beside
  nothing else

fsync of <$PWD\$, ENOSPC
  $ refused fsync "<$PWD\$" ENOSPC
  ! fw_setenv: cannot write e
  [1]
  $ hex e
  62 b8 de 47 61 3d 32 00 00
  $ beside
  nothing else

fsync of <$PWD\$, EINVAL
  $ refused fsync "<$PWD\$" EINVAL
  $ hex e
  62 b8 de 47 61 3d 32 00 00
  $ beside
  nothing else

fsync of <$PWD\$, EINTR
  $ refused fsync "<$PWD\$" EINTR
  $ hex e
  62 b8 de 47 61 3d 32 00 00
  $ beside
  nothing else

flock of , EIO
  $ refused flock "" EIO
  ! fw_setenv: Error locking file locks/fw_printenv.lock
  [1]
  $ hex e
  3b 06 98 45 61 3d 31 00 00
  $ beside
  nothing else

flock of , EPERM
  $ refused flock "" EPERM
  ! fw_setenv: Error locking file locks/fw_printenv.lock
  [1]
  $ hex e
  3b 06 98 45 61 3d 31 00 00
  $ beside
  nothing else

flock of , EINTR
  $ refused flock "" EINTR
  $ hex e
  62 b8 de 47 61 3d 32 00 00
  $ beside
  nothing else

a byte at a time
  $ with MOVE_ONE=1
  $ hex e
  62 b8 de 47 61 3d 32 00 00
  $ beside
  nothing else

Broken off after any byte of the new file, the file is the old one. What stays beside it is no part of it.

broken off after 1 byte
  $ fresh; { LD_PRELOAD=./shim.so KILL_AFTER=1 "${set_two[@]}"; } 2>/dev/null
  [137]
  $ hex e; rm -f .e.*
  3b 06 98 45 61 3d 31 00 00

broken off after 2 bytes
  $ fresh; { LD_PRELOAD=./shim.so KILL_AFTER=2 "${set_two[@]}"; } 2>/dev/null
  [137]
  $ hex e; rm -f .e.*
  3b 06 98 45 61 3d 31 00 00

broken off after 3 bytes
  $ fresh; { LD_PRELOAD=./shim.so KILL_AFTER=3 "${set_two[@]}"; } 2>/dev/null
  [137]
  $ hex e; rm -f .e.*
  3b 06 98 45 61 3d 31 00 00

broken off after 4 bytes
  $ fresh; { LD_PRELOAD=./shim.so KILL_AFTER=4 "${set_two[@]}"; } 2>/dev/null
  [137]
  $ hex e; rm -f .e.*
  3b 06 98 45 61 3d 31 00 00

broken off after 5 bytes
  $ fresh; { LD_PRELOAD=./shim.so KILL_AFTER=5 "${set_two[@]}"; } 2>/dev/null
  [137]
  $ hex e; rm -f .e.*
  3b 06 98 45 61 3d 31 00 00

broken off after 6 bytes
  $ fresh; { LD_PRELOAD=./shim.so KILL_AFTER=6 "${set_two[@]}"; } 2>/dev/null
  [137]
  $ hex e; rm -f .e.*
  3b 06 98 45 61 3d 31 00 00

broken off after 7 bytes
  $ fresh; { LD_PRELOAD=./shim.so KILL_AFTER=7 "${set_two[@]}"; } 2>/dev/null
  [137]
  $ hex e; rm -f .e.*
  3b 06 98 45 61 3d 31 00 00

broken off after 8 bytes
  $ fresh; { LD_PRELOAD=./shim.so KILL_AFTER=8 "${set_two[@]}"; } 2>/dev/null
  [137]
  $ hex e; rm -f .e.*
  3b 06 98 45 61 3d 31 00 00

broken off after 9 bytes
  $ fresh; { LD_PRELOAD=./shim.so KILL_AFTER=9 "${set_two[@]}"; } 2>/dev/null
  [137]
  $ hex e; rm -f .e.*
  3b 06 98 45 61 3d 31 00 00

  $ . "$TESTDIR/../setup"
  $ . "$repository/tests/lock_and_replace.d/setup"

A new file that cannot be given to the owner of the old one.

  $ [ "$(id -u)" = 0 ] || left_out 'a change of owner that is refused, since this is not run as root'
  $ needs gcc
  $ gcc -O2 -Wall -Wextra -shared -fPIC -o shim.so "$repository/tools/refuse_io.c" -ldl

the new file gets the owner of the old one, before its mode
  $ with REFUSE_NUMBER=0
  $ hex e
  62 b8 de 47 61 3d 32 00 00
  $ beside
  nothing else
  $ cp calls calls.ample
  $ grep -A1 '^chown' calls | sed "s|$PWD|.|; s|\.e\.[0-9]*\.|.e.N.|"
  chown >./.e.N.0
  chmod >./.e.N.0

chown, EIO
  $ refused chown '' EIO
  ! fw_setenv: cannot replace e, writing it in place
  $ hex e
  62 b8 de 47 61 3d 32 00 00
  $ beside
  nothing else

chown, EPERM
  $ refused chown '' EPERM
  ! fw_setenv: cannot replace e, writing it in place
  $ hex e
  62 b8 de 47 61 3d 32 00 00
  $ beside
  nothing else

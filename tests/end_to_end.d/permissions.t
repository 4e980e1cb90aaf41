  $ . "$TESTDIR/../setup"

Files without permission, for another user than root.

  $ [ "$(id -u)" != 0 ] || needs setpriv
  $ chmod 755 "$CRAMTMP" .; install -m 755 "$UBTOOL" program
  $ as_other() { if [ "$(id -u)" = 0 ]; then setpriv --reuid 65534 --regid 65534 --clear-groups "$@"; else "$@"; fi; }
  $ printf 'e 0 9\n' >config

an image that is read-only
  $ bytes "$single" >e
  $ chmod 444 e
  $ marked as_other ./program setenv -c config a 2
  ! ubtool: cannot write e
  [1]

the image that is read-only
  $ hex e
  3b 06 98 45 61 3d 31 00 00

an image that may not be read
  $ chmod 000 e
  $ marked as_other ./program printenv -c config
  ! ubtool: cannot read e
  [1]

  $ . "$TESTDIR/../setup"

Images.

  $ image env 'bootcmd=run a b'
the current copy of a pair
  $ printf 'bootcmd=fi\0\0' | new_image old little 01
  $ printf 'bootcmd=ls\0\0' | new_image new little 02
  $ places old new >pair.config
  $ hushcheck -c pair.config
  bootcmd: ok

the current copy, when it is the first
  $ places new old >pair.config
  $ hushcheck -c pair.config
  bootcmd: ok

a checksum in the other order
  $ printf 'bootcmd=true\0\0' | new_image big big
  $ hushcheck -c big.config
  ! hushcheck: no image with a right CRC
  [3]

a checksum that is big-endian
  $ hushcheck -c big.config --big-endian
  bootcmd: ok

the long form of an option
  $ hushcheck --config pair.config
  bootcmd: ok

no configuration
  $ hushcheck -c missing
  ! hushcheck: cannot read missing
  [3]

a line of two words
  $ printf 'env 0\n' >short.config
  $ hushcheck -c short.config
  ! hushcheck: config line 1: bad line
  [3]

an image that is too short
  $ printf 'env 0 10000\n' >long.config
  $ hushcheck -c long.config
  ! hushcheck: env is too short
  [3]

an output that is full
  $ hushcheck -c env.config >/dev/full
  ! hushcheck: output failed
  [3]

an output that is full, of texts that are well-formed
  $ hushcheck -c big.config --big-endian >/dev/full
  ! hushcheck: output failed
  [3]

the image stays
  $ cp env kept
  $ hushcheck -c env.config >/dev/null
  $ cmp env kept 2>&1

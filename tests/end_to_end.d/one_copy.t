  $ . "$TESTDIR/../setup"

One copy of a pair that cannot be read, and two copies that overlap.

without the first copy
  $ pair 01 00
  $ rm first
  $ ubtool printenv -c pair.config
  ! ubtool: cannot read first
  [1]

no change without the first copy
  $ ubtool setenv -c pair.config a 3
  ! ubtool: cannot read first
  [1]
  $ hex "second"
  62 b8 de 47 00 61 3d 32 00 00

the first copy is lost
  $ ubtool printenv -c pair.config --one-copy
  a=2
  ! ubtool: cannot read first; the other copy counts

the first copy cannot be written
  $ ubtool setenv -c pair.config --one-copy a 3
  ! ubtool: cannot read first; the other copy counts
  ! ubtool: cannot write first
  [1]

the first copy cannot be written, the other
  $ hex "second"
  62 b8 de 47 00 61 3d 32 00 00

the first copy is too short
  $ pair 01 00
  $ printf 'short' >first
  $ ubtool printenv -c pair.config --one-copy
  a=2
  ! ubtool: first is too short; the other copy counts

without the second copy
  $ pair 01 00
  $ rm second
  $ ubtool printenv -c pair.config
  ! ubtool: cannot read second
  [1]

no change without the second copy
  $ ubtool setenv -c pair.config a 3
  ! ubtool: cannot read second
  [1]
  $ hex "first"
  3b 06 98 45 01 61 3d 31 00 00

the second copy is lost
  $ ubtool printenv -c pair.config --one-copy
  a=1
  ! ubtool: cannot read second; the other copy counts

the second copy cannot be written
  $ ubtool setenv -c pair.config --one-copy a 3
  ! ubtool: cannot read second; the other copy counts
  ! ubtool: cannot write second
  [1]

the second copy cannot be written, the other
  $ hex "first"
  3b 06 98 45 01 61 3d 31 00 00

the second copy is too short
  $ pair 01 00
  $ printf 'short' >second
  $ ubtool printenv -c pair.config --one-copy
  a=1
  ! ubtool: second is too short; the other copy counts

both copies are lost
  $ rm -f first second
  $ ubtool printenv -c pair.config --one-copy
  ! ubtool: cannot read first
  [1]

both copies are lost, a change
  $ ubtool setenv -c pair.config --one-copy a 3
  ! ubtool: cannot read first
  [1]

no copy is lost
  $ pair 01 00
  $ ubtool printenv -c pair.config --one-copy
  a=1

the copy that is left is wrong
  $ bytes "62 b8 de 46 01 61 3d 32 00 00" >first
  $ rm second
  $ ubtool printenv -c pair.config --one-copy
  ! ubtool: cannot read second; the other copy counts
  ! ubtool: no image with a right CRC
  [1]

a single image is not found
  $ printf 'missing 0 9\n' >missing.config
  $ ubtool printenv -c missing.config --one-copy
  ! ubtool: cannot read missing
  [1]

  $ bytes "3b 06 98 45 01 61 3d 31 00 00 62 b8 de 47 00 61 3d 32 00 00" >both
  $ printf 'both 0 a\nboth 10 a\n' >both.config
  $ ubtool setenv -c both.config a 3

  $ bytes "3b 06 98 45 01 61 3d 31 00 00 62 b8 de 47 00 61 3d 32 00 00" >both
  $ printf 'both 0 a\nboth 0 a\n' >both.config
  $ ubtool setenv -c both.config a 3
  ! ubtool: the two copies overlap

printing overlapping copies
  $ ubtool printenv -c both.config
  a=3

  $ bytes "3b 06 98 45 01 61 3d 31 00 00 62 b8 de 47 00 61 3d 32 00 00" >both
  $ printf 'both 0 a\nboth 9 a\n' >both.config
  $ ubtool setenv -c both.config a 3
  ! ubtool: the two copies overlap

a change that is refused tells of no overlap
  $ bytes "3b 06 98 45 01 61 3d 31 00 00" >both
  $ printf 'both 0 a\nboth 0 a\n' >both.config
  $ ubtool setenv -c both.config a=b
  ! ubtool: bad name
  [1]

the line comes before the write

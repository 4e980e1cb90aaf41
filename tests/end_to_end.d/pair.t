  $ . "$TESTDIR/../setup"

A redundant pair.

flags 00 ff
  $ pair 00 ff
  $ ubtool printenv -c pair.config
  a=1

flags 01 00
  $ pair 01 00
  $ ubtool printenv -c pair.config
  a=1

flags 07 07
  $ pair 07 07
  $ ubtool printenv -c pair.config
  a=1

flags ff fe
  $ pair ff fe
  $ ubtool printenv -c pair.config
  a=1

flags 00 00
  $ pair 00 00
  $ ubtool printenv -c pair.config
  a=1

flags ff ff
  $ pair ff ff
  $ ubtool printenv -c pair.config
  a=1

flags ff 00
  $ pair ff 00
  $ ubtool printenv -c pair.config
  a=2

flags 00 01
  $ pair 00 01
  $ ubtool printenv -c pair.config
  a=2

flags fe ff
  $ pair fe ff
  $ ubtool printenv -c pair.config
  a=2

flags 01 ff
  $ pair 01 ff
  $ ubtool printenv -c pair.config
  a=2

the smallest pair
  $ bytes '8d ef 02 d2 00 00' >first
  $ cp first second
  $ printf 'first 0 6\nsecond 0 6\n' >smallest.config
  $ ubtool printenv -c smallest.config

the smallest pair has no room
  $ ubtool setenv -c smallest.config a 1
  ! ubtool: environment is too large
  [1]

the smallest pair, changed
  $ ubtool setenv -c smallest.config a
  $ hex second
  8d ef 02 d2 01 00

a change of a pair
  $ pair ff 00
  $ ubtool setenv -c pair.config a 3
  $ hex first
  55 d2 1c 46 01 61 3d 33 00 00

a change of a pair, the second copy
  $ hex second
  62 b8 de 47 00 61 3d 32 00 00

the flag after 255
  $ pair fe ff
  $ ubtool setenv -c pair.config a 3
  $ hex first
  55 d2 1c 46 00 61 3d 33 00 00
  $ ubtool printenv -c pair.config
  a=3

the same value is written again
  $ ubtool setenv -c pair.config a 3
  $ hex second
  55 d2 1c 46 01 61 3d 33 00 00

  $ pair fd fc

the first of five changes in turn
  $ cp first before
  $ ubtool setenv -c pair.config a 1
  $ cmp first before
  $ od -An -tu1 -j4 -N1 second
   254
  $ ubtool printenv -c pair.config
  a=1

the second of five changes in turn
  $ cp second before
  $ ubtool setenv -c pair.config a 2
  $ cmp second before
  $ od -An -tu1 -j4 -N1 first
   255
  $ ubtool printenv -c pair.config
  a=2

the third of five changes in turn
  $ cp first before
  $ ubtool setenv -c pair.config a 3
  $ cmp first before
  $ od -An -tu1 -j4 -N1 second
     0
  $ ubtool printenv -c pair.config
  a=3

the fourth of five changes in turn
  $ cp second before
  $ ubtool setenv -c pair.config a 4
  $ cmp second before
  $ od -An -tu1 -j4 -N1 first
     1
  $ ubtool printenv -c pair.config
  a=4

the fifth of five changes in turn
  $ cp first before
  $ ubtool setenv -c pair.config a 5
  $ cmp first before
  $ od -An -tu1 -j4 -N1 second
     2
  $ ubtool printenv -c pair.config
  a=5

a first copy with a wrong checksum
  $ bytes '3b 06 98 45 09 61 3d 31 00 01' >first
  $ bytes "$second" >second
  $ ubtool printenv -c pair.config
  a=2

it is written anew
  $ ubtool setenv -c pair.config a 3
  $ hex first
  55 d2 1c 46 01 61 3d 33 00 00

a second copy with a wrong checksum
  $ pair 00 01
  $ printf '\x01' | dd of=second bs=1 seek=9 conv=notrunc status=none
  $ ubtool printenv -c pair.config
  a=1

no copy with a right checksum
  $ printf '\x01' | dd of=first bs=1 seek=9 conv=notrunc status=none
  $ ubtool printenv -c pair.config
  ! ubtool: no image with a right CRC
  [1]

no copy to change
  $ ubtool setenv -c pair.config a 3
  ! ubtool: no image with a right CRC
  [1]

a current copy with faulty data
  $ bytes '3b 06 98 45 00 61 3d 31 00 00' >first
  $ bytes 'ec 07 84 2b 01 61 3d 31 01 01' >second
  $ ubtool printenv -c pair.config
  ! ubtool: image is not terminated
  [1]

a big-endian pair
  $ bytes '45 98 06 3b ff 61 3d 31 00 00' >first
  $ bytes '47 de b8 62 00 61 3d 32 00 00' >second
  $ ubtool setenv --big-endian -c pair.config a 3
  $ hex first
  46 1c d2 55 01 61 3d 33 00 00

a big-endian pair, the second copy
  $ hex second
  47 de b8 62 00 61 3d 32 00 00

a pair in one file
  $ { bytes "$first" && bytes "$second" && printf behind; } >both
  $ printf 'both 0 a\nboth 10 a\n' >both.config
  $ ubtool setenv -c both.config a 3
  $ hex both
  55 d2 1c 46 01 61 3d 33 00 00 62 b8 de 47 00 61 3d 32 00 00 62 65 68 69 6e 64

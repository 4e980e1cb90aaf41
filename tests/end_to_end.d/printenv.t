  $ . "$TESTDIR/../setup"

printenv on a single image.

  $ bytes "$single" >e; printf 'e 0 9\n' >config

An environment in an image of 16 bytes at offset 8.


an empty environment at an offset
  $ { printf 'before: ' && bytes '6f c6 d5 7b 00 00 00 00 00 00 00 00 00 00 00 00' && printf ' :behind'; } >at
  $ printf 'at 010 10\n' >at.config
  $ ubtool printenv -c at.config

its first variable
  $ ubtool setenv -c at.config b 2

its second variable
  $ ubtool setenv -c at.config a 1

all variables, in their order
  $ ubtool printenv -c at.config
  b=2
  a=1

some variables, in the order asked
  $ ubtool printenv -c at.config a b a
  a=1
  b=2
  a=1

a value alone
  $ ubtool printenv -c at.config -n a
  1

a value alone, its option first
  $ ubtool printenv -n -c at.config b
  2

a missing variable
  $ ubtool printenv -c at.config z a
  a=1
  ! ## Error: "z" not defined
  [1]

several missing variables
  $ ubtool printenv -c at.config z '' a y
  a=1
  ! ## Error: "z" not defined
  ! ## Error: "" not defined
  ! ## Error: "y" not defined
  [1]

a missing value
  $ ubtool printenv -c at.config -n z
  ! ## Error: "z" not defined
  [1]

a missing variable of a single image
  $ ubtool printenv -c config b a
  a=1
  ! ## Error: "b" not defined
  [1]

a missing variable with a newline in its name, as it was given
  $ ubtool printenv -c config $'x\ny z'
  ! ## Error: "x
  ! y z" not defined
  [1]

the bytes around the image
  $ head -c 8 at; tail -c 8 at
  before:  :behind (no-eol)

the size of the file
  $ stat -c %s at
  32

a big-endian image
  $ bytes '45 98 06 3b 61 3d 31 00 00' >big
  $ printf 'big 0 9\n' >big.config
  $ ubtool printenv --big-endian -c big.config
  a=1

a big-endian image, read as little-endian
  $ ubtool printenv -c big.config
  ! ubtool: no image with a right CRC
  [1]

a little-endian image, read as big-endian
  $ ubtool printenv -c config --big-endian
  ! ubtool: no image with a right CRC
  [1]

an image with filling
  $ bytes 'c4 49 4f 7f 61 3d 31 00 00 ff ff ff' >filled
  $ printf 'filled 0 c\n' >filled.config
  $ ubtool printenv -c filled.config
  a=1

a value that is no text, alone
  $ bytes '71 bd a9 de 61 3d ff 00 00' >bare; printf 'bare 0 9\n' >bare.config
  $ ubtool printenv -c bare.config -n a
  \xff (esc)

data without an end
  $ bytes 'ec 07 84 2b 61 3d 31 01 01' >bad
  $ printf 'bad 0 9\n' >bad.config
  $ ubtool printenv -c bad.config
  ! ubtool: image is not terminated
  [1]

an entry without a name
  $ bytes '77 5e 10 6a 3d 61 00 00' >bad
  $ printf 'bad 0 8\n' >bad.config
  $ ubtool printenv -c bad.config
  ! ubtool: image entry at 0 has no name
  [1]

an entry without a name, changed
  $ ubtool setenv -c bad.config a 1
  ! ubtool: image entry at 0 has no name
  [1]

the faulty image
  $ hex bad
  77 5e 10 6a 3d 61 00 00

a wrong checksum
  $ bytes '3b 06 98 45 61 3d 31 00 01' >bad
  $ printf 'bad 0 9\n' >bad.config
  $ ubtool printenv -c bad.config
  ! ubtool: no image with a right CRC
  [1]

a wrong checksum, changed
  $ ubtool setenv -c bad.config a 2
  ! ubtool: no image with a right CRC
  [1]

the image with a wrong checksum
  $ hex bad
  3b 06 98 45 61 3d 31 00 01

names that do not ascend are printed in their order
  $ printf 'c=1\na=2\nb=3\n' | lines_image order
  $ ubtool printenv -c order.config
  c=1
  a=2
  b=3

and one that is there twice, in its first place with its last value
  $ printf 'c=1\na=2\nc=3\nb=4\n' | lines_image twice
  $ ubtool printenv -c twice.config
  c=3
  a=2
  b=4

also if it is one of many that are asked for
  $ ubtool printenv -c twice.config b c a z c
  b=4
  c=3
  a=2
  c=3
  ! ## Error: "z" not defined
  [1]

  $ . "$TESTDIR/../setup"

New images of texts.

a new image
  $ printf 'a=1\n' >new.txt
  $ ubtool image --size 9 -o new.img new.txt
  $ hex new.img
  3b 06 98 45 61 3d 31 00 00

a new image, big-endian
  $ ubtool image --size 0x9 --big-endian -o big.img new.txt
  $ hex big.img
  45 98 06 3b 61 3d 31 00 00

a new copy of a pair
  $ ubtool image --redundant --size 10 -o copy.img new.txt
  $ hex copy.img
  3b 06 98 45 01 61 3d 31 00 00

a new image, printed
  $ ubtool printenv -i new.img
  a=1

a new image, written
  $ ubtool image --size 64 --fill 0x20 --output filled.img new.txt

the free bytes of a new image
  $ tail -c 55 filled.img | tr -d ' ' | wc -c
  0

a new image with free bytes, printed
  $ ubtool printenv -i filled.img
  a=1

a new image without variables
  $ : >none.txt
  $ ubtool image --size 6 -o none.img none.txt
  $ ubtool printenv -i none.img

the largest new image
  $ ubtool image --size 1048576 -o largest.img new.txt

the size of the largest new image
  $ wc -c <largest.img
  1048576
  $ rm largest.img

a new image of 0 bytes
  $ ubtool image -o no.img --size 0 new.txt
  ! ubtool: wrong image size
  [1]
  $ [ ! -e no.img ]

a new image of 4 bytes
  $ ubtool image -o no.img --size 4 new.txt
  ! ubtool: wrong image size
  [1]
  $ [ ! -e no.img ]

a new image of 1048577 bytes
  $ ubtool image -o no.img --size 1048577 new.txt
  ! ubtool: wrong image size
  [1]
  $ [ ! -e no.img ]

a new image of 4294967295 bytes
  $ ubtool image -o no.img --size 4294967295 new.txt
  ! ubtool: wrong image size
  [1]
  $ [ ! -e no.img ]

a new image that is too small
  $ ubtool image -o no.img --size 8 new.txt
  ! ubtool: environment is too large
  [1]
  $ [ ! -e no.img ]

a new image of a missing text
  $ ubtool image -o no.img --size 64 missing
  ! ubtool: cannot read missing
  [1]
  $ [ ! -e no.img ]

a new image of a faulty text
  $ ubtool image -o no.img --size 64 <(echo x)
  ! ubtool: text line 1 has no =
  [1]
  $ [ ! -e no.img ]

a new image in no folder
  $ ubtool image -o no/no.img --size 64 new.txt
  ! ubtool: cannot write no/no.img
  [1]
  $ [ ! -e no/no.img ]

a new image over there.img
  $ cp new.img there.img
  $ ln -s nothing dangling.img
  $ ubtool image --size 64 -o there.img new.txt
  ! ubtool: there.img exists already
  [1]

a new image over dangling.img
  $ ubtool image --size 64 -o dangling.img new.txt
  ! ubtool: dangling.img exists already
  [1]

a new image over .
  $ ubtool image --size 64 -o . new.txt
  ! ubtool: . exists already
  [1]

a new image over /dev/null
  $ ubtool image --size 64 -o /dev/null new.txt
  ! ubtool: /dev/null exists already
  [1]

a file that was there
  $ hex there.img
  3b 06 98 45 61 3d 31 00 00

a link that was there
  $ readlink dangling.img
  nothing

a size before a text
  $ ubtool image -o no.img --size 1 <(echo x)
  ! ubtool: wrong image size
  [1]
  $ [ ! -e no.img ]

Words of new images:

a size in letters
  $ ubtool image --size 4k -o no.img new.txt
  ! ubtool: --size needs a number of bytes, decimal or after 0x
  [2]

a size of 33 bits
  $ ubtool image --size 0x100000000 -o no.img new.txt
  ! ubtool: --size needs a number of bytes, decimal or after 0x
  [2]

a fill of 9 bits
  $ ubtool image --size 64 --fill 256 -o no.img new.txt
  ! ubtool: --fill needs a byte, 0 to 255 or 0x0 to 0xff
  [2]

a new image without its size
  $ ubtool image -o no.img new.txt
  ! error: the following required arguments were not provided:
  !   --size <N>
  !
  ! Usage: ubtool image --size <N> --output <FILE> <TEXT>
  !
  ! For more information, try '--help'.
  [2]

a new image without its text
  $ ubtool image --size 64 -o no.img
  ! error: the following required arguments were not provided:
  !   <TEXT>
  !
  ! Usage: ubtool image --size <N> --output <FILE> <TEXT>
  !
  ! For more information, try '--help'.
  [2]

no image of wrong words
  $ [ ! -e no.img ]

  $ . "$TESTDIR/../setup"

An image on standard input.

  $ bytes "$single" >image

one variable
  $ ubtool <image
  a=1

an empty environment
  $ bytes '1c df 44 21 00 00 00 00' >empty
  $ ubtool <empty

the smallest image
  $ bytes '8d ef 02 d2 00' >smallest
  $ ubtool <smallest

filling that is not zero
  $ bytes 'c4 49 4f 7f 61 3d 31 00 00 ff ff ff' >filled
  $ ubtool <filled
  a=1

a value that is no text
  $ bytes '71 bd a9 de 61 3d ff 00 00' >bare
  $ ubtool <bare
  a=\xff (esc)

an image of 0 bytes
  $ head -c 0 image >short
  $ ubtool <short
  ! ubtool: wrong image size
  [1]

an image of 1 bytes
  $ head -c 1 image >short
  $ ubtool <short
  ! ubtool: wrong image size
  [1]

an image of 2 bytes
  $ head -c 2 image >short
  $ ubtool <short
  ! ubtool: wrong image size
  [1]

an image of 3 bytes
  $ head -c 3 image >short
  $ ubtool <short
  ! ubtool: wrong image size
  [1]

an image of 4 bytes
  $ head -c 4 image >short
  $ ubtool <short
  ! ubtool: wrong image size
  [1]

the first 5 bytes of an image
  $ head -c 5 image >short
  $ ubtool <short
  ! ubtool: no image with a right CRC
  [1]

the first 6 bytes of an image
  $ head -c 6 image >short
  $ ubtool <short
  ! ubtool: no image with a right CRC
  [1]

the first 7 bytes of an image
  $ head -c 7 image >short
  $ ubtool <short
  ! ubtool: no image with a right CRC
  [1]

the first 8 bytes of an image
  $ head -c 8 image >short
  $ ubtool <short
  ! ubtool: no image with a right CRC
  [1]

the largest image
  $ { bytes '01 16 b9 18' && head -c 1048572 /dev/zero; } >largest
  $ ubtool <largest

an image that is too long
  $ head -c 1048577 /dev/zero >long
  $ ubtool <long
  ! ubtool: wrong image size
  [1]

an input without an end
  $ ubtool </dev/zero
  ! ubtool: wrong image size
  [1]

a wrong checksum
  $ bytes '3b 06 98 45 61 3d 31 00 01' >bad
  $ ubtool <bad
  ! ubtool: no image with a right CRC
  [1]

data without an end
  $ bytes 'ec 07 84 2b 61 3d 31 01 01' >bad
  $ ubtool <bad
  ! ubtool: image is not terminated
  [1]

an entry without =
  $ bytes '05 78 54 b6 61 00 00' >bad
  $ ubtool <bad
  ! ubtool: image entry at 0 has no =
  [1]

an entry without a name
  $ bytes 'a8 77 68 07 61 3d 00 3d 00 00' >bad
  $ ubtool <bad
  ! ubtool: image entry at 3 has no name
  [1]

an input that cannot be read
  $ ubtool <.
  ! ubtool: cannot read standard input
  [1]

an input that is closed
  $ ubtool <&-
  ! ubtool: cannot read standard input
  [1]

an output that is full
  $ ubtool <image >/dev/full
  ! ubtool: output failed
  [1]

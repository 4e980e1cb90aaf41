  $ . "$TESTDIR/../setup"

The configuration, and faults of files.

one line
  $ bytes "$single" >e
  $ printf 'e 0 9\n' >tried.config
  $ ubtool printenv -c tried.config
  a=1

no newline at its end
  $ printf 'e 0 9' >tried.config
  $ ubtool printenv -c tried.config
  a=1

comments and empty lines
  $ printf '\n# device offset size\n \t# x\n\t \r\ne 0 9\n' >tried.config
  $ ubtool printenv -c tried.config
  a=1

tabs, blanks and a carriage return
  $ printf '\te\t 0 \t9 \r\n' >tried.config
  $ ubtool printenv -c tried.config
  a=1

sector words
  $ printf 'e 0 9 200 2\n' >tried.config
  $ ubtool printenv -c tried.config
  a=1

sector words that are no numbers
  $ printf 'e 0 9 x\n' >tried.config
  $ ubtool printenv -c tried.config
  a=1

hexadecimal numbers
  $ printf 'e 0x0 0x9\n' >tried.config
  $ ubtool printenv -c tried.config
  a=1

an octal offset
  $ printf 'e 00 9\n' >tried.config
  $ ubtool printenv -c tried.config
  a=1

capital digits
  $ printf 'e 0X0 0X9\n' >tried.config
  $ ubtool printenv -c tried.config
  a=1

a whole path
  $ printf "$PWD/e 0 9\n" >tried.config
  $ ubtool printenv -c tried.config
  a=1

a third line is not read
  $ bytes '3b 06 98 45 00 61 3d 31 00 00' >copy
  $ printf 'copy 0 A\ncopy 0 a\nx\n' >tried.config
  $ ubtool printenv -c tried.config
  a=1

an empty text
  $ printf '' >tried.config
  $ ubtool printenv -c tried.config
  ! ubtool: config names no place
  [1]

nothing but comments
  $ printf '# e 0 9\n' >tried.config
  $ ubtool printenv -c tried.config
  ! ubtool: config names no place
  [1]

two words
  $ printf 'e 0\n' >tried.config
  $ ubtool printenv -c tried.config
  ! ubtool: config line 1: bad line
  [1]

one word in the second place
  $ printf 'e 0 9\n\ne\n' >tried.config
  $ ubtool printenv -c tried.config
  ! ubtool: config line 3: bad line
  [1]

a device that is no text
  $ printf '\xff 0 9\n' >tried.config
  $ ubtool printenv -c tried.config
  ! ubtool: config line 1: not text
  [1]

a negative offset
  $ printf 'e -1 4000\n' >tried.config
  $ ubtool printenv -c tried.config
  ! ubtool: config line 1: bad number
  [1]

an octal digit too large
  $ printf 'e 08 9\n' >tried.config
  $ ubtool printenv -c tried.config
  ! ubtool: config line 1: bad number
  [1]

an offset without digits
  $ printf 'e 0x 9\n' >tried.config
  $ ubtool printenv -c tried.config
  ! ubtool: config line 1: bad number
  [1]

a size without digits
  $ printf 'e 0 0x\n' >tried.config
  $ ubtool printenv -c tried.config
  ! ubtool: config line 1: bad number
  [1]

a size that is no number
  $ printf 'e 0 9g\n' >tried.config
  $ ubtool printenv -c tried.config
  ! ubtool: config line 1: bad number
  [1]

an offset too large
  $ printf 'e 9223372036854775808 9\n' >tried.config
  $ ubtool printenv -c tried.config
  ! ubtool: config line 1: bad number
  [1]

a size too small
  $ printf 'e 0 4\n' >tried.config
  $ ubtool printenv -c tried.config
  ! ubtool: config line 1: size out of range
  [1]

a size too small for a pair
  $ printf 'e 0 5\ne 0 5\n' >tried.config
  $ ubtool printenv -c tried.config
  ! ubtool: config line 1: size out of range
  [1]

a size too large
  $ printf 'e 0 100001\n' >tried.config
  $ ubtool printenv -c tried.config
  ! ubtool: config line 1: size out of range
  [1]

two sizes
  $ printf 'e 0 10\ne 0 20\n' >tried.config
  $ ubtool printenv -c tried.config
  ! ubtool: config sizes differ
  [1]

Faults of files:

no configuration
  $ printf 'e 0 9\n' >config
  $ ubtool printenv -c missing
  ! ubtool: cannot read missing
  [1]

a configuration that is a folder
  $ ubtool printenv -c .
  ! ubtool: cannot read .
  [1]

a path that is empty
  $ ubtool printenv -c ''
  ! ubtool: cannot read \e
  [1]

a path of odd bytes
  $ ubtool printenv -c $'a b\\c\n\xc3\xa9'
  ! ubtool: cannot read a\x20b\\c\n\xc3\xa9
  [1]

a configuration called -
  $ ubtool printenv -c -
  ! ubtool: cannot read -
  [1]

the size of the largest configuration
  $ { printf 'e 0 9\n#' && head -c 1048569 /dev/zero; } >large
  $ stat -c %s large
  1048576

a configuration of 1,048,576 bytes
  $ ubtool printenv -c large
  a=1

a configuration of 1,048,577 bytes
  $ printf 'x' >>large
  $ ubtool printenv -c large
  ! ubtool: large is too long
  [1]

a configuration without an end
  $ ubtool printenv -c /dev/zero
  ! ubtool: /dev/zero is too long
  [1]

a script of 1,048,577 bytes
  $ ubtool setenv -c config -s large
  ! ubtool: large is too long
  [1]

no script
  $ ubtool setenv -c config -s missing
  ! ubtool: cannot read missing
  [1]

a script that is a folder
  $ ubtool setenv -c config -s .
  ! ubtool: cannot read .
  [1]

a script called -
  $ ubtool setenv -c config -s -
  ! ubtool: cannot read -
  [1]

no image
  $ printf 'missing 0 9\n' >tried.config
  $ ubtool printenv -c tried.config
  ! ubtool: cannot read missing
  [1]

an image that is a folder
  $ printf '. 0 9\n' >tried.config
  $ ubtool printenv -c tried.config
  ! ubtool: cannot read .
  [1]

an image that ends too early
  $ printf 'e 0 a\n' >tried.config
  $ ubtool printenv -c tried.config
  ! ubtool: e is too short
  [1]

an offset too far
  $ printf 'e 1 9\n' >tried.config
  $ ubtool printenv -c tried.config
  ! ubtool: e is too short
  [1]

an offset after the end
  $ printf 'e 4096 9\n' >tried.config
  $ ubtool printenv -c tried.config
  ! ubtool: e is too short
  [1]

no second copy
  $ printf 'copy 0 a\nmissing 0 a\n' >tried.config
  $ ubtool printenv -c tried.config
  ! ubtool: cannot read missing
  [1]

a second copy that ends too early
  $ printf 'copy 0 a\ne 0 a\n' >tried.config
  $ ubtool printenv -c tried.config
  ! ubtool: e is too short
  [1]

an image of zero bytes
  $ printf '/dev/zero 0 9\n' >tried.config
  $ ubtool printenv -c tried.config
  ! ubtool: no image with a right CRC
  [1]

nothing was written
  $ hex e
  3b 06 98 45 61 3d 31 00 00

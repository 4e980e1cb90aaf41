  $ . "$TESTDIR/../setup"
  $ . "$repository/tests/compare.d/setup"

The same answers: bytes of mkenvimage.

  $ printf 'b=2\na=1 2\nc=x=y\n' >variables; { printf 'c\n' && cat variables; } >changes

a single image, byte by byte
  $ printf 'c=x=y\n' | mkenvimage -s 64 -p 0 -o image -; printf 'image 0 40\n' >image.config
  $ ours setenv -c image.config -s changes
  $ mkenvimage -s 64 -p 0 -o wanted variables
  $ cmp image wanted

a big-endian image, byte by byte
  $ : | mkenvimage -b -s 64 -p 0 -o image -
  $ ours setenv --big-endian -c image.config -s changes
  $ mkenvimage -b -s 64 -p 0 -o wanted variables
  $ cmp image wanted
  $ ours printenv --big-endian -c image.config | cmp - variables

a copy of a pair, byte by byte
  $ : | mkenvimage -r -s 64 -p 0 -o first -; printf '\0' | dd of=first bs=1 seek=4 conv=notrunc status=none; cp first second
  $ printf 'first 0 40\nsecond 0 40\n' >pair.config
  $ ours setenv -c pair.config -s changes
  $ mkenvimage -r -s 64 -p 0 -o wanted variables
  $ cmp second wanted

a value of 16 bytes in an image of 24
  $ : | mkenvimage -s 24 -p 0 -o image -; printf 'image 0 18\n' >image.config
  $ ours setenv -c image.config a 1234567890123456
  $ printf 'a=1234567890123456\n' | mkenvimage -s 24 -p 0 -o wanted -
  $ cmp image wanted

a value of 17 bytes in an image of 24, which both refuse
  $ ours setenv -c image.config a 12345678901234567
  ! ubtool: environment is too large
  [1]
  $ printf 'a=12345678901234567\n' | mkenvimage -s 24 -p 0 -o wanted - 2>/dev/null
  [1]

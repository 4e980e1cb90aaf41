  $ . "$TESTDIR/../setup"

What a configuration or an image is.

  $ copy() {
  >     printf '%s\n' "copy $1" "path $2" 'offset 0x0' "size $3" "${@:4}"
  > }

a single image
  $ bytes "$single" >whole.img
  $ ubtool inspect -i whole.img
  copy 1
  path whole.img
  offset 0x0
  size 0x9
  stored 0x4598063b
  checksum 0x4598063b
  right yes
  current yes
  variables 1
  used 5
  free 0

a single image, by its configuration
  $ places whole.img >whole.config
  $ ubtool inspect -c whole.config
  copy 1
  path whole.img
  offset 0x0
  size 0x9
  stored 0x4598063b
  checksum 0x4598063b
  right yes
  current yes
  variables 1
  used 5
  free 0

a pair, of which the flags tell
  $ bytes "$first" >one.img
  $ bytes "$second" >two.img
  $ ubtool inspect -i one.img --second two.img
  copy 1
  path one.img
  offset 0x0
  size 0xa
  flag 255
  stored 0x4598063b
  checksum 0x4598063b
  right yes
  current no
  copy 2
  path two.img
  offset 0x0
  size 0xa
  flag 0
  stored 0x47deb862
  checksum 0x47deb862
  right yes
  current yes
  because flag
  variables 1
  used 5
  free 0

a pair of equal flags
  $ ubtool inspect -i one.img --second one.img
  copy 1
  path one.img
  offset 0x0
  size 0xa
  flag 255
  stored 0x4598063b
  checksum 0x4598063b
  right yes
  current yes
  copy 2
  path one.img
  offset 0x0
  size 0xa
  flag 255
  stored 0x4598063b
  checksum 0x4598063b
  right yes
  current no
  because order
  variables 1
  used 5
  free 0

a pair of which one copy is wrong
  $ bytes "$second" | tr 2 3 >bad.img
  $ ubtool inspect -i bad.img --second one.img
  copy 1
  path bad.img
  offset 0x0
  size 0xa
  flag 0
  stored 0x47deb862
  checksum 0x461cd255
  right no
  current no
  copy 2
  path one.img
  offset 0x0
  size 0xa
  flag 255
  stored 0x4598063b
  checksum 0x4598063b
  right yes
  current yes
  because checksum
  variables 1
  used 5
  free 0

As what bytes would be right:

a copy of a pair that is taken for a single image
  $ guess() {
  >     printf '%s\n' "guess $1 $2" "config $3 $4 $5"
  > }
  $ ubtool inspect -i one.img
  copy 1
  path one.img
  offset 0x0
  size 0xa
  stored 0x4598063b
  checksum 0xd6bcfb49
  right no
  current no
  guess copy little
  config one.img 0x0 0xa
  [1]

an image in a longer file
  $ { bytes "$single" && head -c 503 /dev/zero && bytes "$first"; } >parts.img
  $ ubtool inspect -i parts.img
  copy 1
  path parts.img
  offset 0x0
  size 0x20a
  stored 0x4598063b
  checksum 0xab6f9154
  right no
  current no
  guess single little
  config parts.img 0x0 0x9
  guess copy little
  config parts.img 0x200 0xa
  [1]

the other byte order
  $ bytes '45 98 06 3b 61 3d 31 00 00' >big.img
  $ ubtool inspect -i big.img
  copy 1
  path big.img
  offset 0x0
  size 0x9
  stored 0x3b069845
  checksum 0x4598063b
  right no
  current no
  guess single big
  config big.img 0x0 0x9
  [1]

the other byte order, named
  $ ubtool inspect -i big.img --big-endian
  copy 1
  path big.img
  offset 0x0
  size 0x9
  stored 0x4598063b
  checksum 0x4598063b
  right yes
  current yes
  variables 1
  used 5
  free 0

zeros
  $ head -c 4096 /dev/zero >zeros.img
  $ ubtool inspect -i zeros.img
  copy 1
  path zeros.img
  offset 0x0
  size 0x1000
  stored 0x0
  checksum 0x603b0489
  right no
  current no
  [1]

What cannot be inspected:

a missing image
  $ ubtool inspect -i missing
  ! ubtool: cannot read missing
  [1]

an image that is too short
  $ ubtool inspect -i /dev/null
  ! ubtool: wrong image size
  [1]

a configuration with a fault
  $ ubtool inspect -c <(echo x)
  ! ubtool: config line 1: bad line
  [1]

an image and a configuration
  $ ubtool inspect -i whole.img -c whole.config
  ! ubtool: -i takes no -c
  [2]

a name
  $ ubtool inspect a
  ! error: unexpected argument 'a' found
  !
  ! Usage: ubtool inspect [OPTIONS]
  !
  ! For more information, try '--help'.
  [2]

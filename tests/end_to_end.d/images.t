  $ . "$TESTDIR/../setup"

Images that are whole files, in place of a configuration.

an image
  $ bytes "$single" >e
  $ ubtool printenv -i e
  a=1

an image, by the long option
  $ ubtool printenv --image=e -n a
  1

an image, of which one copy is enough
  $ ubtool printenv -i e --one-copy
  a=1

a change of an image
  $ ubtool setenv -i e a 2
  $ hex e
  62 b8 de 47 61 3d 32 00 00

a script for an image
  $ printf 'a=1\n' >changes
  $ ubtool setenv -i e -s changes
  $ hex e
  3b 06 98 45 61 3d 31 00 00

a variable of an image, deleted
  $ ubtool setenv -i e a
  $ hex e
  1d f7 22 c6 00 00 00 00 00

a big-endian image
  $ bytes '45 98 06 3b 61 3d 31 00 00' >big
  $ ubtool printenv -i big --big-endian
  a=1

a change of a big-endian image
  $ ubtool setenv -i big --big-endian a 2
  $ hex big
  47 de b8 62 61 3d 32 00 00

an image of the other byte order
  $ ubtool printenv -i big
  ! ubtool: no image with a right CRC
  [1]

an image is replaced
  $ bytes "$single" >e
  $ chmod 640 e
  $ before=$(stat -c %i e)
  $ ubtool setenv -i e a 2
  $ hex e
  62 b8 de 47 61 3d 32 00 00

an image is replaced, its mode
  $ stat -c %a e
  640

an image is replaced by a new file
  $ [ "$(stat -c %i e)" != "$before" ]

  $ bytes "$single" >e

Sizes of images:

an empty image
  $ : >empty
  $ ubtool printenv -i empty
  ! ubtool: wrong image size
  [1]

no change of an empty image
  $ ubtool setenv -i empty a 1
  ! ubtool: wrong image size
  [1]

an image of 4 bytes
  $ head -c 4 e >tiny
  $ ubtool printenv -i tiny
  ! ubtool: wrong image size
  [1]

an image of 5 bytes
  $ bytes '8d ef 02 d2 00' >tiny
  $ ubtool printenv -i tiny

the size of the largest image
  $ { printf 'a=1\0\0' && head -c 1048567 /dev/zero; } | to_image >large
  $ stat -c %s large
  1048576

an image of 1,048,576 bytes
  $ ubtool printenv -i large
  a=1

an image of 1,048,577 bytes
  $ printf '\0' >>large
  $ ubtool printenv -i large
  ! ubtool: large is too long
  [1]

no change of an image of 1,048,577 bytes
  $ ubtool setenv -i large a 1
  ! ubtool: large is too long
  [1]

an image without an end
  $ ubtool printenv -i /dev/zero
  ! ubtool: /dev/zero is too long
  [1]

no such image
  $ ubtool printenv -i missing
  ! ubtool: cannot read missing
  [1]

an image that is a folder
  $ ubtool printenv -i .
  ! ubtool: cannot read .
  [1]

an image called -
  $ ubtool printenv -i -
  ! ubtool: cannot read -
  [1]

an image beside refusals
  $ hex e
  3b 06 98 45 61 3d 31 00 00

A pair without a configuration:

  $ pair ff 00

a pair of files
  $ pair ff 00
  $ ubtool printenv -i first --second second
  a=2

a pair of files, the other way round
  $ ubtool printenv --second=first -i second
  a=2

a change of a pair of files
  $ ubtool setenv -i first --second second a 3
  $ hex first
  55 d2 1c 46 01 61 3d 33 00 00

a change of a pair of files, the second copy
  $ hex second
  62 b8 de 47 00 61 3d 32 00 00

the next change of a pair of files
  $ ubtool setenv -i first --second second a 1
  $ hex second
  3b 06 98 45 02 61 3d 31 00 00

a pair of files, changed twice
  $ ubtool printenv -i first --second second
  a=1

a copy alone
  $ ubtool printenv -i first
  ! ubtool: no image with a right CRC
  [1]

a single image twice
  $ ubtool printenv -i e --second e
  ! ubtool: no image with a right CRC
  [1]

no second copy
  $ ubtool printenv -i first --second missing
  ! ubtool: cannot read missing
  [1]

no first copy
  $ ubtool printenv -i missing --second first
  ! ubtool: cannot read missing
  [1]

a second copy that is too long
  $ ubtool printenv -i first --second large
  ! ubtool: large is too long
  [1]

two sizes
  $ ubtool printenv -i first --second e
  ! ubtool: image sizes differ
  [1]

two sizes, the second one larger
  $ ubtool printenv -i e --second first
  ! ubtool: image sizes differ
  [1]

no change of two sizes
  $ ubtool setenv -i first --second e a 1
  ! ubtool: image sizes differ
  [1]

a copy in both places
  $ ubtool setenv -i second --second second a 1
  ! ubtool: the two copies overlap
  $ pair ff 00

Calls of images without a configuration:

  $ pair ff 00

printenv, of an image
  $ printf 'bootcmd=probe && setenv a 2\na=1\n' | lines_image boot
  $ cp boot boot.before
  $ printf 'probe\n' >probe.list
  $ tail -c +5 boot | to_image_of little 01 >copy_1
  $ tail -c +5 boot | to_image_of little 00 >copy_0
  $ ubtool printenv -i boot
  bootcmd=probe && setenv a 2
  a=1

printenv, of a pair
  $ ubtool printenv -i copy_0 --second copy_1
  bootcmd=probe && setenv a 2
  a=1

printenv -n a, of an image
  $ ubtool printenv -n a -i boot
  1

printenv -n a, of a pair
  $ ubtool printenv -n a -i copy_0 --second copy_1
  1

rehearse -d probe.list, of an image
  $ ubtool rehearse -d probe.list -i boot
  run 0
  dev 0 probe
  var a=2
  var bootcmd=probe && setenv a 2
  end 0
  run 1
  dev 1 probe
  var a=1
  var bootcmd=probe && setenv a 2
  end 1
  done

rehearse -d probe.list, of a pair
  $ ubtool rehearse -d probe.list -i copy_0 --second copy_1
  run 0
  dev 0 probe
  var a=2
  var bootcmd=probe && setenv a 2
  end 0
  run 1
  dev 1 probe
  var a=1
  var bootcmd=probe && setenv a 2
  end 1
  done

rehearse -d probe.list --word 1 a, of an image
  $ ubtool rehearse -d probe.list --word 1 a -i boot
  run 1
  dev 1 probe
  var a=1
  end 1
  done

rehearse -d probe.list --word 1 a, of a pair
  $ ubtool rehearse -d probe.list --word 1 a -i copy_0 --second copy_1
  run 1
  dev 1 probe
  var a=1
  end 1
  done

endings -d probe.list, of an image
  $ ubtool endings -d probe.list -i boot
  ends 1 first 0 fewest 0 0 end 0
  ends 1 first 1 fewest 1 1 end 1
  fails probe
  all 2 states 1

endings -d probe.list, of a pair
  $ ubtool endings -d probe.list -i copy_0 --second copy_1
  ends 1 first 0 fewest 0 0 end 0
  ends 1 first 1 fewest 1 1 end 1
  fails probe
  all 2 states 1

endings -d probe.list --flow, of an image
  $ ubtool endings -d probe.list --flow -i boot
  1 ask probe success 3 failure 2
  2 ends end 1
  3 ends end 0

endings -d probe.list --flow, of a pair
  $ ubtool endings -d probe.list --flow -i copy_0 --second copy_1
  1 ask probe success 3 failure 2
  2 ends end 1
  3 ends end 0

causes -d probe.list, of an image
  $ ubtool causes -d probe.list -i boot
  cause 0 end 0
  cause 1 end 1
  fails probe

causes -d probe.list, of a pair
  $ ubtool causes -d probe.list -i copy_0 --second copy_1
  cause 0 end 0
  cause 1 end 1
  fails probe

causes -d probe.list --check, of an image
  $ ubtool causes -d probe.list --check -i boot
  cause 0 end 0
  cause 1 end 1
  fails probe
  [1]

causes -d probe.list --check, of a pair
  $ ubtool causes -d probe.list --check -i copy_0 --second copy_1
  cause 0 end 0
  cause 1 end 1
  fails probe
  [1]

an image is only read
  $ cmp -s boot boot.before

Words of images:

printenv, of an image and a configuration
  $ ubtool printenv -i e -c config
  ! ubtool: -i takes no -c
  [2]

printenv, of a second copy alone
  $ ubtool printenv --second e
  ! ubtool: --second needs -i
  [2]

printenv, of a second copy and a configuration
  $ ubtool printenv -c config --second e
  ! ubtool: --second needs -i
  [2]

setenv a 1, of an image and a configuration
  $ ubtool setenv a 1 -i e -c config
  ! ubtool: -i takes no -c
  [2]

setenv a 1, of a second copy alone
  $ ubtool setenv a 1 --second e
  ! ubtool: --second needs -i
  [2]

setenv a 1, of a second copy and a configuration
  $ ubtool setenv a 1 -c config --second e
  ! ubtool: --second needs -i
  [2]

setenv -s changes, of an image and a configuration
  $ ubtool setenv -s changes -i e -c config
  ! ubtool: -i takes no -c
  [2]

setenv -s changes, of a second copy alone
  $ ubtool setenv -s changes --second e
  ! ubtool: --second needs -i
  [2]

setenv -s changes, of a second copy and a configuration
  $ ubtool setenv -s changes -c config --second e
  ! ubtool: --second needs -i
  [2]

rehearse -d probe.list, of an image and a configuration
  $ ubtool rehearse -d probe.list -i e -c config
  ! ubtool: -i takes no -c
  [2]

rehearse -d probe.list, of a second copy alone
  $ ubtool rehearse -d probe.list --second e
  ! ubtool: --second needs -i
  [2]

rehearse -d probe.list, of a second copy and a configuration
  $ ubtool rehearse -d probe.list -c config --second e
  ! ubtool: --second needs -i
  [2]

endings -d probe.list, of an image and a configuration
  $ ubtool endings -d probe.list -i e -c config
  ! ubtool: -i takes no -c
  [2]

endings -d probe.list, of a second copy alone
  $ ubtool endings -d probe.list --second e
  ! ubtool: --second needs -i
  [2]

endings -d probe.list, of a second copy and a configuration
  $ ubtool endings -d probe.list -c config --second e
  ! ubtool: --second needs -i
  [2]

causes -d probe.list, of an image and a configuration
  $ ubtool causes -d probe.list -i e -c config
  ! ubtool: -i takes no -c
  [2]

causes -d probe.list, of a second copy alone
  $ ubtool causes -d probe.list --second e
  ! ubtool: --second needs -i
  [2]

causes -d probe.list, of a second copy and a configuration
  $ ubtool causes -d probe.list -c config --second e
  ! ubtool: --second needs -i
  [2]

printenv, of two files and one copy
  $ ubtool printenv -i first --second second --one-copy
  ! ubtool: --second takes no --one-copy
  [2]

setenv a 1, of two files and one copy
  $ ubtool setenv a 1 -i first --second second --one-copy
  ! ubtool: --second takes no --one-copy
  [2]

an image and a configuration, changed by no name
  $ ubtool setenv -i e -c config
  ! ubtool: setenv needs a NAME
  [2]

an image without its file
  $ ubtool printenv -i
  ! error: a value is required for '--image <FILE>' but none was supplied
  !
  ! For more information, try '--help'.
  [2]

an image twice
  $ ubtool printenv -i e -i e
  ! error: the argument '--image <FILE>' cannot be used multiple times
  !
  ! Usage: ubtool printenv [OPTIONS] [NAME]...
  !
  ! For more information, try '--help'.
  [2]

an image under such words
  $ hex e
  3b 06 98 45 61 3d 31 00 00

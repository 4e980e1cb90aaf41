  $ . "$TESTDIR/../setup"
  $ . "$repository/tests/compare.d/setup"

The same answers: what is refused, and the configuration.

  $ printf 'a=1\n' | mkenvimage -s 32 -o image -; cp image kept; printf 'image 0 20\n' >image.config
  $ refused() { "$@" >/dev/null 2>&1 && echo "status 0"; cmp image kept; }

a change that is refused: a=b 1
  $ refused theirs setenv -c image.config a=b 1
  $ refused ours setenv -c image.config a=b 1

a change that is refused: a=b
  $ refused theirs setenv -c image.config a=b
  $ refused ours setenv -c image.config a=b

a change that is refused: a 12345678901234567890123456789
  $ refused theirs setenv -c image.config a 12345678901234567890123456789
  $ refused ours setenv -c image.config a 12345678901234567890123456789

a configuration that is refused: ''
  $ printf '\n' >tried.config
  $ refused theirs printenv -c tried.config
  $ refused ours printenv -c tried.config

a configuration that is refused: '#'
  $ printf '#\n' >tried.config
  $ refused theirs printenv -c tried.config
  $ refused ours printenv -c tried.config

a configuration that is refused: 'image'
  $ printf 'image\n' >tried.config
  $ refused theirs printenv -c tried.config
  $ refused ours printenv -c tried.config

a configuration that is refused: 'image 0'
  $ printf 'image 0\n' >tried.config
  $ refused theirs printenv -c tried.config
  $ refused ours printenv -c tried.config

a configuration that is refused: 'image -32 20'
  $ printf 'image -32 20\n' >tried.config
  $ refused theirs printenv -c tried.config
  $ refused ours printenv -c tried.config

a configuration that is refused: 'missing 0 20'
  $ printf 'missing 0 20\n' >tried.config
  $ refused theirs printenv -c tried.config
  $ refused ours printenv -c tried.config

a configuration that is refused: 'image 08 20'
  $ printf 'image 08 20\n' >tried.config
  $ refused theirs printenv -c tried.config
  $ refused ours printenv -c tried.config

a configuration that is refused: 'image 0 21'
  $ printf 'image 0 21\n' >tried.config
  $ refused theirs printenv -c tried.config
  $ refused ours printenv -c tried.config

a configuration that is refused: 'image 1 20'
  $ printf 'image 1 20\n' >tried.config
  $ refused theirs printenv -c tried.config
  $ refused ours printenv -c tried.config

a configuration that is refused: 'image 0 4'
  $ printf 'image 0 4\n' >tried.config
  $ refused theirs printenv -c tried.config
  $ refused ours printenv -c tried.config

a configuration that is refused: 'image 0 20\nimage 0 21'
  $ printf 'image 0 20\nimage 0 21\n' >tried.config
  $ refused theirs printenv -c tried.config
  $ refused ours printenv -c tried.config

a configuration that is refused: '. 0 20'
  $ printf '. 0 20\n' >tried.config
  $ refused theirs printenv -c tried.config
  $ refused ours printenv -c tried.config

no configuration
  $ refused theirs printenv -c missing
  $ refused ours printenv -c missing

a configuration: 'image 0 20'
  $ printf 'image 0 20\n' >tried.config
  $ theirs printenv -c tried.config
  a=1
  $ ours printenv -c tried.config
  a=1

a configuration: 'image 0x0 0x20'
  $ printf 'image 0x0 0x20\n' >tried.config
  $ theirs printenv -c tried.config
  a=1
  $ ours printenv -c tried.config
  a=1

a configuration: 'image 00 20 10 1'
  $ printf 'image 00 20 10 1\n' >tried.config
  $ theirs printenv -c tried.config
  a=1
  $ ours printenv -c tried.config
  a=1

a configuration: '\timage\t0\t0X20'
  $ printf '\timage\t0\t0X20\n' >tried.config
  $ theirs printenv -c tried.config
  a=1
  $ ours printenv -c tried.config
  a=1

a configuration: 'image 0 20\n# image 0 20'
  $ printf 'image 0 20\n# image 0 20\n' >tried.config
  $ theirs printenv -c tried.config
  a=1
  $ ours printenv -c tried.config
  a=1

a configuration: '\n# device offset size\n\n   # x\nimage 0 20'
  $ printf '\n# device offset size\n\n   # x\nimage 0 20\n' >tried.config
  $ theirs printenv -c tried.config
  a=1
  $ ours printenv -c tried.config
  a=1

a configuration: 'image 0 20\n'
  $ printf 'image 0 20\n\n' >tried.config
  $ theirs printenv -c tried.config
  a=1
  $ ours printenv -c tried.config
  a=1

a configuration with a whole path
  $ echo "$PWD/image 0 20" >tried.config
  $ theirs printenv -c tried.config
  a=1
  $ ours printenv -c tried.config
  a=1

  $ printf '%8s' '' | cat - image >shifted

a configuration: 'shifted 8 20'
  $ echo 'shifted 8 20' >tried.config
  $ theirs printenv -c tried.config
  a=1
  $ ours printenv -c tried.config
  a=1

a configuration: 'shifted 0x8 20'
  $ echo 'shifted 0x8 20' >tried.config
  $ theirs printenv -c tried.config
  a=1
  $ ours printenv -c tried.config
  a=1

a configuration: 'shifted 010 20'
  $ echo 'shifted 010 20' >tried.config
  $ theirs printenv -c tried.config
  a=1
  $ ours printenv -c tried.config
  a=1

  $ . "$TESTDIR/../setup"
  $ . "$repository/tests/compare.d/setup"

The same answers: flags and checksums.

  $ printf 'first 0 20\nsecond 0 20\n' >pair.config

flags 0 0
  $ copy first 0 1; copy second 0 2
  $ theirs printenv -c pair.config >wanted
  $ ours printenv -c pair.config | cmp - wanted
  $ theirs setenv -c pair.config a 3; flags >wanted
  $ copy first 0 1; copy second 0 2
  $ ours setenv -c pair.config a 3; flags | cmp - wanted

flags 1 1
  $ copy first 1 1; copy second 1 2
  $ theirs printenv -c pair.config >wanted
  $ ours printenv -c pair.config | cmp - wanted
  $ theirs setenv -c pair.config a 3; flags >wanted
  $ copy first 1 1; copy second 1 2
  $ ours setenv -c pair.config a 3; flags | cmp - wanted

flags 255 255
  $ copy first 255 1; copy second 255 2
  $ theirs printenv -c pair.config >wanted
  $ ours printenv -c pair.config | cmp - wanted
  $ theirs setenv -c pair.config a 3; flags >wanted
  $ copy first 255 1; copy second 255 2
  $ ours setenv -c pair.config a 3; flags | cmp - wanted

flags 0 1
  $ copy first 0 1; copy second 1 2
  $ theirs printenv -c pair.config >wanted
  $ ours printenv -c pair.config | cmp - wanted
  $ theirs setenv -c pair.config a 3; flags >wanted
  $ copy first 0 1; copy second 1 2
  $ ours setenv -c pair.config a 3; flags | cmp - wanted

flags 1 0
  $ copy first 1 1; copy second 0 2
  $ theirs printenv -c pair.config >wanted
  $ ours printenv -c pair.config | cmp - wanted
  $ theirs setenv -c pair.config a 3; flags >wanted
  $ copy first 1 1; copy second 0 2
  $ ours setenv -c pair.config a 3; flags | cmp - wanted

flags 254 255
  $ copy first 254 1; copy second 255 2
  $ theirs printenv -c pair.config >wanted
  $ ours printenv -c pair.config | cmp - wanted
  $ theirs setenv -c pair.config a 3; flags >wanted
  $ copy first 254 1; copy second 255 2
  $ ours setenv -c pair.config a 3; flags | cmp - wanted

flags 255 254
  $ copy first 255 1; copy second 254 2
  $ theirs printenv -c pair.config >wanted
  $ ours printenv -c pair.config | cmp - wanted
  $ theirs setenv -c pair.config a 3; flags >wanted
  $ copy first 255 1; copy second 254 2
  $ ours setenv -c pair.config a 3; flags | cmp - wanted

flags 255 0
  $ copy first 255 1; copy second 0 2
  $ theirs printenv -c pair.config >wanted
  $ ours printenv -c pair.config | cmp - wanted
  $ theirs setenv -c pair.config a 3; flags >wanted
  $ copy first 255 1; copy second 0 2
  $ ours setenv -c pair.config a 3; flags | cmp - wanted

flags 0 255
  $ copy first 0 1; copy second 255 2
  $ theirs printenv -c pair.config >wanted
  $ ours printenv -c pair.config | cmp - wanted
  $ theirs setenv -c pair.config a 3; flags >wanted
  $ copy first 0 1; copy second 255 2
  $ ours setenv -c pair.config a 3; flags | cmp - wanted

flags 3 200
  $ copy first 3 1; copy second 200 2
  $ theirs printenv -c pair.config >wanted
  $ ours printenv -c pair.config | cmp - wanted
  $ theirs setenv -c pair.config a 3; flags >wanted
  $ copy first 3 1; copy second 200 2
  $ ours setenv -c pair.config a 3; flags | cmp - wanted

flags 200 3
  $ copy first 200 1; copy second 3 2
  $ theirs printenv -c pair.config >wanted
  $ ours printenv -c pair.config | cmp - wanted
  $ theirs setenv -c pair.config a 3; flags >wanted
  $ copy first 200 1; copy second 3 2
  $ ours setenv -c pair.config a 3; flags | cmp - wanted

a spoiled first copy
  $ copy first 7 1; copy second 7 2; spoil first
  $ theirs printenv -c pair.config >wanted
  $ ours printenv -c pair.config | cmp - wanted
  $ ours setenv -c pair.config a 3; theirs printenv -c pair.config
  a=3
  $ flags | tr ' ' '\n' | sort
  7
  8

a spoiled second copy
  $ copy first 7 1; copy second 7 2; spoil second
  $ theirs printenv -c pair.config >wanted
  $ ours printenv -c pair.config | cmp - wanted
  $ ours setenv -c pair.config a 3; theirs printenv -c pair.config
  a=3
  $ flags | tr ' ' '\n' | sort
  7
  8

  $ . "$TESTDIR/../setup"
  $ . "$repository/tests/compare.d/setup"

The same answers by libubootenv's tools and by ubtool: a single image.

  $ board >variables; mkenvimage -s 0x2000 -o made variables >/dev/null
  $ fresh() { cp made image; }
  $ printf 'image 0x0 0x2000\n' >config

an image of mkenvimage
  $ fresh; sort variables >wanted
  $ theirs printenv -c config | sort | cmp - wanted
  $ ours printenv -c config | sort | cmp - wanted

some variables
  $ theirs printenv -c config z bootcmd motd empty >wanted
  $ ours printenv -c config z bootcmd motd empty | cmp - wanted

the value of bootargs
  $ theirs printenv -c config -n bootargs >wanted
  $ ours printenv -c config -n bootargs >found && cmp found wanted

the value of empty
  $ theirs printenv -c config -n empty >wanted
  $ ours printenv -c config -n empty >found && cmp found wanted

the value of long
  $ theirs printenv -c config -n long >wanted
  $ ours printenv -c config -n long >found && cmp found wanted

the value of findfdt
  $ theirs printenv -c config -n findfdt >wanted
  $ ours printenv -c config -n findfdt >found && cmp found wanted

the value of motd
  $ theirs printenv -c config -n motd >wanted
  $ ours printenv -c config -n motd >found && cmp found wanted

a change: bootdelay 5
  $ fresh; theirs setenv -c config bootdelay 5
  $ theirs printenv -c config | sort >wanted
  $ ours printenv -c config | sort | cmp - wanted
  $ fresh; ours setenv -c config bootdelay 5
  $ theirs printenv -c config | sort | cmp - wanted
  $ ours printenv -c config | sort | cmp - wanted

a change: new 1
  $ fresh; theirs setenv -c config new 1
  $ theirs printenv -c config | sort >wanted
  $ ours printenv -c config | sort | cmp - wanted
  $ fresh; ours setenv -c config new 1
  $ theirs printenv -c config | sort | cmp - wanted
  $ ours printenv -c config | sort | cmp - wanted

a change: board
  $ fresh; theirs setenv -c config board
  $ theirs printenv -c config | sort >wanted
  $ ours printenv -c config | sort | cmp - wanted
  $ fresh; ours setenv -c config board
  $ theirs printenv -c config | sort | cmp - wanted
  $ ours printenv -c config | sort | cmp - wanted

a change: absent
  $ fresh; theirs setenv -c config absent
  $ theirs printenv -c config | sort >wanted
  $ ours printenv -c config | sort | cmp - wanted
  $ fresh; ours setenv -c config absent
  $ theirs printenv -c config | sort | cmp - wanted
  $ ours printenv -c config | sort | cmp - wanted

a change: a-b.c_d x=y=z
  $ fresh; theirs setenv -c config a-b.c_d x=y=z
  $ theirs printenv -c config | sort >wanted
  $ ours printenv -c config | sort | cmp - wanted
  $ fresh; ours setenv -c config a-b.c_d x=y=z
  $ theirs printenv -c config | sort | cmp - wanted
  $ ours printenv -c config | sort | cmp - wanted

a change: findfdt '$x;"y"'
  $ fresh; theirs setenv -c config findfdt '$x;"y"'
  $ theirs printenv -c config | sort >wanted
  $ ours printenv -c config | sort | cmp - wanted
  $ fresh; ours setenv -c config findfdt '$x;"y"'
  $ theirs printenv -c config | sort | cmp - wanted
  $ ours printenv -c config | sort | cmp - wanted

a change: empty full
  $ fresh; theirs setenv -c config empty full
  $ theirs printenv -c config | sort >wanted
  $ ours printenv -c config | sort | cmp - wanted
  $ fresh; ours setenv -c config empty full
  $ theirs printenv -c config | sort | cmp - wanted
  $ ours printenv -c config | sort | cmp - wanted

both in turn on the same files
  $ fresh
  $ theirs setenv -c config turn 1; ours printenv -c config turn
  turn=1
  $ ours setenv -c config turn 11; theirs printenv -c config turn
  turn=11
  $ theirs setenv -c config turn 2; ours printenv -c config turn
  turn=2
  $ ours setenv -c config turn 22; theirs printenv -c config turn
  turn=22
  $ theirs setenv -c config turn 3; ours printenv -c config turn
  turn=3
  $ ours setenv -c config turn 33; theirs printenv -c config turn
  turn=33
  $ theirs setenv -c config turn 4; ours printenv -c config turn
  turn=4
  $ ours setenv -c config turn 44; theirs printenv -c config turn
  turn=44
  $ theirs setenv -c config turn 5; ours printenv -c config turn
  turn=5
  $ ours setenv -c config turn 55; theirs printenv -c config turn
  turn=55
  $ { cat variables && echo turn=55; } | sort >wanted
  $ theirs printenv -c config | sort | cmp - wanted
  $ ours printenv -c config | sort | cmp - wanted

the same script by both
  $ printf '# changes\nbootdelay=7\nboard=\nnew=a b  c \n\nz=1\nz=2\r\nq=x=y\n' >script
  $ fresh; theirs setenv -c config -s script
  $ theirs printenv -c config | sort >wanted
  $ fresh; ours setenv -c config -s script
  $ theirs printenv -c config | sort | cmp - wanted
  $ ours printenv -c config | sort | cmp - wanted

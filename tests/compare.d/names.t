  $ . "$TESTDIR/../setup"
  $ . "$repository/tests/compare.d/setup"

The same answers by the names of U-Boot's tools, with long options.

  $ board >variables; mkenvimage -s 0x2000 -o made variables >/dev/null
  $ printf 'image 0x0 0x2000\n' >config

after fw_setenv
  $ cp made image; theirs setenv --config config a 1
  $ as fw_printenv --config config a
  a=1

a script
  $ printf 'a=2\n' >script; as fw_setenv --config config --script script
  $ theirs printenv --config config a
  a=2

a change
  $ as fw_setenv -c config a 3
  $ theirs printenv -c config a
  a=3

a script on standard input
  $ printf '# changes\na=4\nnew=b  c\nboard=\n' >script
  $ cp made image; theirs setenv --config config -s - <script
  $ theirs printenv -c config | sort >wanted
  $ cp made image; as fw_setenv --config config -s - <script
  $ theirs printenv -c config | sort | cmp - wanted
  $ ours printenv -c config | sort | cmp - wanted
  $ as fw_printenv -c config | sort | cmp - wanted

a name that starts with - comes after --, to both
  $ cp made image; theirs setenv -c config -- -x 1
  $ ours printenv -c config -- -x
  -x=1
  $ ours setenv -c config -- -x 2
  $ theirs printenv -c config -- -x
  -x=2

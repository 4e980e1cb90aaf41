  $ . "$TESTDIR/../setup"
  $ . "$repository/tests/spread.d/setup"

Other machines: a file has their names, a script stands for the way to them, and SHELL is set there as a login sets it.

  $ parallel --version 2>/dev/null | grep -q '^GNU parallel' || left_out 'tools/spread by GNU parallel, since it is not installed'
  $ cat >ssh <<END
  > #!/bin/sh
  > while [ "\${1#-}" != "\$1" ]; do shift; done
  > echo "\$1" >>$PWD/machines
  > shift
  > [ "\$1" != -- ] || shift
  > SHELL=\$(cat $PWD/shell) exec sh -c "\$*"
  > END
  $ chmod +x ssh; export PARALLEL_SSH=$PWD/ssh

two machines
  $ echo /bin/sh >shell
  $ parts -S 2/one,2/two 3 -c "$PWD/twelve.config" -d "$PWD/devices" -- bootdelay "it's" $'two\nlines'
  8
  $ cmp whole joined
  $ sort -u machines
  one
  two

machines that run nothing
  $ echo /bin/true >shell
  $ spread -S 2/one,2/two 3 -c "$PWD/twelve.config" -d "$PWD/devices"
  ! spread: a part is empty: its command was not run
  [1]

The lines for a folder of images in docs/REHEARSAL.md.

  $ mkdir images path; ln -s "$UBTOOL" path/ubtool
  $ printf 'load\ndhcp\nfinal bootm\n' >devices.txt
  $ script images/boots.img 'bootcmd=load && bootm'
  $ script images/never.img 'bootcmd=load; bootm2' bootdelay=1

the lines for a folder of images
  $ sed -n '/^one() {/,/^```/p' "$repository/docs/REHEARSAL.md" | sed '/^```/d' >lines
  $ PATH=$PWD/path:$PATH bash -eu lines
  images/never.img.listing
  $ cat images/boots.img.listing images/never.img.listing | grep -c '^run '
  5

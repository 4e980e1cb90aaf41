  $ . "$TESTDIR/../setup"
  $ . "$repository/tests/spread.d/setup"

The parts, joined, are the whole listing.

twelve loads
  $ parts 3 -c twelve.config -d devices
  8
  $ cmp whole joined
  $ grep -c '^run ' joined
  4096

twelve loads, in one part
  $ parts 0 -c twelve.config -d devices
  1
  $ cmp whole joined

twelve loads, one part at a time
  $ parts -j 1 2 -c twelve.config -d devices bootdelay
  4
  $ cmp whole joined

  $ script lengths 'bootcmd=if load a; then load b && load c && boot; else dhcp || dhcp || exit; boot; fi; echo $?; dhcp' \
  >     bootdelay=3 z=1

words of different lengths, by 0 digits
  $ parts 0 -c lengths.config -d devices
  1
  $ cmp whole joined

words of different lengths, by 1 digits
  $ parts 1 -c lengths.config -d devices
  2
  $ cmp whole joined

words of different lengths, by 2 digits
  $ parts 2 -c lengths.config -d devices
  4
  $ cmp whole joined

words of different lengths, by 3 digits
  $ parts 3 -c lengths.config -d devices
  8
  $ cmp whole joined

words of different lengths, by 4 digits
  $ parts 4 -c lengths.config -d devices
  12
  $ cmp whole joined

words of different lengths, by 8 digits
  $ parts 8 -c lengths.config -d devices
  14
  $ cmp whole joined

words that are shorter than the digits
  $ script lopsided 'bootcmd=load a && load b && load c && load d && load e && load f'
  $ parts 3 -c lopsided.config -d devices
  4
  $ cmp whole joined

one run alone
  $ parts 0 -c alone.config -d devices
  1
  $ cmp whole joined

one run alone, by 4 digits
  $ parts 4 -c alone.config -d devices z a
  1
  $ cmp whole joined

bounds
  $ script endless 'bootcmd=while load x || dhcp; do echo $a; done' 'boot=load && boot; run bootcmd'
  $ parts 3 -c endless.config -d devices --devices 9 --steps 20
  7
  $ cmp whole joined

no device command
  $ parts 3 -c endless.config -d devices --devices 0
  1
  $ cmp whole joined

another variable, and names
  $ parts 3 -c endless.config -d devices -b boot --devices 8 -- a "it's \$a" -x '' $'two\nlines'
  7
  $ cmp whole joined

forty loads, of which two may fail
  $ script forty "bootcmd=$(printf 'load %d; ' {1..40})"
  $ parts 2 -c forty.config -d devices --failures 2 --devices=1000
  4
  $ cmp whole joined

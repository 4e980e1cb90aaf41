  $ . "$TESTDIR/../setup"
  $ . "$repository/tests/spread.d/setup"

Listings of at most so many failures.

  $ script lengths 'bootcmd=if load a; then load b && load c && boot; else dhcp || dhcp || exit; boot; fi; echo $?; dhcp' \
  >     bootdelay=3 z=1
  $ script endless 'bootcmd=while load x || dhcp; do echo $a; done' 'boot=load && boot; run bootcmd'

at most 0 failures, by 0 digits
  $ parts 0 -c twelve.config -d devices --failures 0 bootdelay
  1
  $ cmp whole joined

at most 0 failures, words of different lengths, by 0 digits
  $ parts 0 -c lengths.config -d devices --failures=0
  1
  $ cmp whole joined

at most 0 failures, by 1 digits
  $ parts 1 -c twelve.config -d devices --failures 0 bootdelay
  1
  $ cmp whole joined

at most 0 failures, words of different lengths, by 1 digits
  $ parts 1 -c lengths.config -d devices --failures=0
  1
  $ cmp whole joined

at most 0 failures, by 3 digits
  $ parts 3 -c twelve.config -d devices --failures 0 bootdelay
  1
  $ cmp whole joined

at most 0 failures, words of different lengths, by 3 digits
  $ parts 3 -c lengths.config -d devices --failures=0
  1
  $ cmp whole joined

at most 0 failures, by 8 digits
  $ parts 8 -c twelve.config -d devices --failures 0 bootdelay
  1
  $ cmp whole joined

at most 0 failures, words of different lengths, by 8 digits
  $ parts 8 -c lengths.config -d devices --failures=0
  1
  $ cmp whole joined

at most 0 failures, and bounds
  $ parts 3 -c endless.config -d devices --devices 9 --steps 20 --failures 0
  1
  $ cmp whole joined

at most 1 failures, by 0 digits
  $ parts 0 -c twelve.config -d devices --failures 1 bootdelay
  1
  $ cmp whole joined

at most 1 failures, words of different lengths, by 0 digits
  $ parts 0 -c lengths.config -d devices --failures=1
  1
  $ cmp whole joined

at most 1 failures, by 1 digits
  $ parts 1 -c twelve.config -d devices --failures 1 bootdelay
  2
  $ cmp whole joined

at most 1 failures, words of different lengths, by 1 digits
  $ parts 1 -c lengths.config -d devices --failures=1
  2
  $ cmp whole joined

at most 1 failures, by 3 digits
  $ parts 3 -c twelve.config -d devices --failures 1 bootdelay
  4
  $ cmp whole joined

at most 1 failures, words of different lengths, by 3 digits
  $ parts 3 -c lengths.config -d devices --failures=1
  4
  $ cmp whole joined

at most 1 failures, by 8 digits
  $ parts 8 -c twelve.config -d devices --failures 1 bootdelay
  9
  $ cmp whole joined

at most 1 failures, words of different lengths, by 8 digits
  $ parts 8 -c lengths.config -d devices --failures=1
  5
  $ cmp whole joined

at most 1 failures, and bounds
  $ parts 3 -c endless.config -d devices --devices 9 --steps 20 --failures 1
  4
  $ cmp whole joined

at most 2 failures, by 0 digits
  $ parts 0 -c twelve.config -d devices --failures 2 bootdelay
  1
  $ cmp whole joined

at most 2 failures, words of different lengths, by 0 digits
  $ parts 0 -c lengths.config -d devices --failures=2
  1
  $ cmp whole joined

at most 2 failures, by 1 digits
  $ parts 1 -c twelve.config -d devices --failures 2 bootdelay
  2
  $ cmp whole joined

at most 2 failures, words of different lengths, by 1 digits
  $ parts 1 -c lengths.config -d devices --failures=2
  2
  $ cmp whole joined

at most 2 failures, by 3 digits
  $ parts 3 -c twelve.config -d devices --failures 2 bootdelay
  7
  $ cmp whole joined

at most 2 failures, words of different lengths, by 3 digits
  $ parts 3 -c lengths.config -d devices --failures=2
  7
  $ cmp whole joined

at most 2 failures, by 8 digits
  $ parts 8 -c twelve.config -d devices --failures 2 bootdelay
  37
  $ cmp whole joined

at most 2 failures, words of different lengths, by 8 digits
  $ parts 8 -c lengths.config -d devices --failures=2
  10
  $ cmp whole joined

at most 2 failures, and bounds
  $ parts 3 -c endless.config -d devices --devices 9 --steps 20 --failures 2
  7
  $ cmp whole joined

at most 3 failures, by 0 digits
  $ parts 0 -c twelve.config -d devices --failures 3 bootdelay
  1
  $ cmp whole joined

at most 3 failures, words of different lengths, by 0 digits
  $ parts 0 -c lengths.config -d devices --failures=3
  1
  $ cmp whole joined

at most 3 failures, by 1 digits
  $ parts 1 -c twelve.config -d devices --failures 3 bootdelay
  2
  $ cmp whole joined

at most 3 failures, words of different lengths, by 1 digits
  $ parts 1 -c lengths.config -d devices --failures=3
  2
  $ cmp whole joined

at most 3 failures, by 3 digits
  $ parts 3 -c twelve.config -d devices --failures 3 bootdelay
  8
  $ cmp whole joined

at most 3 failures, words of different lengths, by 3 digits
  $ parts 3 -c lengths.config -d devices --failures=3
  8
  $ cmp whole joined

at most 3 failures, by 8 digits
  $ parts 8 -c twelve.config -d devices --failures 3 bootdelay
  93
  $ cmp whole joined

at most 3 failures, words of different lengths, by 8 digits
  $ parts 8 -c lengths.config -d devices --failures=3
  13
  $ cmp whole joined

at most 3 failures, and bounds
  $ parts 3 -c endless.config -d devices --devices 9 --steps 20 --failures 3
  7
  $ cmp whole joined

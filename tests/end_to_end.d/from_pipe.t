  $ . "$TESTDIR/../setup"

Files that are pipes.

  $ [ -e /dev/stdin ] || left_out 'an image and a text from a pipe, since there is no /dev/stdin'

an image from a pipe
  $ bytes "$single" | ubtool printenv -i /dev/stdin
  a=1

a text from a pipe
  $ printf 'a=1\nb=2' | ubtool printenv --text /dev/stdin
  a=1
  b=2

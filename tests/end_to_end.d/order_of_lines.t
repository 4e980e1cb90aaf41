  $ . "$TESTDIR/../setup"

A note on the standard error comes before the write that it is about.

  $ needs strace
  $ strace -o calls true 2>/dev/null || left_out 'the order of lines and writes, since strace cannot trace'
  $ first_write() { sed -n 's/.*write(\([0-9]*\), .*/\1/p' calls | head -n 1; }

two copies that overlap
  $ bytes '3b 06 98 45 01 61 3d 31 00 00' >both
  $ printf 'both 0 a\nboth 0 a\n' >both.config
  $ marked strace -f -e trace=write -o calls "$UBTOOL" setenv -c both.config a 4
  ! ubtool: the two copies overlap
  $ first_write
  2

a copy that is lost
  $ pair 01 00
  $ printf short >second
  $ marked strace -f -e trace=write -o calls "$UBTOOL" setenv -c pair.config --one-copy a 4
  ! ubtool: second is too short; the other copy counts
  $ first_write
  2

  $ . "$TESTDIR/../setup"

Each fault is one write on the error output, and many lines are few.

  $ needs strace
  $ strace -o calls true 2>/dev/null || left_out 'the writes on standard error, since strace cannot trace'
  $ writes() { strace -f -e trace=write -o calls "$UBTOOL" "$@" 2>/dev/null; grep -c 'write(2,' calls; }
  $ bytes "$single" >e; printf 'e 0 9\n' >config

one write for a fault
  $ writes printenv -c missing
  1

one write for a fault with a long path
  $ writes printenv -c "/$(printf '\t')$(printf 'x%.0s' {1..300})"
  1

one write for missing variables
  $ writes printenv -c config b c d
  1

one write for wrong words
  $ writes bad
  1

one write for the lack of a NAME
  $ writes setenv
  1

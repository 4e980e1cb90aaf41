  $ . "$TESTDIR/../setup"

Writes and outputs that fail.

A file may not grow past 1,024 bytes: the last 6 bytes of the first copy and the whole second copy
cannot be written.

no byte of a spare copy is written
  $ { head -c 1020 /dev/zero && bytes '3b 06 98 45 01 61 3d 31 00 00' && bytes "$second"; } >over
  $ cp over over.before
  $ printf 'over 1020 a\nover 1030 a\n' >over.config
  $ (trap '' XFSZ; ulimit -f 1; ubtool setenv -c over.config a 3)
  ! ubtool: cannot write over
  [1]

  $ cmp over over.before

a spare copy is written in part
  $ { head -c 1020 /dev/zero && bytes "$first" && bytes "$second"; } >over
  $ (trap '' XFSZ; ulimit -f 1; ubtool setenv -c over.config a 3)
  ! ubtool: cannot write over
  [1]

the current copy then
  $ tail -c 10 over | od -An -v -tx1
   62 b8 de 47 00 61 3d 32 00 00

the environment then
  $ ubtool printenv -c over.config
  a=2

Outputs that fail:

  $ bytes "$single" | head -c 9 >e; printf 'e 0 9\n' >config

to_no_output WORD.., to_full_errors WORD..: the program with its output closed, with a full error output.

a full output
  $ bytes "$single" >e
  $ ubtool printenv -c config >/dev/full
  ! ubtool: output failed
  [1]

a closed output
  $ ubtool printenv -c config >&-
  ! ubtool: output failed
  [1]

a full error output
  $ "$UBTOOL" printenv -c config b a 2>/dev/full
  a=1
  [1]

a full error output, of a fault
  $ "$UBTOOL" printenv -c missing 2>/dev/full
  [1]

a full error output, of wrong words
  $ "$UBTOOL" bad 2>/dev/full
  [2]

help on a full output
  $ ubtool --help >/dev/full
  ! ubtool: output failed
  [1]

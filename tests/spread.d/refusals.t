  $ . "$TESTDIR/../setup"
  $ . "$repository/tests/spread.d/setup"

What is refused, by the words of the program, and a part that breaks off.

refused: -c missing -d devices
  $ spread 2 -c missing -d devices
  ! ubtool: cannot read missing
  [1]

refused: -c alone.config -d devices -b none
  $ spread 2 -c alone.config -d devices -b none
  ! ubtool: no variable none
  [1]

refused: -c alone.config
  $ spread 2 -c alone.config
  ! error: the following required arguments were not provided:
  !   --device-list <FILE>
  !
  ! Usage: ubtool rehearse --device-list <FILE> --limit <N> --config <FILE> [NAME]...
  !
  ! For more information, try '--help'.
  [2]

wrong words: 2 -c alone.config -d devices --after .
  $ spread 2 -c alone.config -d devices --after .
  ! spread: --after and --limit are not for a listing in parts
  [2]

wrong words: 2 -c alone.config -d devices --limit 1
  $ spread 2 -c alone.config -d devices --limit 1
  ! spread: --after and --limit are not for a listing in parts
  [2]

wrong words: 17 -c a -d b
  $ spread 17 -c a -d b
  ! spread: DIGITS is a number from 0 to 16
  [2]

wrong words: x
  $ spread x
  ! spread: DIGITS is a number from 0 to 16
  [2]

no words
  $ spread
  ! spread: DIGITS is a number from 0 to 16
  [2]

wrong words: -j 0 2 -c alone.config -d devices
  $ spread -j 0 2 -c alone.config -d devices
  ! spread: JOBS is a number above 0
  [2]

wrong words: -x 2
  $ spread -x 2 2>err
  [2]
  $ tail -n 1 err
  ! spread: usage: tools/spread [-j JOBS] [-S LOGINS] DIGITS WORD..

wrong words: --help
  $ spread --help 2>err
  [2]
  $ tail -n 1 err
  ! spread: usage: tools/spread [-j JOBS] [-S LOGINS] DIGITS WORD..

wrong words: 2 -c alone.config -d devices --help
  $ spread 2 -c alone.config -d devices --help
  ! spread: no listing is asked for: ubtool rehearse --help tells the words
  [2]

wrong words: 2 -h
  $ spread 2 -h
  ! spread: no listing is asked for: ubtool rehearse --help tells the words
  [2]

wrong words: 2 --version
  $ spread 2 --version
  ! spread: no listing is asked for: ubtool rehearse --help tells the words
  [2]

A part that breaks off is reported, and nothing is written.

  $ cat >breaking <<END
  > #!/bin/sh
  > case "\$*" in
  > *' --limit 1 '*) ;;
  > *--after=01*) $UBTOOL "\$@" | head -n 9; echo 'ubtool: out of memory' >&2; exit 1 ;;
  > esac
  > exec $UBTOOL "\$@"
  > END
  $ chmod +x breaking
  $ broken() { UBTOOL=$PWD/breaking marked "$repository/tools/spread" "$@" 2>&1 | grep -v 'xargs runs'; }

a part that breaks off
  $ broken 3 -c twelve.config -d devices
  ! ubtool: out of memory
  ! spread: a part broke off
  $ broken 2 -c twelve.config -d devices
  ! ubtool: out of memory
  ! spread: a part broke off

By xargs.

  $ mkdir bin; printf '#!/bin/sh\nexit 1\n' >bin/parallel; chmod +x bin/parallel; PATH=$PWD/bin:$PATH

twelve loads, by xargs
  $ parts 3 -c twelve.config -d devices
  ! spread: GNU parallel is not installed, so that xargs runs the parts
  8
  $ cmp whole joined

a part that breaks off, by xargs
  $ broken 3 -c twelve.config -d devices
  ! ubtool: out of memory
  ! spread: a part broke off

  $ . "$TESTDIR/../setup"

What update services ask of the names of U-Boot's tools: a script on standard input, and the folder of the lock.

  $ printf 'e 0 9\n' >config; printf 'a=2\n' >changes

fw_setenv -c config -s -
  $ bytes "$single" >e
  $ rm -f ./-
  $ printf '# a comment\n\na  2\r\n' | as fw_setenv -c config -s -
  $ hex e
  62 b8 de 47 61 3d 32 00 00

fw_setenv -c config -s -, the last line without its end
  $ printf a=1 | as fw_setenv -c config -s -
  ! fw_setenv: Line 1 not correctly terminated
  [1]
  $ hex e
  62 b8 de 47 61 3d 32 00 00

fw_setenv -c config --script -
  $ bytes "$single" >e
  $ printf '# a comment\n\na  2\r\n' | as fw_setenv -c config --script -
  $ hex e
  62 b8 de 47 61 3d 32 00 00

fw_setenv -c config --script -, the last line without its end
  $ printf a=1 | as fw_setenv -c config --script -
  ! fw_setenv: Line 1 not correctly terminated
  [1]
  $ hex e
  62 b8 de 47 61 3d 32 00 00

fw_setenv --script=- -c config
  $ bytes "$single" >e
  $ printf '# a comment\n\na  2\r\n' | as fw_setenv --script=- -c config
  $ hex e
  62 b8 de 47 61 3d 32 00 00

fw_setenv --script=- -c config, the last line without its end
  $ printf a=1 | as fw_setenv --script=- -c config
  ! fw_setenv: Line 1 not correctly terminated
  [1]
  $ hex e
  62 b8 de 47 61 3d 32 00 00

fw_setenv -c config -s-
  $ bytes "$single" >e
  $ printf '# a comment\n\na  2\r\n' | as fw_setenv -c config -s-
  $ hex e
  62 b8 de 47 61 3d 32 00 00

fw_setenv -c config -s-, the last line without its end
  $ printf a=1 | as fw_setenv -c config -s-
  ! fw_setenv: Line 1 not correctly terminated
  [1]
  $ hex e
  62 b8 de 47 61 3d 32 00 00
  $ bytes "$single" >e

an empty script
  $ printf '' | as fw_setenv -c config -s -
  $ hex e
  3b 06 98 45 61 3d 31 00 00
  $ { head -c 1048571 /dev/zero | tr '\0' '#' && printf '\na 2\n'; } >longest

a script that comes late
  $ (sleep 1; printf 'a 1\na 2\n') | as fw_setenv -c config -s -
  $ hex e
  62 b8 de 47 61 3d 32 00 00

the longest script
  $ bytes "$single" >e
  $ marked timeout 10 names/fw_setenv -c config -s - <longest
  $ wc -c <longest; hex e
  1048576
  62 b8 de 47 61 3d 32 00 00

a script of one byte more than is read
  $ bytes "$single" >e
  $ printf '#' >>longest
  $ marked timeout 10 names/fw_setenv -c config -s - <longest
  ! fw_setenv: standard input is too long
  [1]

an endless script of ''
  $ yes '' | marked timeout 10 names/fw_setenv -c config -s -
  ! fw_setenv: standard input is too long
  [1]
  $ hex e
  3b 06 98 45 61 3d 31 00 00

an endless script of '#'
  $ yes '#' | marked timeout 10 names/fw_setenv -c config -s -
  ! fw_setenv: standard input is too long
  [1]
  $ hex e
  3b 06 98 45 61 3d 31 00 00

an endless script of 'a 2'
  $ yes 'a 2' | marked timeout 10 names/fw_setenv -c config -s -
  ! fw_setenv: standard input is too long
  [1]
  $ hex e
  3b 06 98 45 61 3d 31 00 00

an endless script of NUL
  $ marked timeout 10 names/fw_setenv -c config -s - </dev/zero
  ! fw_setenv: standard input is too long
  [1]

a script with a line that has no name
  $ printf 'a 2\n=x\n' | as fw_setenv -c config -s -
  ! fw_setenv: script line 2: bad name
  [1]
  $ hex e
  3b 06 98 45 61 3d 31 00 00

a script with NUL in a value
  $ printf 'a 2\0\n' | as fw_setenv -c config -s -
  ! fw_setenv: script line 1: bad value
  [1]
  $ hex e
  3b 06 98 45 61 3d 31 00 00

a script with NUL in a name
  $ printf 'a\0b 2\n' | as fw_setenv -c config -s -
  ! fw_setenv: script line 1: bad name
  [1]
  $ hex e
  3b 06 98 45 61 3d 31 00 00

a script that breaks off in a bad line
  $ printf 'a 2\n=' | as fw_setenv -c config -s -
  ! fw_setenv: Line 2 not correctly terminated
  [1]
  $ hex e
  3b 06 98 45 61 3d 31 00 00

a script that does not fit
  $ printf 'a 12\n' | as fw_setenv -c config -s -
  ! fw_setenv: environment is too large
  [1]
  $ hex e
  3b 06 98 45 61 3d 31 00 00

a script without a configuration
  $ printf '=x\n' | as fw_setenv -c missing -s -
  ! fw_setenv: cannot read missing
  [1]
  $ hex e
  3b 06 98 45 61 3d 31 00 00

a script on standard input and a name
  $ printf 'a 2\n' | as fw_setenv -c config -s - a
  ! fw_setenv: -s takes no NAME
  [2]

a script on a closed input
  $ as fw_setenv -c config -s - <&-
  ! fw_setenv: cannot read standard input
  [1]

a script on a closed input, under a lock
  $ as fw_setenv -c config -l . -s - <&-
  ! fw_setenv: cannot read standard input
  [1]

No file that is opened while the error output is closed takes its place.

a fault on a closed error output
  $ "$UBTOOL" setenv -c config -l . a=b 2>&-
  [1]

a lock file beside a closed error output
  $ wc -c <fw_printenv.lock
  0

a script on an input that is a folder
  $ marked timeout 10 names/fw_setenv -c config -s - <.
  ! fw_setenv: cannot read standard input
  [1]

an image whose script failed
  $ hex e
  3b 06 98 45 61 3d 31 00 00

By its own name, and as a path with more than the dash, it is a file:

a file called -, by its own name
  $ printf 'a 2\n' >./-
  $ printf 'a 3\n' | ubtool setenv -c config -s -
  $ hex e
  62 b8 de 47 61 3d 32 00 00

a file called ./-, as fw_setenv
  $ printf 'a 1\n' >./-
  $ printf 'a 3\n' | as fw_setenv -c config -s ./-
  $ hex e
  3b 06 98 45 61 3d 31 00 00

no file called -
  $ rm ./-
  $ printf 'a 3\n' | ubtool setenv -c config -s -
  ! ubtool: cannot read -
  [1]

a pair, by a script on standard input
  $ printf 'copies 0 a\ncopies 10 a\n' >copies.config
  $ { bytes "$first" && bytes "$second"; } >copies
  $ printf 'a 3\n' | as fw_setenv -c copies.config -s -
  $ hex copies
  55 d2 1c 46 01 61 3d 33 00 00 62 b8 de 47 00 61 3d 32 00 00

The folder of the lock:

a change with no folder of the lock
  $ bytes "$single" >e
  $ ubtool setenv -l none -c config a 2
  ! ubtool: Error opening lock file none/fw_printenv.lock
  [1]

a script with no folder of the lock
  $ ubtool setenv --lock=none -c config -s missing
  ! ubtool: Error opening lock file none/fw_printenv.lock
  [1]

printing with no folder of the lock
  $ ubtool printenv --lock none -c missing
  ! ubtool: Error opening lock file none/fw_printenv.lock
  [1]

as fw_setenv, with no folder of the lock
  $ as fw_setenv -lnone -c config a 2
  ! fw_setenv: Error opening lock file none/fw_printenv.lock
  [1]

as fw_printenv, with no folder of the lock
  $ as fw_printenv -c config -nl none a
  ! fw_printenv: Error opening lock file none/fw_printenv.lock
  [1]

An empty folder is none: the root's is not meant.

an empty folder of the lock, printenv -c config -l
  $ ubtool printenv -c config -l ''
  ! ubtool: -l needs a DIR
  [2]

an empty folder of the lock, setenv -c config a 2 --lock
  $ ubtool setenv -c config a 2 --lock ''
  ! ubtool: -l needs a DIR
  [2]

an empty folder of the lock, setenv -s changes -l
  $ ubtool setenv -s changes -l ''
  ! ubtool: -l needs a DIR
  [2]

an empty folder of the lock, as fw_setenv
  $ as fw_setenv -c config -l '' a 2
  ! fw_setenv: -l needs a DIR
  [2]

no lock file in the root
  $ [ ! -e /fw_printenv.lock ]

a folder of the lock whose name has a blank
  $ ubtool setenv -l 'no ne' -c config a 2
  ! ubtool: Error opening lock file no\x20ne/fw_printenv.lock
  [1]

a folder of the lock, and wrong words
  $ ubtool setenv -l none -x
  ! error: unexpected argument '-x' found
  !
  !   tip: to pass '-x' as a value, use '-- -x'
  !
  ! Usage: ubtool setenv [OPTIONS] [NAME] [VALUE]...
  !
  ! For more information, try '--help'.
  [2]

a lock for a rehearsal
  $ ubtool rehearse -d devices -l .
  ! error: unexpected argument '-l' found
  !
  !   tip: to pass '-l' as a value, use '-- -l'
  !
  ! Usage: ubtool rehearse [OPTIONS] --device-list <FILE> [NAME]...
  !
  ! For more information, try '--help'.
  [2]

an image without its lock
  $ hex e
  3b 06 98 45 61 3d 31 00 00

a lock file that is no plain file, none
  $ mkdir locks locks/none locks/none/fw_printenv.lock locks/pipe
  $ mkfifo locks/pipe/fw_printenv.lock
  $ marked timeout 5 "$UBTOOL" setenv -l locks/none -c config a 2
  ! ubtool: Error opening lock file locks/none/fw_printenv.lock
  [1]

a lock file that is no plain file, pipe
  $ marked timeout 5 "$UBTOOL" setenv -l locks/pipe -c config a 2
  ! ubtool: Error opening lock file locks/pipe/fw_printenv.lock
  [1]

a change under the lock in a folder
  $ ubtool setenv -l locks -c config a 2
  $ hex e; wc -c <locks/fw_printenv.lock
  62 b8 de 47 61 3d 32 00 00
  0

as fw_setenv, under the lock in a folder
  $ as fw_setenv -l locks/ -c config a 1

a script on standard input, under the lock in a folder
  $ printf 'a 2\n' | as fw_setenv -l locks -c config -s -
  $ hex e
  62 b8 de 47 61 3d 32 00 00

as fw_printenv, under the lock in a folder
  $ as fw_printenv --lock locks -c config
  a=2

  $ . "$TESTDIR/../setup"
  $ . "$repository/tests/lock_and_replace.d/setup"

Files of another user.

  $ [ "$(id -u)" = 0 ] && command -v setpriv >/dev/null || left_out 'files of another user, since this is not run as root or setpriv is not installed'
  $ as_other() { setpriv --reuid 65534 --regid 65534 --clear-groups "$@"; }
  $ mkdir own; cp config own; cd own; ln -s ../locks ../fw_setenv .; bytes "$single" >e; cd ..
  $ chown -R 65534:65534 own; : >locks/fw_printenv.lock

another's lock file that may be read
  $ chmod 444 locks/fw_printenv.lock; cd own
  $ marked as_other "${set_two[@]}"
  $ hex e
  62 b8 de 47 61 3d 32 00 00

another's lock file that may not be read
  $ bytes "$single" >e; chmod 000 locks/fw_printenv.lock
  $ marked as_other "${set_two[@]}"
  ! fw_setenv: Error opening lock file locks/fw_printenv.lock
  [1]
  $ hex e
  3b 06 98 45 61 3d 31 00 00

a lock file that cannot be made
  $ rm locks/fw_printenv.lock
  $ marked as_other "${set_two[@]}"
  ! fw_setenv: Error opening lock file locks/fw_printenv.lock
  [1]
  $ hex e
  3b 06 98 45 61 3d 31 00 00

The folder may not be written by the one who may write the file; or no file may be given to the file's owner.

a folder that may not be written
  $ cd ..; fresh; chown 65534:65534 e
  $ changes as_other ./fw_setenv -l own -c config a 2
  ! fw_setenv: cannot replace e, writing it in place
  $ hex e
  62 b8 de 47 61 3d 32 00 00
  $ replaced
  the same file
  $ beside
  nothing else

another's file that may be written
  $ cd own; bytes "$single" >e; chown 0:0 e; chmod 666 e
  $ changes as_other ./fw_setenv -l . -c config a 2
  ! fw_setenv: cannot replace e, writing it in place
  $ hex e
  62 b8 de 47 61 3d 32 00 00
  $ replaced
  the same file
  $ beside
  nothing else

another's file that may not be written
  $ chmod 444 e
  $ marked as_other ./fw_setenv -l . -c config a 1
  ! fw_setenv: cannot write e
  [1]
  $ hex e
  62 b8 de 47 61 3d 32 00 00

another's whole file
  $ cd ..; fresh; chown 65534:100 e; chmod 640 e
  $ changes "${set_two[@]}"
  $ hex e
  62 b8 de 47 61 3d 32 00 00
  $ replaced
  a new file
  $ beside
  nothing else

  $ . "$TESTDIR/../setup"
  $ . "$repository/tests/lock_and_replace.d/setup"

A file that is a mount.

  $ [ -n "${MAY_MOUNT-}" ] || left_out 'a file that is a mount, since this is not run as root or no mount can be made'
  $ fresh; bytes "$single" >below; mount --bind below e

a file that is a mount
  $ changes "${set_two[@]}"
  ! fw_setenv: cannot replace e, writing it in place
  $ hex e
  62 b8 de 47 61 3d 32 00 00
  $ beside
  nothing else

what is below a mount
  $ umount e; hex e
  3b 06 98 45 61 3d 31 00 00

  $ . "$TESTDIR/../setup"
  $ . "$repository/tests/compare.d/setup"

What is no lock file at the path of the lock, in a folder that is seen here alone.

  $ [ "$(fw_printenv -V 2>/dev/null)" = 0.3.2 ] || left_out 'the differences, which are those from libubootenv 0.3.2'
  $ start 'a=1\nb=2\n'; touch target
  $ other_lock true true || left_out 'what is no lock file at the path of the lock, since no mount can be made'

lock that is a folder
  $ other_lock 'mkdir fw_printenv.lock' fw_setenv
  $ other_lock 'mkdir fw_printenv.lock' "$UBTOOL" setenv
  [1]

lock that is a pipe
  $ other_lock 'mkfifo fw_printenv.lock' fw_setenv
  [124]
  $ other_lock 'mkfifo fw_printenv.lock' "$UBTOOL" setenv
  [1]

lock that is a link
  $ other_lock 'ln -s "$OLDPWD/target" fw_printenv.lock' fw_setenv
  $ other_lock 'ln -s "$OLDPWD/target" fw_printenv.lock' "$UBTOOL" setenv
  [1]

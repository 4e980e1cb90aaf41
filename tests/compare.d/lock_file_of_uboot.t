  $ . "$TESTDIR/../setup"
  $ . "$repository/tests/compare.d/setup"

The lock file, while another holds it.

  $ [ "$(fw_printenv -V 2>/dev/null)" = 0.3.2 ] || left_out 'the differences, which are those from libubootenv 0.3.2'
  $ [ -n "$OWN" ] || exit 80
  $ needs flock
  $ lock=/var/lock/fw_printenv.lock
  $ [ -w "$(dirname "$lock")" ] || left_out "the lock file, since $lock cannot be written"
  $ start 'a=1\nb=2\n'

lock file
  $ flock fw_printenv.lock timeout 1 "$OWN/fw_printenv" -l . -c image.config a
  [124]
  $ flock fw_printenv.lock timeout 1 "$OWN/fw_setenv" -l . -c image.config a
  [124]

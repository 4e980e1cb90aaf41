  $ . "$TESTDIR/../setup"
  $ . "$repository/tests/compare.d/setup"

The lock file, while another holds it.

  $ [ "$(fw_printenv -V 2>/dev/null)" = 0.3.2 ] || left_out 'the differences, which are those from libubootenv 0.3.2'
  $ needs flock
  $ lock=/var/lock/fw_printenv.lock
  $ [ -w "$(dirname "$lock")" ] || left_out "the lock file, since $lock cannot be written"
  $ start 'a=1\nb=2\n'

lock file
  $ flock "$lock" timeout 1 fw_printenv -c image.config a
  [124]
  $ flock "$lock" timeout 1 "$UBTOOL" printenv -c image.config a
  a=1
  $ flock "$lock" timeout 1 fw_setenv -c image.config a
  [124]
  $ flock "$lock" timeout 1 "$UBTOOL" setenv -c image.config a
  [124]
  $ ubtool printenv -c image.config
  a=1
  b=2
  $ ln -s "$UBTOOL" fw_setenv; flock fw_printenv.lock timeout 1 ./fw_setenv -l . -c image.config a
  [124]
  $ ln -s "$UBTOOL" fw_printenv; flock fw_printenv.lock timeout 1 ./fw_printenv -l . -c image.config a
  [124]

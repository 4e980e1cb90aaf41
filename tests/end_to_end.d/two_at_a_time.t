  $ . "$TESTDIR/../setup"

Two calls at a time: the lock in a folder, and the lock of U-Boot's tools. A change waits for it, and nothing else does.

  $ needs flock
  $ lock=/var/lock/fw_printenv.lock
  $ [ -w "$(dirname "$lock")" ] || left_out "two at a time, since $lock cannot be written"
  $ mkdir locks; : >locks/fw_printenv.lock; printf 'e 0 9\n' >config; printf 'a=2\n' >changes
  $ bytes "$single" >e

setenv -l locks -c config a 1 waits
  $ marked flock locks/fw_printenv.lock timeout 1 "$UBTOOL" setenv -l locks -c config a 1
  [124]

printenv -l locks -c config a waits
  $ marked flock locks/fw_printenv.lock timeout 1 "$UBTOOL" printenv -l locks -c config a
  [124]

setenv -l locks -s - a waits
  $ marked flock locks/fw_printenv.lock timeout 1 "$UBTOOL" setenv -l locks -s - a
  [124]

an image whose lock another holds
  $ hex e
  3b 06 98 45 61 3d 31 00 00

words that clap refuses do not wait for a lock in a folder
  $ flock locks/fw_printenv.lock timeout 5 "$UBTOOL" setenv -l locks -x 2>/dev/null
  [2]

setenv -c config a 2 waits
  $ marked flock "$lock" timeout 1 "$UBTOOL" setenv -c config a 2
  [124]
  $ hex e
  3b 06 98 45 61 3d 31 00 00

setenv -c config -s changes waits
  $ marked flock "$lock" timeout 1 "$UBTOOL" setenv -c config -s changes
  [124]
  $ hex e
  3b 06 98 45 61 3d 31 00 00

printenv does not wait
  $ marked flock "$lock" timeout 5 "$UBTOOL" printenv -c config
  a=1

--version does not wait
  $ marked flock "$lock" timeout 5 "$UBTOOL" --version | wc -l
  1

wrong words do not wait
  $ marked flock "$lock" timeout 5 "$UBTOOL" setenv -c config -s changes a
  ! ubtool: -s takes no NAME
  [2]

a script on standard input waits
  $ ln -s "$UBTOOL" fw_setenv
  $ marked flock "$lock" timeout 1 ./fw_setenv -c config -s - <changes
  [124]

a change under another lock does not wait
  $ marked flock "$lock" timeout 5 "$UBTOOL" setenv -l locks -c config a 1
  $ hex e
  3b 06 98 45 61 3d 31 00 00

fifty times two changes at a time, each of which finds what the other left
  $ for flag in 00 01; do head -c 124 /dev/zero | to_image_of little $flag >copy$flag; done
  $ printf 'copy00 0 81\ncopy01 0 81\n' >twice.config
  $ for turn in {1..50}; do
  >     "$UBTOOL" setenv -c twice.config a $turn & "$UBTOOL" setenv -c twice.config b $turn || echo "b $turn: $?"
  >     wait $! || echo "a $turn: $?"
  >     "$UBTOOL" printenv -c twice.config | sort >>found; printf 'a=%s\nb=%s\n' $turn $turn >>wanted
  > done
  $ cmp found wanted

What is no plain file is no lock file, and no change waits for it: a pipe without another end, a folder.

a change beside a lock file made by mkfifo
  $ rm -f "$lock"; mkfifo "$lock"
  $ marked timeout 5 "$UBTOOL" setenv -c config a 2
  ! ubtool: Error opening lock file /var/lock/fw_printenv.lock
  [1]
  $ rm "$lock"

a change beside a lock file made by mkdir
  $ mkdir "$lock"
  $ marked timeout 5 "$UBTOOL" setenv -c config a 2
  ! ubtool: Error opening lock file /var/lock/fw_printenv.lock
  [1]
  $ rmdir "$lock"

a change beside no plain lock file, its bytes
  $ hex e
  3b 06 98 45 61 3d 31 00 00

  $ . "$TESTDIR/../setup"

A change of an environment in a boot partition, which is the loop device DEVICE here. The shim refuses what REFUSED names.

  $ gcc -O2 -Wall -Wextra -shared -fPIC -o shim.so "$repository/tests/boot_partition.c" -ldl
  $ number=$(stat -c '%t %T' "$DEVICE" | { read -r major minor && echo "$((16#$major)):$((16#$minor))"; })
  $ mknod mmcblk0boot0 b "${number%:*}" "${number#*:}"; ln -s mmcblk0boot0 by-name
  $ mkdir "/sys/dev/block/$number"; switch=/sys/dev/block/$number/force_ro
  $ export SWITCHED=$PWD/switched
  $ printf 'mmcblk0boot0 0 2000\n' >config; printf 'by-name 0 2000\n' >link.config

What was written to the switch, whether the device is read-only, and the value, after a change with the switch on or off at first.

  $ change() {
  >     local status=0
  >     echo "$1" >"$switch"; : >switched
  >     blockdev "$([ "$1" = 1 ] && echo --setro || echo --setrw)" "$DEVICE"
  >     LD_PRELOAD=$PWD/shim.so marked "$UBTOOL" setenv "${@:2}" || status=$?
  >     echo "switched $(cat switched), read-only $(blockdev --getro "$DEVICE"), a=$(ubtool printenv -c config -n a)"
  >     return $status
  > }

a read-only boot partition
  $ change 1 -c config a 2
  switched 01, read-only 1, a=2

by a link
  $ change 1 -c link.config a 3
  switched 01, read-only 1, a=3

a switch that is off
  $ change 0 -c config a 4
  switched , read-only 0, a=4

a write that is refused
  $ REFUSED=device change 1 -c config a 5
  ! ubtool: cannot write mmcblk0boot0
  switched 01, read-only 1, a=4
  [1]

a switch that cannot be turned off
  $ REFUSED=off change 1 -c config a 6
  ! ubtool: cannot write mmcblk0boot0
  switched 1, read-only 1, a=4
  [1]

a switch that is not turned on at once
  $ REFUSED=on change 1 -c config a 7
  switched 01, read-only 1, a=7

a switch that cannot be looked at
  $ REFUSED=look change 1 -c config a 8
  ! ubtool: cannot write mmcblk0boot0
  switched , read-only 1, a=7
  [1]

a switch that cannot be opened
  $ REFUSED=open change 1 -c config a 8
  ! ubtool: cannot write mmcblk0boot0
  switched 1, read-only 1, a=7
  [1]

a switch that is not opened again at once
  $ REFUSED=reopen change 1 -c config a 2
  switched 01, read-only 1, a=2

a device without a switch
  $ rm "$switch"; blockdev --setrw "$DEVICE"
  $ ubtool setenv -c config a 8
  $ ubtool printenv -c config -n a
  8

a read-only device without a switch
  $ blockdev --setro "$DEVICE"
  $ ubtool setenv -c config a 9
  ! ubtool: cannot write mmcblk0boot0
  [1]
  $ ubtool printenv -c config -n a
  8

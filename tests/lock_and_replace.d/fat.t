  $ . "$TESTDIR/../setup"
  $ . "$repository/tests/lock_and_replace.d/setup"

A file on a FAT file system, by the kernel or else by fusefat.

  $ [ -n "${MAY_MOUNT-}" ] || left_out 'a FAT file system, since this is not run as root or no mount can be made'
  $ mount_fat() {
  >     truncate -s 1M fat.img && mkfs.vfat fat.img >/dev/null && mkdir fat &&
  >         { mount -o loop,uid=1000,fmask=0137 fat.img fat || fusefat -o rw+ fat.img fat; }
  > }
  $ mount_fat >why 2>&1 || left_out "a FAT file system, since none can be mounted: $(tr '\n' ' ' <why)"
  $ bytes "$single" >fat/uboot.env; printf 'fat/uboot.env 0 9\n' >fat.config

a file on FAT, its mode, and what is beside it
  $ mode=$(mode_of fat/uboot.env)
  $ marked ./fw_setenv -l locks -c fat.config a 2
  $ hex fat/uboot.env; ls -A fat
  62 b8 de 47 61 3d 32 00 00
  uboot.env
  $ [ "$(mode_of fat/uboot.env)" = "$mode" ]

  $ umount fat

  $ . "$TESTDIR/../setup"

The texts of share/handover, in the place of what a menu and standard boot do.

  $ cat "$repository"/share/handover/lines "$repository"/share/devices/* >list
  $ printf '%s\n' kernel_addr_r=1 ramdisk_addr_r=2 fdt_addr_r=3 fdtfile=b.dtb scriptaddr=4 boot_script_dhcp=a \
  >     'boot_targets=mmc usb pxe dhcp' 'menu=sysboot mmc 0:1 any 5 /a/extlinux.conf' 'net=pxe boot' 'scan=bootflow scan' >env
  $ by_text() { ubtool "$@" -d list --files "$repository/share/handover"; }

each shell reads them alike
  $ for text in menu net scan; do
  >     for shell in profile old-2023.01 old-2025.01 modern-2025.01; do
  >         by_text endings --text env -b $text --shell $shell | cksum
  >     done | sort | uniq -c | wc -l
  > done
  1
  1
  1

what a menu asks if at most one answer is a failure: without its initrd a label is skipped, and not without its device tree
  $ by_text rehearse --text env -b menu --failures 1 bootargs | sed 's/^dev //; /^done$/d'
  run 00000
  0 sysboot mmc 0:1 any 5 /a/extlinux.conf
  0 load mmc 0:1 1 /boot/vmlinuz
  0 load mmc 0:1 2 /boot/initrd.img
  0 load mmc 0:1 3 /boot/dtbs/b.dtb
  0 booti 1 2:1000 3
  var bootargs=root=/dev/mmcblk0p1 ro quiet
  booted booti
  run 000010000
  0 sysboot mmc 0:1 any 5 /a/extlinux.conf
  0 load mmc 0:1 1 /boot/vmlinuz
  0 load mmc 0:1 2 /boot/initrd.img
  0 load mmc 0:1 3 /boot/dtbs/b.dtb
  1 booti 1 2:1000 3
  0 load mmc 0:1 1 /boot/vmlinuz.old
  0 load mmc 0:1 2 /boot/initrd.img.old
  0 load mmc 0:1 3 /boot/dtbs/b.dtb
  0 booti 1 2:1000 3
  var bootargs=root=/dev/mmcblk0p1 ro single
  booted booti
  run 00010
  0 sysboot mmc 0:1 any 5 /a/extlinux.conf
  0 load mmc 0:1 1 /boot/vmlinuz
  0 load mmc 0:1 2 /boot/initrd.img
  1 load mmc 0:1 3 /boot/dtbs/b.dtb
  0 booti 1 2:1000
  var bootargs=root=/dev/mmcblk0p1 ro quiet
  booted booti
  run 0010000
  0 sysboot mmc 0:1 any 5 /a/extlinux.conf
  0 load mmc 0:1 1 /boot/vmlinuz
  1 load mmc 0:1 2 /boot/initrd.img
  0 load mmc 0:1 1 /boot/vmlinuz.old
  0 load mmc 0:1 2 /boot/initrd.img.old
  0 load mmc 0:1 3 /boot/dtbs/b.dtb
  0 booti 1 2:1000 3
  var bootargs=root=/dev/mmcblk0p1 ro single
  booted booti
  run 010000
  0 sysboot mmc 0:1 any 5 /a/extlinux.conf
  1 load mmc 0:1 1 /boot/vmlinuz
  0 load mmc 0:1 1 /boot/vmlinuz.old
  0 load mmc 0:1 2 /boot/initrd.img.old
  0 load mmc 0:1 3 /boot/dtbs/b.dtb
  0 booti 1 2:1000 3
  var bootargs=root=/dev/mmcblk0p1 ro single
  booted booti
  run 1
  1 sysboot mmc 0:1 any 5 /a/extlinux.conf
  unset bootargs
  end 1

a menu of the network is read by tftp, and the addresses that are not set are not used
  $ grep -v fdt_addr_r env >other
  $ by_text rehearse --text other -b net --failures 0 bootargs | sed 's/^dev //; /^done$/d'
  run 0000
  0 pxe boot
  0 tftpboot 1 /boot/vmlinuz
  0 tftpboot 2 /boot/initrd.img
  0 booti 1 2:1000
  var bootargs=root=/dev/mmcblk0p1 ro quiet
  booted booti

standard boot if nothing is found, and if there is a script, which does nothing
  $ by_text rehearse --text env -b scan --word 11111111111111111 devtype | sed 's/^dev //; /^done$/d'
  run 11111111111111111
  0 bootflow scan
  1 printenv -e BootOrder
  1 test -e mmc 0:1 /extlinux/extlinux.conf
  1 test -e mmc 0:1 /boot/extlinux/extlinux.conf
  1 test -e mmc 0:1 /boot.scr.uimg
  1 test -e mmc 0:1 /boot.scr
  1 test -e mmc 0:1 /boot/boot.scr.uimg
  1 test -e mmc 0:1 /boot/boot.scr
  1 test -e mmc 0:1 /EFI/BOOT/BOOTAA64.EFI
  0 usb start
  1 test -e usb 0:1 /extlinux/extlinux.conf
  1 test -e usb 0:1 /boot/extlinux/extlinux.conf
  1 test -e usb 0:1 /boot.scr.uimg
  1 test -e usb 0:1 /boot.scr
  1 test -e usb 0:1 /boot/boot.scr.uimg
  1 test -e usb 0:1 /boot/boot.scr
  1 test -e usb 0:1 /EFI/BOOT/BOOTAA64.EFI
  1 dhcp
  1 dhcp
  unset devtype
  end 0
  $ by_text rehearse --text env -b scan --word 1111001111111111 devtype prefix | sed 's/^dev //; /^done$/d'
  run 1111001111111111
  0 bootflow scan
  1 printenv -e BootOrder
  1 test -e mmc 0:1 /extlinux/extlinux.conf
  1 test -e mmc 0:1 /boot/extlinux/extlinux.conf
  1 test -e mmc 0:1 /boot.scr.uimg
  0 test -e mmc 0:1 /boot.scr
  0 source 4
  1 test -e mmc 0:1 /EFI/BOOT/BOOTAA64.EFI
  0 usb start
  1 test -e usb 0:1 /extlinux/extlinux.conf
  1 test -e usb 0:1 /boot/extlinux/extlinux.conf
  1 test -e usb 0:1 /boot.scr.uimg
  1 test -e usb 0:1 /boot.scr
  1 test -e usb 0:1 /boot/boot.scr.uimg
  1 test -e usb 0:1 /boot/boot.scr
  1 test -e usb 0:1 /EFI/BOOT/BOOTAA64.EFI
  1 dhcp
  1 dhcp
  var devtype=mmc
  var prefix=/
  end 0

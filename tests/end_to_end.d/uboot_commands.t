  $ . "$TESTDIR/../setup"

What calls of U-Boot's commands do by the lists of share/devices: a call, variables, and the record of its first run after
its word and what was asked.

  $ first_run() {
  >     script image "bootcmd=$1"
  >     ubtool rehearse -c image.config -d "$repository/share/devices" --limit 1 -- "${@:2}" |
  >         sed '/^run /d; /^dev 0 /d; /^done$/d; /^more /d'
  > }

load mmc 0:1 0x2000 f
  $ first_run 'load mmc 0:1 0x2000 f' filesize fileaddr
  var filesize=1000
  var fileaddr=0x2000
  end 0

load mmc 0:1
  $ first_run 'load mmc 0:1' fileaddr
  var fileaddr=1000000
  end 0

tftpboot 0x2000
  $ first_run 'tftpboot 0x2000' fileaddr
  var fileaddr=0x2000
  end 0

tftpboot kernel
  $ first_run 'tftpboot kernel' fileaddr
  var fileaddr=1000000
  end 0

tftpboot 2000 kernel
  $ first_run 'tftpboot 2000 kernel' fileaddr
  var fileaddr=2000
  end 0

tftpput 1000 20 f
  $ first_run 'tftpput 1000 20 f' filesize
  var filesize=20
  end 0

dhcp
  $ first_run 'dhcp' ipaddr dnsip rootpath fileaddr
  var ipaddr=192.0.2.10
  var dnsip=192.0.2.1
  var rootpath=/srv/board
  var fileaddr=1000000
  end 0

dhcp 2000 f
  $ first_run 'dhcp 2000 f' ipaddr dnsip rootpath fileaddr
  var ipaddr=192.0.2.10
  var dnsip=192.0.2.1
  var rootpath=/srv/board
  var fileaddr=2000
  end 0

linklocal
  $ first_run 'linklocal' gatewayip llipaddr
  var gatewayip=0.0.0.0
  var llipaddr=169.254.7.7
  end 0

dns host a
  $ first_run 'dns host a' a
  var a=192.0.2.7
  end 0

fdt addr 0x2000
  $ first_run 'fdt addr 0x2000' fdtaddr
  var fdtaddr=0x2000
  end 0

fdt addr -q 0x2000
  $ first_run 'fdt addr -q 0x2000' fdtaddr
  var fdtaddr=0x2000
  end 0

fdt addr -c
  $ first_run 'fdt addr -c' fdtaddr
  unset fdtaddr
  end 0

fdt addr
  $ first_run 'fdt addr' fdtaddr
  unset fdtaddr
  end 0

fdt address 2000
  $ first_run 'fdt address 2000' fdtaddr
  var fdtaddr=2000
  end 0

fdt move 1000 2000
  $ first_run 'fdt move 1000 2000' fdtaddr
  var fdtaddr=2000
  end 0

fdt get value a / model
  $ first_run 'fdt get value a / model' a
  var a=1
  end 0

fdt header get a totalsize
  $ first_run 'fdt header get a totalsize' a
  var a=1000
  end 0

nand device 0
  $ first_run 'nand device 0' nand_writesize
  unset nand_writesize
  end 0

nand device
  $ first_run 'nand device' nand_writesize
  var nand_writesize=800
  end 0

nand info
  $ first_run 'nand info' nand_erasesize
  var nand_erasesize=20000
  end 0

part list mmc 0 a
  $ first_run 'part list mmc 0 a' a
  var a=1
  end 0

part list mmc 0 -bootable a
  $ first_run 'part list mmc 0 -bootable a' a
  var a=1
  end 0

part list mmc 0
  $ first_run 'part list mmc 0' 0
  unset 0
  end 0

part number mmc 0 root a
  $ first_run 'part number mmc 0 root a' a
  var a=0x1
  end 0

fstype mmc 0:1 a
  $ first_run 'fstype mmc 0:1 a' a
  var a=ext4
  end 0

fstype mmc 0:1
  $ first_run 'fstype mmc 0:1' 0:1
  unset 0:1
  end 0

ubi list a
  $ first_run 'ubi list a' a
  var a=rootfs
  end 0

ubi list -numeric a
  $ first_run 'ubi list -numeric a' a
  var a=0
  end 0

gpt enumerate mmc 0
  $ first_run 'gpt enumerate mmc 0' gpt_partition_list
  var gpt_partition_list=root
  end 0

mmc partconf 0 a
  $ first_run 'mmc partconf 0 a' a
  var a=1
  end 0

mmc partconf 0 1 1 0
  $ first_run 'mmc partconf 0 1 1 0' 1
  unset 1
  end 0

ab_select a mmc 0:1
  $ first_run 'ab_select a mmc 0:1' a
  var a=a
  end 0

avb verify
  $ first_run 'avb verify' avb_bootargs
  var avb_bootargs=androidboot.verifiedbootstate=green
  end 0

upl read 1000
  $ first_run 'upl read 1000' upladdr
  unset upladdr
  end 0

upl write
  $ first_run 'upl write' upladdr
  var upladdr=1000000
  end 0

qfw load
  $ first_run 'qfw load' bootargs
  var bootargs=root=/dev/vda
  end 0

spl export fdt 1000
  $ first_run 'spl export fdt 1000' fdtargsaddr
  var fdtargsaddr=1000000
  end 0

askenv a
  $ first_run 'askenv a' a
  var a=1
  end 0

bootmeth order efi
  $ first_run 'bootmeth order efi' bootmeths
  var bootmeths=efi
  end 0

set a 1
  $ first_run 'set a 1' a
  var a=1
  end 0

bootm 1000
  $ first_run 'bootm 1000' a
  unset a
  booted bootm

bootm start 1000
  $ first_run 'bootm start 1000' a
  unset a
  end 0

bootm loados
  $ first_run 'bootm loados' a
  unset a
  end 0

bootm go
  $ first_run 'bootm go' a
  unset a
  booted bootm

bootaux 1000
  $ first_run 'bootaux 1000' a
  unset a
  end 0

bootelf 1000
  $ first_run 'bootelf 1000' a
  unset a
  end 0

bootefi hello
  $ first_run 'bootefi hello' a
  unset a
  end 0

bootefi 1000
  $ first_run 'bootefi 1000' a
  unset a
  booted bootefi

bootflow list
  $ first_run 'bootflow list' a
  unset a
  end 0

bootflow scan
  $ first_run 'bootflow scan' a
  unset a
  booted bootflow

pxe get
  $ first_run 'pxe get' a
  unset a
  end 0

pxe boot
  $ first_run 'pxe boot' a
  unset a
  booted pxe

sysboot mmc 0:1 any 1000 f
  $ first_run 'sysboot mmc 0:1 any 1000 f' bootfile
  var bootfile=f
  booted sysboot

usb start never fails
  $ script image 'bootcmd=usb start'
  $ ubtool rehearse -c image.config -d "$repository/share/devices" a
  run .
  dev 0 usb start
  unset a
  end 0
  done

pci enum never fails
  $ script image 'bootcmd=pci enum'
  $ ubtool rehearse -c image.config -d "$repository/share/devices" a
  run .
  dev 0 pci enum
  unset a
  end 0
  done

nand device 1 never fails
  $ script image 'bootcmd=nand device 1'
  $ ubtool rehearse -c image.config -d "$repository/share/devices" a
  run .
  dev 0 nand device 1
  unset a
  end 0
  done

dcache off never fails
  $ script image 'bootcmd=dcache off'
  $ ubtool rehearse -c image.config -d "$repository/share/devices" a
  run .
  dev 0 dcache off
  unset a
  end 0
  done

version never fails
  $ script image 'bootcmd=version'
  $ ubtool rehearse -c image.config -d "$repository/share/devices" a
  run .
  dev 0 version
  unset a
  end 0
  done

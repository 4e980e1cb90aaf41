  $ . "$TESTDIR/../setup"
  $ . "$repository/tests/package.d/setup"

The package in a clean root with nothing but the C library, from nothing to nothing.

  $ [ "$(id -u)" = 0 ] || left_out 'the package in a clean root, which only root can make'
  $ mkdir -p root/var/lib/dpkg/info root/var/lib/dpkg/updates root/var/log root/tmp
  $ for it in $(ldd "$UBTOOL" | sed '/^[^\t]/d' | grep -o '/[^ ]*' | sort -u); do mkdir -p "root$(dirname "$it")" && cp -L "$it" "root$it"; done
  $ dpkg-query -s libc6 >root/var/lib/dpkg/status; echo >>root/var/lib/dpkg/status; echo /. >root/var/lib/dpkg/info/libc6.list
  $ in_root() { marked chroot root "$@"; }

All that is in the root, but for what dpkg notes of its own work.

  $ all_files() {
  >     find root -printf '%P %m %s\n' | grep -v '^var/lib/dpkg\|^var/log\|^var [0-9]\|^ \|^tmp' | sort
  >     grep -c '^Package: ubtool' root/var/lib/dpkg/status || :
  > }
  $ all_files >before
  $ echo load >devices.txt; cp env.config env devices.txt root/

dpkg installs it
  $ dpkg --root="$PWD/root" --log=/dev/null -i "$PACKAGE" >said 2>&1
  $ dpkg-query --admindir=root/var/lib/dpkg -W -f '${Package} ${Version} ${db:Status-Abbrev}\n' ubtool | sed "s/ $VERSION / VERSION /"
  ubtool VERSION ii 

its version
  $ in_root /usr/bin/ubtool --version | sed "s/ $VERSION / VERSION /"
  ubtool VERSION (x86_64, dynamic)
  $ in_root /usr/bin/hushcheck --version | sed "s/ $VERSION / VERSION /"
  hushcheck VERSION (x86_64, dynamic)

it runs
  $ in_root /usr/bin/ubtool printenv -c env.config
  bootcmd=load || load
  bootdelay=3

it rehearses
  $ ubtool rehearse -c env.config -d devices.txt >wanted
  $ in_root /usr/bin/ubtool rehearse -c env.config -d devices.txt | cmp - wanted

it shows where texts break
  $ in_root /usr/bin/hushcheck -c env.config
  bootcmd: ok

it takes its device lists
  $ for list in $(ls root/usr/share/ubtool/devices); do
  >     in_root /usr/bin/ubtool rehearse -c env.config -d "/usr/share/ubtool/devices/$list" --limit 1 >/dev/null; echo "$list $?"
  > done >found
  $ (cd "$repository/share/devices" && printf '%s 0\n' *) | cmp - found

it takes them as a folder
  $ ubtool rehearse -c env.config -d "$repository/share/devices" --limit 1 >wanted
  $ in_root /usr/bin/ubtool rehearse -c env.config -d /usr/share/ubtool/devices --limit 1 | cmp - wanted

a menu and standard boot go on in the texts of the package
  $ cat root/usr/share/ubtool/handover/lines root/usr/share/ubtool/devices/* >root/lists.txt
  $ printf 'sysboot mmc 0:1 any 1000 /extlinux/extlinux.conf; setenv boot_targets mmc; bootflow scan\n' >root/boot.cmd
  $ in_root /usr/bin/ubtool causes --script boot.cmd -d lists.txt --files /usr/share/ubtool/handover --failures 0
  cause 0 booted bootefi
  $ in_root /usr/bin/ubtool endings --script boot.cmd -d lists.txt --files /usr/share/ubtool/handover | grep -c '^ends '
  2

and the boards are there
  $ ubtool endings --text "$repository/share/boards/warp7.env" -d "$repository/share/devices" >wanted
  $ in_root /usr/bin/ubtool endings --text /usr/share/ubtool/boards/warp7.env -d /usr/share/ubtool/devices | cmp - wanted

the calls that docs/INSTALL.md ends with
  $ mkdir root/etc; cp env.config root/etc/fw_env.config
  $ sed '1,/^## To see/d' "$repository/docs/INSTALL.md" | sed -n '/^```$/,/^```$/p' | sed '/^```$/d' >calls; cat calls
  ubtool --version
  ubtool printenv bootcmd
  hushcheck
  $ while read -r call; do in_root /usr/bin/$call >/dev/null </dev/null || echo "$call: $?"; done <calls

it runs as fw_printenv and fw_setenv
  $ in_root /usr/bin/fw_printenv -c env.config -n bootdelay
  3
  $ in_root /usr/bin/fw_setenv --config env.config bootdelay 4
  $ in_root /usr/bin/fw_printenv -c env.config bootdelay
  bootdelay=4

its manual pages by other names
  $ readlink root/usr/share/man/man1/fw_printenv.1.gz root/usr/share/man/man1/fw_setenv.1.gz
  ubtool.1.gz
  ubtool.1.gz

its files are whole
  $ dpkg --root="$PWD/root" --verify ubtool

dpkg removes it, and nothing is left of it
  $ dpkg --root="$PWD/root" --log=/dev/null --purge ubtool >said 2>&1
  $ rm -r root/env.config root/env root/devices.txt root/lists.txt root/boot.cmd root/etc
  $ all_files >after
  $ cmp before after

  $ . "$TESTDIR/../setup"
  $ . "$repository/tests/package.d/setup"

The package and Debian's owner of fw_printenv and fw_setenv, installed and removed in each order, with the two update services
that call these names: in a copy of this machine's root that is thrown away, over which apt-get and dpkg work.

  $ [ "$(id -u)" = 0 ] || left_out 'the package beside libubootenv-tool, in a root that only root can make'
  $ copy_root() {
  >     mkdir -p over there && mount -t tmpfs tmpfs over && mkdir over/up over/work || return 1
  >     mount -t overlay overlay -o "lowerdir=/,upperdir=$PWD/over/up,workdir=$PWD/over/work" there || return 1
  >     mount -t proc proc there/proc && mount --bind /dev there/dev && mount -t tmpfs tmpfs there/tmp || return 1
  >     printf '#!/bin/sh\nexit 101\n' >there/usr/sbin/policy-rc.d && chmod +x there/usr/sbin/policy-rc.d
  > }
  $ drop_root() { for it in there/tmp there/dev there/proc there over; do ! mountpoint -q $it || umount $it; done; }
  $ trap drop_root EXIT
  $ copy_root 2>why || left_out "the package beside libubootenv-tool, since $(tail -n 1 why)"
  $ in_root() { chroot there "$@" </dev/null; }
  $ apt() { in_root env DEBIAN_FRONTEND=noninteractive apt-get -qq -y -o Dpkg::Use-Pty=0 "$@" >log 2>&1; }
  $ cp env "$PACKAGE" there/tmp/; sed 's|^|/tmp/|' env.config >there/tmp/env.config; file=/tmp/$(basename "$PACKAGE")
  $ { apt update && apt install --no-install-recommends libubootenv-tool mender-client rauc; } ||
  >     left_out "the package beside libubootenv-tool, since apt-get cannot install the services: $(tail -n 1 log)"
  $ in_root sh -c 'cd /tmp && apt-get -qq download libubootenv-tool' >/dev/null 2>&1

Who owns both names, and what one of them prints; and whether both services are installed, and nothing that they need is missing.

  $ names() { for it in fw_printenv fw_setenv; do in_root dpkg -S /usr/bin/$it | cut -d : -f 1; done; in_root fw_printenv -c /tmp/env.config -n bootdelay; }
  $ services() { in_root dpkg-query -W -f '${Package} ${db:Status-Abbrev}\n' mender-client rauc; apt check; }

the names before the package
  $ names
  libubootenv-tool
  libubootenv-tool
  3

the package after libubootenv-tool
  $ apt install "$file"; names
  ubtool
  ubtool
  3
  $ services
  mender-client ii 
  rauc ii 

libubootenv-tool after the package
  $ apt install libubootenv-tool; names
  libubootenv-tool
  libubootenv-tool
  3
  $ services
  mender-client ii 
  rauc ii 

libubootenv-tool removed beside the package
  $ apt install "$file"; apt purge libubootenv-tool; names
  ubtool
  ubtool
  3

the package removed
  $ apt purge ubtool; ls there/usr/bin/fw_printenv there/usr/bin/fw_setenv 2>/dev/null
  [2]
  $ services
  mender-client ii 
  rauc ii 

the package alone
  $ apt install "$file"; names
  ubtool
  ubtool
  3

what mender-client recommends is there
  $ in_root apt-get -s -o APT::Install-Recommends=true install --reinstall mender-client >log 2>&1
  $ grep -c '^Inst libubootenv-tool\|^Remv ubtool' log
  0
  [1]

dpkg alone refuses libubootenv-tool beside the package
  $ in_root sh -c 'dpkg -i /tmp/libubootenv-tool_*.deb' >log 2>&1
  [1]
  $ names
  ubtool
  ubtool
  3

libubootenv-tool again
  $ apt purge ubtool; apt install libubootenv-tool; names
  libubootenv-tool
  libubootenv-tool
  3

dpkg alone puts the package in its place
  $ in_root dpkg -i "$file" >log 2>&1; names
  ubtool
  ubtool
  3
  $ services
  mender-client ii 
  rauc ii 

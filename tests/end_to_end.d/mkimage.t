  $ . "$TESTDIR/../setup"

Script images as mkimage makes them.

  $ needs mkimage
  $ printf 'if probe; then\n  setenv a "${b}"; run more\nelse\n  reset\nfi\n' >boot.cmd
  $ printf 'if probe; then true; else reset; fi' >end.cmd
  $ echo '#' >empty
  $ printf 'probe\nfinal reset\n' >reset.list

boot.cmd in an image of mkimage
  $ mkimage -A arm -T script -C none -n a -d boot.cmd made.scr >/dev/null
  $ ubtool rehearse --script boot.cmd -d reset.list >wanted
  $ ubtool rehearse --script made.scr -d reset.list | cmp wanted

end.cmd in an image of mkimage
  $ mkimage -A arm -T script -C none -n a -d end.cmd made.scr >/dev/null
  $ ubtool rehearse --script end.cmd -d reset.list >wanted
  $ ubtool rehearse --script made.scr -d reset.list | cmp wanted

empty in an image of mkimage
  $ mkimage -A arm -T script -C none -n a -d empty made.scr >/dev/null
  $ ubtool rehearse --script empty -d reset.list >wanted
  $ ubtool rehearse --script made.scr -d reset.list | cmp wanted

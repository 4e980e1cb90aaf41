  $ . "$TESTDIR/../setup"

What docs/REHEARSAL.md says of a card that lacks a file, though nothing is wrong.

  $ cat "$repository"/share/devices/* >list; cp list expected
  $ for folder in '' /boot; do echo "call test -e * * $folder/extlinux/extlinux.conf : normal 1"; done >>expected

how much has to go wrong until rpi_4 boots so, by the one list and by the other
  $ for it in list expected; do
  >     "$UBTOOL" endings --text "$repository/share/boards/rpi_4.env" -d $it --shell old-2023.01 --steady |
  >         sed -n 's/^ends .* fewest \([0-9]*\) [01]* \(booted sysboot\|booted bootefi\)$/\1 \2/p'
  > done
  0 booted sysboot
  2 booted bootefi
  1 booted sysboot
  0 booted bootefi

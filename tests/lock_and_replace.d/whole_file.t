  $ . "$TESTDIR/../setup"
  $ . "$repository/tests/lock_and_replace.d/setup"

A whole file.

a whole file
  $ fresh; changes "${set_two[@]}"
  $ hex e
  62 b8 de 47 61 3d 32 00 00
  $ replaced
  a new file
  $ beside
  nothing else

a whole file of mode 640
  $ fresh; chmod 640 e; umask 077; changes "${set_two[@]}"; umask 022
  $ hex e
  62 b8 de 47 61 3d 32 00 00
  $ replaced
  a new file
  $ beside
  nothing else

a whole file of mode 600
  $ fresh; chmod 600 e; umask 077; changes "${set_two[@]}"; umask 022
  $ hex e
  62 b8 de 47 61 3d 32 00 00
  $ replaced
  a new file
  $ beside
  nothing else

a whole file of mode 666
  $ fresh; chmod 666 e; umask 077; changes "${set_two[@]}"; umask 022
  $ hex e
  62 b8 de 47 61 3d 32 00 00
  $ replaced
  a new file
  $ beside
  nothing else

a whole file of mode 755
  $ fresh; chmod 755 e; umask 077; changes "${set_two[@]}"; umask 022
  $ hex e
  62 b8 de 47 61 3d 32 00 00
  $ replaced
  a new file
  $ beside
  nothing else

a file behind two links
  $ fresh; mkdir links; ln -s ../e links/first; ln -s links/first second; printf 'second 0 9\n' >linked
  $ changes ./fw_setenv -l locks -c linked a 2
  $ hex e
  62 b8 de 47 61 3d 32 00 00
  $ replaced
  a new file
  $ beside
  nothing else
  $ readlink second links/first
  links/first
  ../e

a file with a long name
  $ long=$(printf '%0250d' 0); bytes "$single" >"$long"; printf '%s 0 9\n' "$long" >long
  $ marked ./fw_setenv -l locks -c long a 2
  $ hex "$long"
  62 b8 de 47 61 3d 32 00 00
  $ beside
  nothing else

The process has the number of the shell that it takes the place of; so a file can have the name that it would take.

  $ set_taken() { NUMBERS=$1 sh -c 'for number in $NUMBERS; do echo taken >.e.$$.$number; done; exec "$@"' sh "${set_two[@]}"; }

names that are taken, and what is in them
  $ sets set_taken '0 1 2'
  $ hex e
  62 b8 de 47 61 3d 32 00 00
  $ cat .e.*; rm .e.*
  taken
  taken
  taken

names that are all taken
  $ sets set_taken '0 1 2 3 4 5 6 7'
  ! fw_setenv: cannot replace e, writing it in place
  $ hex e
  62 b8 de 47 61 3d 32 00 00
  $ rm .e.*

a file with two names
  $ fresh; ln e other
  $ changes "${set_two[@]}"
  $ hex e
  62 b8 de 47 61 3d 32 00 00
  $ replaced
  the same file
  $ beside
  nothing else
  $ hex other; rm other
  62 b8 de 47 61 3d 32 00 00

a larger file
  $ fresh; printf x >>e
  $ changes "${set_two[@]}"
  $ hex e
  62 b8 de 47 61 3d 32 00 00 78
  $ replaced
  the same file
  $ beside
  nothing else

an environment after a byte
  $ { printf x && bytes "$single"; } >e; printf 'e 1 9\n' >offset
  $ changes ./fw_setenv -l locks -c offset a 2
  $ hex e
  78 62 b8 de 47 61 3d 32 00 00
  $ replaced
  the same file
  $ beside
  nothing else

No note is written into the file, if it has the number of a closed error output.

a note on a closed error output
  $ fresh; set_taken '0 1 2 3 4 5 6 7' 2>&-; hex e
  62 b8 de 47 61 3d 32 00 00
  $ rm .e.*

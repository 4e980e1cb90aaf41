  $ . "$TESTDIR/../setup"

Shells.

  $ { printf 'bootcmd=' && cat "$repository/tests/compare_boards.d/two_slots" && printf '\0\0'; } | new_image rauc
no warning, by profile
  $ text 'exit; a=; ls && ls || ls; setenv -f a; for i in "$a"; do ls '\''\\b'\''; done' --shell profile
  bootcmd: ok

what is not followed, by old-2023.01
  $ text 'exit; a=; ls && ls || ls; setenv -f a; for i in "$a"; do ls '\''\\b'\''; done' --shell old-2023.01
  bootcmd: ok
  bootcmd:1:34: warning: U-Boot's setenv takes this for an option, or sets an empty name
  exit; a=; ls && ls || ls; setenv -f a; for i in "$a"; do ls '\b'; done
                                   ^

what is not followed, by old-2025.01
  $ text 'exit; a=; ls && ls || ls; setenv -f a; for i in "$a"; do ls '\''\\b'\''; done' --shell old-2025.01
  bootcmd: ok
  bootcmd:1:34: warning: U-Boot's setenv takes this for an option, or sets an empty name
  exit; a=; ls && ls || ls; setenv -f a; for i in "$a"; do ls '\b'; done
                                   ^

what is not followed, by old
  $ text 'exit; a=; ls && ls || ls; setenv -f a; for i in "$a"; do ls '\''\\b'\''; done' --shell old
  bootcmd: ok
  bootcmd:1:34: warning: U-Boot's setenv takes this for an option, or sets an empty name
  exit; a=; ls && ls || ls; setenv -f a; for i in "$a"; do ls '\b'; done
                                   ^

seventeen words and a file, by old, and by that of 2023.01
  $ text 'ls 1 2 3 4 5 6 7 8 9 a b c d e f g; test ! -e mmc 0 a' --shell old
  bootcmd: ok
  $ text 'ls 1 2 3 4 5 6 7 8 9 a b c d e f g; test ! -e mmc 0 a' --shell old-2023.01
  bootcmd: ok
  bootcmd:1:34: warning: a command has at most 16 words in U-Boot 2023.01
  ls 1 2 3 4 5 6 7 8 9 a b c d e f g; test ! -e mmc 0 a
                                   ^

a text that is not followed, by old
  $ text 'ls\nif ls; then if ls; then ls; fi fi' --shell old
  bootcmd: ok
  bootcmd:1:1: warning: a rehearsal by this shell does not run this text
  ls
  ^
  bootcmd:2:32: warning: U-Boot's old shell needs ; before this word
  if ls; then if ls; then ls; fi fi
                                 ^

a reserved name, by old
  $ text 'for fi in a; do ls; done' --shell old
  bootcmd: ok
  bootcmd:1:1: warning: a rehearsal by this shell does not run this text
  for fi in a; do ls; done
  ^
  bootcmd:1:5: warning: U-Boot's old shell refuses a reserved word here
  for fi in a; do ls; done
      ^

a text that this shell alone reads, by old
  $ text 'if ls; then # none\nelse x=1 ls; fi' --shell old
  bootcmd: ok

an empty block, by profile
  $ text 'if ls; then else ls; fi' --shell profile
  bootcmd:1:13: the block before this word is empty: write true in it
  if ls; then else ls; fi
              ^
  [1]

a text that no shell reads, by old
  $ text 'fi ls' --shell old
  bootcmd:1:1: unexpected token
  fi ls
  ^
  bootcmd:1:1: warning: a rehearsal by this shell does not run this text
  fi ls
  ^
  bootcmd:1:4: warning: U-Boot's old shell needs ; before this word
  fi ls
     ^
  [1]

what a text runs that this shell alone reads
  $ image lost 'bootcmd=if ls; then else run a $b; fi' a=ls
  $ hushcheck -c lost.config --shell old
  bootcmd: ok
  bootcmd:1:24: note: not followed, since the name holds a variable
  if ls; then else run a $b; fi
                         ^
  a: ok
  bootcmd:1:24: warning: nothing sets b
  if ls; then else run a $b; fi
                         ^

what the list lacks in such a text
  $ printf 'ls\n' >ls.list
  $ text 'if ls; then else load; fi' --shell old -d ls.list
  bootcmd: ok
  bootcmd:1:18: the device list lacks load
  if ls; then else load; fi
                   ^
  [1]

the script of an update service, by old
  $ hushcheck -c rauc.config --shell old
  bootcmd: ok
  load_kernel: not set
  bootcmd:13:26: warning: nothing sets kernel_addr_r
        setenv load_kernel "load mmc 0:1 ${kernel_addr_r} Image"
                           ^
  bootcmd:14:23: warning: nothing sets default_bootargs
        setenv bootargs "${default_bootargs} root=/dev/mmcblk0p1 rauc.slot=A"
                        ^

a shell of another name
  $ hushcheck --shell newest
  ! error: invalid value 'newest' for '--shell <NAME>'
  !   [possible values: profile, old-2023.01, old-2025.01, old, modern-2025.01, modern]
  !
  ! For more information, try '--help'.
  [2]

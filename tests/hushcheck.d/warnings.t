  $ . "$TESTDIR/../setup"

Warnings.

fi after fi
  $ text 'if true; then if true; then ls; fi fi'
  bootcmd: ok
  bootcmd:1:36: warning: U-Boot's old shell needs ; before this word
  if true; then if true; then ls; fi fi
                                     ^

done after done, on line 2
  $ text 'ls\nwhile ls; do until ls; do ls; done done'
  bootcmd: ok
  bootcmd:2:36: warning: U-Boot's old shell needs ; before this word
  while ls; do until ls; do ls; done done
                                     ^

then after fi
  $ text 'if if ls; then ls; fi then ls; fi'
  bootcmd: ok
  bootcmd:1:23: warning: U-Boot's old shell needs ; before this word
  if if ls; then ls; fi then ls; fi
                        ^

a separator between
  $ text 'if ls; then if ls; then ls; fi; fi && for i in done fi done; do echo fi fi; done\nfi=1; echo done'
  bootcmd: ok

a mixed list
  $ text 'ls a && ls b || ls c && ls d'
  bootcmd: ok
  bootcmd:1:14: warning: once U-Boot's old shell skips a command, it skips the rest of the list
  ls a && ls b || ls c && ls d
               ^
  bootcmd:1:22: warning: once U-Boot's old shell skips a command, it skips the rest of the list
  ls a && ls b || ls c && ls d
                       ^

a list around a block
  $ text 'ls && if ls || ls; then ls; fi || ls'
  bootcmd: ok
  bootcmd:1:32: warning: once U-Boot's old shell skips a command, it skips the rest of the list
  ls && if ls || ls; then ls; fi || ls
                                 ^

lists of one operator each
  $ text 'ls && ls && ls; ls || ls\nif ls && ls; then ls; fi'
  bootcmd: ok

an operator at the end of a line
  $ text 'ls || # a comment\n\nls; ls &&\nls'
  bootcmd: ok
  bootcmd:1:4: warning: U-Boot's old shell ends the list with this line, and runs the next one
  ls || # a comment
     ^
  bootcmd:3:8: warning: U-Boot's old shell ends the list with this line, and runs the next one
  ls; ls &&
         ^

the words of a for
  $ text 'for i in "$a" b '\''c d'\'' '\'''\''; do ls "$i"; done'
  bootcmd: ok
  bootcmd:1:10: warning: U-Boot's old shell splits this word at each space, and drops it if it is empty
  for i in "$a" b 'c d' ''; do ls "$i"; done
           ^
  bootcmd:1:17: warning: U-Boot's old shell splits this word at each space, and drops it if it is empty
  for i in "$a" b 'c d' ''; do ls "$i"; done
                  ^
  bootcmd:1:23: warning: U-Boot's old shell splits this word at each space, and drops it if it is empty
  for i in "$a" b 'c d' ''; do ls "$i"; done
                        ^
  bootcmd:1:10: warning: nothing sets a
  for i in "$a" b 'c d' ''; do ls "$i"; done
           ^

words of a for that are read alike
  $ text 'for i in a $b '\''c'\'' "d"; do ls "e f"; done'
  bootcmd: ok
  bootcmd:1:12: warning: nothing sets b
  for i in a $b 'c' "d"; do ls "e f"; done
             ^

the variable of a for
  $ text 'for fi in a; do ls; done; for _a in b; do ls; done'
  bootcmd: ok
  bootcmd:1:5: warning: U-Boot's old shell refuses a reserved word here
  for fi in a; do ls; done; for _a in b; do ls; done
      ^
  bootcmd:1:31: warning: no variable of U-Boot's old shell has a name that starts with _
  for fi in a; do ls; done; for _a in b; do ls; done
                                ^

exit
  $ text 'ls; exit 1'
  bootcmd: ok
  bootcmd:1:5: warning: exit ends nothing in U-Boot 2023.01, and other things in a block later on
  ls; exit 1
      ^

no value
  $ text "a=; b=1 c=''"
  bootcmd: ok
  bootcmd:1:1: warning: U-Boot 2023.01 keeps the value that the variable has
  a=; b=1 c=''
  ^
  bootcmd:1:9: warning: U-Boot 2023.01 keeps the value that the variable has
  a=; b=1 c=''
          ^

an underscore
  $ text '_a=1; ls "$_a" ${_b} $c_'
  bootcmd: ok
  bootcmd:1:1: warning: no variable of U-Boot's old shell has a name that starts with _
  _a=1; ls "$_a" ${_b} $c_
  ^
  bootcmd:1:10: warning: no variable of U-Boot's old shell has a name that starts with _
  _a=1; ls "$_a" ${_b} $c_
           ^
  bootcmd:1:16: warning: no variable of U-Boot's old shell has a name that starts with _
  _a=1; ls "$_a" ${_b} $c_
                 ^
  bootcmd:1:16: warning: nothing sets _b
  _a=1; ls "$_a" ${_b} $c_
                 ^
  bootcmd:1:22: warning: nothing sets c_
  _a=1; ls "$_a" ${_b} $c_
                       ^

a backslash in single quotes
  $ text 'ls '\''a\\b'\'''
  bootcmd: ok
  bootcmd:1:4: warning: U-Boot's old shell drops a backslash in single quotes
  ls 'a\b'
     ^

a backslash in double quotes
  $ text 'ls "a\\$b" "a\\b" a\\$b'
  bootcmd: ok
  bootcmd:1:4: warning: U-Boot's old shell keeps a backslash in double quotes
  ls "a\$b" "a\b" a\$b
     ^

an apostrophe
  $ text 'ls "it'\''s" '\''it'\'''
  bootcmd: ok
  bootcmd:1:4: warning: an apostrophe in double quotes opens quotes in U-Boot's old shell
  ls "it's" 'it'
     ^

a word that is partly quoted
  $ text 'ls a"b"$c "$d"e'
  bootcmd: ok
  bootcmd:1:4: warning: U-Boot's old shell does not split a word of which a part is quoted
  ls a"b"$c "$d"e
     ^
  bootcmd:1:4: warning: nothing sets c
  ls a"b"$c "$d"e
     ^
  bootcmd:1:11: warning: nothing sets d
  ls a"b"$c "$d"e
            ^

a word of test
  $ text 'test $a = b; test "$a" = $?'
  bootcmd: ok
  bootcmd:1:6: warning: test may be true in U-Boot if this leaves words over or too few: quote it
  test $a = b; test "$a" = $?
       ^
  bootcmd:1:6: warning: nothing sets a
  test $a = b; test "$a" = $?
       ^

files of test
  $ text 'test ! -e mmc 0 a; test -e mmc 0 a; test -e mmc 0 a -o b'
  bootcmd: ok
  bootcmd:1:8: warning: U-Boot's test asks for a file here
  test ! -e mmc 0 a; test -e mmc 0 a; test -e mmc 0 a -o b
         ^
  bootcmd:1:53: warning: U-Boot's test asks for a file here
  test ! -e mmc 0 a; test -e mmc 0 a; test -e mmc 0 a -o b
                                                      ^

-e that is compared
  $ text 'test a = -e; test a != -e'
  bootcmd: ok

an empty word
  $ text 'ls '\'''\'' ""'
  bootcmd: ok
  bootcmd:1:4: warning: U-Boot's modern shell drops '', but keeps ""
  ls '' ""
     ^

an option of setenv
  $ text 'setenv -f a b; setenv a -f'
  bootcmd: ok
  bootcmd:1:8: warning: U-Boot's setenv takes this for an option, or sets an empty name
  setenv -f a b; setenv a -f
         ^

seventeen words
  $ text 'ls 1 2 3 4 5 6 7 8 9 a b c d e f g h'
  bootcmd: ok
  bootcmd:1:34: warning: a command has at most 16 words in U-Boot 2023.01
  ls 1 2 3 4 5 6 7 8 9 a b c d e f g h
                                   ^

names in braces
  $ text 'ls ${?} ${a.b} ${1a} ${a}'
  bootcmd: ok
  bootcmd:1:4: warning: ${?} is empty in U-Boot's old shell
  ls ${?} ${a.b} ${1a} ${a}
     ^
  bootcmd:1:9: warning: U-Boot's modern shell refuses this name in braces
  ls ${?} ${a.b} ${1a} ${a}
          ^
  bootcmd:1:16: warning: U-Boot's modern shell refuses this name in braces
  ls ${?} ${a.b} ${1a} ${a}
                 ^
  bootcmd:1:9: warning: nothing sets a.b
  ls ${?} ${a.b} ${1a} ${a}
          ^
  bootcmd:1:16: warning: nothing sets 1a
  ls ${?} ${a.b} ${1a} ${a}
                 ^
  bootcmd:1:22: warning: nothing sets a
  ls ${?} ${a.b} ${1a} ${a}
                       ^

a parameter
  $ text 'ls $1 \\$2'
  bootcmd: ok
  bootcmd:1:4: warning: U-Boot's modern shell takes $ and the byte after it for a variable
  ls $1 \$2
     ^

a parenthesis
  $ text 'ls (a) "(b)"'
  bootcmd: ok
  bootcmd:1:4: warning: U-Boot's modern shell refuses ( outside quotes
  ls (a) "(b)"
     ^

a backslash at the end of a line, in a word
  $ text 'ls a\\\nb'
  bootcmd: ok
  bootcmd:1:4: warning: U-Boot's old shell keeps the line's end after this backslash
  ls a\
     ^

The script of an update service:

In the form of RAUC's script contrib/uboot.sh: a for over a quoted variable, and a then that has a comment alone.

its for and its empty block
  $ { printf 'bootcmd=' && cat "$repository/tests/compare_boards.d/two_slots" && printf '\0\0'; } | new_image rauc
  $ hushcheck -c rauc.config
  bootcmd:9:3: the block before this word is empty: write true in it
    elif test "x${BOOT_SLOT}" = "xA"; then
    ^
  bootcmd:6:18: warning: U-Boot's old shell splits this word at each space, and drops it if it is empty
  for BOOT_SLOT in "${BOOT_ORDER}"; do
                   ^
  bootcmd:10:13: warning: test may be true in U-Boot if this leaves words over or too few: quote it
      if test ${BOOT_A_LEFT} -gt 0; then
              ^
  bootcmd:17:13: warning: test may be true in U-Boot if this leaves words over or too few: quote it
      if test ${BOOT_B_LEFT} -gt 0; then
              ^
  [1]

  $ . "$TESTDIR/../setup"

setenv on a single image, and with a script.

  $ printf 'e 0 9\n' >config

another value
  $ bytes "$single" >e
  $ ubtool setenv -c config a 2
  $ hex e
  62 b8 de 47 61 3d 32 00 00

the same value
  $ bytes "$single" >e
  $ ubtool setenv -c config a 1
  $ hex e
  3b 06 98 45 61 3d 31 00 00

no value
  $ bytes "$single" >e
  $ ubtool setenv -c config a
  $ hex e
  1d f7 22 c6 00 00 00 00 00

an empty value
  $ bytes "$single" >e
  $ ubtool setenv -c config a ''
  $ hex e
  1d f7 22 c6 00 00 00 00 00

an absent variable, deleted
  $ bytes "$single" >e
  $ ubtool setenv -c config b
  $ hex e
  3b 06 98 45 61 3d 31 00 00

a value too long
  $ bytes "$single" >e
  $ ubtool setenv -c config a 44
  ! ubtool: environment is too large
  [1]

a name with =
  $ ubtool setenv -c config a=b 1
  ! ubtool: bad name
  [1]

an empty name
  $ ubtool setenv -c config '' 1
  ! ubtool: bad name
  [1]

a refused change
  $ hex e
  3b 06 98 45 61 3d 31 00 00

the largest image, changed
  $ head -c 1048572 /dev/zero | new_image largest
  $ ubtool setenv -c largest.config a 1

the largest image, printed
  $ ubtool printenv -c largest.config
  a=1

the size of the largest image
  $ stat -c %s largest
  1048576

A file with an image of 16 bytes at offset 5, an empty environment, and 7 bytes after it.

  $ fresh() { { printf 'front' && bytes '6f c6 d5 7b 00 00 00 00 00 00 00 00 00 00 00 00' && printf 'ends.at'; } >e5; }
  $ printf 'e5 0x5 0x10\n' >e5.config

several words
  $ fresh
  $ ubtool setenv -c e5.config a 1 2 3
  $ ubtool printenv -c e5.config
  a=1 2 3
  $ head -c 5 e5; tail -c 7 e5
  frontends.at (no-eol)

words with blanks
  $ ubtool setenv -c e5.config a ' 1 ' '2 '
  $ ubtool printenv -c e5.config
  a= 1  2 
  $ head -c 5 e5; tail -c 7 e5
  frontends.at (no-eol)

an empty word among others
  $ ubtool setenv -c e5.config a '' 1
  $ ubtool printenv -c e5.config
  a= 1
  $ head -c 5 e5; tail -c 7 e5
  frontends.at (no-eol)

a value with =
  $ fresh
  $ ubtool setenv -c e5.config a b=c
  $ ubtool printenv -c e5.config
  a=b=c
  $ head -c 5 e5; tail -c 7 e5
  frontends.at (no-eol)

a name that starts with -
  $ ubtool setenv -c e5.config -- -x 1
  $ ubtool printenv -c e5.config
  a=b=c
  -x=1
  $ head -c 5 e5; tail -c 7 e5
  frontends.at (no-eol)

a value that starts with -
  $ fresh
  $ ubtool setenv -c e5.config -- x -1 -2
  $ ubtool printenv -c e5.config
  x=-1 -2
  $ head -c 5 e5; tail -c 7 e5
  frontends.at (no-eol)

the first of two
  $ fresh
  $ ubtool setenv -c e5.config x 1
  $ ubtool printenv -c e5.config
  x=1
  $ head -c 5 e5; tail -c 7 e5
  frontends.at (no-eol)

the second of two
  $ ubtool setenv -c e5.config y 2
  $ ubtool printenv -c e5.config
  x=1
  y=2
  $ head -c 5 e5; tail -c 7 e5
  frontends.at (no-eol)

a changed variable goes last
  $ ubtool setenv -c e5.config x 3
  $ ubtool printenv -c e5.config
  y=2
  x=3
  $ head -c 5 e5; tail -c 7 e5
  frontends.at (no-eol)

an unchanged variable stays
  $ ubtool setenv -c e5.config y 2
  $ ubtool printenv -c e5.config
  y=2
  x=3
  $ head -c 5 e5; tail -c 7 e5
  frontends.at (no-eol)

a deleted variable
  $ ubtool setenv -c e5.config y
  $ ubtool printenv -c e5.config
  x=3
  $ head -c 5 e5; tail -c 7 e5
  frontends.at (no-eol)

the bytes after the last NUL are zero
  $ tail -c +10 e5 | head -c 12 | od -An -v -tx1
   78 3d 33 00 00 00 00 00 00 00 00 00

the longest value
  $ fresh
  $ ubtool setenv -c e5.config a 12345678
  $ ubtool printenv -c e5.config
  a=12345678
  $ head -c 5 e5; tail -c 7 e5
  frontends.at (no-eol)

a value too long by one
  $ ubtool setenv -c e5.config a 123456789
  ! ubtool: environment is too large
  [1]

the environment after a refusal
  $ ubtool printenv -c e5.config
  a=12345678

a value with a newline
  $ ubtool setenv -c e5.config a $'b\nc'
  $ ubtool printenv -c e5.config
  a=b
  c
  $ head -c 5 e5; tail -c 7 e5
  frontends.at (no-eol)

a value that is not ASCII
  $ ubtool setenv -c e5.config a $'\xc3\xa9'
  $ ubtool printenv -c e5.config
  a=\xc3\xa9 (esc)
  $ head -c 5 e5; tail -c 7 e5
  frontends.at (no-eol)

a big-endian image, changed
  $ bytes '45 98 06 3b 61 3d 31 00 00' >big
  $ places big >big.config
  $ ubtool setenv --big-endian -c big.config a 2
  $ hex big
  47 de b8 62 61 3d 32 00 00

The file that is all of the environment is replaced: through a link, which stays, by one with its rights, and no other
file is left. (tests/lock_and_replace has more.)

an image behind a link
  $ bytes "$single" >linked
  $ chmod 640 linked
  $ ln -s linked link
  $ printf 'link 0 9\n' >link.config
  $ stat -c '%a %u:%g' linked >before; stat -c %F link >>before; ls -A >>before
  $ ubtool setenv -c link.config a 2
  $ hex linked
  62 b8 de 47 61 3d 32 00 00

the files afterwards
  $ stat -c '%a %u:%g' linked >after; stat -c %F link >>after; ls -A >>after
  $ grep -vx after after | cmp before

a name of 100,000 bytes
  $ long=$(head -c 100000 /dev/zero | tr '\0' x)
  $ ubtool printenv -c config "$long" 2>err
  [1]
  $ [ "$(cat err)" = "! ## Error: \"$long\" not defined" ]

a value of 100,000 bytes
  $ ubtool setenv -c config a "$long"
  ! ubtool: environment is too large
  [1]

a name and a value of 100,000 bytes
  $ ubtool setenv -c largest.config "$long" "$long"
  $ [ "$(ubtool printenv -c largest.config)" = $'a=1\n'"$long=$long" ]

Setenv with a script, where a is 0 before:

  $ zero='2b 62 2f 43 61 3d 30 00 00 00 00 00 00 00 00 00'
  $ printf 's 0 10\n' >s.config

one line for each kind of change
  $ bytes "$zero" >s; printf '# c\na\nb  x  y\nc=1\n' >changes
  $ ubtool setenv -c s.config -s changes
  $ ubtool printenv -c s.config
  b=x  y
  c=1

the bytes of a script of changes
  $ hex s
  c4 20 d1 42 62 3d 78 20 20 79 00 63 3d 31 00 00

no line
  $ bytes "$zero" >s; printf '' >changes
  $ ubtool setenv -c s.config -s changes
  $ ubtool printenv -c s.config
  a=0

no newline at its end
  $ bytes "$zero" >s; printf 'a 1' >changes
  $ ubtool setenv -c s.config -s changes
  $ ubtool printenv -c s.config
  a=1

an = after the name
  $ bytes "$zero" >s; printf 'a = 1\n' >changes
  $ ubtool setenv -c s.config -s changes
  $ ubtool printenv -c s.config
  a== 1

blanks in front and after
  $ bytes "$zero" >s; printf '  k  v \n' >changes
  $ ubtool setenv -c s.config -s changes
  $ ubtool printenv -c s.config
  a=0
  k=v 

a name and blanks
  $ bytes "$zero" >s; printf 'a  \n' >changes
  $ ubtool setenv -c s.config -s changes
  $ ubtool printenv -c s.config

a name and =
  $ bytes "$zero" >s; printf 'a=\n' >changes
  $ ubtool setenv -c s.config -s changes
  $ ubtool printenv -c s.config

a comment after a blank deletes
  $ bytes "$zero" >s; printf ' #x\n' >changes
  $ ubtool setenv -c s.config -s changes
  $ ubtool printenv -c s.config
  a=0

carriage returns
  $ bytes "$zero" >s; printf '\r\na 1\r\r\n' >changes
  $ ubtool setenv -c s.config -s changes
  $ ubtool printenv -c s.config
  a=1

a tab
  $ bytes "$zero" >s; printf 'a\t1\n' >changes
  $ ubtool setenv -c s.config -s changes
  $ ubtool printenv -c s.config
  a=1

later lines see earlier ones
  $ bytes "$zero" >s; printf 'a 1\na\na 2\n' >changes
  $ ubtool setenv -c s.config -s changes
  $ ubtool printenv -c s.config
  a=2

a value that is no text
  $ bytes "$zero" >s; printf 'a \xff\n' >changes
  $ ubtool setenv -c s.config -s changes
  $ ubtool printenv -c s.config
  a=\xff (esc)

a configuration and a script from pipes
  $ ubtool setenv -c <(cat s.config) -s <(printf 'p 1\n')
  $ ubtool printenv -c s.config p
  p=1

a line without a name
  $ bytes "$zero" >s; printf '# c\na\nb  x  y\nc=1\n=x\n' >changes
  $ ubtool setenv -c s.config -s changes
  ! ubtool: script line 5: bad name
  [1]
  $ hex s
  2b 62 2f 43 61 3d 30 00 00 00 00 00 00 00 00 00

a name with a NUL
  $ bytes "$zero" >s; printf 'b\0c 1\n' >changes
  $ ubtool setenv -c s.config -s changes
  ! ubtool: script line 1: bad name
  [1]
  $ hex s
  2b 62 2f 43 61 3d 30 00 00 00 00 00 00 00 00 00

a value with a NUL
  $ bytes "$zero" >s; printf 'b c\0\n' >changes
  $ ubtool setenv -c s.config -s changes
  ! ubtool: script line 1: bad value
  [1]
  $ hex s
  2b 62 2f 43 61 3d 30 00 00 00 00 00 00 00 00 00

a script too large
  $ bytes "$zero" >s; printf 'a 12345678\nb 1\n' >changes
  $ ubtool setenv -c s.config -s changes
  ! ubtool: environment is too large
  [1]
  $ hex s
  2b 62 2f 43 61 3d 30 00 00 00 00 00 00 00 00 00

too large on the way alone
  $ bytes "$zero" >s; printf 'b 123456789012\nb\n' >changes
  $ ubtool setenv -c s.config -s changes
  $ ubtool printenv -c s.config
  a=0

a script of more than 32 lines
  $ printf 'c=1\na=2\nb=3\n' >text && ubtool image --size 4096 -o long text && cp long short
  $ places long >long.config && places short >short.config
  $ { seq -f '#%g' 20 && seq 9 | sed 's/.*/v& &/' && printf 'a\nc 1\nb 5\n' && seq -f 'v%g' 2 8 && echo a 7; } >changes
  $ ubtool setenv -c long.config -s changes
  $ ubtool printenv -c long.config
  c=1
  v1=1
  v9=9
  b=5
  a=7

and the same lines, ten at a time
  $ split -l 10 changes few.
  $ for part in few.*; do ubtool setenv -c short.config -s "$part"; done
  $ ubtool printenv -c short.config
  c=1
  v1=1
  v9=9
  b=5
  a=7

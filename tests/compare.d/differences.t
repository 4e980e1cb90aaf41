  $ . "$TESTDIR/../setup"
  $ . "$repository/tests/compare.d/setup"

What differs on purpose: a case for each row of docs/COMPATIBILITY.md, by libubootenv's fw_printenv and fw_setenv, and by ubtool.

  $ [ "$(fw_printenv -V 2>/dev/null)" = 0.3.2 ] || left_out 'the differences, which are those from libubootenv 0.3.2'

order of all variables
  $ start 'b=2\na=1\n'
  $ theirs printenv -c image.config
  a=1
  b=2
  $ ours printenv -c image.config
  b=2
  a=1

missing variable
  $ theirs printenv -c image.config z a
  z=
  a=1
  $ ours printenv -c image.config z a
  a=1
  ! ## Error: "z" not defined
  [1]

missing value
  $ theirs printenv -c image.config -n z
  
  $ ours printenv -c image.config -n z
  ! ## Error: "z" not defined
  [1]

values of several variables
  $ theirs printenv -c image.config -n b a
  2
  1
  $ ours printenv -c image.config -n b a
  ! ubtool: -n takes exactly one NAME
  [2]

values of no variable
  $ theirs printenv -c image.config -n
  a=1
  b=2
  $ ours printenv -c image.config -n
  ! ubtool: -n takes exactly one NAME
  [2]

full output
  $ theirs printenv -c image.config 2>/dev/null >/dev/full
  $ ours printenv -c image.config 2>/dev/null >/dev/full
  [1]

unknown option
  $ theirs printenv -c image.config -x a
  a=1
  ! fw_printenv: invalid option -- 'x'
  $ ours printenv -c image.config -x a 2>&1 | tail -n 1
  ! For more information, try '--help'.

order in the image
  $ start 'b=2\na=1\nc=3\n'
  $ after theirs b 4
  a=1
  b=4
  c=3
  $ after ours b 4
  a=1
  c=3
  b=4

several words
  $ after theirs c 5 6
  a=1
  b=2
  c=5
  $ after ours c 5 6
  b=2
  a=1
  c=5 6

empty value
  $ after theirs c ''
  a=1
  b=2
  c=
  $ after ours c ''
  b=2
  a=1

no name
  $ after theirs
  b=2
  a=1
  c=3
  $ after ours
  b=2
  a=1
  c=3
  [2]

empty name
  $ nameless theirs '' 8
  =8;a=1;b=2;c=3;;............
  $ nameless ours '' 8
  b=2;a=1;c=3;;...............
  [1]

words that are no text
  $ nameless theirs a $'\xfe'
  a=\xfe;b=2;c=3;;............... (esc)
  $ nameless ours a $'\xfe'
  b=2;a=1;c=3;;...............
  [2]

filling
  $ printf 'a=1\nb=2\nc=3\n' | mkenvimage -s 0x2000 -o large -; printf 'large 0 2000\n' >large.config
  $ theirs setenv -c large.config c
  $ tail -c +14 large | tr -d '\0' | wc -c | sed 's/[1-9].*/more/'
  more
  $ printf 'a=1\nb=2\nc=3\n' | mkenvimage -s 0x2000 -o large -; printf 'large 0 2000\n' >large.config
  $ ours setenv -c large.config c
  $ tail -c +14 large | tr -d '\0' | wc -c | sed 's/[1-9].*/more/'
  0

script: a name and a blank
  $ printf 'c 4\n' >script
  $ after theirs -s script
  a=1
  b=2
  c=3
  $ after ours -s script
  b=2
  a=1
  c=4

script: a name alone
  $ printf 'c\n' >script
  $ after theirs -s script
  a=1
  b=2
  c=3
  $ after ours -s script
  b=2
  a=1

script: blanks in front
  $ printf ' c=4\n' >script
  $ after theirs -s script
   c=4
  a=1
  b=2
  c=3
  $ after ours -s script
  b=2
  a=1
  c=4

script: blanks round =
  $ printf 'c = 4\n' >script
  $ after theirs -s script
  a=1
  b=2
  c=3
  c = 4
  $ after ours -s script
  b=2
  a=1
  c== 4

script: a blank before =
  $ printf 'c 4=5\n' >script
  $ after theirs -s script
  a=1
  b=2
  c=3
  c 4=5
  $ after ours -s script
  b=2
  a=1
  c=4=5

script: no name
  $ printf '=4\n' >script
  $ nameless theirs -s script
  =4;a=1;b=2;c=3;;............
  $ nameless ours -s script
  b=2;a=1;c=3;;...............
  [1]

script: missing
  $ after theirs -s missing
  a=1
  b=2
  c=3
  $ after ours -s missing
  b=2
  a=1
  c=3
  [1]

script: called -
  $ cp image kept
  $ (printf 'c=5\n' >./-; printf 'c=4\n' | theirs setenv -c image.config -s -; ubtool printenv -c image.config c; rm ./-)
  c=4
  $ cp kept image
  $ (printf 'c=5\n' >./-; printf 'c=4\n' | as fw_setenv -c image.config -s -; ubtool printenv -c image.config c; rm ./-)
  c=4
  $ (printf 'c=5\n' >./-; printf 'c=4\n' | ours setenv -c image.config -s -; ubtool printenv -c image.config c; rm ./-)
  c=5
  $ cp kept image

script: with a name
  $ printf 'c=4\n' >script
  $ after theirs -s script a 5
  a=1
  b=2
  c=4
  $ after ours -s script a 5
  b=2
  a=1
  c=3
  [2]

unchanged value
  $ printf 'first 0 20\nsecond 0 20\n' >pair.config
  $ copy first 1 1; copy second 2 2
  $ theirs setenv -c pair.config a 2; flags
  1 2
  $ copy first 1 1; copy second 2 2
  $ ours setenv -c pair.config a 2; flags
  3 2

no right checksum
  $ spoil first; spoil second; head -c 8192 /dev/zero >large
  $ theirs printenv -c pair.config
  ! Cannot read environment, using default
  ! Cannot read default environment from file
  [243]
  $ ours printenv -c pair.config
  ! ubtool: no image with a right CRC
  [1]

default environment
  $ printf 'a=9\n' >default
  $ theirs printenv -c pair.config -f default
  a=9
  ! Cannot read environment, using default
  $ ours printenv -c pair.config -f default 2>&1 | tail -n 1
  ! For more information, try '--help'.

entry without =
  $ start 'x\na=1\n'
  $ theirs printenv -c image.config
  a=1
  $ ours printenv -c image.config
  ! ubtool: image entry at 0 has no =
  [1]

entry without a name
  $ start '=x\na=1\n'
  $ theirs printenv -c image.config
  =x
  a=1
  $ ours printenv -c image.config
  ! ubtool: image entry at 0 has no name
  [1]

data without an end
  $ printf '\xec\x07\x84\x2b\x61\x3d\x31\x01\x01' >image; printf 'image 0 9\n' >image.config
  $ theirs printenv -c image.config
  a=1\x01\x01 (esc)
  $ ours printenv -c image.config
  ! ubtool: image is not terminated
  [1]

flags of variables
  $ start '.flags=e:so\ne=1\n'
  $ theirs printenv -c image.config
  e=1
  $ ours printenv -c image.config
  .flags=e:so
  e=1

write-once variable
  $ after theirs e 2
  e=1
  .flags=e:so
  $ after ours e 2
  .flags=e:so
  e=2

big-endian
  $ printf 'a=1\n' | mkenvimage -b -s 32 -o image -; printf 'bootdelay=1\n' | mkenvimage -b -s 8192 -o large -
  $ theirs printenv -c image.config
  ! Cannot read environment, using default
  ! Cannot read default environment from file
  [243]
  $ ours printenv -c image.config --big-endian
  a=1

size above 1 MiB
  $ printf 'a=1\n' | mkenvimage -s 0x100001 -o image -; printf 'image 0 100001\n' >image.config
  $ theirs printenv -c image.config
  a=1
  $ ours printenv -c image.config
  ! ubtool: config line 1: size out of range
  [1]

config: a short second line
  $ start 'a=1\n'; { head -c 1000 /dev/zero && cat image; } >behind; printf 'image 0 20\nimage 0\n' >image.config
  $ theirs printenv -c image.config
  a=1
  $ ours printenv -c image.config
  ! ubtool: config line 2: bad line
  [1]

config: image 0x 20
  $ printf 'image 0x 20\n' >image.config
  $ theirs printenv -c image.config
  a=1
  $ ours printenv -c image.config
  ! ubtool: config line 1: bad number
  [1]

config: image 0 20g
  $ printf 'image 0 20g\n' >image.config
  $ theirs printenv -c image.config
  a=1
  $ ours printenv -c image.config
  ! ubtool: config line 1: bad number
  [1]

config: a plus
  $ printf 'image +0 +20\n' >image.config
  $ theirs printenv -c image.config
  a=1
  $ ours printenv -c image.config
  ! ubtool: config line 1: bad number
  [1]

config: a second line without numbers
  $ printf 'image 0 20\nimage bar baz\n' >image.config
  $ theirs printenv -c image.config
  a=1
  $ ours printenv -c image.config
  ! ubtool: config line 2: bad number
  [1]

config: other blanks
  $ printf 'image\v0\f20\n' >image.config
  $ theirs printenv -c image.config
  a=1
  $ ours printenv -c image.config
  ! ubtool: config line 1: bad line
  [1]

texts and statuses
  $ printf 'image 0 10\nimage 0 20\n' >image.config
  $ theirs printenv -c image.config
  ! Configuration file wrong or corrupted
  [234]
  $ ours printenv -c image.config
  ! ubtool: config sizes differ
  [1]

offset off a sector
  $ printf 'behind 1000 20\n' >image.config
  $ theirs printenv -c image.config
  a=1
  $ ours printenv -c image.config
  a=1

file that is too short
  $ printf 'image 0 21\n' >image.config
  $ theirs printenv -c image.config
  ! Cannot read environment, using default
  ! Cannot read default environment from file
  [243]
  $ ours printenv -c image.config
  ! ubtool: image is too short
  [1]

option --noheader
  $ start 'a=1\nb=2\n'
  $ theirs printenv -c image.config --noheader a
  a=1
  ! fw_printenv: unrecognized option '--noheader'
  $ ours printenv -c image.config --noheader a
  1

option --no-header
  $ theirs printenv -c image.config --no-header a
  1
  $ ours printenv -c image.config --no-header a
  1

option -V
  $ theirs printenv -V
  0.3.2
  $ ours printenv -V | sed 's/[0-9][0-9.]*/N/'
  ubtool N (x86_64, dynamic)

option -l
  $ theirs printenv -c image.config -l none a
  none=
  a=1
  ! fw_printenv: invalid option -- 'l'
  $ ours printenv -c image.config -l none a
  ! ubtool: Error opening lock file none/fw_printenv.lock
  [1]

another name
  $ ln -s "$(command -v fw_printenv)" xfw_setenv; marked ./xfw_setenv -c image.config a
  a=1
  $ as xfw_setenv -c image.config a 2>&1 | head -n 1
  ! error: unexpected argument '-c' found

change that does not fit
  $ start 'a=1\nb=2\nc=3\n'; long=1234567890123456789012345678901234567890
  $ after theirs b "$long"
  a=1
  b=2
  c=3
  [244]
  $ after ours b "$long"
  a=1
  b=2
  c=3
  [1]

name with =
  $ after theirs b=4
  a=1
  b=2
  c=3
  [1]
  $ after ours b=4
  a=1
  b=2
  c=3
  [1]

script: last line open
  $ printf 'b=3\nc=4' >script
  $ after theirs -s script
  a=1
  b=3
  c=4
  $ after ours -s script
  a=1
  b=3
  c=4

script: two carriage returns
  $ printf 'c=4\r\r\n' >script
  $ after theirs -s script
  a=1
  b=2
  c=4
  $ after ours -s script
  a=1
  b=2
  c=4

name that is twice in an image
  $ start 'a=1\nb=2\na=3\n'
  $ theirs printenv -c image.config
  a=3
  b=2
  $ theirs printenv -c image.config a
  a=3
  $ theirs setenv -c image.config a; theirs printenv -c image.config
  b=2
  $ start 'a=1\nb=2\na=3\n'
  $ ours printenv -c image.config
  a=3
  b=2
  $ ours printenv -c image.config a
  a=3
  $ ours setenv -c image.config a; ours printenv -c image.config
  b=2

one NUL before filling
  $ { printf '\0' && head -c 27 /dev/zero | tr '\0' '\377'; } | new_image image
  $ after theirs a 1
  a=1
  $ after ours a 1
  a=1

script: last line of the input open
  $ start 'b=2\na=1\nc=3\n'; cp image kept
  $ printf 'b=3\nc' | theirs setenv -c image.config -s -
  $ ubtool printenv -c image.config; cp kept image
  a=1
  b=3
  c=3
  $ printf 'b=3\nc' | as fw_setenv -c image.config -s -
  ! fw_setenv: Line 2 not correctly terminated
  [1]
  $ ubtool printenv -c image.config; cp kept image
  b=2
  a=1
  c=3

one copy
  $ copy first 1 1; printf 'first 0 20\nmissing 0 20\n' >one.config
  $ theirs printenv -c one.config a
  ! Configuration file wrong or corrupted
  [234]
  $ ours printenv -c one.config a
  ! ubtool: cannot read missing
  [1]
  $ ours printenv -c one.config --one-copy a
  a=1
  ! ubtool: cannot read missing; the other copy counts

one place twice
  $ printf 'first 0 20\nfirst 0 20\n' >one.config
  $ theirs setenv -c one.config a 2
  $ ours setenv -c one.config a 3
  ! ubtool: the two copies overlap

value with a newline
  $ { printf 'a=1\nb=3\0\0' && head -c 19 /dev/zero; } | new_image image
  $ theirs printenv -c image.config
  a=1
  b=3
  $ ours printenv -c image.config
  a=1
  b=3
  $ ours printenv -c image.config --escaped
  a=1\nb=3

environment in a file
  $ start 'a=1\n'; chmod 644 image; before=$(stat -c %i image)
  $ theirs setenv -c image.config a 2; [ "$(stat -c %i image)" = "$before" ] && echo in place || echo a new file; stat -c %a image
  in place
  644
  $ start 'a=1\n'; chmod 644 image; before=$(stat -c %i image)
  $ ours setenv -c image.config a 2; [ "$(stat -c %i image)" = "$before" ] && echo in place || echo a new file; stat -c %a image
  a new file
  644

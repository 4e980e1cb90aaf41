  $ . "$TESTDIR/../setup"
  $ . "$repository/tests/compare.d/setup"

What differs on purpose, by U-Boot's own fw_printenv and fw_setenv.

  $ [ "$(fw_printenv -V 2>/dev/null)" = 0.3.2 ] || left_out 'the differences, which are those from libubootenv 0.3.2'
  $ [ -n "$OWN" ] || exit 80

order of all variables
  $ start 'b=2\na=1\n'
  $ own printenv -c image.config
  b=2
  a=1

missing variable
  $ own printenv -c image.config z a
  a=1
  ! ## Error: "z" not defined
  [1]

missing value
  $ own printenv -c image.config -n z
  ! ## Error: "z" not defined
  [1]

values of several variables
  $ own printenv -c image.config -n b a
  ! ## Error: `-n'/`--noheader' option requires exactly one argument
  [1]

values of no variable
  $ own printenv -c image.config -n
  ! ## Error: `-n'/`--noheader' option requires exactly one argument
  [1]

full output
  $ own printenv -c image.config 2>/dev/null >/dev/full

unknown option
  $ own printenv -c image.config -x a 2>&1 | sed -n '1s/.*: //p'
  invalid option -- 'x'

order in the image
  $ start 'b=2\na=1\nc=3\n'
  $ after own b 4
  a=1
  c=3
  b=4

several words
  $ after own c 5 6
  b=2
  a=1
  c=5 6

empty value
  $ after own c ''
  b=2
  a=1

no name
  $ after own
  b=2
  a=1
  c=3
  [1]

empty name
  $ nameless own '' 8
  b=2;a=1;c=3;=8;;............

words that are no text
  $ nameless own a $'\xfe'
  b=2;c=3;a=\xfe;;............... (esc)

filling
  $ printf 'a=1\nb=2\nc=3\n' | mkenvimage -s 0x2000 -o large -; printf 'large 0 2000\n' >large.config
  $ own setenv -c large.config c
  $ tail -c +14 large | tr -d '\0' | wc -c | sed 's/[1-9].*/more/'
  more

script: a name and a blank
  $ printf 'c 4\n' >script
  $ after own -s script
  b=2
  a=1
  c=4

script: a name alone
  $ printf 'c\n' >script
  $ after own -s script
  b=2
  a=1

script: blanks in front
  $ printf ' c=4\n' >script
  $ after own -s script
  b=2
  a=1
  c=4

script: blanks round =
  $ printf 'c = 4\n' >script
  $ after own -s script
  b=2
  a=1
  c== 4

script: a blank before =
  $ printf 'c 4=5\n' >script
  $ after own -s script
  b=2
  a=1
  c=4=5

script: no name
  $ printf '=4\n' >script
  $ nameless own -s script
  b=2;a=1;c=3;=4;;............

script: missing
  $ after own -s missing
  b=2
  a=1
  c=3
  [1]

script: called -
  $ cp image kept
  $ (printf 'c=5\n' >./-; printf 'c=4\n' | own setenv -c image.config -s -; ubtool printenv -c image.config c; rm ./-)
  c=4
  $ cp kept image

script: with a name
  $ printf 'c=4\n' >script
  $ after own -s script a 5
  b=2
  a=1
  c=4

unchanged value
  $ printf 'first 0 20\nsecond 0 20\n' >pair.config
  $ copy first 1 1; copy second 2 2
  $ own setenv -c pair.config a 2; flags
  3 2

no right checksum
  $ spoil first; spoil second; head -c 8192 /dev/zero >large
  $ own printenv -c large.config bootdelay
  bootdelay=2
  ! Warning: Bad CRC, using default environment

default environment
  $ printf 'a=9\n' >default
  $ own printenv -c image.config -f x 2>&1 | sed -n '1s/.*: //p'
  invalid option -- 'f'

entry without =
  $ start 'x\na=1\n'
  $ own printenv -c image.config
  x
  a=1

entry without a name
  $ start '=x\na=1\n'
  $ own printenv -c image.config
  =x
  a=1

data without an end
  $ printf '\xec\x07\x84\x2b\x61\x3d\x31\x01\x01' >image; printf 'image 0 9\n' >image.config
  $ own printenv -c image.config
  a=1\x01\x01 (esc)

flags of variables
  $ start '.flags=e:so\ne=1\n'
  $ own printenv -c image.config
  .flags=e:so
  e=1

write-once variable
  $ after own e 2
  Can't overwrite "e"
  .flags=e:so
  e=1

big-endian
  $ printf 'a=1\n' | mkenvimage -b -s 32 -o image -; printf 'bootdelay=1\n' | mkenvimage -b -s 8192 -o large -
  $ own printenv -c large.config bootdelay
  bootdelay=2
  ! Warning: Bad CRC, using default environment

size above 1 MiB
  $ printf 'a=1\n' | mkenvimage -s 0x100001 -o image -; printf 'image 0 100001\n' >image.config
  $ own printenv -c image.config
  a=1

config: a short second line
  $ start 'a=1\n'; { head -c 1000 /dev/zero && cat image; } >behind; printf 'image 0 20\nimage 0\n' >image.config
  $ own printenv -c image.config
  a=1

config: image 0x 20
  $ printf 'image 0x 20\n' >image.config
  $ own printenv -c image.config
  a=1

config: image 0 20g
  $ printf 'image 0 20g\n' >image.config
  $ own printenv -c image.config
  a=1

config: a plus
  $ printf 'image +0 +20\n' >image.config
  $ own printenv -c image.config
  a=1

config: a second line without numbers
  $ printf 'image 0 20\nimage bar baz\n' >image.config
  $ own printenv -c image.config
  a=1

config: other blanks
  $ printf 'image\v0\f20\n' >image.config
  $ own printenv -c image.config
  a=1

texts and statuses
  $ printf 'image 0 10\nimage 0 20\n' >image.config
  $ own printenv -c image.config
  ! Redundant environments have unequal size
  [1]

offset off a sector
  $ printf 'behind 1000 20\n' >image.config
  $ own printenv -c image.config
  ! Environment does not start on (erase) block boundary
  [1]

file that is too short
  $ printf 'image 0 21\n' >image.config
  $ own printenv -c image.config 2>/dev/null
  [124]

option --noheader
  $ start 'a=1\nb=2\n'
  $ own printenv -c image.config --noheader a
  1

option --no-header
  $ own printenv -c image.config --no-header a 2>&1 | sed -n '1s/.*: //p'
  unrecognized option '--no-header'

option -V
  $ own printenv -V 2>&1 | sed -n '1s/.*: //p'
  invalid option -- 'V'

option -l
  $ own printenv -c image.config -l none a
  ! Error opening lock file none/fw_printenv.lock
  [1]

another name
  $ ln -s "$OWN/fw_printenv" own_xfw_setenv; mkdir -p other; ln -s "$OWN/fw_printenv" other/xfw_setenv; marked other/xfw_setenv -l . -c image.config a 2>&1 | sed 's/ - .*//'
  ! Identity crisis

change that does not fit
  $ start 'a=1\nb=2\nc=3\n'; long=1234567890123456789012345678901234567890
  $ after own b "$long"
  a=1
  c=3
  $ cat "$CRAMTMP/said"
  ! Error: environment overflow, "b" deleted

name with =
  $ after own b=4
  a=1
  c=3

script: last line open
  $ printf 'b=3\nc=4' >script
  $ after own -s script
  a=1
  c=3
  b=3
  [1]

script: two carriage returns
  $ printf 'c=4\r\r\n' >script
  $ after own -s script
  a=1
  b=2
  c=4\r (esc)

name that is twice in an image
  $ start 'a=1\nb=2\na=3\n'
  $ own printenv -c image.config
  a=1
  b=2
  a=3
  $ own printenv -c image.config a
  a=1
  $ own setenv -c image.config a; own printenv -c image.config
  b=2
  a=3

one NUL before filling
  $ { printf '\0' && head -c 27 /dev/zero | tr '\0' '\377'; } | new_image image
  $ after own a 1
  $ cat "$CRAMTMP/said"
  ! Error: environment overflow, "a" deleted

script: last line of the input open
  $ start 'b=2\na=1\nc=3\n'; cp image kept
  $ printf 'b=3\nc' | own setenv -c image.config -s -
  ! Line 2 not correctly terminated
  [1]
  $ ubtool printenv -c image.config; cp kept image
  a=1
  c=3
  b=3

one copy
  $ copy first 1 1; printf 'first 0 20\nmissing 0 20\n' >one.config
  $ own printenv -c one.config a
  ! Cannot open missing: No such file or directory
  [1]

one place twice
  $ printf 'first 0 20\nfirst 0 20\n' >one.config
  $ own setenv -c one.config a 4

value with a newline
  $ { printf 'a=1\nb=3\0\0' && head -c 19 /dev/zero; } | new_image image
  $ own printenv -c image.config
  a=1
  b=3

environment in a file
  $ start 'a=1\n'; chmod 644 image; before=$(stat -c %i image)
  $ own setenv -c image.config a 2; [ "$(stat -c %i image)" = "$before" ] && echo in place || echo a new file; stat -c %a image
  a new file
  600

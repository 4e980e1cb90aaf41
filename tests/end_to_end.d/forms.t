  $ . "$TESTDIR/../setup"

The forms of printenv: entries that a NUL byte ends, and escaped ones.

The environment a=1, a newline and b=3; c with a backslash, a byte above 127 and a tab; and d, which is empty.

a value with a newline
  $ { printf 'a=1\nb=3\0c=x\\\351\t\0d=\0\0' && head -c 9 /dev/zero; } | new_image formed
  $ ubtool printenv -c formed.config
  a=1
  b=3
  c=x\\\xe9\t (esc)
  d=

escaped
  $ ubtool printenv -c formed.config --escaped
  a=1\nb=3
  c=x\\\xe9\x09
  d=

an escaped value alone
  $ ubtool printenv -c formed.config --escaped -n a
  1\nb=3

escaped, and missing
  $ ubtool printenv -c formed.config --escaped d z a
  d=
  a=1\nb=3
  ! ## Error: "z" not defined
  [1]

entries that a NUL byte ends
  $ ubtool printenv -c formed.config -0 | tr '\0' '|'; echo
  a=1
  b=3|c=x\\\xe9\t|d=| (esc)
  $ ubtool printenv -c formed.config --null | tr '\0' '|'; echo
  a=1
  b=3|c=x\\\xe9\t|d=| (esc)

a value alone, ended by a NUL byte
  $ ubtool printenv -c formed.config -0 -n a | tr '\0' '|'; echo
  1
  b=3|

escaped, and ended by NUL bytes
  $ ubtool printenv -c formed.config -0 --escaped a d | tr '\0' '|'; echo
  a=1\nb=3|d=|

a missing variable is reported in a line
  $ ubtool printenv -c formed.config -0 z
  ! ## Error: "z" not defined
  [1]

no form of setenv
  $ ubtool setenv -0 a 1
  ! error: unexpected argument '-0' found
  !
  !   tip: to pass '-0' as a value, use '-- -0'
  !
  ! Usage: ubtool setenv [OPTIONS] [NAME] [VALUE]...
  !
  ! For more information, try '--help'.
  [2]

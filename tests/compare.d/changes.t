  $ . "$TESTDIR/../setup"
  $ . "$repository/tests/compare.d/setup"

Changes by the calls of the libraries, read by the other tools.

  $ printf 'a=1\nb=x  y\nc=\n' >variables
  $ set_image() { marked "$TESTS_LIBRARIES" set_image "$@"; }

a change without words
  $ set_image 2>/dev/null
  [1]

a changed single image
  $ mkenvimage -s 64 -o single variables >/dev/null; printf 'single 0x0 0x40\n' >single.config
  $ set_image little single - a 2 3
  $ theirs printenv -c single.config | sort
  a=2 3
  b=x  y
  c=

a deleted variable
  $ set_image little single - b
  $ theirs printenv -c single.config | sort
  a=2 3
  c=

an image of fw_setenv
  $ theirs setenv -c single.config d 4
  $ ubtool <single | sort
  a=2 3
  c=
  d=4

  $ mkenvimage -r -s 64 -p 0x00 -o first variables >/dev/null; cp first second
  $ printf 'first 0x0 0x40\nsecond 0x0 0x40\n' >pair.config

a pair after 1 change
  $ set_image little first second a 1
  $ theirs printenv -c pair.config | sort
  a=1
  b=x  y
  c=

a pair after 2 changes
  $ set_image little first second a 2
  $ theirs printenv -c pair.config | sort
  a=2
  b=x  y
  c=

a pair after 3 changes
  $ set_image little first second a 3
  $ theirs printenv -c pair.config | sort
  a=3
  b=x  y
  c=

a pair after 4 changes
  $ set_image little first second a 4
  $ theirs printenv -c pair.config | sort
  a=4
  b=x  y
  c=

a pair after 5 changes
  $ set_image little first second a 5
  $ theirs printenv -c pair.config | sort
  a=5
  b=x  y
  c=

a pair that fw_setenv changed too
  $ theirs setenv -c pair.config e 5
  $ set_image little first second a 6
  $ theirs printenv -c pair.config | sort
  a=6
  b=x  y
  c=
  e=5

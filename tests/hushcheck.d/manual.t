  $ . "$TESTDIR/../setup"

The manual, and the example of the help, which it has.

  $ needs mandoc

the manual under mandoc
  $ mandoc -T lint -W warning "$repository/docs/hushcheck.1"

  $ mandoc -T ascii "$repository/docs/hushcheck.1" | sed 's/.\x08//g; s/^ *//' >manual

the example of the help, which is one screen
  $ hushcheck --help >help
  $ sed -n '/^Example:$/,/^$/s/^  //p' help
  hushcheck -d devices.txt
  $ awk 'END { if (NR > 45) print NR }' help

in the manual: hushcheck -d devices.txt
  $ grep -m1 -oFx -- 'hushcheck -d devices.txt' manual
  hushcheck -d devices.txt

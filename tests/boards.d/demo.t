  $ . "$TESTDIR/../setup"

The tour of the demo, on this program in the place of the one that it would build.

  $ mkdir -p path tour/bin tour/tests; ln -s "$UBTOOL" path/ubtool; ln -s "$HUSHCHECK" path/hushcheck; ln -s "$UBTOOL" tour/bin/ubtool
  $ cp -r "$repository/share" "$repository/demo" "$repository/tools" tour/; cp "$repository/tests/images" tour/tests
  $ printf '#!/bin/sh\necho built\n' >tour/build; chmod +x tour/build; cp tour/build path/rt

the tour of the demo
  $ PATH=$PWD/path:$PATH tour/demo --proved >found 2>&1
  $ grep -cE '^(built|Both listings are the same bytes\.|run 0000010100|bootdelay=5)$' found
  4

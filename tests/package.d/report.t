  $ . "$TESTDIR/../setup"

The package has tools/report as ubtool-report, with what it is made by.

  $ needs dot python3 mandoc
  $ export UBTOOL HUSHCHECK; printf 'load\nfinal bootm\n' >devices.txt; echo 'bootcmd=load && bootm' >env.txt

the same page by both
  $ marked "$repository/tools/report" --text env.txt -d devices.txt -o page.html; mv page.html wanted.html
  $ marked "$TREE/../bin/ubtool-report" --text env.txt -d devices.txt -o page.html; cmp page.html wanted.html
  $ grep -c '<svg' page.html
  1

its manual
  $ mandoc -T lint -W warning "$TREE/man/man1/ubtool-report.1.gz"

  $ . "$TESTDIR/../setup"

What a report refuses, and that no page is written then.

  $ report() { "$repository/tools/report" "$@"; }
  $ echo load >devices; echo 'bootcmd=load' >a.env

words
  $ marked report
  ! report: a report needs a device list, -d FILE, and -o FILE.html
  [2]
  $ marked report --text a.env -o a.html
  ! report: a report needs a device list, -d FILE, and -o FILE.html
  [2]
  $ marked report --text a.env -d devices
  ! report: a report needs a device list, -d FILE, and -o FILE.html
  [2]
  $ marked report --text a.env -d missing -o a.html
  ! report: a report needs a device list, -d FILE, and -o FILE.html
  [2]
  $ marked report --text a.env -d devices -o
  ! report: usage: report WORD.. -o FILE.html
  [2]
  $ marked report --text a.env -d devices --check -o a.html
  ! report: a report has no option --check
  [2]
  $ marked report --text a.env -d devices bootcmd -o a.html
  ! report: a report has no option bootcmd
  [2]
  $ marked report --help | head -n 1
  One page about a boot script, to look at in a browser and to send to a colleague: whether the board always boots, what has to

what ubtool refuses
  $ marked report --text missing.env -d devices -o a.html
  ! report: ubtool: cannot read missing.env
  [1]
  $ marked report --text a.env -d devices --failures 4 -o a.html
  ! report: error: invalid value '4' for '--failures <N>': 4 is not in 0..=3
  !
  ! For more information, try '--help'.
  [1]
  $ marked report --text a.env -b other -d devices -o a.html
  ! report: ubtool: no variable other
  [1]
  $ echo 'load x' >faulty; marked report --text a.env -d faulty -o a.html
  ! report: ubtool: device list line 1: bad line
  [1]
  $ echo 'call load ** : normal 1' >normal; marked report --text a.env -d normal -o a.html
  ! report: no page of a list with normal 1
  [1]
  $ printf 'call load : runs f\nor call load : runs g\n' >or; marked report --text a.env -d or -o a.html
  ! report: no page of a list with or call
  [1]
  $ ls | grep html
  [1]

options with = and long names
  $ marked report --text=a.env --device-list=devices --variable=bootcmd --output=a.html
  $ marked report --text a.env -d devices -b bootcmd -o b.html; cmp a.html b.html

a list that is a folder, and one that is a pipe
  $ mkdir lists; cp devices lists/a; printf 'final bootm' >lists/b; cat lists/a lists/b >joined
  $ marked report --text a.env -d lists -o a.html
  $ marked report --text a.env -d <(cat joined) -o b.html
  $ grep -o 'with [0-9]* lines' a.html b.html
  a.html:with 2 lines
  b.html:with 2 lines

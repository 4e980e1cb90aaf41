  $ . "$TESTDIR/../setup"

Pictures of listings and flows, by tools/choices.

  $ needs python3
  $ choices() { marked "$repository/tools/choices" "$@"; }
  $ script boot 'bootcmd=load a || load b; echo $?'
  $ printf '# devices\nload\n' >devices

How many boxes, ovals, places without a run, full and dashed lines a picture has.

  $ counts() { for kind in shape=box shape=oval shape=plaintext '-> n[0-9]*;' dashed; do grep '^  n[0-9]' "$1" | grep -c -e "$kind"; done | paste -s -d ' '; }

the picture of a listing
  $ ubtool rehearse -c boot.config -d devices x >listing
  $ choices listing >dots; counts dots
  2 3 0 2 2

the picture of a page
  $ ubtool rehearse -c boot.config -d devices --limit 1 x >page
  $ choices page >dots; counts dots
  1 1 1 1 1

the picture of a listing, folded
  $ choices --fold listing >dots; counts dots
  2 1 0 2 2

the picture of a listing with what was saved
  $ echo 'saves load' >saving; ubtool rehearse -c boot.config -d saving x >saved; grep -c '^saved ' saved
  2
  $ choices saved >dots; counts dots
  2 3 0 2 2

the picture of no listing
  $ printf 'e 0 9\n' >config
  $ choices config 2>&1 | cut -c 1-42
  ! choices: line 1 is none of a listing: e 

the picture of a flow
  $ ubtool rehearse -c boot.config -d devices | choices --fold >listed.dot
  $ ubtool endings -c boot.config -d devices --flow | choices --fold >drawn.dot
  $ grep -c '^  n[0-9]' drawn.dot; grep -c '^  n.*dashed' drawn.dot
  7
  2

the picture of a listing has as many lines
  $ [ "$(grep -c label listed.dot)" = "$(grep -c label drawn.dot)" ]

an answer that is given again is drawn as no choice
  $ printf 'load\nsteady mmc\nsteady test\n' >steady.list
  $ script twice 'bootcmd=if mmc dev 0; then load a; fi; if mmc dev 0; then load a; fi; test -e mmc 0 f || test -e mmc 0 f'
  $ ubtool rehearse -c twice.config -d steady.list | choices --fold | grep label | sort | sed 's/^ *n[0-9]* //' >listed.dot
  $ ubtool endings -c twice.config -d steady.list --flow | choices --fold | grep label | sort | sed 's/^ *n[0-9]* //' >drawn.dot
  $ [ -s drawn.dot ] && cmp listed.dot drawn.dot

only what leads to an ending
  $ printf '%s\n' '1 ask load success 2 failure 3' '2 ask bootm success 4 failure 3' '3 ask dhcp success 5 failure 6' \
  >     '4 ends booted bootm' '5 ends booted bootz' '6 ends end 0' >three.flow
  $ choices --toward end three.flow | grep '^  n[0-9]'
    n1 [label="end 0", shape=oval, style=filled, fillcolor="salmon"];
    n2 [label="dhcp", shape=box];
    n2 -> n1 [style=dashed];
    n3 [label="bootm", shape=box];
    n3 -> n2 [style=dashed];
    n4 [label="load", shape=box];
    n4 -> n3;
    n4 -> n2 [style=dashed];

a box whose answer does not matter
  $ printf '%s\n' '1 ask led on success 2 failure 2' '2 ask load success 3 failure 4' '3 ends booted bootm' '4 ends end 0' >led.flow
  $ choices --fold --toward end led.flow | grep -c shape=box
  1

an ending that no run has
  $ choices --toward 'end 1' three.flow
  ! choices: no run ends as end 1
  [1]

a page in which that cannot be seen
  $ ubtool rehearse -c twice.config -d steady.list --limit 1 | choices
  ! choices: run 0000: it cannot be seen which of its answers are choices
  [1]

the picture of boots: a box a boot, and a line for each ending; folded, one line to each boot that follows
  $ printf 'left=1\n' >left.txt; printf 'load\nknown setexpr\nsaves saveenv\n' >counting
  $ printf 'test ${left} = 0 || setexpr left ${left} - 1; saveenv; load' >left.cmd
  $ ubtool boots --script left.cmd --text left.txt -d counting >followed
  $ grep -c '^boot ' followed; grep -c ' next ' followed
  2
  8
  $ choices followed | grep -o '^  n[0-9]* .*label="[^"]*"' | sed 's/^  //; s/ \[label=/ /' | sort | uniq -c | sed 's/^ *//'
  1 n1 "boot 1"
  1 n1 -> n1 "fails saveenv"
  1 n1 -> n1 "fails saveenv\nfails load"
  1 n1 -> n2 "end 0"
  1 n1 -> n2 "fails load"
  1 n2 "boot 2\nleft=0"
  1 n2 -> n2 "end 0"
  1 n2 -> n2 "fails load"
  1 n2 -> n2 "fails saveenv"
  1 n2 -> n2 "fails saveenv\nfails load"
  $ choices --fold followed | grep -o '^  n[0-9]* .*label="[^"]*"' | sed 's/^  //; s/ \[label=/ /'
  n1 "boot 1"
  n1 -> n2 "end 0"
  n1 -> n1 "fails saveenv"
  n2 "boot 2\nleft=0"
  n2 -> n2 "end 0"
  $ choices --toward 'end 0' followed
  ! choices: boots take no --toward
  [1]
  $ { cat followed; echo load; } | choices
  ! choices: line 21 is none of boots: load
  [1]

  $ . "$TESTDIR/../setup"

Loops without an end. One that comes back to the same state is cut at once, with the values that it has at the bound, as in the
listing, which makes each step.

  $ echo load >devices
  $ loop() { printf '%s\n' "bootcmd=load; while true; do $1; done" "${@:2}" | lines_image loop; }
  $ by() { ubtool "$1" -c loop.config -d devices --steps "$2" a | sed -n "s/^var a=/$1 --steps $2: /p" | uniq; }
  $ both() { for steps in "$@"; do by endings "$steps"; by rehearse "$steps"; done; }

three values in turn
  $ loop 'setenv a 1; setenv a 2; setenv a 3'
  $ both 64 65 66 67 68 131 132 133 134 999997 999998 999999 1000000
  endings --steps 64: 2
  rehearse --steps 64: 2
  endings --steps 65: 3
  rehearse --steps 65: 3
  endings --steps 66: 3
  rehearse --steps 66: 3
  endings --steps 67: 1
  rehearse --steps 67: 1
  endings --steps 68: 2
  rehearse --steps 68: 2
  endings --steps 131: 1
  rehearse --steps 131: 1
  endings --steps 132: 2
  rehearse --steps 132: 2
  endings --steps 133: 3
  rehearse --steps 133: 3
  endings --steps 134: 3
  rehearse --steps 134: 3
  endings --steps 999997: 3
  rehearse --steps 999997: 3
  endings --steps 999998: 3
  rehearse --steps 999998: 3
  endings --steps 999999: 1
  rehearse --steps 999999: 1
  endings --steps 1000000: 2
  rehearse --steps 1000000: 2

the fields of a `for`, in a text
  $ loop 'run b' 'b=for i in p q r s t; do setenv a $a; setenv a $i; done'
  $ both 70 71 72 73 999997 999998 999999 1000000
  endings --steps 70: t
  rehearse --steps 70: t
  endings --steps 71: p
  rehearse --steps 71: p
  endings --steps 72: p
  rehearse --steps 72: p
  endings --steps 73: q
  rehearse --steps 73: q
  endings --steps 999997: r
  rehearse --steps 999997: r
  endings --steps 999998: s
  rehearse --steps 999998: s
  endings --steps 999999: s
  rehearse --steps 999999: s
  endings --steps 1000000: t
  rehearse --steps 1000000: t

a loop that prints
  $ loop 'echo x; setenv a 1; setenv a 2'
  $ both 70 71 72 999998 999999 1000000
  endings --steps 70: 2
  rehearse --steps 70: 2
  endings --steps 71: 2
  rehearse --steps 71: 2
  endings --steps 72: 1
  rehearse --steps 72: 1
  endings --steps 999998: 2
  rehearse --steps 999998: 2
  endings --steps 999999: 2
  rehearse --steps 999999: 2
  endings --steps 1000000: 1
  rehearse --steps 1000000: 1

a loop that counts to ten
  $ loop 'if test $a = xxxxxxxxxx; then setenv a ""; fi; setenv a x$a'
  $ both 200 201 202 203 999999 1000000
  endings --steps 200: xxxx
  rehearse --steps 200: xxxx
  endings --steps 201: xxxx
  rehearse --steps 201: xxxx
  endings --steps 202: xxxxx
  rehearse --steps 202: xxxxx
  endings --steps 203: xxxxx
  rehearse --steps 203: xxxxx
  endings --steps 999999: xxxxxxxxxx
  rehearse --steps 999999: xxxxxxxxxx
  endings --steps 1000000: xxxxxxxxxx
  rehearse --steps 1000000: xxxxxxxxxx

a loop that counts, and comes back to no state
  $ loop 'if test ab$a = abxxxxxxxxxx; then setenv a ""; setenv n x$n; fi; setenv a x$a'
  $ both 200 10001
  endings --steps 200: xx
  rehearse --steps 200: xx
  endings --steps 10001: xxxxx
  rehearse --steps 10001: xxxxx

texts that run each other
  $ printf '%s\n' 'bootcmd=load; run b' 'b=setenv a 1; run c' 'c=setenv a 2; setenv a 3; run b' | lines_image loop
  $ both 100 101 102 103 104 105 999998 999999 1000000
  endings --steps 100: 2
  rehearse --steps 100: 2
  endings --steps 101: 3
  rehearse --steps 101: 3
  endings --steps 102: 3
  rehearse --steps 102: 3
  endings --steps 103: 1
  rehearse --steps 103: 1
  endings --steps 104: 1
  rehearse --steps 104: 1
  endings --steps 105: 2
  rehearse --steps 105: 2
  endings --steps 999998: 1
  rehearse --steps 999998: 1
  endings --steps 999999: 1
  rehearse --steps 999999: 1
  endings --steps 1000000: 2
  rehearse --steps 1000000: 2

a loop in front of the first device command
  $ printf '%s\n' 'bootcmd=while true; do setenv a 1; setenv a 2; done; load' | lines_image loop
  $ both 100 101 102 999998 999999 1000000
  endings --steps 100: 2
  rehearse --steps 100: 2
  endings --steps 101: 1
  rehearse --steps 101: 1
  endings --steps 102: 2
  rehearse --steps 102: 2
  endings --steps 999998: 1
  rehearse --steps 999998: 1
  endings --steps 999999: 2
  rehearse --steps 999999: 2
  endings --steps 1000000: 2
  rehearse --steps 1000000: 2

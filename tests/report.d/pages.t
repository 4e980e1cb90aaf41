  $ . "$TESTDIR/../setup"

What the pages of tools/report say, of real boards and of made ones.

  $ share=$repository/share; . "$repository/tools/lib"
  $ report() { "$repository/tools/report" "$@"; }
  $ text() { LC_ALL=C sed 's/<[^>]*>//g; s/&lt;/</g; s/&gt;/>/g; s/&quot;/"/g; s/&amp;/\&/g; s/[^ -~]//g' "$1" | grep .; }
  $ by_part() { sed -n "/id=\"$2\"/,/<h2\|^<nav/p" "$1" | sed '$d' >part.html; text part.html; }
  $ for board in rpi_4 warp7; do joined_lists "$share/boards/$board.given" "$share"/devices/* >$board.devices; done

rpi_4: whatever two things fail
  $ marked report --text "$share/boards/rpi_4.env" -d rpi_4.devices --given 1 --shell old-2023.01 -o rpi_4.html
  $ by_part rpi_4.html verdict
  Boots, whatever two things fail.
  If nothing fails, the script calls 5 commands that can fail, and boots if any one of them does.
  Counted over all runs: it takes at least 6 failures to keep it from booting.
  It boots all the same if one of these 5 fails
  mmc dev 0
  part list mmc 0 -bootable devplist
  fstype mmc 0:1 bootfstype
  test -e mmc 0:1 /extlinux/extlinux.conf
  sysboot mmc 0:1 any 0x02400000 /extlinux/extlinux.conf

warp7, a closed chip: not at all, unless something fails
  $ marked report --text "$share/boards/warp7.env" -d warp7.devices --given 2 --shell old-2023.01 -o warp7.html
  $ by_part warp7.html verdict
  Does not boot, though nothing fails.
  If every command succeeds, it ends at U-Boot's prompt (end 0).
  It boots only if something fails, for example:
  load mmc 0:1 0x83200000 boot.scr.imx-signed

an alternative has to be named
  $ marked report --text "$share/boards/warp7.env" -d warp7.devices --shell old-2023.01 -o none.html
  ! report: ubtool: the device list has 2 alternatives: name one by --given
  [1]

its pictures
  $ grep -c '<svg' warp7.html
  2

what is not seen of it
  $ by_part warp7.html limits
  What is not seen
  This page says what the script does, by the lists and the environment that it was given. It does not know the board.
  What is handed over. What these run, or set, is in a file that this page does not have. A script that source runs has a page of its own by --script.
  source 0x83200000:bootscr
  Questions answered both ways. In some run with few failures, one of these is asked again and answered otherwise. If the board cannot do that, say steady of the command in the list, or take --steady.
  source 0x83200000:bootscr
  The right kernel. A run boots if a command that boots succeeds. Whether a kernel was loaded before it, and which, is to be read in the run.
  More failures at once. Causes are those with at most 2 failures.
  Time and the next boot. A watchdog, a delay, what saveenv stores and what the next boot does with it are not followed.

two slots of an update service
  $ printf 'BOOT_ORDER=A B\nBOOT_A_LEFT=3\nBOOT_B_LEFT=3\nkernel_addr_r=0x80000\n' >slots.env
  $ marked report --text slots.env --script "$repository/tests/compare_boards.d/two_slots" -d "$share/devices" --shell old-2025.01 -o slots.html
  $ by_part slots.html verdict
  Does not always boot: one failure is enough.
  If nothing fails, the script calls 3 commands that can fail. It does not boot if one of these fails:
  bootm 0x80000
  It boots all the same if one of these 2 fails
  saveenv
  load mmc 0:1 0x80000 Image

A board that is made: its script, as a variable, and its device list.

  $ by_board() {
  >     printf '%s\n' "bootcmd=$1" >board.env; printf '%s\n' load dhcp 'final bootm' 'restart reset' >list
  >     marked report --text board.env -d list "${@:2}" -o board.html && by_part board.html verdict
  > }

one failure
  $ by_board 'load a && bootm'
  Does not always boot: one failure is enough.
  If nothing fails, the script calls 2 commands that can fail. It does not boot if one of these fails:
  load a
  bootm

its endings, causes and texts
  $ by_part board.html endings
  How it ends
  The fewest failures with which a run ends so, and how many runs do, by how many commands fail in them.
  EndingFewest
  None
  1 fails
  2 fail
  Any
  does not boot Ends at U-Boot's prompt, with status 11
  0
  2
  0
  2
  boots Boots by bootm0
  1
  0
  0
  1
  The script has 3 runs in all, one for each way in which its commands can succeed or fail. These are counts, and say nothing of how likely an ending is: a way that asks more questions has more runs.
  $ by_part board.html causes
  What has to fail
  A cause is a set of failures of which none can be left out: with fewer of them, no run ends so. Each has its run, command by command.
  does not boot Ends at U-Boot's prompt, with status 1 end 1
  If this fails:
  bootm
  The run, command by command
   succeeds: load a
   fails: bootm
  Ends as end 1. Its word is 01.
  If this fails:
  load a
  The run, command by command
   fails: load a
  Ends as end 1. Its word is 1.
  boots Boots by bootm booted bootm
  Nothing fails.
  The run, command by command
   succeeds: load a
   succeeds: bootm
  Ends as booted bootm. Its word is 00.
  $ by_part board.html check
  The script
  What hushcheck says of the texts that the script runs, or may run. The mark is under the byte that is meant.
  Well-formed: bootcmd.
  Nothing is said against it.
  $ by_part board.html calls
  The same by hand
  ubtool causes --text board.env -d list --failures 2
  ubtool endings --text board.env -d list
  ubtool rehearse --text board.env -d list --word WORD
  Made with ubtool 0.1.0 (x86_64, dynamic).

two
  $ by_board 'load a || load b; bootm || bootm'
  Boots, whatever one thing fails, but 2 failures can be too many.
  If nothing fails, the script calls 2 commands that can fail, and boots if any one of them does.
  These are enough together:
  bootm
  bootm
  Counted over all runs: it takes at least 2 failures to keep it from booting.
  It boots all the same if one of these 2 fails
  load a
  bootm

no run that does not boot
  $ by_board 'load a && bootm; while true; do load b && bootm; done' --devices 40
  Boots, whatever two things fail.
  If nothing fails, the script calls 2 commands that can fail, and boots if any one of them does.
  Counted over all runs: it takes at least 20 failures to keep it from booting.
  It boots all the same if one of these 2 fails
  load a
  bootm

two in a run before that of one
  $ by_board 'if load a; then bootm || bootm; else exit 1; fi'
  Does not always boot: one failure is enough.
  If nothing fails, the script calls 2 commands that can fail. It does not boot if one of these fails:
  load a
  It boots all the same if this fails
  bootm

a question that is asked twice, and one that is answered as before
  $ by_board 'load a; load a && bootm'
  Does not always boot: one failure is enough.
  If nothing fails, the script calls 3 commands that can fail. It does not boot if one of these fails:
  load a
  bootm
  It boots all the same if this fails
  load a (asked another time)
  $ by_part board.html limits | grep -A 1 'both ways'
  Questions answered both ways. In some run with few failures, one of these is asked again and answered otherwise. If the board cannot do that, say steady of the command in the list, or take --steady.
  load a
  $ by_board 'load a; load a && bootm' --steady
  Does not always boot: one failure is enough.
  If nothing fails, the script calls 2 commands that can fail. It does not boot if one of these fails:
  load a
  bootm
  $ by_part board.html limits | grep -A 1 'both ways'
  [1]

texts by a name with a variable in it, and what is warned of
  $ cat >board.env <<'EOF'
  > bootcmd=for t in a b; do run boot_$t; run "end_${t}"_all; done; run set
  > boot_a=load $x && bootm
  > boot_b=test $y = 1 && bootm
  > boot=fi
  > end_a_all=true
  > end_a_al=fi
  > endless_all=fi
  > set=setenv y 1
  > preboot=usb start
  > EOF
  $ marked report --text board.env -d list -o board.html
  $ by_part board.html check
  The script
  What hushcheck says of the texts that the script runs, or may run. The mark is under the byte that is meant.
  Well-formed: bootcmd, boot_a, boot_b, end_a_all, set.
  note not followed, since the name holds a variable
  bootcmd:1:22
  for t in a b; do run boot_$t; run "end_${t}"_all; done; run set
                       ^
  bootcmd:1:35
  for t in a b; do run boot_$t; run "end_${t}"_all; done; run set
                                    ^
  warning test may be true in U-Boot if this leaves words over or too few: quote it
  boot_b:1:6
  test $y = 1 && bootm
       ^
  warning nothing sets x
  boot_a:1:6
  load $x && bootm
       ^
  $ by_part board.html limits
  What is not seen
  This page says what the script does, by the lists and the environment that it was given. It does not know the board.
  No shell was named. Scripts were read by ubtool's own rules, which are those of no board. --shell names the board's.
  Variables that nothing sets. The texts read them, and neither the environment nor a text sets them, so here they are empty. U-Boot's own code may set them before the script runs.
  x
  preboot. U-Boot runs it before the script, and this rehearsal does not: usb start
  Commands that the board lacks. The device list says of no command that the board does not have it, so each may succeed here.
  What the shell reads otherwise. At 1 place a shell of U-Boot does something else than this rehearsal: the script has each.
  Texts that are run by a name with a variable in it. hushcheck does not know which they are. The page takes all variables whose names fit.
  The right kernel. A run boots if a command that boots succeeds. Whether a kernel was loaded before it, and which, is to be read in the run.
  More failures at once. Causes are those with at most 2 failures.
  Time and the next boot. A watchdog, a delay, what saveenv stores and what the next boot does with it are not followed.

texts that a script in a file may run, and what it sets for them
  $ printf 'setenv x 1\nfor t in a; do run boot_$t; done\n' >start.cmd; printf '%s\n' 'boot_a=load $x $y && bootm' 'boot=fi' >board.env
  $ marked report --text board.env --script start.cmd -d list -o board.html
  $ by_part board.html check
  The script
  What hushcheck says of the texts that the script runs, or may run. The mark is under the byte that is meant.
  Well-formed: start.cmd, boot_a.
  note not followed, since the name holds a variable
  start.cmd:2:20
  for t in a; do run boot_$t; done
                     ^
  warning nothing sets y
  boot_a:1:9
  load $x $y && bootm
          ^

variables that a run changes, sets and deletes
  $ printf '%s\n' v=1 same=1 gone=1 "bootcmd=setenv v 2; setenv new '<3>'; setenv gone; load a && bootm" >board.env
  $ marked report --text board.env -d list --failures 0 -o board.html
  $ by_part board.html causes
  What has to fail
  A cause is a set of failures of which none can be left out: with fewer of them, no run ends so. Each has its run, command by command.
  does not boot Ends at U-Boot's prompt, with status 1 end 1
  Takes at least 1 failure, for example this:
  bootm
  boots Boots by bootm booted bootm
  Nothing fails.
  The run, command by command
   succeeds: load a
   succeeds: bootm
  Variables that it leaves changed:
  new=<3>
  v=2
  deleted: gone
  Ends as booted bootm. Its word is 00.

it starts anew
  $ by_board 'load a && bootm; reset'
  Does not always boot: one failure is enough.
  If nothing fails, the script calls 2 commands that can fail. It does not boot if one of these fails:
  load a (starts anew)
  bootm (starts anew)

nothing boots
  $ by_board 'load a; dhcp'
  Does not boot, though nothing fails.
  If every command succeeds, it ends at U-Boot's prompt (end 0).
  No run with at most 2 failures boots.

a misspelled command
  $ by_board 'lod a; bootm'
  Not known: the rehearsal stops, though nothing fails.
  If every command succeeds, it stops at lod, which is no command of the device list (stop unknown lod).
  No run with at most 2 failures boots.

a text that is no script
  $ by_board 'if load a; then bootm'
  Not known: the rehearsal stops, though nothing fails.
  If every command succeeds, it stops at the text of bootcmd, which is no script (stop syntax bootcmd).
  No run with at most 2 failures boots.

a loop without an end
  $ by_board 'while load a; do true; done; bootm' --devices 20
  Not known: the rehearsal stops, though nothing fails.
  If every command succeeds, it goes on without an end: more device commands than a run may have (cut devices).
  It boots only if something fails, for example:
  load a

without a failure alone
  $ by_board 'load a && bootm' --failures 0
  Boots if nothing fails.

more states than allowed
  $ by_board 'load a && load b && bootm' --states 1
  Does not always boot: one failure is enough.
  If nothing fails, the script calls 3 commands that can fail. It does not boot if one of these fails:
  load a
  load b
  bootm
  $ grep -c 'more states than allowed' board.html
  1

without Graphviz
  $ mkdir few; for it in awk basename bash cat dirname find mktemp python3 realpath rm sed sh truncate; do ln -s "$(command -v $it)" few; done
  $ PATH=$PWD/few marked report --text board.env -d list -o board.html
  $ grep -c '<svg' board.html
  0
  [1]
  $ grep -c 'There are no pictures, since Graphviz or python3 was not installed' board.html
  1

a text by which the shell gives up: no boot
  $ echo load >load.devices; printf 'bootcmd=load; fi\n' >gives_up.env
  $ marked report --text gives_up.env -d load.devices --shell modern -o gives_up.html; by_part gives_up.html verdict
  Does not boot, though nothing fails.
  If every command succeeds, it resets or hangs the board at the text of bootcmd, by which the shell gives up (stop panic bootcmd).
  No run with at most 2 failures boots.

a board whose script is on the card
  $ mkdir card; printf 'if load mmc 0; then\n  bootz 1\nfi\n' >card/boot.cmd; printf 'bootcmd=source 1000\n' >card.env
  $ printf '%s\n' load 'final bootz' 'call source ** : runs boot.cmd' >card.list
  $ marked report --text card.env -d card.list --files card -o card.html
  $ by_part card.html verdict
  Does not always boot: one failure is enough.
  If nothing fails, the script calls 3 commands that can fail. It does not boot if one of these fails:
  source 1000
  load mmc 0
  bootz 1
  $ by_part card.html check
  The script
  What hushcheck says of the texts that the script runs, or may run. The mark is under the byte that is meant.
  Well-formed: bootcmd, boot.cmd.
  Nothing is said against them.
  $ by_part card.html limits
  What is not seen
  This page says what the script does, by the lists and the environment that it was given. It does not know the board.
  No shell was named. Scripts were read by ubtool's own rules, which are those of no board. --shell names the board's.
  Commands that the board lacks. The device list says of no command that the board does not have it, so each may succeed here.
  What is handed over. What these run, or set, is in a file. This page has the files that the device list names by runs, and no others.
  source 1000
  The right kernel. A run boots if a command that boots succeeds. Whether a kernel was loaded before it, and which, is to be read in the run.
  More failures at once. Causes are those with at most 2 failures.
  Time and the next boot. A watchdog, a delay, what saveenv stores and what the next boot does with it are not followed.
  $ text card.html | grep -e --files
  ubtool causes --text card.env -d card.list --files card --failures 2
  ubtool endings --text card.env -d card.list --files card
  ubtool rehearse --text card.env -d card.list --files card --word WORD

the boots that follow one another
  $ printf '%s\n' 'final bootm' 'saves saveenv' 'known setexpr' >slots.list
  $ printf '%s\n' 'left=2' 'bootcmd=if test ${left} -gt 0; then setexpr left ${left} - 1; saveenv; bootm B; else bootm A; fi' >slots.env
  $ marked report --text slots.env -d slots.list --boots left --failures 1 -o slots.html
  $ by_part slots.html boots | tee drawn | head -2
  From boot to boot
  A box is a boot, with what it finds saved otherwise than the first one. A line leads to the boot that follows: green if the board boots, red if it does not, dashed if something fails. Of several ways to it, the one with the fewest failures.
  $ for it in left=1 left=0 'boot 3' 'fails saveenv'; do printf '%s: ' "$it"; grep -c "$it" drawn; done
  left=1: 1
  left=0: 1
  boot 3: 1
  fails saveenv: 2
  $ by_part slots.html limits | grep '^Time'
  Time, and what others save. A watchdog and a delay are not followed, and from boot to boot only what the script saves.
  $ marked report --text slots.env -d slots.list --failures 1 -o no_slots.html; by_part no_slots.html boots | wc -l
  0
  $ report --text slots.env -d slots.list --boots '' --failures 1 -o all_slots.html; by_part all_slots.html boots | cmp - drawn
  $ printf 'saveenv\nsetenv ${left} 1\n' >any.cmd; report --script any.cmd --text slots.env -d slots.list --boots '' -o any.html
  report: ubtool: which variables the scripts change is not known: name those that are kept
  [1]

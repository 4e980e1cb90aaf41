  $ . "$TESTDIR/../setup"

The run of each cause that a page shows, beside the run of its word: it ends as the cause does, and the commands that fail in it,
by the flow, are those of the cause.

  $ share=$repository/share; . "$repository/tools/lib"; printf 'true\n' >start.cmd
  $ by_runs() {
  >     ubtool rehearse "${board[@]:0:6}" "${board[@]: -2}" --script start.cmd >start
  >     ubtool causes "${board[@]}" --failures "$1" >causes
  >     ubtool rehearse "${board[@]}" --failures "$1" --devices 1000 --steps 1000000 >listing
  >     awk -f "$repository/tools/report.d/runs.awk" part=start start part=causes causes part=runs listing >runs
  >     grep -c '^cause ' causes
  >     for ((i = 1; i <= $(grep -c '^cause ' causes); i++)); do
  >         sed -n "s/^run\t$i\t//p" runs >run; word=$(sed -n 's/^run //p' run)
  >         ubtool rehearse "${board[@]}" --word "$word" | grep -v '^var \|^done$' >alone
  >         grep -v '^var \|^unset ' run | cmp - alone
  >         { echo "cause $(tr -cd 1 <<<"${word#.}" | wc -c) $(tail -n 1 run)"; walked "$word"; }
  >     done >found
  >     cmp found causes
  > }
  $ walked() {
  >     awk -v word="$1" '
  >         $2 == "ask" {
  >             success[$1] = $(NF - 2); failure[$1] = $NF
  >             asks[$1] = $0; sub(/^[0-9]* ask /, "", asks[$1]); sub(/ success [0-9]* failure [0-9]*$/, "", asks[$1])
  >         }
  >         END {
  >             at = 1
  >             for (i = 1; i <= length(word) && word != "."; i++) {
  >                 if (substr(word, i, 1) == 1) { print "fails " asks[at]; at = failure[at] } else at = success[at]
  >             }
  >         }' flow
  > }

warp7, by the rules of its shell and by ubtool's own
  $ joined_lists "$share/boards/warp7.given" "$share"/devices/* >devices
  $ board=(--text "$share/boards/warp7.env" -d devices --given 1 --shell old-2023.01); ubtool endings "${board[@]}" --flow >flow; by_runs 3
  7
  $ board=(--text "$share/boards/warp7.env" -d devices --given 1 --shell profile); ubtool endings "${board[@]}" --flow >flow; by_runs 3
  5

the same, each question with one answer
  $ board=(--text "$share/boards/warp7.env" -d devices --given 1 --steady --shell profile); ubtool endings "${board[@]}" --flow >flow; by_runs 3
  5

rpi_4
  $ joined_lists "$share/boards/rpi_4.given" "$share"/devices/* >devices
  $ board=(--text "$share/boards/rpi_4.env" -d devices --given 1 --shell old-2023.01); ubtool endings "${board[@]}" --flow >flow; by_runs 2
  5

am335x_evm
  $ joined_lists "$share/boards/am335x_evm.given" "$share"/devices/* >devices
  $ board=(--text "$share/boards/am335x_evm.env" -d devices --given 1 --shell old-2023.01); ubtool endings "${board[@]}" --flow >flow; by_runs 2
  5

two slots of an update service
  $ cat "$share"/devices/* >devices; printf 'kernel_addr_r=0x80000\n' >slots.env
  $ board=(--text slots.env -d devices --given 1 --script "$repository/tests/compare_boards.d/two_slots" --shell old-2025.01)
  $ ubtool endings "${board[@]}" --flow >flow; by_runs 3
  2

commands that are asked twice, steady and not, and calls that always fail
  $ printf 'load\nsteady probe\ncall dhcp a : always 1\ndhcp\nfinal boot\n' >devices
  $ printf 'bootcmd=probe x || probe x || dhcp a; load a || load a && load b && boot; probe x; dhcp b && boot; load b\n' >asked.env
  $ board=(--text asked.env -d devices --given 1 --shell profile); ubtool endings "${board[@]}" --flow >flow; by_runs 3
  11

a run in which more fails, before the run of a cause, which ends as it does
  $ printf 'load\n' >devices
  $ { printf 'bootcmd=load x || setenv f 1; load y || setenv g 1; load x || setenv h 1; '
  >     echo 'if test "$f" = 1; then false; elif test "$g$h" = 11; then false; else true; fi'; } >more.env
  $ board=(--text more.env -d devices --given 1 --shell profile); ubtool endings "${board[@]}" --flow >flow; by_runs 3
  2

  $ . "$TESTDIR/../setup"

What the first screen of the README and docs/REHEARSAL.md show, call by call.

  $ mkdir path; ln -s "$UBTOOL" path/ubtool; ln -s "$HUSHCHECK" path/hushcheck
  $ for board in rpi_4 sheevaplug warp7; do lines_image $board <"$repository/share/boards/$board.env"; done
  $ ln -s "$repository/share" share; ln -s "$repository/tests" tests; cat share/devices/* >devices.txt
  $ page=$repository/docs/REHEARSAL.md

How many calls a text shows, which write what it shows; and a block of the page between two lines.

  $ calls() {
  >     sed -n '/^```$/,/^```$/p' | sed '/^```$/d' >shown
  >     grep -c '^\$ ubtool ' shown; sed -n 's/^\$ //p' shown >calls
  >     while read -r call; do echo "\$ $call"; PATH=$PWD/path:$PATH sh -c "$call" 2>&1; done <calls >found
  > }
  $ between() { sed -n "/^$1/,/^$2/p" "$page" | awk -v wanted="$3" '/^```$/ { blocks++; next } blocks == 2 * wanted - 1'; }

on the first screen of the README
  $ sed -n '1,/^## /p' "$repository/README.md" | calls
  4
  $ cmp found shown

of an environment
  $ between '## What it needs' '## Does' 1 >list.txt; between 'With this environment' 'What has to fail for' 1 >env.txt
  $ sed -n '/^What has to fail for/,/^The last line counts/p' "$page" | calls
  2
  $ cmp found shown

its records
  $ ubtool rehearse --text env.txt -d list.txt bootdelay filesize | awk '
  >     /^run / { n++ } n == 1 || n == 4 || n == 7 { print } /^booted|^end/ && (n == 1 || n == 4) { print "" }' | grep -v '^done$' >found
  $ between '## What does a run do' '(A listing' 1 | cmp - found

of both readings
  $ between 'They differ if' 'Read by calls' 1 >retry.txt
  $ sed -n '/^Read by calls/,/^## In a pipeline/p' "$page" | calls
  5
  $ cmp found shown

of values
  $ sed -n '/^Which kernels can be started/,/^If the partition/p' "$page" | calls
  1
  $ cmp found shown

of single failures
  $ sed -n '/^## What happens if any one/,/^## What a device/p' "$page" | calls
  2
  $ cmp found shown

of open questions
  $ sed -n '/^## What a device list leaves open/,/^## A script/p' "$page" | calls
  5
  $ cmp found shown

of a script
  $ sed -n '/^## A script in a file/,/^#### Debian/p' "$page" | calls
  4
  $ cmp found shown

of a menu
  $ sed -n '/^### A menu/,/^## What the board/p' "$page" | calls
  1
  $ cmp found shown

of what the board sets
  $ sed -n '/^## What the board sets/,/^## A real/p' "$page" | calls
  3
  $ cmp found shown

the states with steady test
  $ { cat devices.txt && echo 'steady test'; } >steady_test.txt
  $ ubtool endings -c rpi_4.config -d steady_test.txt | tail -n 1
  all 368690717019746585773812990 states 142

the call by a shell
  $ cp rpi_4.config fw_env.config
  $ ubtool $(sed -n '/^## Which shell/,/^## What/s/^\$ ubtool //p' "$page") | tail -n 1 | cut -d ' ' -f 1
  all

of a real board
  $ sed -n '/^## A real board/,/^## What/p' "$page" | calls
  2
  $ cmp found shown

of two slots
  $ sed -n '/^## What two slots do/,/^## What is proved/p' "$page" | calls
  11
  $ cmp found shown

the verdict on a script, by the calls of the README
  $ mkdir recipe; ln -s "$repository/share" recipe/share; printf 'kernel_addr_r=0x80000\n' >recipe/env.txt
  $ boots='booti ${kernel_addr_r}'
  $ printf 'load mmc 0:1 ${kernel_addr_r} Image && %s; load mmc 1:1 ${kernel_addr_r} Image && %s\n' "$boots" "$boots" >recipe/boot.cmd
  $ grep '^\(hushcheck\|ubtool causes\) --script boot.cmd' "$repository/README.md" >calls; wc -l <calls
  2
  $ (cd recipe && PATH=$PWD/../path:$PATH sh -eu ../calls)
  boot.cmd: ok
  it boots

the board of an update service, by the calls of the README
  $ cp "$repository/tests/compare_boards.d/two_slots" recipe/boot.cmd
  $ printf '%s\n' 'BOOT_ORDER=B A' BOOT_A_LEFT=3 BOOT_B_LEFT=3 kernel_addr_r=0x80000 default_bootargs=quiet >recipe/env.txt
  $ grep -A 1 "^{ echo 'saves saveenv'" "$repository/README.md" >calls; wc -l <calls
  2
  $ (cd recipe && PATH=$PWD/../path:$PATH sh -eu ../calls)
  all 8
  it comes back

the script on the card, by the variable in which the board has its address
  $ mkdir -p card; printf 'load mmc 0:1 ${kernel_addr_r} Image && booti ${kernel_addr_r}\n' >card/boot.cmd
  $ handed() {
  >     { echo "call source $1 : runs boot.cmd"; cat devices.txt; } >it.list
  >     ubtool endings --text share/boards/rpi_4.env -d it.list --files card --shell old-2023.01 --states 2000000 | cksum
  > }
  $ handed '**' >wanted; handed '${scriptaddr}' | cmp - wanted
  $ handed 0x1 | cmp -s - wanted
  [1]

the lines of a flow
  $ ubtool endings -c rpi_4.config -d devices.txt --flow >flow
  $ marked "$repository/tools/figures" --check "lines-of-flow=$(wc -l <flow)"

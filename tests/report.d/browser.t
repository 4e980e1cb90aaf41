  $ . "$TESTDIR/../setup"

Pages in Chromium, at the widths of a telephone and of a desk, light and dark. What is folded is open when it is measured.

  $ browser=$(command -v chromium-headless-shell || command -v chromium) || left_out 'the pages in a browser, since chromium is not installed'
  $ needs dot python3
  $ share=$repository/share; . "$repository/tools/lib"
  $ report() { "$repository/tools/report" "$@"; }
  $ for board in rpi_4 warp7; do joined_lists "$share/boards/$board.given" "$share"/devices/* >$board.devices; done
  $ marked report --text "$share/boards/rpi_4.env" -d rpi_4.devices --given 1 --shell old-2023.01 --failures 3 -o rpi_4.html
  $ marked report --text "$share/boards/warp7.env" -d warp7.devices --given 1 -o warp7.html
  $ mkdir fleet; cp "$share/boards/warp7.env" "$share/boards/sheevaplug.env" fleet; echo x >fleet/none.env
  $ printf 'bootcmd=load %0300d || reset; %0300d\n' 7 8 >fleet/long.env
  $ marked report --text fleet -d "$share/devices" --shell old-2023.01 -o fleet.html
  $ printf '%s\n' 'final bootm' 'saves saveenv' 'known setexpr' >slots.list
  $ printf '%s\n' 'left=2' 'bootcmd=if test ${left} -gt 0; then setexpr left ${left} - 1; saveenv; bootm B; else bootm A; fi' >slots.env
  $ marked report --text slots.env -d slots.list --boots left -o slots.html

  $ by_browser() {
  >     "$browser" --no-sandbox --disable-gpu --hide-scrollbars --blink-settings=preferredColorScheme=$2 --window-size=$1,900 \
  >         "${@:4}" "file://$PWD/$3" 2>/dev/null
  > }
  $ by_measure() {
  >     { cat "$1"; echo '<script>'; cat "$repository/tests/report.d/measure.js"; echo '</script>'; } >measured.html
  >     for width in 390 1280; do for scheme in 1 0; do
  >         by_browser $width $scheme measured.html --dump-dom | sed -n 's:.*<title>\(.*\)</title>.*:\1:p'
  >     done; done
  > }

nothing reaches out of a page, and all of it can be read
  $ for it in rpi_4 warp7 fleet fleet_long.env fleet_sheevaplug.env slots; do by_measure $it.html; done | sort | uniq -c
        6 dark 1280, texts: nothing too wide, nothing faint
        6 dark 390, texts: nothing too wide, nothing faint
        6 light 1280, texts: nothing too wide, nothing faint
        6 light 390, texts: nothing too wide, nothing faint

a page whose colours are faint where it is light, and one that is too wide for a telephone
  $ sed 's/--soft: #57606a/--soft: #b0b6bd/' fleet_sheevaplug.env.html >faint.html; by_measure faint.html | grep 'nothing faint'
  dark 390, texts: nothing too wide, nothing faint
  dark 1280, texts: nothing too wide, nothing faint
  $ sed 's/<main>/<main><p style="width: 600px">wide<\/p>/' fleet_sheevaplug.env.html >wide.html; by_measure wide.html | grep 'nothing too wide'
  light 1280, texts: nothing too wide, nothing faint
  dark 1280, texts: nothing too wide, nothing faint

pictures of the screen, each of its own colours and size
  $ by_shot() { by_browser $1 $2 $3.html --screenshot=$3-$1-$2.png; od -An -j 16 -N 8 -t u4 --endian=big $3-$1-$2.png; }
  $ for it in rpi_4 fleet; do for width in 390 1280; do for scheme in 1 0; do by_shot $width $scheme $it; done; done; done | sort | uniq -c
        4         390        900
        4        1280        900
  $ for it in *-1.png; do cmp -s $it ${it%1.png}0.png && echo "$it: light as dark"; done; ls *.png | wc -l
  8

  $ . "$TESTDIR/../setup"

That a page is HTML without errors, needs nothing else, and shows what it is given as text.

  $ needs tidy dot python3
  $ share=$repository/share
  $ report() { "$repository/tools/report" "$@"; }
  $ by_tidy() { tidy -q -e "$@" 2>&1; }
  $ by_need() { grep -ioE '<(script|link|iframe|object|embed|img|base|form)| (src|href|action|on[a-z]+)="[^#][^"]*"|url\(|@import|https?:[^"]*' "$@"; }

of real boards
  $ for board in sheevaplug stm32mp15_basic warp7; do
  >     marked report --text "$share/boards/$board.env" -d "$share/devices" --shell old-2023.01 --failures 1 -o $board.html
  > done
  $ by_tidy *.html
  $ by_need *.html
  [1]

a script that is shown as text
  $ cat >odd.env <<'EOF'
  > bootcmd=setenv x '<script>y</script>'; echo "<b>&amp;"; load '"><script>z</script>' && bootm; lod $u
  > <i>=&lt;
  > EOF
  $ printf 'load\nfinal bootm\n' >'<b>&"devices"'
  $ marked report --text odd.env -d '<b>&"devices"' --title '<u>odd</u> & "more"' -o odd.html
  $ by_tidy odd.html
  $ by_need odd.html
  [1]
  $ grep -o '<h1>.*</h1>' odd.html
  <h1>&lt;u&gt;odd&lt;/u&gt; &amp; &quot;more&quot;</h1>
  $ grep -c '&lt;script&gt;z&lt;/script&gt;' odd.html
  8

the same page again is the same bytes
  $ marked report --text odd.env -d '<b>&"devices"' --title '<u>odd</u> & "more"' -o again.html; cmp odd.html again.html

a folder
  $ mkdir 'a <b> & c'; cp odd.env 'a <b> & c/#1 <b>%.env'; cp "$share/boards/warp7.env" 'a <b> & c'
  $ marked report --text 'a <b> & c' -d '<b>&"devices"' -o fleet.html
  $ by_tidy fleet*.html
  $ grep -o 'href="[^#][^"]*"' fleet.html
  href="fleet_%231%20%3Cb%3E%25.env.html"
  href="fleet_warp7.env.html"

  $ . "$TESTDIR/../setup"

The recipe for a pipeline of docs/REHEARSAL.md, on two boards; then a script's name is misspelled.

  $ needs git
  $ mkdir path; ln -s "$UBTOOL" path/ubtool; ln -s "$HUSHCHECK" path/hushcheck
  $ recipe() {
  >     awk -v wanted="$1" '/^## /{ inside = $0 == "## In a pipeline" } inside && /^```$/ { blocks++; next } inside && blocks == 2 * wanted - 1' \
  >         "$repository/docs/REHEARSAL.md" >recipe
  >     (cd pipeline && PATH=$PWD/../path:$PATH bash ../recipe)
  > }
  $ committed() { git -C pipeline -c user.name=nobody -c user.email=nobody@localhost "$@"; }
  $ board() { lines_image pipeline/images/$1.img && rm pipeline/images/*.config; }
  $ mkdir -p pipeline/images; cat "$repository"/share/devices/* >pipeline/devices.txt
  $ board rpi_4 <"$repository/share/boards/rpi_4.env"; board warp7 <"$repository/share/boards/warp7.env"
  $ git init -q pipeline; touch pipeline/causes.txt; committed add causes.txt
  $ recipe 1 >/dev/null
  [1]
  $ committed commit -qam 'what has to fail'

the recipe for a pipeline
  $ recipe 1
  $ grep -c '^image ' pipeline/causes.txt
  2

a script misspelled
  $ sed 's/boot\.scr/boot.src/' "$repository/share/boards/warp7.env" | board warp7
  $ recipe 1 >difference
  [1]
  $ grep '^[-+][^-+]' difference
  -fails load mmc 0:1 0x83200000 boot.scr
  +fails load mmc 0:1 0x83200000 boot.src
  -fails load mmc 0:1 0x83200000 boot.scr
  +fails load mmc 0:1 0x83200000 boot.src

a board that does not boot if one command fails
  $ recipe 2 >/dev/null
  [1]

one that boots
  $ rm pipeline/images/warp7.img
  $ recipe 2

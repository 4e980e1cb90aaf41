  $ . "$TESTDIR/../setup"

What the pages show: callers, a session, and the examples of the manual.

The caller that a crate's CALLING.md shows is the one that is proved, and its contracts are those of the sources.

  $ shown() {
  >     sed -n '/^## A caller$/,/^## Contracts$/p' "$repository/crates/$1/CALLING.md" | sed -n '/^```rust$/,/^```$/p' | sed '/^```/d'
  > }
  $ proved() { sed -n '/^\/\/\/ /,$p' "$repository/crates/$1.rt"; }

the caller of envimage
  $ shown envimage | cmp - <(proved tests_callers/src/images)

the caller of envtools
  $ shown envtools | cmp - <(proved tests_callers/src/environments)

the caller of hushlang
  $ shown hushlang | cmp - <(proved tests_callers/src/scripts)

the caller of bootstore
  $ shown bootstore | cmp - <(proved tests_callers/src/stores)

the caller of rehearse
  $ shown rehearse | cmp - <(proved tests_callers/src/runs)

the caller of ubtool
  $ shown ubtool | cmp - <(proved tests_changes/src/changes)

the contracts of the pages for callers
  $ marked "$repository/tools/contracts" --check

what is made of the rows of options
  $ marked "$repository/tools/options" --check

the figures of the pages that files give
  $ marked "$repository/tools/figures" --check

what docs/MAP.md says of files
  $ marked "$repository/tools/map" --check

the files that the pages name
  $ marked "$repository/tools/paths"

a suite that is given no program
  $ marked "$repository/tests/compare" missing "$UBTOOL"
  ! compare: there is no program 'missing'; ./build and the gate make the programs
  [1]

the session of docs/FORMATS.md in a plain shell, and what it shows
  $ mkdir session path; ln -s "$UBTOOL" path/ubtool
  $ sed -n '/^A redundant pair from nothing/,/^## /p' "$repository/docs/FORMATS.md" | sed -n '/^```$/,/^```$/p' | sed '/^```$/d' >shown
  $ sed -n 's/^\$ //p' shown >calls; wc -l <calls
  7
  $ (cd session && PATH=$PWD/../path:$PATH sh -eu ../calls) >found
  $ grep -v '^\$' shown | cmp - found

The examples of the manual are done as they are, with the configuration of this folder.

  $ printf 'bootdelay 2\nserverip\n' >changes.txt; printf 'bootcmd=load\n' >env.txt
  $ printf 'env 0 80\n' >fw_env.config
  $ fresh() {
  >     head -c 124 /dev/zero | to_image_of "${1-little}" '' >env
  >     for it in bootcmd bootdelay serverip; do ubtool setenv ${1+--big-endian} -c fw_env.config $it 1; done
  > }
  $ examples() {
  >     sed 's/\\//g' "$repository/docs/ubtool.1" | sed -n "/^ubtool $1 /p; /^ubtool $1$/p" |
  >         sed '/ -c \|--text/!s/^ubtool [a-z]*/& -c fw_env.config/; s/^/fresh; /; /--big-endian/s/fresh/fresh big/' >calls
  >     cat calls
  > }

the examples of printenv
  $ examples printenv
  fresh; ubtool printenv -c fw_env.config
  fresh; ubtool printenv -c fw_env.config bootcmd bootdelay
  fresh; ubtool printenv -c fw_env.config -n serverip
  fresh big; ubtool printenv -c fw_env.config --big-endian
  fresh; ubtool printenv --text env.txt
  $ . ./calls
  bootcmd=1
  bootdelay=1
  serverip=1
  bootcmd=1
  bootdelay=1
  1
  bootcmd=1
  bootdelay=1
  serverip=1
  bootcmd=load

the examples of setenv
  $ examples setenv
  fresh; ubtool setenv -c fw_env.config bootdelay 3
  fresh; ubtool setenv -c fw_env.config bootargs console=ttyS0,115200 root=/dev/mmcblk0p2
  fresh; ubtool setenv -c fw_env.config bootdelay
  fresh; ubtool setenv -c fw_env.config -s changes.txt
  $ . ./calls

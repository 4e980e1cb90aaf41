  $ . "$TESTDIR/../setup"

Every variable.

  $ image run 'bootcmd=load; run a' a=ls b=boom
  $ printf 'load\n' >load.list
  $ printf '\0' | new_image none
all, in their order
  $ hushcheck -c run.config --all
  bootcmd: ok
  a: ok
  b: ok

all, after the ones that are named
  $ hushcheck -c run.config b --all
  b: ok
  bootcmd: ok
  a: ok

all, and one that is not set
  $ hushcheck -c run.config --all y
  y: not set
  bootcmd: ok
  a: ok
  b: ok
  [1]

all, with a device list
  $ hushcheck -c run.config --all -d load.list
  bootcmd: ok
  a: ok
  a:1:1: the device list lacks ls
  ls
  ^
  b: ok
  b:1:1: the device list lacks boom
  boom
  ^
  [1]

all of an empty environment
  $ hushcheck -c none.config --all

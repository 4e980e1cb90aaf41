  $ . "$TESTDIR/../setup"

Images that are whole files, and texts.

  $ image run 'bootcmd=load; run a' a=ls b=boom
  $ printf 'load\n' >load.list
  $ printf 'bootcmd=fi\0\0' | new_image old little 01
  $ printf 'bootcmd=ls\0\0' | new_image new little 02
  $ printf 'bootcmd=true\0\0' | new_image big big
  $ cp run run.kept
  $ printf '# none\nb=boom\nbootcmd=load; run a\n\na=ls\n' >run.txt
  $ printf '%s\r\n' 'bootcmd=load; run a' 'a=ls' 'b=boom' '' 'Environment size: 36/8188 bytes' >run.dump

Of an image, a text and a console's output the same lines and status as by a configuration.

all texts that bootcmd runs, of -i run
  $ hushcheck -i run
  bootcmd: ok
  a: ok

all texts that bootcmd runs, of --image=run
  $ hushcheck --image=run
  bootcmd: ok
  a: ok

all texts that bootcmd runs, of --text run.txt
  $ hushcheck --text run.txt
  bootcmd: ok
  a: ok

all texts that bootcmd runs, of --text=run.txt
  $ hushcheck --text=run.txt
  bootcmd: ok
  a: ok

all texts that bootcmd runs, of --text run.dump
  $ hushcheck --text run.dump
  bootcmd: ok
  a: ok

all texts that bootcmd runs, of --text run.txt --big-endian
  $ hushcheck --text run.txt --big-endian
  bootcmd: ok
  a: ok

-d load.list of -i run
  $ hushcheck -i run -d load.list
  bootcmd: ok
  a: ok
  a:1:1: the device list lacks ls
  ls
  ^
  [1]

-d load.list of --image=run
  $ hushcheck --image=run -d load.list
  bootcmd: ok
  a: ok
  a:1:1: the device list lacks ls
  ls
  ^
  [1]

-d load.list of --text run.txt
  $ hushcheck --text run.txt -d load.list
  bootcmd: ok
  a: ok
  a:1:1: the device list lacks ls
  ls
  ^
  [1]

-d load.list of --text=run.txt
  $ hushcheck --text=run.txt -d load.list
  bootcmd: ok
  a: ok
  a:1:1: the device list lacks ls
  ls
  ^
  [1]

-d load.list of --text run.dump
  $ hushcheck --text run.dump -d load.list
  bootcmd: ok
  a: ok
  a:1:1: the device list lacks ls
  ls
  ^
  [1]

-d load.list of --text run.txt --big-endian
  $ hushcheck --text run.txt --big-endian -d load.list
  bootcmd: ok
  a: ok
  a:1:1: the device list lacks ls
  ls
  ^
  [1]

b gone of -i run
  $ hushcheck -i run b gone
  b: ok
  gone: not set
  [1]

b gone of --image=run
  $ hushcheck --image=run b gone
  b: ok
  gone: not set
  [1]

b gone of --text run.txt
  $ hushcheck --text run.txt b gone
  b: ok
  gone: not set
  [1]

b gone of --text=run.txt
  $ hushcheck --text=run.txt b gone
  b: ok
  gone: not set
  [1]

b gone of --text run.dump
  $ hushcheck --text run.dump b gone
  b: ok
  gone: not set
  [1]

b gone of --text run.txt --big-endian
  $ hushcheck --text run.txt --big-endian b gone
  b: ok
  gone: not set
  [1]

--all b -d load.list --shell old of -i run
  $ hushcheck -i run --all b -d load.list --shell old
  b: ok
  b:1:1: the device list lacks boom
  boom
  ^
  bootcmd: ok
  a: ok
  a:1:1: the device list lacks ls
  ls
  ^
  [1]

--all b -d load.list --shell old of --image=run
  $ hushcheck --image=run --all b -d load.list --shell old
  b: ok
  b:1:1: the device list lacks boom
  boom
  ^
  bootcmd: ok
  a: ok
  a:1:1: the device list lacks ls
  ls
  ^
  [1]

--all b -d load.list --shell old of --text run.txt
  $ hushcheck --text run.txt --all b -d load.list --shell old
  b: ok
  b:1:1: the device list lacks boom
  boom
  ^
  bootcmd: ok
  a: ok
  a:1:1: the device list lacks ls
  ls
  ^
  [1]

--all b -d load.list --shell old of --text=run.txt
  $ hushcheck --text=run.txt --all b -d load.list --shell old
  b: ok
  b:1:1: the device list lacks boom
  boom
  ^
  bootcmd: ok
  a: ok
  a:1:1: the device list lacks ls
  ls
  ^
  [1]

--all b -d load.list --shell old of --text run.dump
  $ hushcheck --text run.dump --all b -d load.list --shell old
  b: ok
  b:1:1: the device list lacks boom
  boom
  ^
  bootcmd: ok
  a: ok
  a:1:1: the device list lacks ls
  ls
  ^
  [1]

--all b -d load.list --shell old of --text run.txt --big-endian
  $ hushcheck --text run.txt --big-endian --all b -d load.list --shell old
  b: ok
  b:1:1: the device list lacks boom
  boom
  ^
  bootcmd: ok
  a: ok
  a:1:1: the device list lacks ls
  ls
  ^
  [1]

an image that is big-endian
  $ hushcheck -i big --big-endian
  bootcmd: ok

an image of the other order
  $ hushcheck -i big
  ! hushcheck: no image with a right CRC
  [3]

a pair of files
  $ hushcheck -i old --second new
  bootcmd: ok

a pair of files, the other way round
  $ hushcheck --second=old -i new
  bootcmd: ok

one copy twice
  $ hushcheck -i old --second old
  bootcmd:1:1: unexpected token
  fi
  ^
  [1]

a copy alone
  $ hushcheck -i new
  ! hushcheck: no image with a right CRC
  [3]

two sizes
  $ hushcheck -i new --second run
  ! hushcheck: image sizes differ
  [3]

two sizes, and no device list
  $ hushcheck -i new --second run -d missing
  ! hushcheck: image sizes differ
  [3]

no second copy
  $ hushcheck -i new --second missing
  ! hushcheck: cannot read missing
  [3]

no image
  $ hushcheck -i missing --second new
  ! hushcheck: cannot read missing
  [3]

an image that is too long
  $ head -c 1048577 /dev/zero >long.txt
  $ hushcheck -i long.txt
  ! hushcheck: long.txt is too long
  [3]

a text that is too long
  $ hushcheck --text long.txt
  ! hushcheck: long.txt is too long
  [3]

a text that is too large
  $ { printf 'a=' && head -c 1048569 /dev/zero | tr '\0' x; } >large.txt
  $ hushcheck --text large.txt
  ! hushcheck: environment is too large
  [3]

a text with a bad line
  $ rm long.txt large.txt
  $ printf '# c\na=1\nxy\n' >bad.txt
  $ hushcheck --text bad.txt
  ! hushcheck: text line 3 has no =
  [3]

a text with a bad line, and no device list
  $ hushcheck --text bad.txt -d missing
  ! hushcheck: text line 3 has no =
  [3]

a text with a line without a name
  $ printf '=1\n' >bad.txt
  $ hushcheck --text bad.txt
  ! hushcheck: text line 1 has no name
  [3]

no text
  $ hushcheck --text missing
  ! hushcheck: cannot read missing
  [3]

a text, and no device list
  $ hushcheck --text run.txt -d missing
  ! hushcheck: cannot read missing
  [3]

the lines of a value, not of its text
  $ printf 'bootcmd=if ls; then\\\n  echo $a & b\\\nfi' >lines.txt
  $ hushcheck --text lines.txt
  bootcmd:2:11: a single &
    echo $a & b
            ^
  [1]

an empty text
  $ : >empty.txt
  $ hushcheck --text empty.txt
  bootcmd: not set
  [1]

all of an empty text
  $ hushcheck --text empty.txt --all

an output that is full, of a text
  $ hushcheck --text run.txt >/dev/full
  ! hushcheck: output failed
  [3]

images and texts stay
  $ cmp run run.kept 2>&1; head -n 2 run.txt
  # none
  b=boom

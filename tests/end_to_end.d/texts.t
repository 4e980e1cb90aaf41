  $ . "$TESTDIR/../setup"

Texts of variables, in place of images.

a text
  $ printf 'a=1\n# note\n\nb=x=y\nc=1\\\n2\na=3\n' >env.txt
  $ ubtool printenv --text env.txt
  a=3
  b=x=y
  c=1
  2

a text, a value
  $ ubtool printenv --text=env.txt -n a
  3

a text, some variables
  $ ubtool printenv --text env.txt z b
  b=x=y
  ! ## Error: "z" not defined
  [1]

a text, in one line each
  $ ubtool printenv --text env.txt --escaped
  a=3
  b=x=y
  c=1\n2

a text, of which one copy is enough
  $ ubtool printenv --text env.txt --one-copy a
  a=3

a text, and a big-endian CRC
  $ ubtool printenv --text env.txt --big-endian a
  a=3

a text whose last line lacks its newline
  $ printf 'a=1\nb=2' >cut.txt
  $ ubtool printenv --text cut.txt
  a=1
  b=2

an empty text
  $ : >empty.txt
  $ ubtool printenv --text empty.txt

a text without variables
  $ printf '# nothing\n\n' >empty.txt
  $ ubtool printenv --text empty.txt

a text with a carriage return
  $ printf 'a=1\r\nb=2\n' >returns.txt
  $ ubtool printenv --text returns.txt
  a=1\r (esc)
  b=2

A console's output:

what printenv wrote
  $ console dump.txt a=1 'bootcmd=run x' '' 'Environment size: 22/8188 bytes'
  $ ubtool printenv --text dump.txt
  a=1
  bootcmd=run x

what printenv wrote, and empty lines
  $ printf '\r\n\n' >>dump.txt
  $ ubtool printenv --text dump.txt
  a=1
  bootcmd=run x

what printenv wrote, without carriage returns
  $ printf 'a=1\n\nEnvironment size: 5/8188 bytes' >dump.txt
  $ ubtool printenv --text dump.txt
  a=1

what printenv wrote of values with newlines and backslashes
  $ console dump.txt 'a=1\' 2 'b=\\x' '' 'Environment size: 14/8188 bytes'
  $ ubtool printenv --text dump.txt
  a=1
  2
  b=\\x

a broken line before the size
  $ console dump.txt a=1 xy '' 'Environment size: 8/8188 bytes'
  $ ubtool printenv --text dump.txt
  ! ubtool: text line 2 has no =
  [1]

a size that is not last
  $ console dump.txt a=1 '' 'Environment size: 5/8188 bytes' b=2
  $ ubtool printenv --text dump.txt
  ! ubtool: text line 2 has no =
  [1]

a size without an empty line before it
  $ printf 'a=1\nEnvironment size: 5/8188 bytes\n' >dump.txt
  $ ubtool printenv --text dump.txt
  ! ubtool: text line 2 has no =
  [1]

a variable that begins as the size does
  $ printf 'a=1\n\nEnvironment size: 5/8188 bytes=2\n' >dump.txt
  $ ubtool printenv --text dump.txt
  a=1
  Environment size: 5/8188 bytes=2

Refusals of texts:

a line without =
  $ printf '# c\na=1\n\nxy\nb=2\n' >bad.txt
  $ ubtool printenv --text bad.txt
  ! ubtool: text line 4 has no =
  [1]

a line without =, before the names
  $ ubtool printenv --text bad.txt z
  ! ubtool: text line 4 has no =
  [1]

a line without a name
  $ printf 'a=1\n=2\n' >bad.txt
  $ ubtool printenv --text bad.txt
  ! ubtool: text line 2 has no name
  [1]

no such text
  $ ubtool printenv --text missing
  ! ubtool: cannot read missing
  [1]

a text that is a folder
  $ ubtool printenv --text .
  ! ubtool: cannot read .
  [1]

the largest text
  $ { printf 'a=' && head -c 1048568 /dev/zero | tr '\0' x; } >large.txt
  $ ubtool printenv --text large.txt -n a | wc -c
  1048569

a text with one byte too many
  $ printf x >>large.txt
  $ ubtool printenv --text large.txt
  ! ubtool: environment is too large
  [1]

a text of 1,048,576 bytes
  $ { printf '#' && head -c 1048575 /dev/zero | tr '\0' x; } >large.txt
  $ ubtool printenv --text large.txt

a text of 1,048,577 bytes
  $ printf x >>large.txt
  $ ubtool printenv --text large.txt
  ! ubtool: large.txt is too long
  [1]
  $ rm large.txt

Calls of texts:

  $ printf 'probe\n' >probe.list

printenv, of a text
  $ printf 'bootcmd=probe && setenv a 2\na=1\n' >boot.txt
  $ console boot.dump a=1 'bootcmd=probe && setenv a 2' '' 'Environment size: 34/8188 bytes'
  $ ubtool printenv --text boot.txt
  bootcmd=probe && setenv a 2
  a=1

printenv -n a, of a text
  $ ubtool printenv -n a --text boot.txt
  1

rehearse -d probe.list, of a text
  $ ubtool rehearse -d probe.list --text boot.txt
  run 0
  dev 0 probe
  var a=2
  var bootcmd=probe && setenv a 2
  end 0
  run 1
  dev 1 probe
  var a=1
  var bootcmd=probe && setenv a 2
  end 1
  done

rehearse -d probe.list --word 1 a, of a text
  $ ubtool rehearse -d probe.list --word 1 a --text boot.txt
  run 1
  dev 1 probe
  var a=1
  end 1
  done

endings -d probe.list, of a text
  $ ubtool endings -d probe.list --text boot.txt
  ends 1 first 0 fewest 0 0 end 0
  ends 1 first 1 fewest 1 1 end 1
  fails probe
  all 2 states 1

endings -d probe.list --flow, of a text
  $ ubtool endings -d probe.list --flow --text boot.txt
  1 ask probe success 3 failure 2
  2 ends end 1
  3 ends end 0

endings -d probe.list --shell old, of a text
  $ ubtool endings -d probe.list --shell old --text boot.txt
  ends 1 first 0 fewest 0 0 end 0
  ends 1 first 1 fewest 1 1 end 1
  fails probe
  all 2 states 1

causes -d probe.list, of a text
  $ ubtool causes -d probe.list --text boot.txt
  cause 0 end 0
  cause 1 end 1
  fails probe

causes -d probe.list --check, of a text
  $ ubtool causes -d probe.list --check --text boot.txt
  cause 0 end 0
  cause 1 end 1
  fails probe
  [1]

printenv a bootcmd, of a console's output
  $ ubtool printenv a bootcmd --text boot.dump
  a=1
  bootcmd=probe && setenv a 2

rehearse -d probe.list a, of a console's output
  $ ubtool rehearse -d probe.list a --text boot.dump
  run 0
  dev 0 probe
  var a=2
  end 0
  run 1
  dev 1 probe
  var a=1
  end 1
  done

endings -d probe.list a, of a console's output
  $ ubtool endings -d probe.list a --text boot.dump
  ends 1 first 0 fewest 0 0 end 0
  var a=2
  ends 1 first 1 fewest 1 1 end 1
  var a=1
  fails probe
  all 2 states 1

causes -d probe.list, of a console's output
  $ ubtool causes -d probe.list --text boot.dump
  cause 0 end 0
  cause 1 end 1
  fails probe

rehearse -d probe.list, of a text with a fault
  $ printf 'xy\n' >bad.txt
  $ ubtool rehearse -d probe.list --text bad.txt
  ! ubtool: text line 1 has no =
  [1]

endings -d probe.list, of a text with a fault
  $ ubtool endings -d probe.list --text bad.txt
  ! ubtool: text line 1 has no =
  [1]

causes -d probe.list, of a text with a fault
  $ ubtool causes -d probe.list --text bad.txt
  ! ubtool: text line 1 has no =
  [1]

rehearse -d missing, of a text with a fault
  $ ubtool rehearse -d missing --text bad.txt
  ! ubtool: text line 1 has no =
  [1]

a text, and no device list
  $ ubtool rehearse -d missing --text boot.txt
  ! ubtool: cannot read missing
  [1]

a text is only read
  $ cat boot.txt
  bootcmd=probe && setenv a 2
  a=1

Words of texts:

printenv, of a text and -c config
  $ ubtool printenv --text boot.txt -c config
  ! ubtool: --text takes no -c, no -i and no --second
  [2]

printenv, of a text and -i boot
  $ ubtool printenv --text boot.txt -i boot
  ! ubtool: --text takes no -c, no -i and no --second
  [2]

printenv, of a text and --second boot
  $ ubtool printenv --text boot.txt --second boot
  ! ubtool: --text takes no -c, no -i and no --second
  [2]

printenv, of a text and -c config -i boot
  $ ubtool printenv --text boot.txt -c config -i boot
  ! ubtool: --text takes no -c, no -i and no --second
  [2]

rehearse -d probe.list, of a text and -c config
  $ ubtool rehearse -d probe.list --text boot.txt -c config
  ! ubtool: --text takes no -c, no -i and no --second
  [2]

rehearse -d probe.list, of a text and -i boot
  $ ubtool rehearse -d probe.list --text boot.txt -i boot
  ! ubtool: --text takes no -c, no -i and no --second
  [2]

rehearse -d probe.list, of a text and --second boot
  $ ubtool rehearse -d probe.list --text boot.txt --second boot
  ! ubtool: --text takes no -c, no -i and no --second
  [2]

rehearse -d probe.list, of a text and -c config -i boot
  $ ubtool rehearse -d probe.list --text boot.txt -c config -i boot
  ! ubtool: --text takes no -c, no -i and no --second
  [2]

endings -d probe.list, of a text and -c config
  $ ubtool endings -d probe.list --text boot.txt -c config
  ! ubtool: --text takes no -c, no -i and no --second
  [2]

endings -d probe.list, of a text and -i boot
  $ ubtool endings -d probe.list --text boot.txt -i boot
  ! ubtool: --text takes no -c, no -i and no --second
  [2]

endings -d probe.list, of a text and --second boot
  $ ubtool endings -d probe.list --text boot.txt --second boot
  ! ubtool: --text takes no -c, no -i and no --second
  [2]

endings -d probe.list, of a text and -c config -i boot
  $ ubtool endings -d probe.list --text boot.txt -c config -i boot
  ! ubtool: --text takes no -c, no -i and no --second
  [2]

causes -d probe.list, of a text and -c config
  $ ubtool causes -d probe.list --text boot.txt -c config
  ! ubtool: --text takes no -c, no -i and no --second
  [2]

causes -d probe.list, of a text and -i boot
  $ ubtool causes -d probe.list --text boot.txt -i boot
  ! ubtool: --text takes no -c, no -i and no --second
  [2]

causes -d probe.list, of a text and --second boot
  $ ubtool causes -d probe.list --text boot.txt --second boot
  ! ubtool: --text takes no -c, no -i and no --second
  [2]

causes -d probe.list, of a text and -c config -i boot
  $ ubtool causes -d probe.list --text boot.txt -c config -i boot
  ! ubtool: --text takes no -c, no -i and no --second
  [2]

a change of a text
  $ ubtool setenv --text boot.txt a 1
  ! error: unexpected argument '--text' found
  !
  !   tip: to pass '--text' as a value, use '-- --text'
  !
  ! Usage: ubtool setenv [OPTIONS] [NAME] [VALUE]...
  !
  ! For more information, try '--help'.
  [2]

a text without its file
  $ ubtool printenv --text
  ! error: a value is required for '--text <FILE>' but none was supplied
  !
  ! For more information, try '--help'.
  [2]

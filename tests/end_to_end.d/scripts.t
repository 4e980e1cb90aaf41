  $ . "$TESTDIR/../setup"

Scripts that run in place of a variable.

  $ printf 'if probe; then\n  setenv a "${b}"; run more\nelse\n  reset\nfi\n' >boot.cmd
  $ printf 'b=7\nmore=setenv c 8\nbootcmd=false\nboot.cmd=true\n' >rest.txt
  $ printf 'probe\nrestart reset\n' >reset.list
  $ printf 'if probe; then true; else reset; fi' >end.cmd
  $ printf 'if true' >'bad cmd'
  $ script_image boot.cmd >boot.scr; script_image end.cmd >end.scr
  $ ubtool image --size 4096 -o rest.img rest.txt
  $ places rest.img >rest.config

boot.cmd, with --text rest.txt
  $ ubtool rehearse --script boot.cmd --text rest.txt -d reset.list a c
  run 0
  dev 0 probe
  var a=7
  var c=8
  end 0
  run 10
  dev 1 probe
  dev 0 reset
  unset a
  unset c
  restarted reset
  run 11
  dev 1 probe
  dev 1 reset
  unset a
  unset c
  end 1
  done

boot.cmd, with -i rest.img
  $ ubtool rehearse --script boot.cmd -i rest.img -d reset.list a c
  run 0
  dev 0 probe
  var a=7
  var c=8
  end 0
  run 10
  dev 1 probe
  dev 0 reset
  unset a
  unset c
  restarted reset
  run 11
  dev 1 probe
  dev 1 reset
  unset a
  unset c
  end 1
  done

boot.cmd, with -c rest.config
  $ ubtool rehearse --script boot.cmd -c rest.config -d reset.list a c
  run 0
  dev 0 probe
  var a=7
  var c=8
  end 0
  run 10
  dev 1 probe
  dev 0 reset
  unset a
  unset c
  restarted reset
  run 11
  dev 1 probe
  dev 1 reset
  unset a
  unset c
  end 1
  done

boot.scr, with --text rest.txt
  $ ubtool rehearse --script boot.scr --text rest.txt -d reset.list a c
  run 0
  dev 0 probe
  var a=7
  var c=8
  end 0
  run 10
  dev 1 probe
  dev 0 reset
  unset a
  unset c
  restarted reset
  run 11
  dev 1 probe
  dev 1 reset
  unset a
  unset c
  end 1
  done

boot.scr, with -i rest.img
  $ ubtool rehearse --script boot.scr -i rest.img -d reset.list a c
  run 0
  dev 0 probe
  var a=7
  var c=8
  end 0
  run 10
  dev 1 probe
  dev 0 reset
  unset a
  unset c
  restarted reset
  run 11
  dev 1 probe
  dev 1 reset
  unset a
  unset c
  end 1
  done

boot.scr, with -c rest.config
  $ ubtool rehearse --script boot.scr -c rest.config -d reset.list a c
  run 0
  dev 0 probe
  var a=7
  var c=8
  end 0
  run 10
  dev 1 probe
  dev 0 reset
  unset a
  unset c
  restarted reset
  run 11
  dev 1 probe
  dev 1 reset
  unset a
  unset c
  end 1
  done

a script alone
  $ ubtool rehearse --script <(echo 'a=6; setenv a 7') -d reset.list
  run .
  var a=7
  end 0
  done

an empty script
  $ ubtool rehearse --script /dev/null -d reset.list
  run .
  end 0
  done

a script up to its NUL
  $ ubtool rehearse --script <(printf 'true\0false') -d reset.list
  run .
  end 0
  done

a script that is none
  $ ubtool rehearse --script 'bad cmd' -d reset.list
  run .
  stop syntax bad\x20cmd
  done

the endings of a script
  $ ubtool endings --script end.scr -d reset.list
  ends 1 first 0 fewest 0 0 end 0
  ends 1 first 10 fewest 1 10 restarted reset
  fails probe
  ends 1 first 11 fewest 2 11 end 1
  fails probe
  fails reset
  all 3 states 2

the causes of a script
  $ ubtool causes --script end.scr -d reset.list
  cause 0 end 0
  cause 1 restarted reset
  fails probe
  cause 2 end 1
  fails probe
  fails reset

the endings of a script, by profile
  $ ubtool causes --script end.cmd --shell profile -d reset.list
  cause 0 end 0
  cause 1 restarted reset
  fails probe
  cause 2 end 1
  fails probe
  fails reset

the endings of a script, by old-2023.01
  $ ubtool causes --script end.cmd --shell old-2023.01 -d reset.list
  cause 0 end 0
  cause 1 restarted reset
  fails probe
  cause 2 end 1
  fails probe
  fails reset

the endings of a script, by old-2025.01
  $ ubtool causes --script end.cmd --shell old-2025.01 -d reset.list
  cause 0 end 0
  cause 1 restarted reset
  fails probe
  cause 2 end 1
  fails probe
  fails reset

a script is only read
  $ cat end.cmd
  if probe; then true; else reset; fi (no-eol)

Script images that are damaged:

  $ changed() { { head -c "$1" end.scr && bytes "$2" && tail -c "+$(($1 + 2))" end.scr; } >damaged.scr; }

its magic alone
  $ head -c 4 end.scr >damaged.scr
  $ ubtool rehearse --script damaged.scr -d reset.list
  ! ubtool: damaged.scr: the script image is cut off
  [1]

a header that is cut off
  $ head -c 63 end.scr >damaged.scr
  $ ubtool rehearse --script damaged.scr -d reset.list
  ! ubtool: damaged.scr: the script image is cut off
  [1]

data that are cut off
  $ head -c -1 end.scr >damaged.scr
  $ ubtool rehearse --script damaged.scr -d reset.list
  ! ubtool: damaged.scr: the script image is cut off
  [1]

another checksum of the header
  $ changed 4 00
  $ ubtool rehearse --script damaged.scr -d reset.list
  ! ubtool: damaged.scr: the header's checksum is wrong
  [1]

another name in the header
  $ changed 33 ff
  $ ubtool rehearse --script damaged.scr -d reset.list
  ! ubtool: damaged.scr: the header's checksum is wrong
  [1]

another letter of the script
  $ changed 72 49
  $ ubtool rehearse --script damaged.scr -d reset.list
  ! ubtool: damaged.scr: the data's checksum is wrong
  [1]

a kernel
  $ script_image end.cmd 02 >damaged.scr
  $ ubtool rehearse --script damaged.scr -d reset.list
  ! ubtool: damaged.scr: the image is no script
  [1]

bytes after the image
  $ { cat end.scr && echo 'false'; } >longer.scr
  $ ubtool causes --script longer.scr -d reset.list
  cause 0 end 0
  cause 1 restarted reset
  fails probe
  cause 2 end 1
  fails probe
  fails reset

a missing script
  $ ubtool rehearse --script missing -d reset.list
  ! ubtool: cannot read missing
  [1]

a missing list before a missing script
  $ ubtool rehearse --script missing -d none
  ! ubtool: cannot read none
  [1]

a script that is too long
  $ head -c 1048577 /dev/zero | tr '\0' '#' >long.cmd
  $ ubtool rehearse --script long.cmd -d reset.list
  ! ubtool: long.cmd is too long
  [1]

the longest script
  $ head -c 1048576 long.cmd >longest.cmd
  $ ubtool rehearse --script longest.cmd -d reset.list
  run .
  end 0
  done
  $ rm long.cmd longest.cmd

Words of scripts:

rehearse of a script and a variable
  $ ubtool rehearse --script end.cmd -b a -d reset.list
  ! ubtool: --script takes no -b
  [2]

endings of a script and a variable
  $ ubtool endings --script end.cmd -b a -d reset.list
  ! ubtool: --script takes no -b
  [2]

causes of a script and a variable
  $ ubtool causes --script end.cmd -b a -d reset.list
  ! ubtool: --script takes no -b
  [2]

a script and a variable before the images
  $ ubtool rehearse --script end.cmd -b a -i x -c y -d reset.list
  ! ubtool: --script takes no -b
  [2]

a script that is printed
  $ ubtool printenv --script end.cmd
  ! error: unexpected argument '--script' found
  !
  !   tip: to pass '--script' as a value, use '-- --script'
  !
  ! Usage: ubtool printenv [OPTIONS] [NAME]...
  !
  ! For more information, try '--help'.
  [2]

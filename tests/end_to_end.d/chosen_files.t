  $ . "$TESTDIR/../setup"

One of several files of a list, whose text runs after a device command that has succeeded.

  $ mkdir card
  $ printf 'load && booti 1\n' >card/boot.scr; printf 'setenv a rescue; load r\n' >card/rescue.scr
  $ runs() { printf '%s' "$1" >it.cmd; printf '%s\n' "${@:2}" >list; ubtool rehearse --script it.cmd -d list --files card a; }
  $ two() { runs "$1" load 'final booti' 'call source ** : runs boot.scr' 'or call source ** : runs rescue.scr'; }

a success asks which one it is
  $ two 'source 5'
  run 0000
  dev 0 source 5
  dev 0 runs boot.scr
  dev 0 load
  dev 0 booti 1
  unset a
  booted booti
  run 0001
  dev 0 source 5
  dev 0 runs boot.scr
  dev 0 load
  dev 1 booti 1
  unset a
  end 1
  run 001
  dev 0 source 5
  dev 0 runs boot.scr
  dev 1 load
  unset a
  end 1
  run 010
  dev 0 source 5
  dev 1 runs boot.scr
  dev 0 load r
  var a=rescue
  end 0
  run 011
  dev 0 source 5
  dev 1 runs boot.scr
  dev 1 load r
  var a=rescue
  end 1
  run 1
  dev 1 source 5
  unset a
  end 1
  done

neither answer counts as a failure
  $ ubtool rehearse --script it.cmd -d list --files card --failures 0 a | grep '^run'
  run 0000
  run 010
  $ ubtool endings --script it.cmd -d list --files card
  ends 1 first 0000 fewest 0 0000 booted booti
  ends 4 first 0001 fewest 1 0001 end 1
  fails booti 1
  ends 1 first 010 fewest 0 010 end 0
  all 6 states 5
  $ ubtool causes --script it.cmd -d list --files card
  cause 0 booted booti
  cause 1 end 1
  fails booti 1
  cause 1 end 1
  fails load
  cause 0 end 0
  cause 1 end 1
  fails load r
  cause 1 end 1
  fails source 5

it is the same file in the whole run
  $ printf 'setenv a ${a}1\n' >card/one.scr; printf 'setenv a ${a}2\n' >card/two.scr
  $ runs 'source 5; source 6' 'call source * : always 0 runs one.scr' 'or call source * : runs two.scr'
  run 0
  dev 0 source 5
  dev 0 runs one.scr
  dev 0 source 6
  dev 0 runs one.scr
  var a=11
  end 0
  run 1
  dev 0 source 5
  dev 1 runs one.scr
  dev 0 source 6
  dev 1 runs one.scr
  var a=22
  end 0
  done

of three, each but the last is asked about; other lines may come between; the text starts with the status from before the call
  $ printf 'setenv a $?\n' >card/three.scr
  $ runs 'false; source x' 'call source x : always 0 runs one.scr' load 'or call source x : runs two.scr' 'call dhcp : runs one.scr' 'or call source x : runs three.scr'
  run 0
  dev 0 source x
  dev 0 runs one.scr
  var a=1
  end 0
  run 10
  dev 0 source x
  dev 1 runs one.scr
  dev 0 runs two.scr
  var a=2
  end 0
  run 11
  dev 0 source x
  dev 1 runs one.scr
  dev 1 runs two.scr
  var a=1
  end 0
  done

bad lines: no such line before, another pattern, another clause, no file, a name that no call has
  $ printf 'true\n' >'card/$x'
  $ for it in 'or call source : runs one.scr' 'call source 1 : runs one.scr/or call source : runs two.scr' 'call source : steady/or call source : runs two.scr' \
  >     'call source : runs one.scr/or call source : runs two.scr steady' 'call source : runs one.scr/or call source :' \
  >     'call source : runs $x/or call source : runs two.scr'; do
  >     runs true "${it//\//$'\n'}"
  > done
  ! ubtool: device list line 1: bad line
  ! ubtool: device list line 2: bad line
  ! ubtool: device list line 2: bad line
  ! ubtool: device list line 2: bad line
  ! ubtool: device list line 2: bad line
  ! ubtool: device list line 2: bad line
  [1]

eight lines `or`, and a ninth
  $ further() { for it in $(seq "$1"); do echo 'or call source : runs two.scr'; done; }
  $ runs true 'call source : runs one.scr' "$(further 8)" | tail -n 1
  done
  $ runs true 'call source : runs one.scr' "$(further 9)"
  ! ubtool: device list line 10: bad line
  [1]

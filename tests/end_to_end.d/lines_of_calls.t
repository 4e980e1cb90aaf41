  $ . "$TESTDIR/../setup"

What the page says of lines of calls: each row of its table.

  $ runs() { printf 'bootcmd=%s\n' "$1" >env.txt; printf '%s\n' "${@:2}" >list; ubtool rehearse --text env.txt -d list fdtaddr p; }

a pattern of three words, and steady
  $ runs 'mmc dev 1; mmc dev 1' 'call mmc dev * : steady'
  run 0
  dev 0 mmc dev 1
  dev 0 mmc dev 1
  unset fdtaddr
  unset p
  end 0
  run 1
  dev 1 mmc dev 1
  dev 1 mmc dev 1
  unset fdtaddr
  unset p
  end 1
  done

a call with fewer words
  $ runs 'mmc dev' 'call mmc dev * : steady'
  run .
  unset fdtaddr
  unset p
  stop unknown mmc
  done

another first word
  $ runs 'mmc rescan' 'call mmc dev * : steady'
  run .
  unset fdtaddr
  unset p
  stop unknown mmc
  done

a call that always succeeds, and one that the name decides
  $ runs 'usb start; usb reset' 'call usb start : always 0' usb
  run 0
  dev 0 usb start
  dev 0 usb reset
  unset fdtaddr
  unset p
  end 0
  run 1
  dev 0 usb start
  dev 1 usb reset
  unset fdtaddr
  unset p
  end 1
  done

a boot that needs a load
  $ runs 'load mmc 0; bootz' load 'call bootz ** : needs load final'
  run 00
  dev 0 load mmc 0
  dev 0 bootz
  unset fdtaddr
  unset p
  booted bootz
  run 01
  dev 0 load mmc 0
  dev 1 bootz
  unset fdtaddr
  unset p
  end 1
  run 1
  dev 1 load mmc 0
  dev 1 bootz
  unset fdtaddr
  unset p
  end 1
  done

one that needs a load from USB
  $ runs 'load mmc 0; bootz' load 'call bootz ** : needs load usb final'
  run 0
  dev 0 load mmc 0
  dev 1 bootz
  unset fdtaddr
  unset p
  end 1
  run 1
  dev 1 load mmc 0
  dev 1 bootz
  unset fdtaddr
  unset p
  end 1
  done

a need that is not met is no failure
  $ printf 'bootcmd=bootz || load a; bootz\n' >env.txt; printf '%s\n' load 'call bootz ** : needs load final' >list
  $ ubtool rehearse --text env.txt -d list --failures 0
  run 00
  dev 1 bootz
  dev 0 load a
  dev 0 bootz
  var bootcmd=bootz || load a; bootz
  booted bootz
  done

states are told apart by it
  $ printf 'bootcmd=load a || load b; bootz\n' >env.txt
  $ ubtool endings --text env.txt -d list
  ends 2 first 00 fewest 0 00 booted bootz
  ends 3 first 01 fewest 1 01 end 1
  fails bootz
  all 5 states 3

a command that the board does not have
  $ runs 'part list; echo $?' 'absent part'
  run .
  dev 1 part list
  text 1\n
  unset fdtaddr
  unset p
  end 0
  done

a word of the call as the value
  $ runs 'fdt addr 1000' 'call fdt addr * : fdtaddr=@2'
  run 0
  dev 0 fdt addr 1000
  var fdtaddr=1000
  unset p
  end 0
  run 1
  dev 1 fdt addr 1000
  unset fdtaddr
  unset p
  end 1
  done

the first line that fits
  $ runs 'gpt setenv mmc 0 rootfs-1' 'call gpt setenv * * rootfs-1 : p=1' 'call gpt setenv ** : p=2'
  run 0
  dev 0 gpt setenv mmc 0 rootfs-1
  unset fdtaddr
  var p=1
  end 0
  run 1
  dev 1 gpt setenv mmc 0 rootfs-1
  unset fdtaddr
  unset p
  end 1
  done

a later one
  $ runs 'gpt setenv mmc 0 rootfs-2' 'call gpt setenv * * rootfs-1 : p=1' 'call gpt setenv ** : p=2'
  run 0
  dev 0 gpt setenv mmc 0 rootfs-2
  unset fdtaddr
  var p=2
  end 0
  run 1
  dev 1 gpt setenv mmc 0 rootfs-2
  unset fdtaddr
  unset p
  end 1
  done

any number of words, and no clause
  $ runs 'load' 'call load ** :'
  run 0
  dev 0 load
  unset fdtaddr
  unset p
  end 0
  run 1
  dev 1 load
  unset fdtaddr
  unset p
  end 1
  done

commands of these names
  $ for line in call call\ a=1 absent\ a=1; do runs true "$line"; done
  run .
  unset fdtaddr
  unset p
  end 0
  done
  run .
  unset fdtaddr
  unset p
  end 0
  done
  run .
  unset fdtaddr
  unset p
  end 0
  done

a failure that is expected
  $ printf 'bootcmd=tftp && reset\n' >env.txt
  $ printf '%s\n' 'call tftp ** : normal 1' 'restart reset' >list
  $ ubtool rehearse --text env.txt -d list --failures 0
  run 1
  dev 1 tftp
  var bootcmd=tftp && reset
  end 1
  done
  $ ubtool rehearse --text env.txt -d list --failures 1
  run 00
  dev 0 tftp
  dev 0 reset
  var bootcmd=tftp && reset
  restarted reset
  run 1
  dev 1 tftp
  var bootcmd=tftp && reset
  end 1
  done
  $ ubtool endings --text env.txt -d list
  ends 1 first 00 fewest 1 00 restarted reset
  succeeds tftp
  ends 2 first 01 fewest 0 1 end 1
  all 3 states 2
  $ ubtool causes --text env.txt -d list
  cause 1 restarted reset
  succeeds tftp
  cause 0 end 1

a file that is missing though nothing is wrong
  $ printf 'bootcmd=test -e mmc 0:1 /extlinux/extlinux.conf || load mmc 0:1 a b\n' >env.txt
  $ printf '%s\n' 'call test -e * * /extlinux/extlinux.conf : normal 1' load >list
  $ ubtool causes --text env.txt -d list
  cause 0 end 0
  cause 1 end 1
  fails load mmc 0:1 a b

values with blanks
  $ runs 'fdt boardsetup' "call fdt boardsetup : p='a b'"
  run 0
  dev 0 fdt boardsetup
  unset fdtaddr
  var p=a b
  end 0
  run 1
  dev 1 fdt boardsetup
  unset fdtaddr
  unset p
  end 1
  done
  $ runs 'fdt boardsetup' "call  fdt  boardsetup :  p=a' : @1 'b  always  0"
  run .
  dev 0 fdt boardsetup
  unset fdtaddr
  var p=a : @1 b
  end 0
  done

bad lines
  $ for line in 'mmc dev' ': final' 'm* : final' 'mmc ** dev : final' 'mmc : always 2' 'mmc : final final' "mmc : a='b" \
  >     'mmc : normal' 'mmc : normal 0' 'mmc : normal 1 always 0' 'mmc : normal 1 normal 1' \
  >     'mmc : needs' 'mmc : needs final' 'mmc : needs mmc 0 0' 'mmc : needs a*' 'mmc : needs echo' 'mmc : needs a needs a' \
  >     "'mmc' :" "mmc : 'a'=b"; do
  >     runs true "call $line"
  > done
  ! ubtool: device list line 1: bad line
  ! ubtool: device list line 1: bad line
  ! ubtool: device list line 1: bad line
  ! ubtool: device list line 1: bad line
  ! ubtool: device list line 1: bad line
  ! ubtool: device list line 1: bad line
  ! ubtool: device list line 1: bad line
  ! ubtool: device list line 1: bad line
  ! ubtool: device list line 1: bad line
  ! ubtool: device list line 1: bad line
  ! ubtool: device list line 1: bad line
  ! ubtool: device list line 1: bad line
  ! ubtool: device list line 1: bad line
  ! ubtool: device list line 1: bad line
  ! ubtool: device list line 1: bad line
  ! ubtool: device list line 1: bad line
  ! ubtool: device list line 1: bad line
  ! ubtool: device list line 1: bad line
  ! ubtool: device list line 1: bad line
  [1]
  $ runs true 'absent p*'
  ! ubtool: device list line 1: bad line
  [1]

built-in commands
  $ runs true 'call echo ** : final'
  ! ubtool: device list line 1: built-in command
  [1]
  $ runs true 'absent echo'
  ! ubtool: device list line 1: built-in command
  [1]
  $ runs true 'call test -e ** : steady'
  ! ubtool: device list line 1: built-in command
  [1]

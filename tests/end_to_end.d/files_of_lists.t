  $ . "$TESTDIR/../setup"

Files of a list, whose texts run after a device command that has succeeded.

  $ mkdir card
  $ runs() { printf '%s' "$1" >it.cmd; printf '%s\n' "${@:2}" >list; ubtool rehearse --script it.cmd -d list --files card a c; }

the text runs with what the script and the call have set, and its status is that of the call
  $ printf 'if load "$d"; then setenv a $b; else setenv c 1; false; fi\n' >card/boot.cmd
  $ runs 'setenv d mmc; source 5 && setenv c 2' load 'call source ** : b=7 runs boot.cmd'
  run 00
  dev 0 source 5
  dev 0 load mmc
  var a=7
  var c=2
  end 0
  run 01
  dev 0 source 5
  dev 1 load mmc
  unset a
  var c=1
  end 1
  run 1
  dev 1 source 5
  unset a
  unset c
  end 1
  done

its exit ends it alone
  $ printf 'setenv a 1; exit 3; setenv a 2\n' >card/exit.cmd
  $ runs 'source || setenv c 1; true' 'call source : runs exit.cmd'
  run 0
  dev 0 source
  var a=1
  var c=1
  end 0
  run 1
  dev 1 source
  unset a
  var c=1
  end 0
  done

a text that is no script
  $ printf 'if true; then\n' >card/bad.cmd
  $ runs 'source' 'call source : runs bad.cmd'
  run 0
  dev 0 source
  unset a
  unset c
  stop syntax bad.cmd
  run 1
  dev 1 source
  unset a
  unset c
  end 1
  done

a boot in the text ends the run
  $ printf 'load && booti 1\n' >card/boot.cmd
  $ runs 'source; setenv a 1' load 'final booti' 'call source : runs boot.cmd always 0'
  run 00
  dev 0 source
  dev 0 load
  dev 0 booti 1
  unset a
  unset c
  booted booti
  run 01
  dev 0 source
  dev 0 load
  dev 1 booti 1
  var a=1
  unset c
  end 0
  run 1
  dev 0 source
  dev 1 load
  var a=1
  unset c
  end 0
  done

its exit in each shell: it ends the file, or nothing, or the run; in an if, that if
  $ in_shell() { ubtool rehearse --shell "$1" --script it.cmd -d list --files card c | grep -v '^dev\|^done'; }
  $ printf 'exit 3; setenv c 1\n' >card/exit.cmd
  $ printf 'source; setenv c $c$?' >it.cmd; printf 'call source : always 0 runs exit.cmd\n' >list
  $ for it in old-2023.01 old-2025.01 modern-2025.01; do in_shell $it; done
  run .
  var c=10
  end 0
  run .
  var c=3
  end 0
  run .
  unset c
  end 3
  $ printf 'if true; then exit; fi; setenv c 1\n' >card/exit.cmd
  $ for it in old-2023.01 old-2025.01 modern-2025.01; do in_shell $it; done
  run .
  var c=10
  end 0
  run .
  var c=0
  end 0
  run .
  var c=10
  end 0

the old shells read it a line at a time, and what they do after a fault is not followed; the modern one reads it whole
  $ printf 'setenv c 1\nif\n' >card/exit.cmd
  $ for it in old-2023.01 old-2025.01 modern-2025.01; do in_shell $it; done
  run .
  unset c
  stop unsupported exit.cmd
  run .
  unset c
  stop unsupported exit.cmd
  run .
  var c=1
  end 0
  $ printf 'if true; then setenv c 2' >card/exit.cmd
  $ for it in old-2023.01 old-2025.01 modern-2025.01; do in_shell $it; done
  run .
  var c=1
  end 0
  run .
  var c=1
  end 0
  run .
  var c=1
  end 0

a file that runs itself ends at the bound of device commands
  $ printf 'source\n' >card/exit.cmd; printf 'source' >it.cmd
  $ in_shell old-2023.01
  run .
  unset c
  cut devices

the same text as a variable and as a file: each is read by its own rules, however often
  $ printf 'false\n ' >card/boot.cmd; printf 'call source : always 0 runs boot.cmd\n' >list
  $ image both 'bootcmd=run t; setenv a $?; source; setenv b $?; run t; setenv c $?; source; setenv d $?' 't=false\n '
  $ for it in old-2023.01 modern-2025.01; do ubtool rehearse -i both --shell $it -d list --files card a b c d | grep '^var'; done
  var a=1
  var b=0
  var c=1
  var d=0
  var a=1
  var b=1
  var c=1
  var d=1

a script image, a file in a folder, and a text that hands over to another one
  $ printf 'setenv a image\n' >it.cmd; script_image it.cmd >card/boot.scr
  $ mkdir card/sub; printf 'setenv c sub; source 1\n' >card/sub/more.cmd
  $ runs 'source 2' 'call source 1 : always 0 runs boot.scr' 'call source 2 : always 0 runs sub/more.cmd'
  run .
  dev 0 source 2
  dev 0 source 1
  var a=image
  var c=sub
  end 0
  done

a steady command runs its text each time that it succeeds
  $ printf 'setenv a ${a}1\n' >card/more.cmd
  $ runs 'source; source' 'call source : steady runs more.cmd'
  run 0
  dev 0 source
  dev 0 source
  var a=11
  unset c
  end 0
  run 1
  dev 1 source
  dev 1 source
  unset a
  unset c
  end 1
  done

the endings and the causes
  $ printf 'source; reset' >it.cmd; printf 'load && booti 1\n' >card/boot.cmd
  $ printf '%s\n' load 'final booti' 'restart reset' 'call source : runs boot.cmd' >list
  $ ubtool causes --script it.cmd -d list --files card
  cause 0 booted booti
  cause 1 restarted reset
  fails booti 1
  cause 2 end 1
  fails booti 1
  fails reset
  cause 1 restarted reset
  fails load
  cause 2 end 1
  fails load
  fails reset
  cause 1 restarted reset
  fails source
  cause 2 end 1
  fails source
  fails reset
  $ ubtool endings --script it.cmd -d list --files card | grep ' booted '
  ends 1 first 000 fewest 0 000 booted booti

Variables in a pattern: with the values with which the rehearsal starts.

the word has the value, also with a star after it; what the script sets later changes no pattern
  $ printf 'setenv a ${a}1\n' >card/boot.cmd
  $ printf 'scriptaddr=0x90\nkernel=0x8\nbootcmd=source $scriptaddr; setenv scriptaddr 1; source 0x90; source 0x85\n' >env.txt
  $ printf '%s\n' 'call source ${scriptaddr} : runs boot.cmd always 0' 'call source ${kernel}* : always 1' >list
  $ ubtool rehearse --text env.txt -d list --files card a
  run .
  dev 0 source 0x90
  dev 0 source 0x90
  dev 1 source 0x85
  var a=11
  end 1
  done

a variable that is not set leaves the word as it is written; parts of a word are no variable
  $ printf 'n=1\nbootcmd=fetch '\''${none}'\'' && fetch 1x && fetch '\''${n}x'\''\n' >env.txt
  $ printf '%s\n' 'call fetch ${none} : always 0 a=none' 'call fetch ${n}x : always 0 a=part' 'call fetch * : always 1' >list
  $ ubtool rehearse --text env.txt -d list a
  run .
  dev 0 fetch ${none}
  dev 1 fetch 1x
  var a=none
  end 1
  done

a value that ends in a star is that value; what the list gives counts
  $ printf 'n=1\nbootcmd=fetch "2*" && fetch 21\n' >env.txt
  $ printf '%s\n' 'given n=2*' 'call fetch ${n} : always 0' 'call fetch * : always 1' >list
  $ ubtool rehearse --text env.txt -d list a | grep dev
  dev 0 fetch 2*
  dev 1 fetch 21
  $ printf '%s\n' 'given n=2*' 'given n=21' 'call fetch ${n} : always 0' 'call fetch * : always 1' >list
  $ for it in 1 2; do ubtool rehearse --text env.txt -d list --given $it a | grep dev; done
  dev 0 fetch 2*
  dev 1 fetch 21
  dev 1 fetch 2*

the endings and the causes, with all of the list steady too
  $ printf 'n=1\nbootcmd=fetch 1 || booti\n' >env.txt; printf '%s\n' 'call fetch ${n} : always 1' 'call fetch * : always 0' 'final booti' >list
  $ ubtool endings --text env.txt -d list
  ends 1 first 0 fewest 0 0 booted booti
  ends 1 first 1 fewest 1 1 end 1
  fails booti
  all 2 states 1
  $ ubtool causes --text env.txt -d list --steady --check
  cause 1 end 1
  fails booti
  [1]

Files that cannot be read, and lines that are faulty.

a file that is not there, a link, a pipe, a folder, a way out of the folder
  $ ln -s boot.cmd card/link.cmd; ln -s sub card/link; printf true >out.cmd; mkfifo card/pipe.cmd
  $ for it in none.cmd link.cmd pipe.cmd link/more.cmd sub ../out.cmd sub/../boot.cmd ./boot.cmd /boot.cmd; do
  >     runs true "call source : runs $it"
  > done
  ! ubtool: cannot read card/none.cmd
  ! ubtool: cannot read card/link.cmd
  ! ubtool: cannot read card/pipe.cmd
  ! ubtool: cannot read card/link/more.cmd
  ! ubtool: cannot read card/sub
  ! ubtool: cannot read card/../out.cmd
  ! ubtool: cannot read card/sub/../boot.cmd
  ! ubtool: cannot read card/./boot.cmd
  ! ubtool: cannot read card//boot.cmd
  [1]

a name that is no UTF-8: no path may have it
  $ cp card/boot.cmd "card/$(printf '\377')"; runs true "$(printf 'call source : runs \377')"
  ! ubtool: device list line 1: bad line
  [1]

the first file of the list that cannot be read is named
  $ runs true 'call source 1 : runs boot.cmd' 'call source 2 : runs second.cmd' 'call source 3 : runs first.cmd'
  ! ubtool: cannot read card/second.cmd
  [1]

a file that is too long, and files that are too long together
  $ head -c 1048577 /dev/zero | tr '\0' '\n' >card/long.cmd
  $ runs true 'call source : runs long.cmd'
  ! ubtool: card/long.cmd is too long
  [1]
  $ head -c 1048576 card/long.cmd >card/1.cmd
  $ for it in $(seq 2 16); do ln card/1.cmd card/$it.cmd; done; printf '\n' >card/17.cmd
  $ runs true $(for it in $(seq 16); do echo "call source $it : runs $it.cmd"; done) | tail -n 1
  done
  $ runs true "$(for it in $(seq 17); do echo "call source $it : runs $it.cmd"; done)"
  ! ubtool: card/17.cmd is too long
  [1]

the same file twice counts once
  $ runs true "$(for it in $(seq 16) 16; do echo "call source $it : runs $it.cmd"; done)" | tail -n 1
  done

a script image that is cut off, or damaged
  $ head -c 70 card/boot.scr >card/cut.scr
  $ { head -c 76 card/boot.scr; printf 'X'; tail -c +78 card/boot.scr; } >card/damaged.scr
  $ runs true 'call source : runs cut.scr'
  ! ubtool: card/cut.scr: the script image is cut off
  [1]
  $ runs true 'call source : runs damaged.scr'
  ! ubtool: card/damaged.scr: the data's checksum is wrong
  [1]

lines that are faulty
  $ for it in runs 'runs boot.cmd runs boot.cmd' 'runs boot.cmd final' 'halt runs boot.cmd' 'normal runs boot.cmd'; do
  >     runs true "call source : $it"
  > done
  ! ubtool: device list line 1: bad line
  ! ubtool: device list line 1: bad line
  ! ubtool: device list line 1: bad line
  ! ubtool: device list line 1: bad line
  ! ubtool: device list line 1: bad line
  [1]

without a folder
  $ printf 'call source : runs boot.cmd\n' >list
  $ ubtool rehearse --script it.cmd -d list
  ! ubtool: device list line 1: bad line
  [1]

  $ . "$TESTDIR/../setup"

Files of a list whose variables a device command sets, as env import reads a text.

  $ mkdir card
  $ runs() { printf '%s' "$1" >it.cmd; printf '%s\n' "${@:2}" >list; ubtool rehearse --script it.cmd -d list --files card a b c; }
  $ env() { runs "setenv c 3; env import $1" 'call env import ** : imports uEnv.txt always 0' | sed 's/^dev.*/run/; /^run/d'; }

after a success they are set and deleted
  $ printf '# a text\n  a=1 x\nb=2\nc\n' >card/uEnv.txt
  $ runs 'setenv c 3; env import -t 1000 9' 'call env import ** : imports uEnv.txt'
  run 0
  dev 0 env import -t 1000 9
  var a=1 x
  var b=2
  unset c
  end 0
  run 1
  dev 1 env import -t 1000 9
  unset a
  unset b
  var c=3
  end 1
  done

the names of the call alone, and of each its first line
  $ printf 'a=1\nb=2\na=3\nc=\n' >card/uEnv.txt
  $ env '-t 1000 9'
  var a=3
  var b=2
  unset c
  end 0
  done
  $ env '-t 1000 9 a'
  var a=1
  unset b
  var c=3
  end 0
  done
  $ env '-t 1000 - c a'
  var a=1
  unset b
  unset c
  end 0
  done

escapes, and a name with an equals sign in its value
  $ printf 'a=1\\\n2\nb=x=\\\\\n#c=\\\nc=4' >card/uEnv.txt
  $ env '-t 1000 9'
  var a=1\n2
  var b=x=\\
  var c=4
  end 0
  done

carriage returns, which -r leaves out; the last value then goes on in bytes that are there twice
  $ printf 'a=1\r\nb=22\r\nc=333' >card/uEnv.txt
  $ env '-t 1000 9'
  var a=1\x0d
  var b=22\x0d
  var c=333
  end 0
  done
  $ env '-r 1000 9'
  var a=1
  var b=22
  var c=33333
  end 0
  done
  $ env '-t -r 1000 9 c'
  unset a
  unset b
  var c=33333
  end 0
  done

without a size, or with - in its place, an entry begins in the bytes that are there twice, too
  $ printf 'c=3\r\n\r\na=b\n' >card/uEnv.txt
  $ sized() { runs "setenv b 2; env import $1" 'call env import ** : imports uEnv.txt always 0' | grep -v '^run\|^end\|^done'; }
  $ sized '-r 1000 9'
  dev 0 env import -r 1000 9
  var a=b
  var b=2
  var c=3
  $ sized '-tr 1000'
  dev 0 env import -tr 1000
  var a=b
  unset b
  var c=3
  $ sized '-tr 1000 - a b c'
  dev 0 env import -tr 1000 - a b c
  var a=b
  unset b
  var c=3
  $ sized '-t 1000'
  dev 0 env import -t 1000
  var a=b
  var b=2
  var c=3\x0d

other formats, and a text that is to replace all: nothing is said
  $ env '-b 1000'
  unset a
  unset b
  var c=3
  end 0
  done
  $ env '-c 1000 9'
  unset a
  unset b
  var c=3
  end 0
  done
  $ env '-d -t 1000 9'
  unset a
  unset b
  var c=3
  end 0
  done

another command, with settings in their order, and a text that runs after them
  $ printf 'a=1\nb=2\n' >card/uEnv.txt; printf 'setenv c $a$b\n' >card/boot.cmd
  $ runs 'fetch' 'call fetch : a=0 imports uEnv.txt b=@1 b=3 runs boot.cmd always 0'
  run .
  dev 0 fetch
  var a=1
  var b=3
  var c=13
  end 0
  done
  $ runs 'fetch' 'call fetch : b=3 imports uEnv.txt runs boot.cmd always 0'
  run .
  dev 0 fetch
  var a=1
  var b=2
  var c=12
  end 0
  done

the size of a file, and of a script image
  $ script_image card/boot.cmd >card/boot.scr; stat -c %s card/uEnv.txt card/boot.scr
  8
  86
  $ runs 'load; tftp' 'call load : a=@size(uEnv.txt) always 0' 'call tftp : b=@size(boot.scr) always 0' | grep var
  var a=8
  var b=56

endings and causes with an imported text
  $ printf 'bootdelay=3\nuenvcmd=booti 1\n' >card/uEnv.txt
  $ printf 'load && env import -t 1 2 && run uenvcmd; reset' >it.cmd
  $ printf '%s\n' load 'call env import ** : imports uEnv.txt' 'call booti ** : final' 'restart reset' >list
  $ ubtool endings --script it.cmd -d list --files card
  ends 1 first 000 fewest 0 000 booted booti
  ends 3 first 0010 fewest 1 0010 restarted reset
  fails booti 1
  ends 3 first 0011 fewest 2 0011 end 1
  fails booti 1
  fails reset
  all 7 states 4
  $ ubtool causes --script it.cmd -d list --files card
  cause 0 booted booti
  cause 1 restarted reset
  fails booti 1
  cause 2 end 1
  fails booti 1
  fails reset
  cause 1 restarted reset
  fails env import -t 1 2
  cause 2 end 1
  fails env import -t 1 2
  fails reset
  cause 1 restarted reset
  fails load
  cause 2 end 1
  fails load
  fails reset

files that cannot be imported
  $ printf '=1\n' >card/nameless.txt; printf 'a\r\n=' >card/moved.txt; printf 'a=1\0b=2\n' >card/nul.txt
  $ for it in nameless.txt moved.txt nul.txt boot.scr; do runs true "call env import ** : imports $it"; done
  ! ubtool: device list line 1: bad line
  ! ubtool: device list line 1: bad line
  ! ubtool: device list line 1: bad line
  ! ubtool: device list line 1: bad line
  [1]
  $ runs true 'call env import ** : imports none.txt'
  ! ubtool: cannot read card/none.txt
  [1]

lines that are faulty
  $ for it in imports 'a=@size(none)' 'a=@size()' 'a=@size(uEnv.txt' 'a=@size'; do runs true "call env ** : $it"; done
  ! ubtool: device list line 1: bad line
  ! ubtool: cannot read card/none
  ! ubtool: cannot read card/
  ! ubtool: device list line 1: bad line
  ! ubtool: device list line 1: bad line
  [1]
  $ printf 'call env ** : imports uEnv.txt\n' >list; ubtool rehearse --script it.cmd -d list
  ! ubtool: device list line 1: bad line
  [1]
  $ printf 'call load ** : filesize=@size(uEnv.txt)\n' >list; ubtool rehearse --script it.cmd -d list
  ! ubtool: device list line 1: bad line
  [1]

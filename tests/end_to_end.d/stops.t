  $ . "$TESTDIR/../setup"

Commands that restart the board, or halt it.

  $ printf 'load\nfinal bootm\nrestart reset\nhalt poweroff\n' >devices
  $ printf 'load && bootm; reset; poweroff\n' >boot.cmd

each run ends in its way
  $ ubtool rehearse --script boot.cmd -d devices --limit 3
  run 00
  dev 0 load
  dev 0 bootm
  booted bootm
  run 010
  dev 0 load
  dev 1 bootm
  dev 0 reset
  restarted reset
  run 0110
  dev 0 load
  dev 1 bootm
  dev 1 reset
  dev 0 poweroff
  halted poweroff
  more 0110

a listing goes on after such a run
  $ ubtool rehearse --script boot.cmd -d devices --after 010 --limit 1
  run 0110
  dev 0 load
  dev 1 bootm
  dev 1 reset
  dev 0 poweroff
  halted poweroff
  more 0110

the ways to end
  $ ubtool endings --script boot.cmd -d devices
  ends 1 first 00 fewest 0 00 booted bootm
  ends 2 first 010 fewest 1 010 restarted reset
  fails bootm
  ends 2 first 0110 fewest 2 0110 halted poweroff
  fails bootm
  fails reset
  ends 2 first 0111 fewest 3 0111 end 1
  fails bootm
  fails reset
  fails poweroff
  all 7 states 4

what has to fail for them
  $ ubtool causes --script boot.cmd -d devices --failures 1
  cause 0 booted bootm
  cause 1 restarted reset
  fails bootm
  cause 1 restarted reset
  fails load

neither is a boot for a check
  $ ubtool causes --script boot.cmd -d devices --failures 0 --check
  $ ubtool causes --script boot.cmd -d devices --failures 1 --check
  cause 1 restarted reset
  fails bootm
  cause 1 restarted reset
  fails load
  [1]

nor is one that halts
  $ ubtool causes --script boot.cmd -d devices --failures 2 --check
  cause 1 restarted reset
  fails bootm
  cause 2 halted poweroff
  fails bootm
  fails reset
  cause 1 restarted reset
  fails load
  cause 2 halted poweroff
  fails load
  fails reset
  [1]

inside a text that runs
  $ script inner 'bootcmd=run t; load' t=reset
  $ ubtool rehearse -c inner.config -d devices --limit 1 a
  run 0
  dev 0 reset
  unset a
  restarted reset
  more 0

settings come first
  $ printf 'restart reset a=1\n' >sets
  $ printf 'reset' >reset.cmd
  $ ubtool rehearse --script reset.cmd -d sets --limit 1 a
  run 0
  dev 0 reset
  var a=1
  restarted reset
  more 0

the calls with a first word alone, and lines of calls
  $ printf 'sub mmc dev\nrestart steady sub mmc boot\ncall usb reset : halt\n' >calls
  $ printf 'mmc dev; mmc boot || usb reset' >calls.cmd
  $ ubtool endings --script calls.cmd -d calls
  ends 2 first 00 fewest 0 00 restarted mmc
  ends 2 first 010 fewest 1 010 halted usb
  fails mmc boot
  ends 2 first 011 fewest 2 011 end 1
  fails mmc boot
  fails usb reset
  all 6 states 3

of two lines the first that says how
  $ printf 'reset\nhalt reset\nrestart reset\n' >twice
  $ ubtool rehearse --script reset.cmd -d twice --limit 1
  run 0
  dev 0 reset
  halted reset
  more 0

as names of commands
  $ printf 'restart\nhalt a=1\n' >names
  $ printf 'restart; halt' >names.cmd
  $ ubtool rehearse --script names.cmd -d names --limit 1 a
  run 00
  dev 0 restart
  dev 0 halt
  var a=1
  end 0
  more 00

faulty lines
  $ for line in 'restart halt x' 'final restart x' 'steady restart x' 'call x : restart halt' 'restart echo'; do
  >     echo "$line" >faulty && ubtool rehearse --script reset.cmd -d faulty
  > done
  ! ubtool: device list line 1: bad line
  ! ubtool: device list line 1: bad line
  ! ubtool: device list line 1: bad line
  ! ubtool: device list line 1: bad line
  ! ubtool: device list line 1: built-in command
  [1]

  $ . "$TESTDIR/../setup"

rehearse: listings, pages, and device lists.

  $ script boot 'bootcmd=load a || load b; echo $?'
  $ printf '# devices\nload\n' >devices
  $ cp boot before

all runs
  $ ubtool rehearse -c boot.config -d devices
  run 0
  dev 0 load a
  text 0\n
  var bootcmd=load a || load b; echo $?
  end 0
  run 10
  dev 1 load a
  dev 0 load b
  text 0\n
  var bootcmd=load a || load b; echo $?
  end 0
  run 11
  dev 1 load a
  dev 1 load b
  text 1\n
  var bootcmd=load a || load b; echo $?
  end 0
  done

the runs after a word
  $ ubtool rehearse -c boot.config -d devices --after 0
  run 10
  dev 1 load a
  dev 0 load b
  text 0\n
  var bootcmd=load a || load b; echo $?
  end 0
  run 11
  dev 1 load a
  dev 1 load b
  text 1\n
  var bootcmd=load a || load b; echo $?
  end 0
  done

the runs after the last word
  $ ubtool rehearse -c boot.config -d devices --after 11
  done

as many runs as there are
  $ ubtool rehearse -c boot.config -d devices --limit 3
  run 0
  dev 0 load a
  text 0\n
  var bootcmd=load a || load b; echo $?
  end 0
  run 10
  dev 1 load a
  dev 0 load b
  text 0\n
  var bootcmd=load a || load b; echo $?
  end 0
  run 11
  dev 1 load a
  dev 1 load b
  text 1\n
  var bootcmd=load a || load b; echo $?
  end 0
  done

one run, and a variable that is not set
  $ ubtool rehearse -c boot.config -d devices --limit 1 z
  run 0
  dev 0 load a
  text 0\n
  unset z
  end 0
  more 0

the run in which nothing fails
  $ ubtool rehearse -c boot.config -d devices --failures 0
  run 0
  dev 0 load a
  text 0\n
  var bootcmd=load a || load b; echo $?
  end 0
  done

the runs in which at most one device command fails
  $ ubtool rehearse -c boot.config -d devices --failures 1
  run 0
  dev 0 load a
  text 0\n
  var bootcmd=load a || load b; echo $?
  end 0
  run 10
  dev 1 load a
  dev 0 load b
  text 0\n
  var bootcmd=load a || load b; echo $?
  end 0
  done

the runs in which at most two fail
  $ ubtool rehearse -c boot.config -d devices --failures=2
  run 0
  dev 0 load a
  text 0\n
  var bootcmd=load a || load b; echo $?
  end 0
  run 10
  dev 1 load a
  dev 0 load b
  text 0\n
  var bootcmd=load a || load b; echo $?
  end 0
  run 11
  dev 1 load a
  dev 1 load b
  text 1\n
  var bootcmd=load a || load b; echo $?
  end 0
  done

the runs in which any may fail
  $ ubtool rehearse -c boot.config -d devices --failures 32
  run 0
  dev 0 load a
  text 0\n
  var bootcmd=load a || load b; echo $?
  end 0
  run 10
  dev 1 load a
  dev 0 load b
  text 0\n
  var bootcmd=load a || load b; echo $?
  end 0
  run 11
  dev 1 load a
  dev 1 load b
  text 1\n
  var bootcmd=load a || load b; echo $?
  end 0
  done

a page of the runs in which one fails
  $ ubtool rehearse -c boot.config -d devices --failures 1 --limit 1
  run 0
  dev 0 load a
  text 0\n
  var bootcmd=load a || load b; echo $?
  end 0
  more 0

the next page of them
  $ ubtool rehearse -c boot.config -d devices --failures 1 --after 0
  run 10
  dev 1 load a
  dev 0 load b
  text 0\n
  var bootcmd=load a || load b; echo $?
  end 0
  done

the runs after the last of them
  $ ubtool rehearse -c boot.config -d devices --failures 1 --after 10
  done

the run of a word
  $ ubtool rehearse -c boot.config -d devices --word 10
  run 10
  dev 1 load a
  dev 0 load b
  text 0\n
  var bootcmd=load a || load b; echo $?
  end 0
  done

the run of the first word, and a variable
  $ ubtool rehearse -c boot.config -d devices --word=0 z
  run 0
  dev 0 load a
  text 0\n
  unset z
  end 0
  done

one record a page, each after the last word of the page before
  $ ubtool rehearse -c boot.config -d devices --limit 1
  run 0
  dev 0 load a
  text 0\n
  var bootcmd=load a || load b; echo $?
  end 0
  more 0
  $ ubtool rehearse -c boot.config -d devices --limit 1 --after 0
  run 10
  dev 1 load a
  dev 0 load b
  text 0\n
  var bootcmd=load a || load b; echo $?
  end 0
  more 10
  $ ubtool rehearse -c boot.config -d devices --limit 1 --after 10
  run 11
  dev 1 load a
  dev 1 load b
  text 1\n
  var bootcmd=load a || load b; echo $?
  end 0
  done

an image that was rehearsed
  $ cmp boot before
a device list with each kind of line
  $ script flow 'bootcmd=run load; bootm $addr || sleep 1; echo $?' 'load=load mmc; test -e mmc 0:1 /x' 'q=while load; do true; done'
  $ printf '\t# each kind of line\r\n\n  load addr=10 name=  \r\nfinal bootm\nsleep\nfinal sleep\nload addr=20\nfinal\n' >kinds
  $ ubtool rehearse -c flow.config -d kinds --limit 1 addr name
  run 000
  dev 0 load mmc
  dev 0 test -e mmc 0:1 /x
  dev 0 bootm 20
  var addr=20
  var name=
  booted bootm
  more 000

the run in which all fails
  $ ubtool rehearse -c flow.config -d kinds --after 1110 addr
  run 1111
  dev 1 load mmc
  dev 1 test -e mmc 0:1 /x
  dev 1 bootm
  dev 1 sleep 1
  text 1\n
  unset addr
  end 0
  done

runs that meet the device bound
  $ ubtool rehearse -c flow.config -d devices -b q --devices 2 z
  run 00
  dev 0 load
  dev 0 load
  unset z
  cut devices
  run 01
  dev 0 load
  dev 1 load
  unset z
  end 0
  run 1
  dev 1 load
  unset z
  end 0
  done

a run that meets the step bound
  $ ubtool rehearse -c flow.config -d devices -b q --steps 0 z
  run .
  unset z
  cut steps
  done

the runs after the empty word
  $ ubtool rehearse -c flow.config -d devices -b q --steps 0 --after .
  done

the run of the empty word
  $ ubtool rehearse -c flow.config -d devices -b q --steps 0 --word . z
  run .
  unset z
  cut steps
  done

a word within the bounds of a listing
  $ ubtool rehearse -c flow.config -d devices -b q --devices 2 --word 00 z
  run 00
  dev 0 load
  dev 0 load
  unset z
  cut devices
  done

a word of 1,000 device commands
  $ long=$(printf '%0999d' 0)
  $ ubtool rehearse -c flow.config -d devices -b q --word "${long}1" z | sed "s/$long/LONG/" | uniq -c
        1 run LONG1
      999 dev 0 load
        1 dev 1 load
        1 unset z
        1 end 0
        1 done

a word that meets the greatest bound
  $ ubtool rehearse -c flow.config -d devices -b q --word "${long}0" z | sed "s/$long/LONG/" | uniq -c
        1 run LONG0
     1000 dev 0 load
        1 unset z
        1 cut devices
        1 done

one failure of forty commands
  $ script forty "bootcmd=$(printf 'load %d; ' {1..40})"
  $ ubtool rehearse -c forty.config -d devices --devices 40 --failures 1 z >out
  $ grep -c '^run ' out
  41
  $ grep '^run ' out | sed -n '1p; 2p; $p'
  run 0000000000000000000000000000000000000000
  run 0000000000000000000000000000000000000001
  run 1000000000000000000000000000000000000000

two failures of forty commands
  $ ubtool rehearse -c forty.config -d devices --devices 40 --failures 2 z >out
  $ grep -c '^run ' out; tail -n 1 out
  821
  done

a listing of 1,000 device commands
  $ ubtool rehearse -c flow.config -d devices -b q --devices 1000 --failures 3 --limit 2 z | sed "s/$long/LONG/" | uniq -c
        1 run LONG0
     1000 dev 0 load
        1 unset z
        1 cut devices
        1 run LONG1
      999 dev 0 load
        1 dev 1 load
        1 unset z
        1 end 0
        1 more LONG1

a variable of another name
  $ ubtool rehearse -c flow.config -d devices -b load --limit 2 z
  run 00
  dev 0 load mmc
  dev 0 test -e mmc 0:1 /x
  unset z
  end 0
  run 01
  dev 0 load mmc
  dev 1 test -e mmc 0:1 /x
  unset z
  end 1
  more 01

the longest device list
  $ head -c 1048576 /dev/zero | tr '\0' a >devices.long
  $ ubtool rehearse -c boot.config -d devices.long z
  run .
  unset z
  stop unknown load
  done

a big-endian image
  $ tail -c 508 boot | new_image big big
  $ ubtool rehearse -c big.config --big-endian -d devices
  run 0
  dev 0 load a
  text 0\n
  var bootcmd=load a || load b; echo $?
  end 0
  run 10
  dev 1 load a
  dev 0 load b
  text 0\n
  var bootcmd=load a || load b; echo $?
  end 0
  run 11
  dev 1 load a
  dev 1 load b
  text 1\n
  var bootcmd=load a || load b; echo $?
  end 0
  done

  $ . "$TESTDIR/../setup"

A device list in which all is steady.

  $ script steady 'bootcmd=load a; load a; load a; exit $?' 'other=load a; load b; load a' \
  >     'file=test -e mmc 0:1 /k && test -e mmc 0:1 /k; exit 0' \
  >     'twice=mmc rescan || mmc rescan || exit 1; bootm; bootm'
  $ printf 'load\nmmc\nfinal bootm\n' >devices

a command that is asked three times
  $ ubtool rehearse -c steady.config -d devices --steady z
  run 0
  dev 0 load a
  dev 0 load a
  dev 0 load a
  unset z
  end 0
  run 1
  dev 1 load a
  dev 1 load a
  dev 1 load a
  unset z
  end 1
  done

the same by a list that says so
  $ printf 'steady load\n' >said
  $ ubtool rehearse -c steady.config -d devices --steady z >asked
  $ ubtool rehearse -c steady.config -d said z | cmp - asked
  $ ubtool rehearse -c steady.config -d said --steady z | cmp - asked

the same without it
  $ ubtool endings -c steady.config -d devices
  ends 4 first 000 fewest 0 000 end 0
  ends 4 first 001 fewest 1 001 end 1
  fails load a
  all 8 states 3

its pages
  $ ubtool rehearse -c steady.config -d devices --steady --limit 1 z
  run 0
  dev 0 load a
  dev 0 load a
  dev 0 load a
  unset z
  end 0
  more 0
  $ ubtool rehearse -c steady.config -d devices --steady --after 0 z | head -n 1
  run 1

one answer that is a failure
  $ ubtool rehearse -c steady.config -d devices --steady --failures 1 z | cmp - asked

the run of a word
  $ ubtool rehearse -c steady.config -d devices --steady --word 1 z
  run 1
  dev 1 load a
  dev 1 load a
  dev 1 load a
  unset z
  end 1
  done
  $ ubtool rehearse -c steady.config -d devices --word 1 z
  ! ubtool: no run has the word 1
  [1]
  $ ubtool rehearse -c steady.config -d devices --steady --word 111 z
  ! ubtool: no run has the word 111
  [1]

other words are another question
  $ ubtool endings -c steady.config -d devices -b other --steady
  ends 2 first 00 fewest 0 00 end 0
  ends 2 first 10 fewest 1 10 end 1
  fails load a
  all 4 states 3

the states that a call may have
  $ ubtool endings -c steady.config -d devices -b other --steady --states 2
  ! ubtool: more states than allowed
  [1]

test -e
  $ ubtool rehearse -c steady.config -d devices -b file --steady z
  run 0
  dev 0 test -e mmc 0:1 /k
  dev 0 test -e mmc 0:1 /k
  unset z
  end 0
  run 1
  dev 1 test -e mmc 0:1 /k
  unset z
  end 0
  done
  $ ubtool rehearse -c steady.config -d devices -b file z | grep '^run'
  run 00
  run 01
  run 1

a flow
  $ ubtool endings -c steady.config -d devices --steady --flow
  1 ask load a success 3 failure 2
  2 ends end 1
  3 ends end 0

whatever one answer is a failure, it boots
  $ ubtool causes -c steady.config -d devices -b twice --check --failures 1

but not whatever one fact is not so
  $ ubtool causes -c steady.config -d devices -b twice --check --failures 1 --steady
  cause 1 end 1
  fails bootm
  cause 1 end 1
  fails mmc rescan
  [1]
  $ ubtool endings -c steady.config -d devices -b twice --steady
  ends 1 first 00 fewest 0 00 booted bootm
  ends 2 first 01 fewest 1 01 end 1
  fails bootm
  all 3 states 2

in a shell of U-Boot
  $ ubtool rehearse -c steady.config -d devices -b other --steady >profile
  $ ubtool rehearse -c steady.config -d devices -b other --steady --shell old | cmp - profile
  $ grep -c '^run' profile
  4

a script in a file
  $ printf 'load a; load a; load a; exit $?' >boot.cmd
  $ ubtool rehearse --script boot.cmd -d devices --steady z | cmp - asked

no other option
  $ ubtool rehearse -c steady.config -d devices --steady --steady
  ! error: the argument '--steady' cannot be used multiple times
  !
  ! Usage: ubtool rehearse [OPTIONS] --device-list <FILE> [NAME]...
  !
  ! For more information, try '--help'.
  [2]
  $ ubtool endings -c steady.config -d devices --steady=1 2>&1 | head -n 1
  ! error: unexpected value '1' for '--steady' found; no more were expected
  $ ubtool printenv -c steady.config --steady 2>&1 | head -n 1
  ! error: unexpected argument '--steady' found

  $ . "$TESTDIR/../setup"

More runs than can be listed: so many commands in a row, which end with the status of the last.

  $ row() { { printf 'bootcmd=' && yes 'load;' | head -n "$1" | tr -d '\n' && echo; } | lines_image row; }
  $ echo load >devices
  $ digits() { sed 's/0\{99\}/ZEROS/g'; }

2^100 runs
  $ row 100; ubtool endings -c row.config -d devices | digits
  ends 633825300114114700748351602688 first ZEROS0 fewest 0 ZEROS0 end 0
  ends 633825300114114700748351602688 first ZEROS1 fewest 1 ZEROS1 end 1
  fails load
  all 1267650600228229401496703205376 states 100

the flow of 2^100 runs
  $ ubtool endings -c row.config -d devices --flow >flow
  $ sed -n '1,3p; 100,$p' flow
  1 ask load success 2 failure 2
  2 ask load success 3 failure 3
  3 ask load success 4 failure 4
  100 ask load success 102 failure 101
  101 ends end 1
  102 ends end 0

2^128 runs
  $ row 128; ubtool endings -c row.config -d devices | sed 's/ first .*/ first/; s/ states .*//'
  ends 170141183460469231731687303715884105728 first
  ends 170141183460469231731687303715884105728 first
  fails load
  all >=340282366920938463463374607431768211455

2^1000 runs
  $ row 1000; ubtool endings -c row.config -d devices | sed 's/[01]\{999\}\([01]\)/\1/g'
  ends >=340282366920938463463374607431768211455 first 0 fewest 0 0 end 0
  ends >=340282366920938463463374607431768211455 first 1 fewest 1 1 end 1
  fails load
  all >=340282366920938463463374607431768211455 states 1000

more device commands than a run may have
  $ row 1001; ubtool endings -c row.config -d devices >told
  $ cut -d ' ' -f 1-2 told | head -n 1; grep -c '^ends' told; sed -n 's/.* \(cut devices\)$/\1/p' told
  ends >=340282366920938463463374607431768211455
  1
  cut devices

States that do not merge: each of so many commands sets a variable to what it answered, and the last command reads them all.

  $ each() { for it in $(seq "$2"); do printf "$1" "$it" "$it"; done; }
  $ spreading() { { printf 'bootcmd=' && each 'if load; then setenv v%d 0; else setenv v%d 1; fi;' "$1" && printf 'test ' && each '$v%d%.0s' "$1" && echo ' = 1'; } | lines_image spreading; }

as many states as runs
  $ spreading 14; ubtool endings -c spreading.config -d devices | tail -n 1
  all 16384 states 16383

as many states as allowed
  $ ubtool endings -c spreading.config -d devices --states 16383 | tail -n 1
  all 16384 states 16383

one state more than allowed
  $ ubtool endings -c spreading.config -d devices --states 16382
  ! ubtool: more states than allowed
  [1]

a million states, of which 10,000 are allowed, in 64 MiB
  $ spreading 20
  $ (ulimit -v 65536; ubtool endings -c spreading.config -d devices --states 10000)
  ! ubtool: more states than allowed
  [1]

a million states, of which those in 16 MiB are allowed, in 64 MiB
  $ (ulimit -v 65536; ubtool endings -c spreading.config -d devices --memory 16) 2>told
  [1]
  $ states=$(tr -dc 0-9 <told); sed "s/$states/N/" told
  ! ubtool: more memory than allowed (states: N)

as many states as that, and one less
  $ ubtool endings -c spreading.config -d devices --memory 16 --states "$states" 2>&1 | cmp - told
  $ ubtool endings -c spreading.config -d devices --memory 16 --states $((states - 1))
  ! ubtool: more states than allowed
  [1]

a million states in 32 MiB
  $ (ulimit -v 32768; ubtool endings -c spreading.config -d devices)
  ! ubtool: out of memory
  [1]

The same variables, if nobody reads them, make no state.

  $ { printf 'bootcmd=' && each 'if load; then setenv v%d 0; else setenv v%d 1; fi;' 14 && echo; } | lines_image unread
  $ ubtool endings -c unread.config -d devices | sed 's/ first .* / /'
  ends 16384 0
  all 16384 states 14

a variable that is asked for is read at the end
  $ ubtool endings -c unread.config -d devices v14 | sed 's/ first .* / /'
  ends 8192 0
  var v14=0
  ends 8192 0
  var v14=1
  fails load
  all 16384 states 14

Eight hundred states, each with an ending of its own: a state keeps no list of the endings after it.

  $ each 'load || bad%d%.0s;' 800 | sed 's/^/bootcmd=/; $a\' | lines_image apart
  $ (ulimit -v 20480; ubtool endings -c apart.config -d devices) >told; grep -c '^ends 1 ' told; tail -n 1 told
  801
  all 801 states 800

and so if the way to each goes now by a success and now by a failure
  $ each 'if load; then true; else bad%d; fi; if load; then badb%d; fi;' 200 | sed 's/^/bootcmd=/; $a\' | lines_image turns
  $ (ulimit -v 20480; ubtool endings -c turns.config -d devices) | tail -n 1
  all 401 states 400

What runs write is dropped: a loop that writes more than 70 megabytes, in 20 MiB.

  $ { printf 'bootcmd=while true; do echo $x; done\nx=' && yes x | head -n 50000 | tr -d '\n' && echo; } | lines_image writing
  $ (ulimit -v 20480; ubtool endings -c writing.config -d devices --steps 3000)
  ends 1 first . fewest 0 . cut steps
  all 1 states 0

Texts that run each other as their last command: a thousand states in 2 MiB, since few frames are kept.

  $ printf '%s\n' 'a=load; run b' 'b=load; run a' 'bootcmd=run a' | lines_image turning
  $ ubtool endings -c turning.config -d devices --memory 2 | sed 's/ first .*//'
  ends >=340282366920938463463374607431768211455
  all >=340282366920938463463374607431768211455 states 1000

and so in the last `if`, by each shell
  $ printf '%s\n' 'a=load; if true; then run b; fi' 'b=if false; then true; else load; if true; then run a; fi; fi' 'bootcmd=run a' |
  >     lines_image branches
  $ for shell in profile old-2023.01 old modern; do
  >     ubtool endings -c branches.config -d devices --memory 2 --shell "$shell" | sed 's/ first .*//'
  > done
  ends >=340282366920938463463374607431768211455
  all >=340282366920938463463374607431768211455 states 1000
  ends >=340282366920938463463374607431768211455
  all >=340282366920938463463374607431768211455 states 1000
  ends >=340282366920938463463374607431768211455
  all >=340282366920938463463374607431768211455 states 1000
  ends >=340282366920938463463374607431768211455
  all >=340282366920938463463374607431768211455 states 1000

With commands after it to which no run comes back, the states grow by steps with the device commands, and not by their square.

  $ printf '%s\n' 'a=if load; then true; else run b; fi; probe; if bootm; then true; else run b; fi' 'b=dhcp; run a' 'bootcmd=run a' |
  >     lines_image behind
  $ printf '%s\n' load probe dhcp 'final bootm' >booting
  $ for bound in 100 200 400 1000; do ubtool endings -c behind.config -d booting --devices $bound | sed -n 's/^all .* //p'; done
  296
  596
  1196
  2996

a million steps of such texts, in 20 MiB
  $ printf '%s\n' 'a=if true; then run b; fi' 'b=if false; then true; else if true; then run a; fi; fi' 'bootcmd=run a' | lines_image steps
  $ (ulimit -v 20480; ubtool rehearse -c steps.config -d devices --steps 1000000)
  run .
  var a=if true; then run b; fi
  var b=if false; then true; else if true; then run a; fi; fi
  var bootcmd=run a
  cut steps
  done

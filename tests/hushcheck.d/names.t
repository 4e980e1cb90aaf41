  $ . "$TESTDIR/../setup"

The texts that are run.

in turn, each once
  $ image env 'bootcmd=run a b; run $c; run "d e"' 'a=run bootcmd; run a' b=fi 'd e=true' 'c=run nothing' 'z=run gone'
  $ hushcheck -c env.config
  bootcmd: ok
  bootcmd:1:14: note: not followed, since the name holds a variable
  run a b; run $c; run "d e"
               ^
  a: ok
  b:1:1: unexpected token
  fi
  ^
  d\x20e: ok
  [1]

two texts that run each other
  $ hushcheck -c env.config a a
  a: ok
  bootcmd: ok
  bootcmd:1:14: note: not followed, since the name holds a variable
  run a b; run $c; run "d e"
               ^
  b:1:1: unexpected token
  fi
  ^
  d\x20e: ok
  [1]

a name that is run and not set
  $ hushcheck -c env.config z
  z: ok
  gone: not set

a name that is asked for and not set
  $ hushcheck -c env.config 'd e' y
  d\x20e: ok
  y: not set
  [1]

an empty name
  $ hushcheck -c env.config ''
  \e: not set
  [1]

a name that starts with -
  $ hushcheck -c env.config -- -x
  -x: not set
  [1]

an empty environment
  $ printf '\0' | new_image none
  $ hushcheck -c none.config
  bootcmd: not set
  [1]

Names that are not followed:

the note of run $a
  $ text 'run $a'
  bootcmd: ok
  bootcmd:1:5: note: not followed, since the name holds a variable
  run $a
      ^
  bootcmd:1:5: warning: nothing sets a
  run $a
      ^

the note of run 'x'"y"$?
  $ text 'run '\''x'\''"y"$?'
  bootcmd: ok
  bootcmd:1:5: note: not followed, since the name holds a variable
  run 'x'"y"$?
      ^

the note of if ls; then run ${a}b; fi
  $ text 'if ls; then run ${a}b; fi'
  bootcmd: ok
  bootcmd:1:17: note: not followed, since the name holds a variable
  if ls; then run ${a}b; fi
                  ^
  bootcmd:1:17: warning: nothing sets a
  if ls; then run ${a}b; fi
                  ^

the note of if ls; then ls; elif ls; then ls; else run $a; fi
  $ text 'if ls; then ls; elif ls; then ls; else run $a; fi'
  bootcmd: ok
  bootcmd:1:44: note: not followed, since the name holds a variable
  if ls; then ls; elif ls; then ls; else run $a; fi
                                             ^
  bootcmd:1:44: warning: nothing sets a
  if ls; then ls; elif ls; then ls; else run $a; fi
                                             ^

the note of for i in a b c; do\n\trun $i; done
  $ text 'for i in a b c; do\n\trun $i; done'
  bootcmd: ok
  bootcmd:2:6: note: not followed, since the name holds a variable
  \trun $i; done (esc)
  \t    ^ (esc)

the note of x=1 y=2; while ls a; do ls; done; run $x
  $ text 'x=1 y=2; while ls a; do ls; done; run $x'
  bootcmd: ok
  bootcmd:1:39: note: not followed, since the name holds a variable
  x=1 y=2; while ls a; do ls; done; run $x
                                        ^

the note of ls && run $a && ls # run $b
  $ text 'ls && run $a && ls # run $b'
  bootcmd: ok
  bootcmd:1:11: note: not followed, since the name holds a variable
  ls && run $a && ls # run $b
            ^
  bootcmd:1:11: warning: nothing sets a
  ls && run $a && ls # run $b
            ^

a variable that is no name of run
  $ text 'echo run $a; $run a; ls $b; x=$a'
  bootcmd: ok
  bootcmd:1:14: note: which variables this sets is not known
  echo run $a; $run a; ls $b; x=$a
               ^
  bootcmd:1:10: warning: nothing sets a
  echo run $a; $run a; ls $b; x=$a
           ^
  bootcmd:1:14: warning: nothing sets run
  echo run $a; $run a; ls $b; x=$a
               ^
  bootcmd:1:25: warning: nothing sets b
  echo run $a; $run a; ls $b; x=$a
                          ^

two notes, in their order
  $ text 'run $a gone $b'
  bootcmd: ok
  bootcmd:1:5: note: not followed, since the name holds a variable
  run $a gone $b
      ^
  bootcmd:1:13: note: not followed, since the name holds a variable
  run $a gone $b
              ^
  gone: not set
  bootcmd:1:5: warning: nothing sets a
  run $a gone $b
      ^
  bootcmd:1:13: warning: nothing sets b
  run $a gone $b
              ^

  $ . "$TESTDIR/../setup"

The shell by whose rules scripts run.

  $ printf '# devices\nload\n' >devices
a script on which the shells agree, in profile
  $ script shells 'bootcmd=load a || load b; echo $?' 'mixed=false && echo a || echo b' 'devices=load && false && load || load'
  $ ubtool rehearse -c shells.config -d devices --shell profile z
  run 0
  dev 0 load a
  text 0\n
  unset z
  end 0
  run 10
  dev 1 load a
  dev 0 load b
  text 0\n
  unset z
  end 0
  run 11
  dev 1 load a
  dev 1 load b
  text 1\n
  unset z
  end 0
  done

its endings, in profile
  $ ubtool endings -c shells.config -d devices --shell=profile
  ends 3 first 0 fewest 0 0 end 0
  all 3 states 2

its cause, in profile
  $ ubtool causes -c shells.config -d devices --shell=profile
  cause 0 end 0

a script on which the shells agree, in old-2023.01
  $ ubtool rehearse -c shells.config -d devices --shell old-2023.01 z
  run 0
  dev 0 load a
  text 0\n
  unset z
  end 0
  run 10
  dev 1 load a
  dev 0 load b
  text 0\n
  unset z
  end 0
  run 11
  dev 1 load a
  dev 1 load b
  text 1\n
  unset z
  end 0
  done

its endings, in old-2023.01
  $ ubtool endings -c shells.config -d devices --shell=old-2023.01
  ends 3 first 0 fewest 0 0 end 0
  all 3 states 2

its cause, in old-2023.01
  $ ubtool causes -c shells.config -d devices --shell=old-2023.01
  cause 0 end 0

a script on which the shells agree, in old-2025.01
  $ ubtool rehearse -c shells.config -d devices --shell old-2025.01 z
  run 0
  dev 0 load a
  text 0\n
  unset z
  end 0
  run 10
  dev 1 load a
  dev 0 load b
  text 0\n
  unset z
  end 0
  run 11
  dev 1 load a
  dev 1 load b
  text 1\n
  unset z
  end 0
  done

its endings, in old-2025.01
  $ ubtool endings -c shells.config -d devices --shell=old-2025.01
  ends 3 first 0 fewest 0 0 end 0
  all 3 states 2

its cause, in old-2025.01
  $ ubtool causes -c shells.config -d devices --shell=old-2025.01
  cause 0 end 0

a script on which the shells agree, in old
  $ ubtool rehearse -c shells.config -d devices --shell old z
  run 0
  dev 0 load a
  text 0\n
  unset z
  end 0
  run 10
  dev 1 load a
  dev 0 load b
  text 0\n
  unset z
  end 0
  run 11
  dev 1 load a
  dev 1 load b
  text 1\n
  unset z
  end 0
  done

its endings, in old
  $ ubtool endings -c shells.config -d devices --shell=old
  ends 3 first 0 fewest 0 0 end 0
  all 3 states 2

its cause, in old
  $ ubtool causes -c shells.config -d devices --shell=old
  cause 0 end 0

a script on which the shells agree, in none that is named
  $ ubtool rehearse -c shells.config -d devices z
  run 0
  dev 0 load a
  text 0\n
  unset z
  end 0
  run 10
  dev 1 load a
  dev 0 load b
  text 0\n
  unset z
  end 0
  run 11
  dev 1 load a
  dev 1 load b
  text 1\n
  unset z
  end 0
  done

After a command that is skipped, the old shell skips the rest of the list.

the rest of a list, in no shell that is named
  $ ubtool rehearse -c shells.config -d devices -b mixed z
  run .
  text b\n
  unset z
  end 0
  done

the rest of a list, in profile
  $ ubtool rehearse -c shells.config -d devices -b mixed --shell profile z
  run .
  text b\n
  unset z
  end 0
  done

its ending, in profile
  $ ubtool endings -c shells.config -d devices -b mixed --shell profile
  ends 1 first . fewest 0 . end 0
  all 1 states 0

the rest of a list, in old-2023.01
  $ ubtool rehearse -c shells.config -d devices -b mixed --shell old-2023.01 z
  run .
  unset z
  end 1
  done

its ending, in old-2023.01
  $ ubtool endings -c shells.config -d devices -b mixed --shell old-2023.01
  ends 1 first . fewest 0 . end 1
  all 1 states 0

its cause, in old-2023.01
  $ ubtool causes -c shells.config -d devices -b mixed --shell old-2023.01
  cause 0 end 1

the rest of a list, in old-2025.01
  $ ubtool rehearse -c shells.config -d devices -b mixed --shell old-2025.01 z
  run .
  unset z
  end 1
  done

its ending, in old-2025.01
  $ ubtool endings -c shells.config -d devices -b mixed --shell old-2025.01
  ends 1 first . fewest 0 . end 1
  all 1 states 0

its cause, in old-2025.01
  $ ubtool causes -c shells.config -d devices -b mixed --shell old-2025.01
  cause 0 end 1

the rest of a list, in old
  $ ubtool rehearse -c shells.config -d devices -b mixed --shell old z
  run .
  unset z
  end 1
  done

its ending, in old
  $ ubtool endings -c shells.config -d devices -b mixed --shell old
  ends 1 first . fewest 0 . end 1
  all 1 states 0

its cause, in old
  $ ubtool causes -c shells.config -d devices -b mixed --shell old
  cause 0 end 1

a word, in profile
  $ ubtool rehearse -c shells.config -d devices -b devices --word 00 z
  run 00
  dev 0 load
  dev 0 load
  unset z
  end 0
  done

a word, in old
  $ ubtool rehearse -c shells.config -d devices -b devices --word 0 --shell old z
  run 0
  dev 0 load
  unset z
  end 1
  done

the runs after a word, in old
  $ ubtool rehearse -c shells.config -d devices -b devices --after 0 --shell old z
  run 1
  dev 1 load
  unset z
  end 1
  done

a page, in old
  $ ubtool rehearse -c shells.config -d devices -b devices --limit 1 --shell old z
  run 0
  dev 0 load
  unset z
  end 1
  more 0

the run in which nothing fails, in old
  $ ubtool rehearse -c shells.config -d devices -b devices --failures 0 --shell old z
  run 0
  dev 0 load
  unset z
  end 1
  done

a flow, in old
  $ ubtool endings -c shells.config -d devices -b devices --flow --shell old
  1 ask load success 2 failure 2
  2 ends end 1

a word of profile, in old
  $ ubtool rehearse -c shells.config -d devices -b devices --word 00 --shell old
  ! ubtool: no run has the word 00
  [1]

`exit` in an `if` and after it, in modern
  $ script exits 'bootcmd=if load; then exit 3; fi; echo $?; exit 4'
  $ ubtool rehearse -c exits.config -d devices --shell modern z
  run 0
  dev 0 load
  text 251\n
  unset z
  end 4
  run 1
  dev 1 load
  text 0\n
  unset z
  end 4
  done

its ending, in modern
  $ ubtool endings -c exits.config -d devices --shell modern
  ends 2 first 0 fewest 0 0 end 4
  all 2 states 1

the same, in old
  $ ubtool rehearse -c exits.config -d devices --shell old z
  run 0
  dev 0 load
  unset z
  end 0
  run 1
  dev 1 load
  text 1\n
  unset z
  end 4
  done

a shell 'modern-2023'
  $ ubtool rehearse -c shells.config -d devices --shell modern-2023
  ! error: invalid value 'modern-2023' for '--shell <NAME>'
  !   [possible values: profile, old-2023.01, old-2025.01, old, modern-2025.01, modern]
  !
  ! For more information, try '--help'.
  [2]

a shell 'modern-2023' for endings
  $ ubtool endings -c shells.config -d devices --shell=modern-2023
  ! error: invalid value 'modern-2023' for '--shell <NAME>'
  !   [possible values: profile, old-2023.01, old-2025.01, old, modern-2025.01, modern]
  !
  ! For more information, try '--help'.
  [2]

a shell 'modern-2023' for causes
  $ ubtool causes -c shells.config -d devices --shell=modern-2023
  ! error: invalid value 'modern-2023' for '--shell <NAME>'
  !   [possible values: profile, old-2023.01, old-2025.01, old, modern-2025.01, modern]
  !
  ! For more information, try '--help'.
  [2]

a shell 'modern-2023.01'
  $ ubtool rehearse -c shells.config -d devices --shell modern-2023.01
  ! error: invalid value 'modern-2023.01' for '--shell <NAME>'
  !   [possible values: profile, old-2023.01, old-2025.01, old, modern-2025.01, modern]
  !
  ! For more information, try '--help'.
  [2]

a shell 'modern-2023.01' for endings
  $ ubtool endings -c shells.config -d devices --shell=modern-2023.01
  ! error: invalid value 'modern-2023.01' for '--shell <NAME>'
  !   [possible values: profile, old-2023.01, old-2025.01, old, modern-2025.01, modern]
  !
  ! For more information, try '--help'.
  [2]

a shell 'modern-2023.01' for causes
  $ ubtool causes -c shells.config -d devices --shell=modern-2023.01
  ! error: invalid value 'modern-2023.01' for '--shell <NAME>'
  !   [possible values: profile, old-2023.01, old-2025.01, old, modern-2025.01, modern]
  !
  ! For more information, try '--help'.
  [2]

a shell 'Old'
  $ ubtool rehearse -c shells.config -d devices --shell Old
  ! error: invalid value 'Old' for '--shell <NAME>'
  !   [possible values: profile, old-2023.01, old-2025.01, old, modern-2025.01, modern]
  !
  ! For more information, try '--help'.
  [2]

a shell 'Old' for endings
  $ ubtool endings -c shells.config -d devices --shell=Old
  ! error: invalid value 'Old' for '--shell <NAME>'
  !   [possible values: profile, old-2023.01, old-2025.01, old, modern-2025.01, modern]
  !
  ! For more information, try '--help'.
  [2]

a shell 'Old' for causes
  $ ubtool causes -c shells.config -d devices --shell=Old
  ! error: invalid value 'Old' for '--shell <NAME>'
  !   [possible values: profile, old-2023.01, old-2025.01, old, modern-2025.01, modern]
  !
  ! For more information, try '--help'.
  [2]

a shell 'old-2024.01'
  $ ubtool rehearse -c shells.config -d devices --shell old-2024.01
  ! error: invalid value 'old-2024.01' for '--shell <NAME>'
  !   [possible values: profile, old-2023.01, old-2025.01, old, modern-2025.01, modern]
  !
  ! For more information, try '--help'.
  [2]

a shell 'old-2024.01' for endings
  $ ubtool endings -c shells.config -d devices --shell=old-2024.01
  ! error: invalid value 'old-2024.01' for '--shell <NAME>'
  !   [possible values: profile, old-2023.01, old-2025.01, old, modern-2025.01, modern]
  !
  ! For more information, try '--help'.
  [2]

a shell 'old-2024.01' for causes
  $ ubtool causes -c shells.config -d devices --shell=old-2024.01
  ! error: invalid value 'old-2024.01' for '--shell <NAME>'
  !   [possible values: profile, old-2023.01, old-2025.01, old, modern-2025.01, modern]
  !
  ! For more information, try '--help'.
  [2]

a shell ''
  $ ubtool rehearse -c shells.config -d devices --shell ''
  ! error: invalid value '' for '--shell <NAME>'
  !   [possible values: profile, old-2023.01, old-2025.01, old, modern-2025.01, modern]
  !
  ! For more information, try '--help'.
  [2]

a shell '' for endings
  $ ubtool endings -c shells.config -d devices --shell=
  ! error: invalid value '' for '--shell <NAME>'
  !   [possible values: profile, old-2023.01, old-2025.01, old, modern-2025.01, modern]
  !
  ! For more information, try '--help'.
  [2]

a shell '' for causes
  $ ubtool causes -c shells.config -d devices --shell=
  ! error: invalid value '' for '--shell <NAME>'
  !   [possible values: profile, old-2023.01, old-2025.01, old, modern-2025.01, modern]
  !
  ! For more information, try '--help'.
  [2]

a shell without its name
  $ ubtool rehearse -d devices --shell
  ! error: a value is required for '--shell <NAME>' but none was supplied
  !
  ! For more information, try '--help'.
  [2]

two shells
  $ ubtool rehearse -d devices --shell old --shell old
  ! error: the argument '--shell <NAME>' cannot be used multiple times
  !
  ! Usage: ubtool rehearse [OPTIONS] --device-list <FILE> [NAME]...
  !
  ! For more information, try '--help'.
  [2]

a shell of printenv
  $ ubtool printenv --shell old
  ! error: unexpected argument '--shell' found
  !
  !   tip: a similar argument exists: '--help'
  !
  ! Usage: ubtool printenv --help [NAME]...
  !
  ! For more information, try '--help'.
  [2]

a shell of setenv
  $ ubtool setenv --shell old a
  ! error: unexpected argument '--shell' found
  !
  !   tip: a similar argument exists: '--help'
  !
  ! Usage: ubtool setenv --help [NAME] [VALUE]...
  !
  ! For more information, try '--help'.
  [2]

a first text in one line that lacks its end, by the old shell: nothing of it is run
  $ script open 'bootcmd=load; if load; then echo a' $'lines=load\nif load; then echo a'
  $ ubtool rehearse -c open.config -d devices --shell old z
  run .
  unset z
  end 0
  done

and of one with a line before it that would be run, it is not said what is
  $ ubtool rehearse -c open.config -d devices --shell old -b lines z
  run .
  unset z
  stop unsupported lines
  done

  $ . "$TESTDIR/../setup"

Words, long options, the version, and the names of other tools.

  $ bytes "$single" >e; printf 'e 0 9\n' >config; printf 'a=2\n' >changes
  $ long_lines() { grep -v ' \[default' | grep -v 'required$' | awk 'length > 80'; }
  $ screen() { awk 'END { if (NR > 45) print NR }'; }

the help of --help: an example, no line that is too long, and one screen
  $ ubtool --help >help
  $ grep -c '^Example:$' help
  1
  $ long_lines <help
  $ screen <help

the help of -h: an example, no line that is too long, and one screen
  $ ubtool -h >help
  $ grep -c '^Example:$' help
  1
  $ long_lines <help
  $ screen <help

the help of printenv --help: an example, no line that is too long, and one screen
  $ ubtool printenv --help >help
  $ grep -c '^Example:$' help
  1
  $ long_lines <help
  $ screen <help

the help of printenv -h: an example, no line that is too long, and one screen
  $ ubtool printenv -h >help
  $ grep -c '^Example:$' help
  1
  $ long_lines <help
  $ screen <help

the help of setenv --help: an example, no line that is too long, and one screen
  $ ubtool setenv --help >help
  $ grep -c '^Example:$' help
  1
  $ long_lines <help
  $ screen <help

the help of rehearse --help: an example, no line that is too long, and one screen
  $ ubtool rehearse --help >help
  $ grep -c '^Example:$' help
  1
  $ long_lines <help
  $ screen <help

the help of endings --help: an example, no line that is too long, and one screen
  $ ubtool endings --help >help
  $ grep -c '^Example:$' help
  1
  $ long_lines <help
  $ screen <help

the help of boots --help: an example, no line that is too long, and one screen
  $ ubtool boots --help >help
  $ grep -c '^Example:$' help
  1
  $ long_lines <help
  $ screen <help

the help of causes --help: an example, no line that is too long, and one screen
  $ ubtool causes --help >help
  $ grep -c '^Example:$' help
  1
  $ long_lines <help
  $ screen <help

the help of image --help: an example, no line that is too long, and one screen
  $ ubtool image --help >help
  $ grep -c '^Example:$' help
  1
  $ long_lines <help
  $ screen <help

the help of inspect --help: an example, no line that is too long, and one screen
  $ ubtool inspect --help >help
  $ grep -c '^Example:$' help
  1
  $ long_lines <help
  $ screen <help

no such command
  $ ubtool bad
  ! error: unrecognized subcommand 'bad'
  !
  ! Usage: ubtool <COMMAND>
  !
  ! For more information, try '--help'.
  [2]

no such option
  $ ubtool --bad
  ! error: unexpected argument '--bad' found
  !
  ! Usage: ubtool <COMMAND>
  !
  ! For more information, try '--help'.
  [2]

no such option of printenv
  $ ubtool printenv -x
  ! error: unexpected argument '-x' found
  !
  !   tip: to pass '-x' as a value, use '-- -x'
  !
  ! Usage: ubtool printenv [OPTIONS] [NAME]...
  !
  ! For more information, try '--help'.
  [2]

an option without its value
  $ ubtool printenv -c
  ! error: a value is required for '--config <FILE>' but none was supplied
  !
  ! For more information, try '--help'.
  [2]

an option twice
  $ ubtool printenv -c a -c b
  ! error: the argument '--config <FILE>' cannot be used multiple times
  !
  ! Usage: ubtool printenv [OPTIONS] [NAME]...
  !
  ! For more information, try '--help'.
  [2]

a value alone, of no variable
  $ ubtool printenv -n
  ! ubtool: -n takes exactly one NAME
  [2]

a value alone, of two variables
  $ ubtool printenv -n a b
  ! ubtool: -n takes exactly one NAME
  [2]

setenv without words
  $ ubtool setenv
  ! ubtool: setenv needs a NAME
  [2]

setenv without a name
  $ ubtool setenv -c config
  ! ubtool: setenv needs a NAME
  [2]

a script and a name
  $ ubtool setenv -s changes a
  ! ubtool: -s takes no NAME
  [2]

a word that is no text
  $ ubtool printenv $'\xff'
  ! ubtool: the words are no text
  [2]

a value that is no text
  $ ubtool setenv -c config a $'1\xff'
  ! ubtool: the words are no text
  [2]

a path that is no text
  $ ubtool printenv -c $'\xff'
  ! ubtool: the words are no text
  [2]

an image under wrong words
  $ hex e
  3b 06 98 45 61 3d 31 00 00

Long options, the version, and other names:

a value alone, by long options
  $ ubtool printenv --config config --noheader a
  1

a value alone, by the other long option
  $ ubtool printenv --config=config --no-header a
  1

a script, by long options
  $ printf 'a=2\n' >changes
  $ ubtool setenv --config config --script changes
  $ hex e
  62 b8 de 47 61 3d 32 00 00

  $ number=$(sed -n 's/^pub const VERSION: &str = "\(.*\)";$/\1/p' "$repository/crates/tool_words/src/version.rt")
  $ version="ubtool $number (${BUILD-x86_64, dynamic})"

the version, by --version
  $ [ "$(ubtool --version)" = "$version" ]

the version, by -V
  $ [ "$(ubtool -V)" = "$version" ]

the version, by printenv --version
  $ [ "$(ubtool printenv --version)" = "$version" ]

the version, by setenv -V a
  $ [ "$(ubtool setenv -V a)" = "$version" ]

the version, by rehearse --version
  $ [ "$(ubtool rehearse --version)" = "$version" ]

the version, by endings -V
  $ [ "$(ubtool endings -V)" = "$version" ]

the version, by boots -V
  $ [ "$(ubtool boots -V)" = "$version" ]

the version, by causes -V
  $ [ "$(ubtool causes -V)" = "$version" ]

the version, by version
  $ [ "$(ubtool version)" = "$version" ]

the help, by a word
  $ ubtool --help >wanted
  $ ubtool help | cmp wanted

the help of printenv, by a word
  $ ubtool printenv --help >wanted
  $ ubtool help printenv | cmp wanted

the help of setenv, by a word
  $ ubtool setenv --help >wanted
  $ ubtool help setenv | cmp wanted

the help of rehearse, by a word
  $ ubtool rehearse --help >wanted
  $ ubtool help rehearse | cmp wanted

the help of endings, by a word
  $ ubtool endings --help >wanted
  $ ubtool help endings | cmp wanted

the help of boots, by a word
  $ ubtool boots --help >wanted
  $ ubtool help boots | cmp wanted

the help of causes, by a word
  $ ubtool causes --help >wanted
  $ ubtool help causes | cmp wanted

the help of no command
  $ ubtool help bad
  ! error: unrecognized subcommand 'bad'
  !
  ! Usage: ubtool <COMMAND>
  !
  ! For more information, try '--help'.
  [2]

the help of two commands
  $ ubtool help setenv printenv
  ! error: unrecognized subcommand 'help'
  !
  ! Usage: ubtool <COMMAND>
  !
  ! For more information, try '--help'.
  [2]

a variable called help
  $ ubtool printenv -c config help
  ! ## Error: "help" not defined
  [1]

a number with a sign, endings -d d --states
  $ ubtool endings -d d --states +1
  ! error: a number is written in digits alone, without a sign
  !
  ! For more information, try '--help'.
  [2]

a number with a sign, endings -d d --work
  $ ubtool endings -d d --work +1
  ! error: a number is written in digits alone, without a sign
  !
  ! For more information, try '--help'.
  [2]

a number with a sign, endings -d d --memory
  $ ubtool endings -d d --memory +1
  ! error: a number is written in digits alone, without a sign
  !
  ! For more information, try '--help'.
  [2]

a number with a sign, endings -d d --devices
  $ ubtool endings -d d --devices +1
  ! error: a number is written in digits alone, without a sign
  !
  ! For more information, try '--help'.
  [2]

a number with a sign, endings -d d --steps
  $ ubtool endings -d d --steps +1
  ! error: a number is written in digits alone, without a sign
  !
  ! For more information, try '--help'.
  [2]

a number with a sign, boots -d d --boots
  $ ubtool boots -d d --boots +1
  ! error: a number is written in digits alone, without a sign
  !
  ! For more information, try '--help'.
  [2]

a number with a sign, boots -d d --expect boot --within
  $ ubtool boots -d d --expect boot --within +1
  ! error: a number is written in digits alone, without a sign
  !
  ! For more information, try '--help'.
  [2]

no boots to an ending
  $ ubtool boots -d d --expect boot --within 0
  ! error: invalid value '0' for '--within <N>': 0 is not in 1..=4294967295
  !
  ! For more information, try '--help'.
  [2]

a number of boots to no ending
  $ ubtool boots -d d --within 2
  ! ubtool: --within and --expect-var need --expect
  [2]

a value that no ending leaves
  $ ubtool boots -d d --expect-var a=1
  ! ubtool: --within and --expect-var need --expect
  [2]

an ending without a letter
  $ ubtool boots -d d --expect ''
  ! ubtool: --expect needs an ending
  [2]

a value without =
  $ ubtool boots -d d --expect boot --expect-var a
  ! ubtool: --expect-var needs NAME=VALUE
  [2]

a value without a name, after one that has it
  $ ubtool boots -d d --expect boot --expect-var a=1 --expect-var =1
  ! ubtool: --expect-var needs NAME=VALUE
  [2]

two scripts of changes
  $ ubtool boots -d d --then a --then b
  ! error: the argument '--then <FILE>' cannot be used multiple times
  !
  ! Usage: ubtool boots [OPTIONS] --device-list <FILE> [NAME]...
  !
  ! For more information, try '--help'.
  [2]

a number with a sign, rehearse -d d --devices
  $ ubtool rehearse -d d --devices +1
  ! error: a number is written in digits alone, without a sign
  !
  ! For more information, try '--help'.
  [2]

a number with a sign, rehearse -d d --steps
  $ ubtool rehearse -d d --steps +1
  ! error: a number is written in digits alone, without a sign
  !
  ! For more information, try '--help'.
  [2]

a number with a sign, rehearse -d d --failures
  $ ubtool rehearse -d d --failures +1
  ! error: a number is written in digits alone, without a sign
  !
  ! For more information, try '--help'.
  [2]

a number with a sign, rehearse -d d --limit
  $ ubtool rehearse -d d --limit +1
  ! error: a number is written in digits alone, without a sign
  !
  ! For more information, try '--help'.
  [2]

a number with a sign, causes -d d --failures
  $ ubtool causes -d d --failures +1
  ! error: a number is written in digits alone, without a sign
  !
  ! For more information, try '--help'.
  [2]

a number with a sign, causes -d d --devices
  $ ubtool causes -d d --devices +1
  ! error: a number is written in digits alone, without a sign
  !
  ! For more information, try '--help'.
  [2]

the version on a full output
  $ ubtool --version >/dev/full
  ! ubtool: output failed
  [1]

all variables, as fw_printenv
  $ as fw_printenv -c config
  a=2

a value alone, as fw_printenv
  $ as fw_printenv -c config -n a
  2

a change, as fw_setenv
  $ as fw_setenv -c config a 1
  $ hex e
  3b 06 98 45 61 3d 31 00 00

by its own name in a folder fw_setenv
  $ mkdir fw_setenv; ln -s "$UBTOOL" fw_setenv/ubtool
  $ marked fw_setenv/ubtool printenv -c config
  a=1

by a name that only ends so
  $ as xfw_printenv printenv -c config
  a=1

fw_setenv without words
  $ as fw_setenv
  ! fw_setenv: setenv needs a NAME
  [2]

a missing variable, as fw_printenv
  $ as fw_printenv -c config b
  ! ## Error: "b" not defined
  [1]

no configuration, as fw_printenv
  $ as fw_printenv -c missing
  ! fw_printenv: cannot read missing
  [1]

a bad name, as fw_setenv
  $ as fw_setenv -c config a=b 1
  ! fw_setenv: bad name
  [1]

a full output, as fw_printenv
  $ as fw_printenv -c config >/dev/full
  ! fw_printenv: output failed
  [1]

no such option, as fw_printenv
  $ as fw_printenv --bad
  ! error: unexpected argument '--bad' found
  !
  !   tip: to pass '--bad' as a value, use '-- --bad'
  !
  ! Usage: fw_printenv [OPTIONS] [NAME]...
  !
  ! For more information, try '--help'.
  [2]

an option twice, as fw_setenv
  $ as fw_setenv -c a -c b c
  ! error: the argument '--config <FILE>' cannot be used multiple times
  !
  ! Usage: fw_setenv [OPTIONS] [NAME] [VALUE]...
  !
  ! For more information, try '--help'.
  [2]

the help of fw_printenv
  $ ubtool printenv --help | sed 's/ubtool printenv/fw_printenv/' >wanted
  $ as fw_printenv -h | cmp wanted

the help of fw_setenv, which says more of -s -
  $ ubtool setenv --help | sed 's/ubtool setenv/fw_setenv/' >wanted
  $ as fw_setenv --help | sed 's/ skipped[.] The$/ skipped./; /^script of .-s -. is standard input/d' | cmp wanted

the usage of fw_printenv, in a help that names no other program but for the manual
  $ as fw_printenv a --help >help
  $ grep '^Usage: ' help
  Usage: fw_printenv [OPTIONS] [NAME]...
  $ grep -o 'ubtool.*' help
  ubtool(1), has the format of FILE.

the version, as fw_setenv
  $ [ "$(as fw_setenv --version)" = "$version" ]

fw_printenv on the path
  $ marked env PATH="$PWD/names:$PATH" fw_printenv -c config a
  a=1

A folder, or a link's name, that is not UTF-8 is no word.

fw_printenv in a folder whose name is no text
  $ mkdir $'\xff'; ln -s "$UBTOOL" $'\xff'/fw_printenv
  $ marked $'\xff'/fw_printenv -c config a
  a=1

by a name that is no text
  $ as $'\xfe' printenv -c config a
  a=1

a word that is no text, by a name that is none
  $ as $'\xfe' printenv -c config $'\xfe'
  ! ubtool: the words are no text
  [2]

  $ . "$TESTDIR/../setup"

Words.

  $ image run 'bootcmd=load; run a' a=ls b=boom
  $ printf 'load\n' >load.list

help
  $ hushcheck --help >help
  $ sed '/^  -\|^      --/d' help | awk 'length > 80'

  $ number=$(sed -n 's/^pub const VERSION: &str = "\(.*\)";$/\1/p' "$repository/crates/tool_words/src/version.rt")
  $ version="hushcheck $number (${BUILD-x86_64, dynamic})"

the version, by --version
  $ [ "$(hushcheck --version)" = "$version" ]

the version, by -V
  $ [ "$(hushcheck -V)" = "$version" ]

the version on a full output
  $ hushcheck --version >/dev/full
  ! hushcheck: output failed
  [3]

an unknown option
  $ hushcheck -x
  ! error: unexpected argument '-x' found
  !
  !   tip: to pass '-x' as a value, use '-- -x'
  !
  ! Usage: hushcheck [OPTIONS] [NAME]...
  !
  ! For more information, try '--help'.
  [2]

an option without its value
  $ hushcheck -c
  ! error: a value is required for '--config <FILE>' but none was supplied
  !
  ! For more information, try '--help'.
  [2]

a text and -c run.config
  $ hushcheck --text run.txt -c run.config
  ! hushcheck: --text takes no -c, no -i and no --second
  [2]

a text and -i run
  $ hushcheck --text run.txt -i run
  ! hushcheck: --text takes no -c, no -i and no --second
  [2]

a text and --second run
  $ hushcheck --text run.txt --second run
  ! hushcheck: --text takes no -c, no -i and no --second
  [2]

a text and -c run.config -i run
  $ hushcheck --text run.txt -c run.config -i run
  ! hushcheck: --text takes no -c, no -i and no --second
  [2]

a text and --second run -i run
  $ hushcheck --text run.txt --second run -i run
  ! hushcheck: --text takes no -c, no -i and no --second
  [2]

an image and a configuration
  $ hushcheck -i run -c run.config
  ! hushcheck: -i takes no -c
  [2]

a pair and a configuration
  $ hushcheck -i old --second new -c pair.config
  ! hushcheck: -i takes no -c
  [2]

a second copy alone
  $ hushcheck --second new
  ! hushcheck: --second needs -i
  [2]

a second copy and a configuration
  $ hushcheck --second new -c pair.config
  ! hushcheck: --second needs -i
  [2]

an image and a configuration, of missing files
  $ hushcheck -i missing -c missing -d missing
  ! hushcheck: -i takes no -c
  [2]

a shell of another name, and words that name no images
  $ hushcheck --shell newest -i run -c run.config
  ! error: invalid value 'newest' for '--shell <NAME>'
  !   [possible values: profile, old-2023.01, old-2025.01, old, modern-2025.01, modern]
  !
  ! For more information, try '--help'.
  [2]

a name beside a script
  $ hushcheck run --script two.cmd
  ! error: the argument '--script <FILE>' cannot be used with '[NAME]...'
  !
  ! For more information, try '--help'.
  [2]
  $ hushcheck --script=two.cmd run b
  ! error: the argument '--script <FILE>' cannot be used with '[NAME]...'
  !
  ! For more information, try '--help'.
  [2]
  $ hushcheck --script missing --shell modern run
  ! error: the argument '--script <FILE>' cannot be used with '[NAME]...'
  !
  ! For more information, try '--help'.
  [2]

a script, and words that name no images
  $ hushcheck --script missing -i run -c run.config
  ! hushcheck: -i takes no -c
  [2]

an option without its file
  $ hushcheck -i
  ! error: a value is required for '--image <FILE>' but none was supplied
  !
  ! For more information, try '--help'.
  [2]
  $ hushcheck --image
  ! error: a value is required for '--image <FILE>' but none was supplied
  !
  ! For more information, try '--help'.
  [2]
  $ hushcheck --second
  ! error: a value is required for '--second <FILE>' but none was supplied
  !
  ! For more information, try '--help'.
  [2]
  $ hushcheck --text
  ! error: a value is required for '--text <FILE>' but none was supplied
  !
  ! For more information, try '--help'.
  [2]
  $ hushcheck --script
  ! error: a value is required for '--script <FILE>' but none was supplied
  !
  ! For more information, try '--help'.
  [2]

  $ hushcheck -d load.list --files
  ! error: a value is required for '--files <FOLDER>' but none was supplied
  !
  ! For more information, try '--help'.
  [2]

  $ hushcheck --files a --files b
  ! error: the argument '--files <FOLDER>' cannot be used multiple times
  !
  ! Usage: hushcheck [OPTIONS] [NAME]...
  !
  ! For more information, try '--help'.
  [2]

an option that ubtool alone has
  $ hushcheck -i run --one-copy
  ! error: unexpected argument '--one-copy' found
  !
  !   tip: to pass '--one-copy' as a value, use '-- --one-copy'
  !
  ! Usage: hushcheck --image <FILE> [NAME]...
  !
  ! For more information, try '--help'.
  [2]

a word that is no text
  $ hushcheck $'\xff'
  ! hushcheck: the words are no text
  [2]

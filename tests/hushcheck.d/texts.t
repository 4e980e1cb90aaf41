  $ . "$TESTDIR/../setup"

One text.

a text
  $ text 'if test -n "$a"; then load; fi'
  bootcmd: ok
  bootcmd:1:12: warning: nothing sets a
  if test -n "$a"; then load; fi
             ^

no command
  $ text '# nothing'
  bootcmd: ok

a then that is missing on line 2
  $ text 'true\nif true; echo x; fi'
  bootcmd:2:18: unexpected token
  if true; echo x; fi
                   ^
  [1]

the end of the text
  $ text 'if true; then'
  bootcmd:1:14: unexpected end of the text
  if true; then
               ^
  [1]

the end of the text, after a newline
  $ text 'if true; then\n'
  bootcmd:2:1: unexpected end of the text
  
  ^
  [1]

a tab before the mark
  $ text '\ta & b'
  bootcmd:1:4: a single &
  \ta & b (esc)
  \t  ^ (esc)
  [1]

a byte that is no text
  $ text '\0303\0244 x| b'
  bootcmd:1:5: a single |
  ?? x| b
      ^
  [1]

an open quote
  $ text 'echo "a'
  bootcmd:1:6: the quote is not closed
  echo "a
       ^
  [1]

a backslash
  $ text 'echo a\\'
  bootcmd:1:7: the backslash is the last byte
  echo a\
        ^
  [1]

an open brace
  $ text 'echo ${a'
  bootcmd:1:6: the brace is not closed
  echo ${a
       ^
  [1]

braces without a name
  $ text 'echo ${a:-b}'
  bootcmd:1:6: the braces hold no name
  echo ${a:-b}
       ^
  [1]

a word that is missing
  $ text 'for x a'
  bootcmd:1:7: a word is missing
  for x a
        ^
  [1]

an assignment
  $ text 'x=1 load'
  bootcmd:1:5: an assignment before the command
  x=1 load
      ^
  [1]

many levels
  $ text 'if if if if if if if if if if if if if if if if if if if if if if if if if if if if if if if if if if if if if if if if if if if if if if if if if if if if if if if if if if if if if if if if if '
  bootcmd:1:193: nested too deep
  f if if if if if if if if if if if if if if if if if if if if if if if if if if 
                                                                               ^
  [1]

Long lines:

a line of 80 bytes
  $ text 'a123456789b123456789c123456789d123456789e123456789f123456789g123456789h12345678&'
  bootcmd:1:80: a single &
  a123456789b123456789c123456789d123456789e123456789f123456789g123456789h12345678&
                                                                                 ^
  [1]

a line of 81 bytes, at its end
  $ text 'a123456789b123456789c123456789d123456789e123456789f123456789g123456789h123456789&'
  bootcmd:1:81: a single &
  123456789b123456789c123456789d123456789e123456789f123456789g123456789h123456789&
                                                                                 ^
  [1]

a long line, at its start
  $ text '&a123456789b123456789c123456789d123456789e123456789f123456789g123456789h123456789i123456789j123456789'
  bootcmd:1:1: a single &
  &a123456789b123456789c123456789d123456789e123456789f123456789g123456789h12345678
  ^
  [1]

a long line, in its middle
  $ text 'a123456789b123456789c123456789d123456789e123456789&123456789g123456789h123456789i123456789j123456789'
  bootcmd:1:51: a single &
  b123456789c123456789d123456789e123456789&123456789g123456789h123456789i123456789
                                          ^
  [1]

Texts that are refused, and their warnings:

a block that is empty
  $ text 'if ls; then # none\nelse ls; fi'
  bootcmd:2:1: the block before this word is empty: write true in it
  else ls; fi
  ^
  [1]

a condition that is empty
  $ text 'while ; do ls; done'
  bootcmd:1:9: the block before this word is empty: write true in it
  while ; do ls; done
          ^
  [1]

a block that is not empty
  $ text 'if ls; then echo then; fi; fi'
  bootcmd:1:28: unexpected token
  if ls; then echo then; fi; fi
                             ^
  [1]

fi after fi, and no block
  $ text 'if ls; fi fi'
  bootcmd:1:8: unexpected token
  if ls; fi fi
         ^
  bootcmd:1:11: warning: U-Boot's old shell needs ; before this word
  if ls; fi fi
            ^
  [1]

a command after fi
  $ text 'if ls; then ls; fi ls'
  bootcmd:1:20: unexpected token
  if ls; then ls; fi ls
                     ^
  bootcmd:1:20: warning: U-Boot's old shell needs ; before this word
  if ls; then ls; fi ls
                     ^
  [1]

a warning in front of the fault, and one after it
  $ text 'exit; & exit'
  bootcmd:1:7: a single &
  exit; & exit
        ^
  bootcmd:1:1: warning: exit ends nothing in U-Boot 2023.01, and other things in a block later on
  exit; & exit
  ^
  [1]

  $ . "$TESTDIR/../setup"

Each text of a fault in the sources, and each line of the program itself, is in docs/MESSAGES.md, and each line that
the page gives to the program is in the sources. What a text leaves open is a word of capitals in the page.

  $ open() { sed 's/{[a-z0-9]*}/@/g; s/\<\(N\|PATH\|NAME\|WORD\)\>/@/g' | sort -u; }
  $ find "$repository"/crates/*/src -name '*.rt' -exec cat {} + >sources

each fault has a text
  $ sed -n 's/^ *#\[error("\(.*\)")\]$/\1/p' sources >texts
  $ [ "$(wc -l <texts)" = "$(grep -c '#\[error\>' sources)" ]

  $ sed -n 's/.*b"ubtool: \([^"]*\)\\n".*/\1/p' "$repository/crates/ubtool_main/src/main.rt" >>texts
  $ printf '%s\n' '## Error: "{0}" not defined' 'waiting for {0}' 'cannot replace {0}, writing it in place' >>texts

The fault of a copy that is lost is one of these two:

  $ printf '%s\n' 'cannot read {0}; the other copy counts' '{0} is too short; the other copy counts' >>texts
  $ grep -vxF -e '{0}' -e '{0}: {1}' -e '{0}; the other copy counts' texts | open >wanted
  $ grep '^| `' "$repository/docs/MESSAGES.md" | sed 's/\\|/\n/g; s/ | .*//; s/\n/|/g' | grep -o '`[^`]*`' | tr -d '`' >lines

texts of faults that docs/MESSAGES.md lacks
  $ sed 's/^ubtool: //; s/^PATH: //' lines | open >found
  $ comm -23 wanted found

lines of docs/MESSAGES.md that no source has
  $ sed -n 's/^ubtool: //p' lines | sed 's/^PATH: //' | open >found
  $ comm -13 wanted found

how many edits the gate tries, in CONTRIBUTING.md
  $ edits=$(find "$repository/tests/edits.d" -mindepth 2 -maxdepth 2 -name '*.edit' | wc -l)
  $ marked "$repository/tools/figures" --check "edits=$edits"
  $ grep -q "edits, and at most 45\." "$repository/CONTRIBUTING.md"
  $ [ "$edits" -le 45 ]

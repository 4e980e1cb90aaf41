  $ . "$TESTDIR/../setup"

What the C code of boards sets, as share/boards/set_before has it.

  $ grep -v '^#' "$repository/share/boards/set_before" >lines

each line has a board of the list, a file of C and a variable, which has a value or is as the environment has it
  $ cut -d ' ' -f 1 lines | grep -vxFf "$repository/tools/boards.list"
  [1]
  $ grep -vE '^[^ ]+ [a-z0-9_/-]+\.c [a-z_]+=([^ ]| # )' lines
  [1]

the texts of a board read the variable, or it is one that U-Boot runs
  $ for file in "$repository"/share/boards/*.env; do
  >     sed -n "s/^$(basename "$file" .env) [^ ]* \([^=]*\)=.*/\1/p" lines | grep -vx -e bootcmd -e preboot | sort -u >names
  >     while read -r name; do grep -q "\${\{0,1\}$name" "$file" || echo "$file: $name"; done <names
  >     grep -c . names
  > done
  3
  2
  0
  4
  1

each list of a board is read, and starts with what the file has of the board: given, or left out
  $ for file in "$repository"/share/boards/*.given; do "$UBTOOL" endings --script /dev/null -d "$file" >said 2>&1 || cat said; done
  $ for file in "$repository"/share/boards/*.given; do
  >     board=$(basename "$file" .given); sed -n 's/^given \([^=]*\)=.*/\1/p; s/^# Left out: \([^=]*\)=.*/\1/p' "$file" >names
  >     awk -v board="$board" '$1 == board { sub(/=.*/, "", $3); print $3 }' lines | cmp - names || echo "$board"
  > done

  $ . "$TESTDIR/../setup"

The picture of the flow of a real board.

  $ needs python3
  $ lines_image rpi_4 <"$repository/share/boards/rpi_4.env"; cat "$repository"/share/devices/* >devices.txt

the boxes of its picture
  $ ubtool endings -c rpi_4.config -d devices.txt --flow >flow
  $ boxes=$("$repository/tools/choices" --fold --toward 'end 0' flow | grep -c shape=box)
  $ marked "$repository/tools/figures" --check "boxes-of-flow=$boxes"

the boxes in docs/flow.svg
  $ [ "$(grep -c '<polygon fill="none" stroke="black"' "$repository/docs/flow.svg")" = "$boxes" ]

  $ . "$TESTDIR/../setup"

A picture of a listing, drawn by graphviz.

  $ needs python3 dot
  $ script boot 'bootcmd=load a || load b; echo $?'
  $ printf 'load\n' >devices

the picture, drawn
  $ ubtool rehearse -c boot.config -d devices x | "$repository/tools/choices" --fold | dot -Tsvg | tail -n 1
  </svg>

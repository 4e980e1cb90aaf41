  $ . "$TESTDIR/../setup"

The manual and the README, which have the example of each help.

  $ needs mandoc

the manual under mandoc
  $ mandoc -T lint -W warning "$repository/docs/ubtool.1"

  $ mandoc -T ascii "$repository/docs/ubtool.1" | sed 's/.\x08//g' >manual
  $ example() { ubtool "$1" --help | sed -n '/^Example:$/,/^$/s/^  //p' | tee example; }
  $ in_readme() { sed 's/.*/`&`/' example | grep -qFf - "$repository/README.md"; }

the example of printenv is in the manual and in the README
  $ example printenv
  ubtool printenv bootcmd bootdelay
  $ grep -qF -- "$(cat example)" manual
  $ in_readme

the example of setenv is in the manual and in the README
  $ example setenv
  ubtool setenv bootdelay 3
  $ grep -qF -- "$(cat example)" manual
  $ in_readme

the example of rehearse is in the manual and in the README
  $ example rehearse
  ubtool rehearse -d devices.txt
  $ grep -qF -- "$(cat example)" manual
  $ in_readme

the example of endings is in the manual and in the README
  $ example endings
  ubtool endings -d devices.txt bootargs
  $ grep -qF -- "$(cat example)" manual
  $ in_readme

the example of boots is in the manual and in the README
  $ example boots
  ubtool boots -d devices.txt BOOT_ORDER
  $ grep -qF -- "$(cat example)" manual
  $ in_readme

the example of causes is in the manual and in the README
  $ example causes
  ubtool causes -d devices.txt
  $ grep -qF -- "$(cat example)" manual
  $ in_readme

the example of image is in the manual and in the README
  $ example image
  ubtool image --size 0x4000 -o env.img env.txt
  $ grep -qF -- "$(cat example)" manual
  $ in_readme

the example of inspect is in the manual and in the README
  $ example inspect
  ubtool inspect -i env.img
  $ grep -qF -- "$(cat example)" manual
  $ in_readme

  $ . "$TESTDIR/../setup"

How the program is hardened, as readelf shows it.

  $ needs readelf

The programs for ARM run by another one, and the static ones are linked otherwise.

  $ [ -z "${BUILD-}" ] || exit 80

position-independent
  $ readelf -hW "$UBTOOL" | grep -o 'DYN (Position-Independent Executable file)'
  DYN (Position-Independent Executable file)

relocations that are read-only after start
  $ readelf -lW "$UBTOOL" | grep -o GNU_RELRO
  GNU_RELRO
  $ readelf -dW "$UBTOOL" | grep -o BIND_NOW
  BIND_NOW

a stack that is not executable
  $ readelf -lW "$UBTOOL" | awk '$1 == "GNU_STACK" { print $7 }'
  RW

the newest glibc that it needs
  $ readelf -VW "$UBTOOL" | grep -o 'GLIBC_[0-9.]*' | sort -uV | tail -n 1
  GLIBC_2.34

  $ . "$TESTDIR/../setup"

The gate itself, in a tree whose suites and tools are stand-ins.

  $ mkdir tools tests bin; cp "$repository/check" .
  $ stand_in() { printf '#!/bin/sh\n%s\n' "$2" >"$1"; chmod +x "$1"; }
  $ for it in $(grep -o 'tools/[a-z_.]*\|tests/[a-z_0-9]*' check | sort -u); do stand_in "$it" 'exit 0'; done
  $ cp "$repository/tools/lib" tools
  $ stand_in tools/gate_cost 'touch "$1"; shift; exec "$@"'
  $ stand_in bin/rt 'echo "33 passed, 0 failed"'

The status of the gate, what it says on standard error, and the lines that it says of what was left out.

  $ gate() { local status=0; PATH=$PWD/bin:$PATH marked ./check "$@" >out || status=$?; sed -n '/^nothing was left out$\|^left out:$/,$p' out; return $status; }

all is there
  $ gate
  nothing was left out

all is there, strictly
  $ gate --strict
  nothing was left out

something is left out
  $ stand_in tests/compare 'echo "left out: the tool"'
  $ gate
  left out:
  tests/compare: the tool

something is left out, strictly
  $ gate --strict
  ! check: something was left out, and --strict allows nothing of that
  left out:
  tests/compare: the tool
  [1]

left out beside the suites
  $ stand_in tests/compare 'exit 0'; stand_in tests/arm64 'echo "left out: the processor"'
  $ gate --strict
  ! check: something was left out, and --strict allows nothing of that
  left out:
  tests/arm64: the processor
  [1]

a suite fails
  $ stand_in tests/arm64 'exit 0'; stand_in tests/hushcheck 'exit 1'
  $ gate --strict
  nothing was left out
  [1]

a suite of those beside the others fails, and what comes after it is not run
  $ stand_in tests/hushcheck 'exit 0'; stand_in tests/endings 'exit 1'; stand_in tests/compare_hush 'echo compared >after'
  $ gate --strict
  nothing was left out
  [1]
  $ [ ! -e after ]

something is left out beside the suites
  $ stand_in tests/endings 'echo "left out: a board"'
  $ gate
  left out:
  tests/endings: a board
  $ [ -e after ]

an edit fails
  $ stand_in tests/endings 'exit 0'; stand_in tests/edits 'echo "1 passed, 1 failed"; exit 1'
  $ gate
  nothing was left out
  [1]

a proof fails
  $ stand_in tests/edits 'exit 0'; stand_in tools/ci 'exit 1'
  $ gate
  nothing was left out
  [1]

another word
  $ gate --stricter
  ! check: usage: check [--strict]
  [2]

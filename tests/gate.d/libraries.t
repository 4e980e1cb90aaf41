  $ . "$TESTDIR/../setup"

A small repository, in which a constant of the lower crate changes after it was built.

  $ mkdir -p crates/low/src crates/high_main/src tests/edits.d/high_main tools
  $ cp "$repository/build" .; cp "$repository/tests/edits" tests
  $ cp "$repository"/tools/{ci,build_arm64,programs,crates.py,lib} tools
  $ printf 'low:\nhigh_main: low\n' >crates.txt

The two crates: a number, and its double.

  $ sources() {
  >     printf '%s\n' '//! A number.' '#![tactic(auto)]' '' 'ghost use Rattle.std.specs.Prelude.{◌≡◌};' '' '/// The number.' \
  >         'pub fn number() -> u8' "    ensures { result ≡ $1 }" '{' "    $1" '}' >crates/low/src/lib.rt
  >     printf '%s\n' '//! Its double.' 'ghost use Rattle.std.specs.Prelude.{◌≡◌};' '' '/// Its double.' 'pub fn double() -> u8' \
  >         "    ensures { result ≡ $((2 * $1)) }" '{' '    2 * low::number()' '}' >crates/high_main/src/sums.rt
  > }
  $ printf '%s\n' '//! Its double.' '#![tactic(auto)]' '' 'mod sums;' '' 'pub use sums::double;' >crates/high_main/src/lib.rt
  $ printf '%s\n' 'promise: The number is counted twice.' 'refused: sums::double' 'file: src/sums.rt' 'old: 2 * low::number()' \
  >     'new: low::number() + 0' 'twin: low::number() + low::number()' >tests/edits.d/high_main/once.edit

The last line of a command and its status, and the number that the library of the lower crate promises.

  $ last() { local status=0; "$@" >said 2>&1 || status=$?; tail -n 1 said; return $status; }
  $ promised() { sed -n 's/.*result ≡ \([0-9]*\).*/\1/p' crates/low/out/rlib/low.rlib/lang/src/lib.rt; }

before anything is built
  $ sources 7
  $ last tests/edits; head -n 1 said
  edits: run ./build first
  crates/low/out has no library that was built from what is here now
  $ last tests/edits >/dev/null
  [1]

the first run of tools/ci
  $ last tools/ci
  2 passed, 0 failed

the edits, over what was proved
  $ last tests/edits
  1 passed, 0 failed

the lower crate has changed
  $ sources 8
  $ last ./build --old high_main
  crates/low/out has no library that was built from what is here now
  [1]

rt ci proves it
  $ last rt ci
  2 passed, 0 failed

and puts the old library back
  $ promised
  7

which the edits refuse
  $ last tests/edits
  edits: run ./build first
  [1]

and the build for ARM
  $ last tools/build_arm64 arm64 high
  build_arm64: run ./build first
  [1]

tools/ci
  $ last tools/ci
  2 passed, 0 failed

leaves the library that was proved
  $ promised
  8

the edits, over the new library
  $ last tests/edits
  1 passed, 0 failed

and their twin was proved
  $ grep -c 'refused: high_main/once: .*; its twin is proved' said
  1

#!/usr/bin/env bash
# Nothing is assumed: no hole, no axiom, and no entry point asks anything of its caller.
status=0
fail() { # WHY
  echo "$1"
  status=1
}
grep -rnE '(^|[ (])\?[a-z]*$|= \?$' crates --include='*.antt' --exclude-dir=out && fail "a hole"
grep -rnE '^ *axiom ' crates --include='*.antt' --exclude-dir=out && fail "an axiom"

# The libraries whose calls a user makes. Their entry points are what lib.rt declares as `pub fn` or hands on by `pub use`: of a module of its
# own, or of a library that stands here too. A call of a `pub mod` that lib.rt does not hand on is for the crates above, and may ask something.
libraries=" field word interleave cross record frame link reader "
entry() { # LIBRARY FILE CALL
  local contract
  contract=$(sed -n "/^pub fn $3[<(]/,/^{/p" "$2" 2>/dev/null)
  [ -n "$contract" ] || fail "$3 of $1 is not declared in $2"
  ! grep -q requires <<<"$contract" || fail "$3 of $1 has a requires"
  grep -q ensures <<<"$contract" || fail "$3 of $1 has no promise"
}
# What a file hands on, as lines `FROM CALL`: of `pub use FROM::{A, b, c};`, on one line or on several, the names that are no type's.
handed_on() { # FILE
  local from names name
  tr '\n' ' ' <"$1" | grep -oE 'pub use [a-z_]+::(\{[^}]*\}|[A-Za-z_0-9]+);' | sed -E 's/^pub use ([a-z_]+)::(.*);$/\1 \2/; s/[{},]/ /g' |
    while read -r from names; do
      for name in $names; do
        case $name in [a-z]*) echo "$from $name" ;; esac
      done
    done
}
for library in $libraries; do
  source=crates/$library/src
  calls=$(
    sed -nE 's/^pub fn ([a-z_0-9]+).*/lib \1/p' "$source/lib.rt"
    handed_on "$source/lib.rt"
  )
  [ -n "$calls" ] || fail "$library has no entry point"
  while read -r from call; do
    if [ -f "$source/$from.rt" ]; then
      entry "$library" "$source/$from.rt" "$call"
    elif [[ $libraries != *" $from "* ]]; then
      fail "$library hands on $call of $from, which is not among the libraries that are looked at"
    fi
  done <<<"$calls"
  # A method of a type that a user holds is an entry point too.
  awk '/^    pub fn /, /^    [{]/' "$source"/*.rt | grep requires && fail "a method of $library has a requires"
done

# C cannot be held to a `requires`, and no call for C, nor what it shows an answer by, is without a promise.
grep -n requires crates/radio/src/*.rt && fail "a call for C has a requires"
functions=$(cat crates/radio/src/*.rt | grep -cE '^(pub )?(extern "C" )?fn ')
promises=$(cat crates/radio/src/*.rt | grep -c '^    ensures { ')
[ "$functions" -eq "$promises" ] || fail "radio has $promises promises of $functions functions"
conversions=$(cat crates/radio/src/*.rt | grep -c '^impl From<')
promises=$(cat crates/radio/src/*.rt | grep -c '^    ghost from_gives = ')
[ "$conversions" -eq "$promises" ] || fail "radio has $promises promises of $conversions conversions"
grep -q '^pub extern "C" fn ' crates/radio/src/*.rt || fail "radio has no call for C"
exit $status

#!/usr/bin/env bash
# The bench reader on files: it catches a text that is not the paper's, a status that is not 0, and a program that waits for an input to end.
# tests/bench/*.in are inputs and *.out their texts, written by the model in tests/bench/cases.py. Where python3 is there (Debian's package
# is enough), the model is also asked about random inputs.
set -u
cd "$(dirname "$0")/.." || exit 2
status=0
program=$PWD/crates/bench/out/bench

# `rt ci` and `rt run` leave the program there. One that is older than something that it is made of is built again.
if [ ! -x "$program" ] || [ -n "$(find crates.txt crates/*/src crates/*/specs crates/*/proofs -newer "$program" -print -quit)" ]; then
  (cd crates/bench && rt run </dev/null >/dev/null 2>&1) || { echo "bench is not proved"; exit 1; }
fi
said=$(mktemp)
trap 'rm -f "$said"' EXIT

# what the program says is the expected text, and its status is 0
held_to() { # CASE EXPECTED STATUS
  if [ "$3" -ne 0 ]; then
    echo "bench ended with status $3 on $1"
    status=1
  elif ! cmp -s "$said" "$2"; then
    echo "bench does not say on $1 what it is to say"
    status=1
  fi
}

for input in tests/bench/*.in; do
  timeout 60 "$program" <"$input" >"$said"
  held_to "$input" "${input%.in}.out" $?
done

# Input without an end: zeros are a refused setting, `yes` too, and a setting that stands has a wrong total.
timeout 60 "$program" </dev/zero >"$said"
held_to "endless zeros" tests/bench/refused_1.out $?
yes | timeout 60 "$program" >"$said"
held_to "endless lines" tests/bench/refused_1.out "${PIPESTATUS[1]}"
cat tests/bench/example.in /dev/zero 2>/dev/null | timeout 60 "$program" >"$said"
held_to "a frame without an end" tests/bench/refused_2_long.out "${PIPESTATUS[1]}"

if command -v python3 >/dev/null; then
  PYTHONDONTWRITEBYTECODE=1 python3 tests/bench/compare.py 300 1 "$program" >"$said" || { cat "$said"; status=1; }
fi
exit $status

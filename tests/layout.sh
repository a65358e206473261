#!/usr/bin/env bash
# Every file of Rattle and antt is in the formatter's layout. `rt fmt` would write it; the formatter below it only tells, as `rt ci` has it do.
set -u
cd "$(dirname "$0")/.." || exit 2
mapfile -t files < <(find crates -name out -prune -o -type f \( -name '*.rt' -o -name '*.antt' \) -print)
"$(dirname "$(rt doc)")/bin/rattle" fmt --check "${files[@]}"

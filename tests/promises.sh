#!/usr/bin/env bash
# docs/PROMISES.md names every public call of every library, its methods too, and every must-fail edit.
status=0
for source in crates/*/src/*.rt; do
  crate=${source#crates/}
  crate=${crate%%/*}
  [ -f "crates/$crate/src/lib.rt" ] || continue
  for call in $(sed -nE 's/^ *pub (extern "C" )?fn ([a-z_0-9]*).*/\2/p' "$source"); do
    grep -qE "\`([A-Za-z_]+::)*$call[(\`]" docs/PROMISES.md || { echo "docs/PROMISES.md does not name $call of $crate"; status=1; }
  done
done
for edit in crates/*/must-fail/*.edit; do
  label=$(basename "$edit" .edit)
  grep -q "\`$label\`" docs/PROMISES.md || { echo "docs/PROMISES.md does not name the edit $label"; status=1; }
done
exit $status

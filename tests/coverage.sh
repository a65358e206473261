#!/usr/bin/env bash
# The tables of docs/COVERAGE.md: every setting is within the paper's limits, and each run, time, gap, delay and distance follows from it.
# It would catch a row that was changed by hand in one column only.
awk -F' *\\| *' '
function bad(why) { print "docs/COVERAGE.md, line " NR ": " why; status = 1 }
function same(i, want) { if ($i != want) bad($i " should be " want) }
function times(i, run,   k) { for (k = 1; k <= 4; k++) same(i + k - 1, sprintf("%.1f ms", run * 8000 / rate[k])) }
BEGIN { split("1200 4800 9600 19200", rate, " "); split("5 10 12", knots, " ") }
/^## / { table = $0 }
!/^\| [0-9]/ { next }
{ rows[table]++ }
table == "## Frames" {
  J = $2; n = $3; r = $4; t = int(r / 2)
  if (J < 1 || J > 16 || r < 2 || r > 16 || n <= r || n > 255 || J * (n - r) < 4) bad("no setting of a frame")
  same(5, t); same(6, n * J); same(7, J * (n - r) - 4); same(8, J * t); times(9, J * t)
}
table == "## Delay lines" {
  I = $2; M = $3; n = $4; r = $5; t = int(r / 2); delay = (I - 1) * M * I
  if (I < 2 || I > 16 || M < 1 || M > 128 || n % I || M * I < n || r < 2 || r > 16 || n <= r || n > 255) bad("no setting of a line")
  same(6, t); same(7, I * t); times(8, I * t); same(12, n + delay); same(13, delay); same(14, sprintf("%.2f s", delay * 8 / 9600))
}
table == "## How far a tug goes meanwhile" {
  for (k = 1; k <= 4; k++) {
    s = $2 * 8 / rate[k] * 1852 / 3600
    same(2 + k, sprintf("%.2f / %.2f / %.2f", s * knots[1], s * knots[2], s * knots[3]))
  }
}
END {
  if (rows["## Frames"] < 1 || rows["## Delay lines"] < 1 || rows["## How far a tug goes meanwhile"] < 1) bad("a table is missing")
  exit status
}' docs/COVERAGE.md

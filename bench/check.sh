#!/usr/bin/env bash
# Mean processor time of `kr check` on a table of fifteen modes, accepted and rejected, over 200 runs of the program each.
# Build first, by `./build`. The time is user and system time of the whole process, start and reading included.
set -eu
top=$(cd "$(dirname "${BASH_SOURCE[0]}")/.." && pwd)
for table in fifteen-modes-accepted fifteen-modes-rejected; do
  seconds=$({ TIMEFORMAT='%U %S'; time for _ in $(seq 200); do "$top/crates/kr/out/kr" check "$top/bench/$table.toml" >/dev/null || true; done; } 2>&1)
  echo "$table: $(echo "$seconds" | awk '{ printf "%.2f", ($1 + $2) * 1000 / 200 }') ms of processor time"
done

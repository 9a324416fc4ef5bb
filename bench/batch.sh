#!/usr/bin/env bash
# Wall time and processor time of `kr judge @kvl` on 4,096 scripts of 50 steps, on 1, 2 and 4 processors: the best of 20
# runs of the whole process, reading included. The scripts are the same each time. Build first, by `./build`.
set -eu
top=$(cd "$(dirname "${BASH_SOURCE[0]}")/.." && pwd)
kr=$top/crates/kr/out/kr
folder=$(mktemp -d)
trap 'rm -r "$folder"' EXIT

"$top/bench/many-scripts.sh" "$folder" 4096

# The least wall time of 20 runs on these processors, and the processor time of that run.
best() {
  local processors=$1
  shift
  for _ in $(seq 20); do
    { TIMEFORMAT='%R %U %S'; time taskset -c "$processors" "$kr" judge @kvl "$@" >/dev/null 2>&1 || true; } 2>&1
  done | sort -n | head -n 1 | awk '{ printf "%.0f ms of wall time, %.0f ms of processor time", $1 * 1000, ($2 + $3) * 1000 }'
}

cd "$folder"
echo "verdicts: $("$kr" judge @kvl *.json | grep -c '"verdict":\["serial"\]') of 4096 serial"
for processors in 0 0,1 0-3; do
  echo "processors $processors: $(best "$processors" *.json)"
done

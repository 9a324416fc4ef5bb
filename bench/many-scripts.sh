#!/usr/bin/env bash
# Writes scripts of 50 steps: bench/many-scripts.sh FOLDER COUNT. The same count always gives the same scripts.
set -eu

# Four transactions at a time over 16 keys in the opening index and the keys between; a number that has ended is
# followed by the next one. The four that are left commit at the end.
awk -v folder="$1" -v last_script="$2" '
  function below(n) { x = (x * 16807) % 2147483647; return int(x / 65536) % n }
  function add(step) { steps = steps (count++ ? "," : "") "[" step "]" }
  BEGIN {
    x = 1
    for (k = 10; k <= 160; k += 10) opening = opening (k > 10 ? "," : "") "[" k "," k + 1 "]"
    for (script = 1; script <= last_script; script++) {
      steps = ""; count = 0; last = 4
      for (slot = 0; slot < 4; slot++) { txn[slot] = slot + 1; going[slot] = 0 }
      while (count < 46) {
        slot = below(4); me = txn[slot]; key = 5 * (1 + below(34)); kind = below(20)
        if (going[slot] > 0) { add(me ",\"go\""); going[slot]-- }
        else if (kind < 8) add(me ",\"fetch\"," key)
        else if (kind < 12) add(me ",\"insert\"," key "," count)
        else if (kind < 15) add(me ",\"delete\"," key)
        else if (kind < 18) { add(me ",\"scan\"," key "," key + 15); going[slot] = 2 }
        else { add(me ",\"commit\""); txn[slot] = ++last }
      }
      for (slot = 0; slot < 4; slot++) add(txn[slot] ",\"commit\"")
      file = sprintf("%s/%07d.json", folder, script)
      printf "{\"format\":1,\"opening\":[%s],\"steps\":[%s]}\n", opening, steps > file
      close(file)
    }
  }'

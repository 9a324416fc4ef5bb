#!/usr/bin/env bash
# How long scripts of 50 steps take: as many little files and packed in parts, on 1, 2 and 4 processors, and one process for
# each: bench/scale.sh [COUNT], 20,000 if none is given. Wall time and processor time of one run each, in seconds.
set -eu
top=$(cd "$(dirname "${BASH_SOURCE[0]}")/.." && pwd)
count=${1:-20000}
folder=$(mktemp -d)
trap 'rm -r "$folder"' EXIT
PATH=$top/crates/kr/out:$top/contrib/scale:$PATH

measure() { # measure NAME COMMAND..
  local name=$1
  shift
  { TIMEFORMAT='%R s of wall time, %U + %S s of processor time'; time "$@" >/dev/null 2>&1; } 2>&1 | sed "s|^|$name: |"
}

names() { find scripts -name '*.json' -print0 | sort -z | head -z -n "${1:-$count}"; }
files() { names | taskset -c "$1" xargs -0 -n 1000 kr judge @kvl; }
parts() { printf '%s\0' parts/*.tar | xargs -0 -P "$1" --process-slot-var=SLOT -I {} sh -c 'taskset -c $SLOT part "$1" kr judge @kvl' sh {}; }
each() { names 2000 | taskset -c 0 xargs -0 -n 1 kr judge @kvl; }
stream() { taskset -c 0 tar -xf "$1" --to-command 'kr judge @kvl /dev/stdin'; }
packed() { names | pack 1000 parts; }

cd "$folder"
mkdir scripts
measure "write $count little files" "$top/bench/many-scripts.sh" scripts "$count"
echo "bytes: $(du -sb scripts | cut -f1), on the disk: $(du -s -B1 scripts | cut -f1)"
measure 'pack them in parts of 1,000' packed
for processors in 0 0,1 0-3; do measure "kr judge on files, processors $processors" files "$processors"; done
for tmp in "$folder" /dev/shm; do
  for at_once in 1 2 4; do
    rm -f parts/*.out
    TMPDIR=$tmp measure "parts, $at_once at once, unpacked on ${tmp/"$folder"/the disk}" parts "$at_once"
  done
done
merge parts | tail -n 1
measure 'a process for each file, 2,000' each
names 2000 | tar --null -T - -cf two.tar
measure 'a process for each file of an archive, 2,000' stream two.tar

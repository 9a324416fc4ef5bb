#!/usr/bin/env bash
# A job for continuous integration: holds a table, and what each script of a folder does under it.
#
#     job.sh KR TABLE SCRIPTS [--store]
#
# KR is the program, crates/kr/out/kr. Beside SCRIPTS/NAME.json stands NAME.report, what `kr run` printed when somebody last
# looked at it; --store writes these. Status 0 where all is as it was; 1 where the table is rejected, a run isn't
# serializable, a report differs, a step is refused, or a transaction doesn't end; 2 at a fault of a file.
set -uo pipefail
kr=$1 table=$2 scripts=$3 worst=0

# Keeps the worst status.
note() { [ "$1" -le "$worst" ] || worst=$1; }

wrong() {
  echo "$*" >&2
  note 1
}

"$kr" check "$table" >/dev/null
note $?
for script in "$scripts"/*.json; do
  stored=${script%.json}.report
  report=$("$kr" run "$table" "$script")
  status=$?
  note "$status"
  [ "$status" -lt 2 ] || continue
  if [ "${4-}" = --store ]; then
    echo "$report" >"$stored"
  else
    diff "$stored" - <<<"$report" >&2 || wrong "$script: another report"
  fi
  [[ $report == *'"unfinished":[]'* ]] || wrong "$script: a transaction doesn't end"
  [[ $report != *'["refused",'* ]] || wrong "$script: a step is refused"
done
exit "$worst"

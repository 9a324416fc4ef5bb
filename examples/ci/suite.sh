#!/usr/bin/env bash
# A job for continuous integration: does the tests of a table on an engine, as docs/SUITE.md has them.
#
#     suite.sh KR TABLE ADAPTER [WORD..]
#
# KR is the program, crates/kr/out/kr. ADAPTER is called with the words: it reads the suite of TABLE, does its steps on the engine, and
# prints each with the engine's reply. It may leave out the parts with a step `back`. Prints the report of each part that fails, and
# how many parts were done. Status 0 where each reply is the table's, whatever entries the suite leaves; 1 where one differs; 2 at a
# fault of the table or of what the adapter prints, where it fails, or where it leaves out a step.
set -uo pipefail
kr=$1 table=$2
shift 2

fault() {
  echo "suite.sh: $*" >&2
  exit 2
}

# How many steps the parts without a step `back` have.
steps() { awk '/^{/ { all += back ? 0 : n; n = back = 0 } /^\[/ { n++ } /"back"/ { back = 1 } END { print all + (back ? 0 : n) }' <<<"$1"; }

suite=$("$kr" suite "$table")
[ $? -le 1 ] || exit 2
trace=$("$@" <<<"$suite") || fault "$1 ends with status $?"
report=$("$kr" trace "$table" /dev/stdin <<<"$trace")
status=$?
grep -ve '^$' -e '"conforms":\["yes"\].*"verdict":\["serial"\]' <<<"$report"
[ $status -le 1 ] || exit 2
echo "suite.sh: $(grep -c '^{' <<<"$report") of $(grep -c '^{' <<<"$suite") parts of the suite are done"
[ $status -eq 1 ] || [ "$(steps "$trace")" -ge "$(steps "$suite")" ] || fault "$1 leaves out a step"
exit $status

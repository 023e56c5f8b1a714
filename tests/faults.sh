#!/usr/bin/env bash
# The listing programs where a read or a write is interrupted, cut short or fails: standard output and standard error, byte for byte.
set -eu
cd "$(dirname "$0")/.."
for program in radarlist packetlist; do
  built=crates/$program/out/$program
  [ -x "$built" ] || { echo "faults: $built is not there: rt ci, or rt run in crates/$program"; exit 1; }
done
work=$(mktemp -d) && trap 'rm -rf "$work"' EXIT
cc -std=c11 -Wall -Wextra -Werror -shared -fPIC -o "$work/faults.so" tests/faults.c
: >"$work/none"
cases=0

# expect WHAT PROGRAM OUTPUT MESSAGE: the last run's standard output is the file OUTPUT, its standard error the line MESSAGE, or empty.
expect() {
  if [ -n "$4" ]; then echo "$2: $4" >"$work/message"; else : >"$work/message"; fi
  cmp "$work/out" "$3" && cmp "$work/err" "$work/message" || { echo "faults: $2, $1"; head -c 300 "$work/err"; exit 1; }
  cases=$((cases + 1))
}

# faulty READS WRITES PROGRAM CAPTURE: a run with these calls (see faults.c).
faulty() {
  : >"$work/out"
  READ=$1 WRITE=$2 LD_PRELOAD=$work/faults.so "crates/$3/out/$3" <"$4" >>"$work/out" 2>"$work/err"
}

unread="standard input cannot be read"
unwritten="standard output cannot be written"

for pair in radarlist:sirad-mix packetlist:mmwave-points; do
  program=${pair%:*}
  built=crates/$program/out/$program
  capture=captures/${pair#*:}.bin
  listing=captures/${pair#*:}.txt
  none=$work/none
  head -c 10 "$listing" >"$work/ten"

  "$built" </tmp >"$work/out" 2>"$work/err"
  expect "a directory as input" "$program" "$none" "$unread"
  "$built" <&- >"$work/out" 2>"$work/err"
  expect "standard input closed" "$program" "$none" "$unread"
  : >"$work/out"
  "$built" <"$capture" >/dev/full 2>"$work/err"
  expect "a full device as output" "$program" "$none" "$unwritten"
  "$built" <"$capture" >&- 2>"$work/err"
  expect "standard output closed" "$program" "$none" "$unwritten"
  exec 3> >(exec true) && wait $!
  (trap '' PIPE && "$built" <"$capture" >&3 2>"$work/err")
  expect "a pipe that nobody reads" "$program" "$none" "$unwritten"

  faulty "" "" "$program" "$capture"
  expect "no fault" "$program" "$listing" ""
  faulty "intr" "" "$program" "$capture"
  expect "the first read interrupted" "$program" "$listing" ""
  faulty "3 intr*7 1 intr 100" "" "$program" "$capture"
  expect "reads short and interrupted" "$program" "$listing" ""
  faulty "intr*999999 5 intr*999999" "" "$program" "$capture"
  expect "all tries but one interrupted, twice" "$program" "$listing" ""
  faulty "intr*1000000" "" "$program" "$capture"
  expect "every try of the first read interrupted" "$program" "$none" "$unread"
  faulty "10 intr*1000000" "" "$program" "$capture"
  expect "every try of the second read interrupted" "$program" "$none" "$unread"
  faulty "io" "" "$program" "$capture"
  expect "the first read fails" "$program" "$none" "$unread"
  faulty "$(($(stat -c %s "$capture") / 2)) io" "" "$program" "$capture"
  expect "half a capture, then a failed read" "$program" "$none" "$unread"
  faulty "intr 5 intr io" "" "$program" "$capture"
  expect "an interrupted read, then a failed one" "$program" "$none" "$unread"

  faulty "" "intr" "$program" "$capture"
  expect "the first write interrupted" "$program" "$listing" ""
  faulty "" "1*20" "$program" "$capture"
  expect "writes of one byte" "$program" "$listing" ""
  faulty "" "5 intr*3 7 intr 1" "$program" "$capture"
  expect "writes short and interrupted" "$program" "$listing" ""
  faulty "" "intr*999999 5 intr*999999" "$program" "$capture"
  expect "all tries but one interrupted, twice" "$program" "$listing" ""
  faulty "" "intr*1000000" "$program" "$capture"
  expect "every try of the first write interrupted" "$program" "$none" "$unwritten"
  faulty "" "io" "$program" "$capture"
  expect "the first write fails" "$program" "$none" "$unwritten"
  faulty "" "4 intr 6 io" "$program" "$capture"
  expect "ten bytes written, then a failed write" "$program" "$work/ten" "$unwritten"
  faulty "" "10 0" "$program" "$capture"
  expect "ten bytes written, then a write that takes none" "$program" "$work/ten" "$unwritten"
  faulty "io" "intr 2 intr*2 3*2" "$program" "$capture"
  expect "a failed read, and its line in short and interrupted writes" "$program" "$none" "$unread"
done
echo "faults: $cases runs with failed, interrupted and short calls as expected"

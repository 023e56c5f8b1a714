#!/usr/bin/env bash
# The listing programs, as rt ci proved and built them, beside an independent reader and on the sample captures.
set -eu
cd "$(dirname "$0")/.."
for program in radarlist packetlist; do
  built=crates/$program/out/$program
  [ -x "$built" ] || { echo "listing: $built is not there: rt ci, or rt run in crates/$program"; exit 1; }
done
python3 tests/listing.py
for listing in captures/*.txt; do
  capture=${listing%.txt}.bin
  # No listing program reads vital signs: tests/host.sh has their rows.
  case $capture in *mmwave*) program=packetlist ;; *vital-signs*) continue ;; *) program=radarlist ;; esac
  "crates/$program/out/$program" <"$capture" | cmp - "$listing" || { echo "listing: $program on $capture"; exit 1; }
done

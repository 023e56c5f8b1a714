#!/usr/bin/env bash
# Builds target/staticlib/libvellanquor.a: all functions of host/include/vellanquor.h, from the crates as they are proved.
# The faces are static libraries of their own, each with all that it calls, and stay apart inside: one object each.
set -eu
cd "$(dirname "$0")/.."
faces="gateway readings feeder fields_sirad fields_sirad_write fields_packet fields_command door"
work=$(mktemp -d) && trap 'rm -rf "$work"' EXIT

built=target/staticlib
mkdir -p $built
script="create $work/libvellanquor.a"
# One after the other: rt lets only one run at a time into a crate, and the faces share the crates below them. They are for every x86-64
# processor, since a library can't refuse to start on one that lacks what rt otherwise counts on.
for face in $faces; do
  (cd "crates/$face" && rt lib --cpu=x86-64) >"$work/log" 2>&1 || { cat "$work/log"; exit 1; }
  script="$script
addlib crates/$face/out/lib$face.a"
done
printf '%s\nsave\nend\n' "$script" | ar -M

# Each name that leaves the archive is one of ours, once; from outside it needs the two that every C compiler counts on.
names=$(nm -g "$work/libvellanquor.a" | grep -E ' [A-Z] ' | grep -v -E ' U mem(cpy|set)$')
if grep -v ' T vq_' <<<"$names" || awk '{ print $3 }' <<<"$names" | sort | uniq -d | grep .; then
  echo "archive: the names above do not belong in libvellanquor.a"
  exit 1
fi
mv "$work/libvellanquor.a" $built

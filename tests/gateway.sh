#!/usr/bin/env bash
# The C face's library, from the crates just proved, linked to C: its answers at every refusal and state, and on the captures of
# capture_cases.
set -eu
cd "$(dirname "$0")/.."
host/archive.sh
work=$(mktemp -d) && trap 'rm -rf "$work"' EXIT
for program in gateway feeding fields close captures; do
  cc -std=c11 -Wall -Wextra -Werror -I "${INCLUDE:-host/include}" -o "$work/$program" tests/$program.c target/staticlib/libvellanquor.a
done
for program in gateway feeding fields close; do
  "$work/$program" | diff tests/$program.out - || { echo "gateway: the answers differ from tests/$program.out"; exit 1; }
done
expected=tests/expected/capture_cases.py captures=crates/capture_cases/stdin
python3 $expected host >"$work/expected"
"$work/captures" <$captures | diff "$work/expected" - || { echo "gateway: the answers on $captures differ from $expected host"; exit 1; }
echo "gateway: the C programs' answers agree"

#!/usr/bin/env bash
# Each program's stdout file must be what the independent script of the same name computes from the papers' rules.
set -u
cd "$(dirname "$0")/.." || exit 2
failed=0
for script in tests/expected/*.py; do
  [ -f "$script" ] || continue
  name=$(basename "$script" .py)
  if python3 "$script" | cmp - "crates/$name/stdout"; then
    echo "expected: $name agrees"
  else
    echo "expected: $script and crates/$name/stdout differ"
    failed=1
  fi
done
exit $failed

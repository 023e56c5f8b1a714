#!/usr/bin/env bash
# Each wrong answer of the must-fail edits is refused by itself.
exec python3 "$(dirname "$0")/must_fail.py"

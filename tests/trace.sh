#!/usr/bin/env bash
# Fails if docs/TRACE.md names a definition, theorem, function, edit or file that does not exist.
exec python3 "$(dirname "$0")/trace.py"

#!/usr/bin/env bash
# Fails if the phase of a character is worked out with a division, a call, a loop or a table, in machine code or source.
exec python3 "$(dirname "$0")/machine_code.py"

#!/usr/bin/env bash
# Lines that fit a page, wrong answers in one spelling, and no public function that asks its caller for something.
exec python3 "$(dirname "$0")/layout.py"

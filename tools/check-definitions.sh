#!/usr/bin/env bash
# Tells which definitions the public clauses rest on, and whether each crate that divides its definitions does so rightly.
set -u
command -v python3 >/dev/null || { echo "check-definitions: skipped, there is no python3"; exit 0; }
exec "$(dirname "$0")/definitions.py"

#!/bin/sh
# What the gate costs, crate by crate: see gate.py. What was measured last is in README.md, 'What the gate costs'.
exec python3 "$(dirname "$0")/gate.py" "$@"

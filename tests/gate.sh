#!/bin/sh
# The gate: `tests/gate.sh` is the short run, which CI calls, and `tests/gate.sh --all` the full one. docs/GATE.md says what each
# looks at. The last line is `N passed, M failed`.
exec python3 "$(dirname -- "$0")/gate.py" "$@"

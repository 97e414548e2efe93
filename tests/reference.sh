#!/bin/sh
# The reference in plain Python as a program: `tests/examples.sh tests/reference.sh` has it answer the sessions worked by hand.
# (What tests/examples.sh puts before the C library is for Python itself, and not for a script that finds it.)
preload=$LD_PRELOAD
unset LD_PRELOAD
python=$(python3 -c 'import sys; print(sys.executable)')
LD_PRELOAD=$preload exec "$python" "$(dirname -- "$0")/reference" "$@"

#!/bin/sh
# Answers the stored run of the program in a minute or two, before any proof, and says so; proves the program and every crate below
# it, and tells how far it is; then answers the same run by the proved program. `sh first.sh --try` gives the first answer alone.
# What is proved is kept: a second run gives the proved answer alone, in seconds.
exec python3 "$(dirname -- "$0")/tests/first.py" "$@"

#!/usr/bin/env python3
"""Starts `spand serve` and connects real clients to it: sockets, and the programs of examples/. Each case has a deadline, and no
answer that a case asks for depends on who is quicker. It needs a C compiler, `cc`.

Usage: tests/serve.py [PROGRAM] [--days N] [--seconds S] [--seed SEED]; the program that `rt run` or `rt ci` leaves by default.
As many random days are tried (days.py), or as begin in so many seconds; the first has this seed, and the next the next one.

The last line is `N server tests passed, M failed`.
"""
import argparse
import os
import pathlib
import shutil
import subprocess
import sys
import tempfile
import time

import clients
import days
import serve_examples
import serve_faults
import serve_sessions
import serve_system

SECONDS = 120  # for each case
LEAST_DAYS = 20


def results(program, words):
    """Gives for each test what was wrong, or None."""
    for case in serve_sessions.CASES + serve_faults.CASES + serve_system.CASES + serve_examples.CASES:
        try:
            with clients.deadline(SECONDS):
                case(program)
            yield None
        except (clients.Wrong, OSError, subprocess.CalledProcessError) as fault:
            yield f"{case.__name__}: {fault}"
    with tempfile.TemporaryDirectory() as folder:
        for it in clients.SETS.glob("*.csv"):
            shutil.copy(it, folder)
        pathlib.Path(folder, "BAD.csv").write_text("H,1,BAD\nG,AAA,-1\n", encoding="ascii")
        print(f"days: from seed {words.seed}", flush=True)
        tried = 0
        for fault in days.run(program, folder, words.seed, words.days, words.seconds):
            tried += 1
            yield fault
        if tried < min(words.days, LEAST_DAYS):
            yield f"only {tried} days in {words.seconds} seconds"
        print(f"days: {tried}", flush=True)


def main():
    parser = argparse.ArgumentParser(description="Tests the server with real clients.")
    parser.add_argument("program", nargs="?", default=str(clients.TOP / "crates/spand/out/spand"))
    parser.add_argument("--days", type=int, default=100)
    parser.add_argument("--seconds", type=float, default=120)
    parser.add_argument("--seed", type=int, default=int(time.time()))
    words = parser.parse_args()
    passed = failed = 0
    for fault in results(os.path.abspath(words.program), words):
        if fault is None:
            passed += 1
        else:
            failed += 1
            print(f"FAILED: {fault}", flush=True)
    print(f"{passed} server tests passed, {failed} failed")
    return 0 if passed and not failed else 1


if __name__ == "__main__":
    sys.exit(main())

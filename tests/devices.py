#!/usr/bin/env python3
"""Lets each read of standard input, and each write to standard output, fail in turn, one in each run, and lets each write in turn take
nothing. The session then ends by `spand: session READ` with all replies to the lines that were read whole, or by
`spand: session WRITE` with a front of the replies. Reads and writes are of a few bytes each, so that a session
has many. The sessions are those of memory.py, which between them have every command. It needs a C compiler, `cc`.
Usage: tests/devices.py [PROGRAM], by default the program that `rt run` or `rt ci` leaves."""
import os
import subprocess
import sys
import tempfile

import memory

PIECE = 8
FAULTS = {"FAIL_READ": b"spand: session READ\n", "FAIL_WRITE": b"spand: session WRITE\n", "TAKE_NOTHING": b"spand: session WRITE\n"}


class Failing:
    """Runs a program with one call of a device failing."""

    def __init__(self, program, room):
        self.program, self.room, self.failed, self.tried = program, room, 0, 0
        self.before = memory.prepared(room, "failing_io")

    def run(self, name, given, **more):
        env = {**os.environ, "LD_PRELOAD": self.before, "PIECE": str(PIECE), **more}
        words = [self.program, "script", "--dir", self.room, "--set", name]
        return subprocess.run(words, input=given, env=env, capture_output=True)

    def is_right(self, name, given, whole, failing, nth, ran):
        """Returns whether a run whose nth call fails has ended as it must."""
        if ran.returncode != 4 or ran.stderr != FAULTS[failing] or not whole.startswith(ran.stdout):
            return False
        lines = given[: (nth - 1) * PIECE]
        return failing != "FAIL_READ" or ran.stdout == self.run(name, lines[: lines.rfind(b"\n") + 1]).stdout

    def session(self, title, failing, name, lines):
        """Lets each call fail, until there is none of that number."""
        given, nth = b"".join(lines), 1
        whole = self.run(name, given).stdout
        while (ran := self.run(name, given, **{failing: str(nth)})).returncode:
            if not self.is_right(name, given, whole, failing, nth, ran):
                self.failed += 1
                print(f"FAILED: {title}: {failing} {nth}: status {ran.returncode}, {ran.stderr[:200]}, {ran.stdout[-200:]}")
            nth += 1
        is_whole = not ran.stderr and ran.stdout == whole
        self.failed += not is_whole or nth <= len(lines)
        self.tried += nth - 1
        print(f"{nth - 1:4} calls failed ({failing}){'' if is_whole else ', OTHERWISE WHEN NONE DID'}: {title}", flush=True)


def main(words):
    program = os.path.abspath(words[0] if words else f"{memory.STORED}/out/spand")
    known = memory.examples()
    with tempfile.TemporaryDirectory() as room:
        failing = Failing(program, room)
        for title in memory.SESSIONS:
            for it in FAULTS:
                failing.session(title, it, *known[title])
    print(f"{failing.tried} calls of devices, {failing.failed} failed")
    return 1 if failing.failed else 0


if __name__ == "__main__":
    sys.exit(main(sys.argv[1:]))

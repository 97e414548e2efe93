#!/usr/bin/env python3
"""Lets each allocation of a run fail in turn, one in each run, and looks at every reply. Afterwards memory can be had again, and the
session goes on. A run may end with `spand: memory` before its first reply, or with `spand: session MEMORY` and a front of the
replies. Else some lines are answered `ERR 90 MEMORY`, and all others as by the session without these lines. A check of a set ends
with `spand: memory` and a front of what it tells, or tells all.

The sessions are the stored run and some of tests/examples.txt, which between them have every command. How many allocations were
refused is told for each, and must not fall below a floor, some four fifths of what a run tells, so that none of this becomes empty
and a program that asks for less memory still passes. A program of one seat of a service
answers those that come to switch once more by one worker, and by three, who allocate in any order.
It needs a C compiler, `cc`, and an allocator of the C library that can be stood before.
Usage: tests/memory.py [PROGRAM], by default the program that `rt run` or `rt ci` leaves; it has no command `check` where it is a
program of one seat of a service."""
import os
import shutil
import subprocess
import sys
import tempfile

HERE = os.path.dirname(os.path.abspath(__file__))
STORED = f"{HERE}/../crates/spand"
# A desk that cannot be made changes no reply, and two of them take fewer than 300 allocations in a row. Once so many runs in a row
# are whole, no allocation is left to fail.
IN_A_ROW = 300
# By how many workers a seat's switches are worked out, beside on its own thread, and of which sessions: those that switch.
WORKERS = (1, 3)
SWITCHING = (
    "a set without a lot's contract is refused, and one without an order's",
    "a set after the end of the day: its file is read, and then nothing else is looked at",
    "the session of two sets in docs/PROTOCOL.md",
)
MEMORY = b"ERR 90 MEMORY\n"
# The title of a session, and the floor of how many allocations were refused in it.
SESSIONS = {
    "the statement of two lots that spread: scan 60, a spread of two at 40": 180,
    "the statement of an order and of collateral: bills at 9,950 less 3 in 100": 190,
    "fills keep to the limit of their order": 170,
    "each portfolio is asked for room": 170,
    "a transfer between two units, where both have room": 240,
    "a set without a lot's contract is refused, and one without an order's": 380,
    "a set after the end of the day: its file is read, and then nothing else is looked at": 270,
    "drawing classes": 175,
    "totals of origins side by side": 300,
    "the session of two sets in docs/PROTOCOL.md": 300,
}


def examples():
    """Returns the set's name and the lines of each session of tests/examples.txt by its title."""
    found, lines = {}, None
    with open(f"{HERE}/examples.txt", encoding="utf-8") as file:
        for line in file:
            if line.startswith("= "):
                name, title = line[2:].rstrip("\n").split(" ", 1)
                found[title] = (name, lines := [])
            elif " -> " in line and not line.startswith(("#", "@", "|")):
                lines.append(line.split(" -> ")[0].encode() + b"\n")
    return found


def replies(lines, out):
    """Returns the reply of each line, with its further lines, as far as they go."""
    given, rest = [], out.splitlines(keepends=True)
    for line in lines[: len(rest)]:
        if not rest:
            break
        words = rest[0].split()
        more = int(words[2]) if line.startswith(b"STMT ") and words[0] == b"OK" else 0
        given.append(b"".join(rest[: 1 + more]))
        rest = rest[1 + more :]
    return given


def prepared(room, name):
    """Puts the sets of the sessions into a folder, and returns the library of a C file that is to stand before the C library."""
    for folder in (f"{HERE}/../sets", f"{HERE}/sets"):
        for it in os.listdir(folder):
            shutil.copy(f"{folder}/{it}", room)
    subprocess.run(["cc", "-shared", "-fPIC", "-O1", "-o", f"{room}/{name}.so", f"{HERE}/{name}.c"], check=True)
    return f"{room}/{name}.so"


class Refusing:
    """Runs a program with one allocation failing."""

    def __init__(self, program, room):
        self.program, self.before, self.failed, self.tried = program, prepared(room, "failing_alloc"), 0, 0
        self.options = []

    def run(self, command, folder, name, given, nth):
        """Runs a command over a set, with its nth allocation failing, or none."""
        env = {**os.environ, "FAIL_ALLOC": str(nth), "LD_PRELOAD": self.before} if nth else os.environ
        words = [self.program, command, "--dir", folder, "--set", name, *self.options]
        return subprocess.run(words, input=given, env=env, capture_output=True)

    def is_right(self, folder, name, lines, whole, ran):
        """Returns whether a session ended as it may."""
        if ran.returncode == 6:
            return ran.stdout == b"" and ran.stderr == b"spand: memory\n"
        if ran.returncode == 4:
            return ran.stderr == b"spand: session MEMORY\n" and whole.startswith(ran.stdout)
        if ran.returncode or ran.stderr:
            return False
        given = replies(lines, ran.stdout)
        if len(given) != len(lines) or b"".join(given) != ran.stdout:
            return False
        left = [line for line, reply in zip(lines, given) if reply != MEMORY]
        others = b"".join(it for it in given if it != MEMORY)
        return others == self.run("script", folder, name, b"".join(left), 0).stdout

    def each(self, title, floor, is_whole, is_right, runs):
        """Lets each allocation fail, until so many runs in a row are whole."""
        nth = in_a_row = 0
        while in_a_row < IN_A_ROW:
            nth += 1
            ran = runs(nth)
            in_a_row = in_a_row + 1 if is_whole(ran) else 0
            if not in_a_row and not is_right(ran):
                self.failed += 1
                print(f"FAILED: {title}: allocation {nth}: status {ran.returncode}, {ran.stderr[:200]}, {ran.stdout[-200:]}")
        tried = nth - IN_A_ROW
        self.tried += tried
        print(f"{tried:4} allocations refused: {title}", flush=True)
        if tried < floor:
            self.failed += 1
            print(f"FAILED: {title}: no more than {tried} allocations refused, and {floor} is the least", flush=True)

    def session(self, title, floor, folder, name, lines):
        given = b"".join(lines)
        whole = self.run("script", folder, name, given, 0).stdout
        self.each(title, floor, lambda ran: ran.returncode == 0 and ran.stdout == whole,
                  lambda ran: self.is_right(folder, name, lines, whole, ran),
                  lambda nth: self.run("script", folder, name, given, nth))

    def by_workers(self, count, sessions):
        """Lets each allocation of sessions fail whose switches so many workers work out."""
        self.options = ["--workers", str(count)]
        for title, floor, folder, name, lines in sessions:
            self.session(f"by {count} workers: {title}", floor, folder, name, lines)
        self.options = []

    def check(self, floor, folder, name):
        whole = self.run("check", folder, name, b"", 0).stdout
        self.each("a check of a set", floor, lambda ran: ran.returncode == 0 and not ran.stderr and ran.stdout == whole,
                  lambda ran: ran.returncode == 6 and ran.stderr == b"spand: memory\n" and whole.startswith(ran.stdout),
                  lambda nth: self.run("check", folder, name, b"", nth))


def main(words):
    program = os.path.abspath(words[0] if words else f"{STORED}/out/spand")
    with tempfile.TemporaryDirectory() as room, open(f"{STORED}/stdin", "rb") as stored:
        refusing = Refusing(program, room)
        refusing.session("the stored run", 275, f"{STORED}/data", "FUT", stored.readlines())
        known = examples()
        for title, floor in SESSIONS.items():
            refusing.session(title, floor, room, *known[title])
        if os.path.basename(program) == "spand":
            refusing.check(67, room, "FUT")
        else:
            for count in WORKERS:
                refusing.by_workers(count, [(it, SESSIONS[it], room, *known[it]) for it in SWITCHING])
    print(f"{refusing.tried} allocations, {refusing.failed} failed")
    return 1 if refusing.failed else 0


if __name__ == "__main__":
    sys.exit(main(sys.argv[1:]))

"""The gate. Called by tests/gate.sh.

  tests/gate.sh                the short run: proves every crate, runs every test and the program, and tries the edits of the
                               crates of which tests/green.txt does not tell that all were refused, in the time that SHORT gives
  tests/gate.sh --all          the full run: the same, with the edits of all crates, those that tests must catch, and the scripts
                               tried on themselves
  tests/gate.sh --crate NAME.. the proofs and tests of these crates, of all below and of all above them, and the edits of these
  tests/gate.sh --what         says whose edits the short run would try, and does nothing
"""
import math
import os
import re
import shutil
import subprocess
import sys
import tempfile
import threading
import time
from concurrent.futures import ThreadPoolExecutor

import green
import kit
import source

PROGRAM = "spand"
# Answers a script as PROGRAM does, by one seat of a service.
SEAT = "seat_script"
# After so many minutes the short run begins with the edits of no further crate, and names those that it leaves out.
SHORT = 135
COUNTS = r"(\d+) passed, (\d+) failed"
# How the parts mark a line that tells of a failure. At its end the gate says again so many such lines of a part that failed.
MARKS = re.compile(r"\b(FAIL(ED)?|WRONG|DIFFERS?|OTHERWISE|NOT (PROVED|REFUSED|TRIED|CAUGHT)|BAD EDIT)\b")
AGAIN = 10
# (kit_selftest.py first: where another toolchain has other modules, it says so before all else)
ITSELF = ("kit_selftest.py", "edits_selftest.py", "caught_selftest.py", "gate_selftest.py")


def say(text=""):
    print(text, flush=True)


def chosen(repository, mode, names):
    """Returns the crates to prove and test, and those whose edits to try."""
    if mode == "--crate":
        above = {it for it in repository.lines for one in names if it == one or one in repository.below(it)}
        return {one for it in above for one in [*repository.below(it), it]}, {*names} & {*repository.with_edits()}
    if mode == "--all":
        return {*repository.lines}, {*repository.with_edits()}
    told = green.read(repository.top)
    return {*repository.lines}, {it for it, key in repository.keys().items() if it not in told or told[it].key != key}


def copy_of(repository, room):
    """Makes a copy of the repository's files."""
    for it in repository.files:
        os.makedirs(os.path.dirname(f"{room}/{it}"), exist_ok=True)
        shutil.copy(f"{repository.top}/{it}", f"{room}/{it}")


def cut(repository, proved):
    """Leaves in a copy these crates and their edits alone."""
    for name in {*repository.lines} - proved:
        for part in ("crates", "edits"):
            shutil.rmtree(f"{repository.top}/{part}/{name}", ignore_errors=True)
    with open(f"{repository.top}/crates.txt", "w", encoding="utf-8") as it:
        it.writelines(f"{line}\n" for name, line in repository.lines.items() if name in proved)


class Gate:
    """A run over a copy of the repository `top`, which stands in `room`."""

    def __init__(self, top, room):
        self.top, self.room, self.passed, self.failed, self.faults, self.telling = top, room, 0, 0, [], threading.Lock()
        copy_of(green.Repository(top), room)
        self.repository = green.Repository(room)

    def part(self, name, words, counts=COUNTS, hear=lambda line: None):
        """Runs a part of the gate, shows what it says, counts what its last line does, and returns whether it passed."""
        say(f"gate: == {name}")
        how = {"stdin": subprocess.DEVNULL, "stdout": subprocess.PIPE, "stderr": subprocess.STDOUT, "text": True}
        line, marked = "", []
        with subprocess.Popen(words, cwd=self.room, **how, errors="replace") as ran:
            for line in ran.stdout:
                print(line, end="", flush=True)
                hear(line)
                if len(marked) < AGAIN and MARKS.search(line):
                    marked.append(line)
        found = re.search(counts, line)
        passed, failed = (int(found[1]), int(found[2])) if found else (0, 0)
        failed = failed or int(ran.returncode != 0 or not found)
        with self.telling:
            self.passed, self.failed = self.passed + passed, self.failed + failed
            if failed:
                fault = f"gate: FAILED: {name}: status {ran.returncode}"
                say(fault)
                self.faults += [fault, *(it.rstrip("\n") for it in marked or [line])]
        return not failed

    def script(self, name, *words):
        return self.part(" ".join([name, *words]), [sys.executable, f"tests/{name}", *words])

    def scripts(self, is_full):
        """Runs what needs no proof of this repository."""
        for it in ITSELF if is_full else ITSELF[:1]:
            self.script(it)
        self.script("memory_rule.py")
        self.script("work_rule.py")
        self.script("definitions.py", "--brief")
        for it in ("mgn_world::run", "mgn_service::exec", "mgn_service::close"):
            self.script("definitions.py", "--brief", it)
        self.part("sets that tests read", ["tests/sets.sh"], r"(\d+) sets compared, (\d+) differ")
        self.script("bare.py", "--brief")
        self.script("edits.py", "--look")
        self.script("caught.py", "--look")

    def crates(self, proved, tried, until):
        """Proves and tests the crates, runs the program, and tries the edits of some. Returns whether all are proved."""
        keys = self.repository.keys()
        cut(self.repository, proved)
        is_proved = self.part("rt ci", kit.command("ci"))
        if is_proved:
            if PROGRAM in proved:
                self.program(f"{self.room}/crates/{PROGRAM}/out/{PROGRAM}")
            if SEAT in proved:
                self.sessions("through a seat", f"{self.room}/crates/{SEAT}/out/{SEAT}")
            self.edits(tried, keys, until)
        return is_proved

    def program(self, program):
        self.part("faults of the program", ["tests/faults.sh", program])
        self.sessions("of the program", program)
        words = [sys.executable, "tests/serve.py", program]
        self.part("the server", words, r"(\d+) server tests passed, (\d+) failed")

    def sessions(self, whose, program):
        memory = [sys.executable, "tests/memory.py", program]
        self.part(f"refused memory {whose}", memory, r"(\d+) allocations, (\d+) failed")
        devices = [sys.executable, "tests/devices.py", program]
        self.part(f"failing devices {whose}", devices, r"(\d+) calls of devices, (\d+) failed")
        self.part(f"sessions {whose}", ["tests/examples.sh", program], r"(\d+) sessions passed, (\d+) failed")
        self.part(f"large sessions {whose}", ["tests/large.sh", program], r"(\d+) large sessions passed, (\d+) failed")

    def edits(self, tried, keys, until):
        """Tries the edits of these crates, a crate on each processor and those with the most edits first, as long as there is time to
        begin with one, and writes of each that all were refused, unless something failed before."""
        writes, late, processors = not self.failed, [], len(os.sched_getaffinity(0))

        def hear(line):
            told = re.fullmatch(r"(\w+): \d+ edits refused, 0 not\n", line)
            if told and writes:
                with self.telling:
                    green.write(self.top, {told[1]: keys[told[1]]})

        def edits_of(name):
            if time.time() < until:
                jobs = str(max(processors // len(tried), 1))
                words = [sys.executable, "tests/edits.py", "--top", self.room, "--built", "-j", jobs, "--crate", name]
                self.part(f"edits that must fail of {name}", words, hear=hear)
            else:
                late.append(name)

        number = {it: sum(file.startswith(f"edits/{it}/") for file in self.repository.files) for it in tried}
        with ThreadPoolExecutor(processors) as pool:
            list(pool.map(edits_of, sorted(tried, key=lambda it: -number[it])))
        if late:
            say(f"gate: NO TIME LEFT: edits not tried: of {' '.join(it for it in self.repository.lines if it in late)}")

    def tell_faults(self):
        """Says once more what failed: who reads a long run's end has it there."""
        if self.faults:
            say("\n".join(["gate: what failed:", *self.faults]))


def run(mode, names):
    began, repository = time.time(), green.Repository(source.TOP)
    proved, tried = chosen(repository, mode, names)
    named = lambda crates, none: " ".join(it for it in repository.lines if it in crates) or none
    say(f"gate: proved and tested: {'every crate' if proved == {*repository.lines} else named(proved, 'no crate')}")
    say(f"gate: edits tried: of {named(tried, 'no crate')}")
    say(f"gate: edits not tried: of {named({*repository.with_edits()} - tried, 'no crate')}")
    if mode == "--what":
        return 0
    with tempfile.TemporaryDirectory(prefix="gate-") as room:
        gate = Gate(source.TOP, room)
        gate.scripts(tried == {*repository.with_edits()})
        is_proved = gate.crates(proved, tried, began + SHORT * 60 if not mode else math.inf)
        if is_proved and mode == "--all":
            gate.script("caught.py")
    gate.tell_faults()
    say(f"gate: {(time.time() - began) / 60:.0f} minutes on {len(os.sched_getaffinity(0))} processors")
    say(f"{gate.passed} passed, {gate.failed} failed")
    return 1 if gate.failed else 0


def main(words):
    mode, names = (words or [""])[0], words[1:]
    if mode not in ("", "--all", "--crate", "--what") or bool(names) != (mode == "--crate"):
        say(__doc__)
        return 2
    unknown = [it for it in names if it not in green.Repository(source.TOP).lines]
    if unknown:
        say(f"crates.txt names no {' '.join(unknown)}")
        return 2
    return run(mode, names)


if __name__ == "__main__":
    sys.exit(main(sys.argv[1:]))

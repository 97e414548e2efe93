#!/usr/bin/env python3
"""Tries the edits that tests must catch, caught/*.edit: each is a wrong body that no contract refuses, since it only wastes work,
waits where it need not, or answers by a refusal that may come at any time. A test must fail with it.

An edit is a file with these lines, and no others:
  tests: CRATE                     whose tests are run
  fails: NAME                      a test of it that must fail, named as `rt try --test` does; may be repeated
  file: crates/BELOW/src/lib.rt    a file of a crate on which CRATE stands
  old: TEXT                        what stands there once
  new: TEXT                        what stands there instead. Further pairs, and files, apply to what the earlier ones made

Each is applied to a copy of the repository, in which `rt try --test` runs the tests, and proves nothing. The tests of each CRATE
are run without an edit too, and must pass. What is said of an edit:
  CAUGHT NAME        each of its tests failed; what follows is how the first did
  NOT CAUGHT NAME    one of them passed
  BAD EDIT NAME      it cannot be applied, or does not compile
  NOT TRIED NAME     the tests fail without it, or did not come to an end

  NAME..        these edits alone
  -j N          N runs side by side; by default one a processor
  --top DIR     the repository
  --look        run nothing: say which edits cannot be applied
The last line is `N passed, M failed`; each CRATE without an edit counts as one.
"""
import argparse
import os
import re
import subprocess
import sys
import tempfile
import time
from collections import namedtuple
from concurrent.futures import ThreadPoolExecutor

import edits
import gate
import green
import source
from edits import Bad

FOLDER = "caught"
FILE = re.compile(r"crates/(\w+)/src/\S+\.rt")
# What is said of a test: its name, how it ended and, where it failed, why.
TEST = re.compile(r"(?m)^test (\S+) \.\.\. (\w+)\n(?:[ \t]+(.*)\n)?")

# tests: the crate whose tests are run; fails: those that must fail; pairs: (path, old, new)
Edit = namedtuple("Edit", "name tests fails pairs")
# verdicts: of each test whether it is ok, and what else is said; is_ended: whether all of them were run
Ran = namedtuple("Ran", "status text verdicts is_ended minutes")


def read_edit(top, name):
    """Returns the edit as its file has it."""
    tests, fails, path, old, pairs = "", [], "", None, []
    with open(f"{top}/{FOLDER}/{name}.edit", encoding="utf-8") as it:
        lines = it.read().splitlines()
    for line in lines:
        word, _, text = line.partition(":")
        text = text.removeprefix(" ")
        if word == "tests" and not tests:
            tests = text
        elif word == "fails":
            fails.append(text)
        elif word == "file":
            path = text
        elif word == "old" and path and text and old is None:
            old = text
        elif word == "new" and old is not None:
            pairs.append((path, old, text))
            old = None
        else:
            raise Bad(f"a line is not one of those that there may be, or not in its place: {line[:80]!r}")
    if not (tests and fails and pairs) or old is not None:
        raise Bad("it wants lines 'tests:', 'fails:' and 'file:', and pairs of 'old:' and 'new:'")
    return Edit(name, tests, fails, pairs)


def tests_of(folder):
    """Returns the names of the functions of a crate, as its tests are named."""
    standing = source.functions_of(folder)
    return {"::".join([*source.module_of(path), *it.module, it.name]) for path, found in standing.items() for it in found or []}


def look(repository, edit):
    """Fails where the edit cannot be applied, or nothing can come of it."""
    if edit.tests not in repository.lines:
        raise Bad(f"crates.txt names no {edit.tests}")
    missing = [it for it in edit.fails if it not in tests_of(f"{repository.top}/crates/{edit.tests}")]
    if missing:
        raise Bad(f"{edit.tests} has no {missing[0]}")
    for path, _, _ in edit.pairs:
        found = FILE.fullmatch(path)
        if not found or os.path.normpath(path) != path or found[1] not in repository.below(edit.tests):
            raise Bad(f"{path} is no file of a crate on which {edit.tests} stands")
    edits.apply([edit], repository.top)


def read_all(repository, names):
    """Returns the edits that can be applied, and what to say of those that cannot."""
    good, bad = [], []
    for name in names:
        try:
            edit = read_edit(repository.top, name)
            look(repository, edit)
            good.append(edit)
        except (Bad, OSError, UnicodeDecodeError) as why:
            bad.append(f"BAD EDIT {name}: {why}")
    return good, bad


def run_tests(repository, crate, texts):
    """Runs the tests of a crate in a copy of the repository with these texts in place of its own."""
    began = time.time()
    with tempfile.TemporaryDirectory(prefix="caught-") as room:
        gate.copy_of(repository, room)
        for path, text in texts.items():
            with open(f"{room}/{path}", "w", encoding="utf-8") as it:
                it.write(text)
        how = {"stdin": subprocess.DEVNULL, "stdout": subprocess.PIPE, "stderr": subprocess.STDOUT, "text": True}
        words = ["rt", "try", "--test"]
        ran = subprocess.run(words, cwd=f"{room}/crates/{crate}", **how, errors="replace", check=False)
    verdicts = {name: (verdict == "ok", why) for name, verdict, why in TEST.findall(ran.stdout)}
    is_ended = bool(verdicts) and "\ntest result: " in ran.stdout
    return Ran(ran.returncode, ran.stdout, verdicts, is_ended, (time.time() - began) / 60)


def said_by(ran):
    """Returns the first error of a run, or else how it ended."""
    lines = ran.text.splitlines() or [""]
    return next((it for it in lines if ": error" in it or it.startswith("error")), lines[-1])[:200]


def judge(edit, ran, unedited):
    """Returns whether the tests caught the edit, and what to say of it."""
    if not (unedited.is_ended and unedited.status == 0):
        return False, f"NOT TRIED {edit.name}: the tests of {edit.tests} fail without it"
    if not ran.is_ended:
        word = "BAD EDIT" if ran.status == 1 else "NOT TRIED"
        return False, f"{word} {edit.name}: the tests were not run: {said_by(ran)}"
    ends = [ran.verdicts.get(it, (True, "")) for it in edit.fails]
    passed = [name for name, (is_ok, _) in zip(edit.fails, ends) if is_ok]
    if passed:
        return False, f"NOT CAUGHT {edit.name}: passed: {' '.join(passed)}"
    return True, f"CAUGHT {edit.name}: {edit.fails[0]}: {ends[0][1] or 'failed'}"


def try_all(repository, good, jobs):
    """Runs the tests, says what became of each run, and returns of each whether it was as it should be."""
    counted = []

    def tell(is_good, said, ran):
        counted.append(is_good)
        print(f"{said} ({ran.minutes:.1f} minutes)", flush=True)

    with ThreadPoolExecutor(jobs) as pool:
        crates = dict.fromkeys(it.tests for it in good)
        unedited = {it: pool.submit(run_tests, repository, it, {}) for it in crates}
        tried = [(it, pool.submit(run_tests, repository, it.tests, edits.apply([it], repository.top))) for it in good]
        for crate, it in unedited.items():
            ran = it.result()
            is_good = ran.is_ended and ran.status == 0
            if not is_good:
                print(ran.text, end="")
            tell(is_good, f"{crate}: its tests {'pass' if is_good else 'FAIL'} without an edit", ran)
        for edit, it in tried:
            tell(*judge(edit, it.result(), unedited[edit.tests].result()), it.result())
    return counted


def main():
    options = argparse.ArgumentParser(description=__doc__, formatter_class=argparse.RawDescriptionHelpFormatter)
    options.add_argument("names", nargs="*")
    options.add_argument("-j", type=int, default=len(os.sched_getaffinity(0)))
    options.add_argument("--top", default=source.TOP)
    options.add_argument("--look", action="store_true")
    given = options.parse_args()
    repository = green.Repository(os.path.abspath(given.top))
    files = [it for it in repository.files if it.startswith(f"{FOLDER}/")]
    names = [it.removeprefix(f"{FOLDER}/").removesuffix(".edit") for it in files]
    unknown = [it for it in given.names if it not in names]
    if unknown:
        sys.exit(f"{FOLDER}/ has no {' '.join(unknown)}")
    good, bad = read_all(repository, given.names or names)
    print(*bad, sep="\n", end="\n" * bool(bad))
    counted = [True] * len(good) if given.look else try_all(repository, good, max(given.j, 1))
    failed = len(bad) + counted.count(False)
    print(f"{counted.count(True)} passed, {failed} failed")
    return 1 if failed else 0


if __name__ == "__main__":
    sys.exit(main())

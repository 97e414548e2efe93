#!/usr/bin/env python3
"""Tries each name of tests/kit.py on two small crates, so that another release of the toolchain, with other modules inside, is
found out by name. The last line is `N passed, M failed`."""
import os
import re
import shutil
import subprocess
import sys
import tempfile

import kit

LOW = """#![tactic(auto)]

ghost use Rattle.std.specs.Prelude.{◌≡◌, ◌+◌};

/// Twice a number.
pub fn double(x: u32) -> u64
    ensures { result ≡ x + x }
{
    u64::from(x) + u64::from(x)
}
"""
FILES = {
    "crates.txt": "low:\nhigh: low\n",
    "HANDLES": "Handles allowed: none.\n",
    "crates/low/src/lib.rt": LOW,
    "crates/high/src/lib.rt": "#![tactic(auto)]\n\npub use low::double;\n",
}


def write_files(top, files):
    for path, text in files.items():
        os.makedirs(os.path.dirname(f"{top}/{path}"), exist_ok=True)
        with open(f"{top}/{path}", "w", encoding="utf-8") as it:
            it.write(text)


def check(crate, folder, kept, *more):
    """Checks a copy of the crate over what is kept, and returns the status and how many of its modules were checked anew."""
    shutil.copytree(f"{crate.folder}/src", f"{folder}/src", dirs_exist_ok=True)
    how = {"stdin": subprocess.DEVNULL, "stdout": subprocess.PIPE, "stderr": subprocess.STDOUT, "text": True}
    ran = subprocess.run(kit.check_words(crate, kept, *more), cwd=folder, **how, check=False)
    anew = re.search(rf"(?m)^crate {crate.name}: modules loaded=\d+ checked=(\d+)$", ran.stdout)
    return ran.returncode, int(anew[1]) if anew else -1


def tries(top, room):
    """Yields for each name what was tried, and whether it is as the scripts take it."""
    crates = kit.crates(top)
    low, high = crates
    yield "crates: lowest first, with what is below", (low.name, high.name) == ("low", "high") and high.below() == [low]
    yield "is_built: before", not low.is_built()
    subprocess.run(["rt", "lib", "--jobs", "1"], cwd=low.folder, stdout=subprocess.DEVNULL, check=False)
    yield "is_built: after", low.is_built() and os.path.isdir(low.rlib)
    yield "KEPT", os.path.isdir(f"{low.folder}/{kit.KEPT}")
    status, anew = check(low, room, f"{room}/whole")
    yield "check_words: from nothing", status == 0 and 0 < anew
    yield "modules_in", any("double" in it.name for it in kit.modules_in(f"{room}/whole"))
    check(low, room, f"{room}/taken", "--only", "")
    yield "take_modules: before", not kit.modules_in(f"{room}/taken")
    kit.take_modules(low, f"{room}/taken")
    yield "take_modules: a check then proves nothing anew", check(low, room, f"{room}/taken") == (0, 0)
    lines = ["logic=not-proved", "./src/lib.rt:3:1: error: `double`: `twice` is not in scope"]
    yield "unread: a name that is not there", kit.unread(lines, {"src/lib.rt"}) == lines[1] and not kit.unread(lines[:1], set())
    yield "unread: a library's old work", bool(kit.unread(["module .Rattle-low-x. Run the lower steps again"], set()))
    file = f"{low.folder}/src/lib.rt"
    told = kit.token_lines([file])
    yield "token_lines", told is not None and any(it.endswith(' Code "double"') for it in told[0])
    write_files(top, {"unread.txt": 'fn "\n'})
    yield "token_lines: of a file that is none", kit.token_lines([file, f"{top}/unread.txt"]) is None
    sums = [it.stamp() for it in kit.crates(top)]
    kit.sum_once()
    again = [[it.stamp() for it in kit.crates(top)] for _ in range(2)]
    yield "sum_once", len(sums) > 1 and again == [sums, sums]
    said = [subprocess.run(it, capture_output=True, text=True, check=True).stdout for it in (["rt", "version"], kit.command("version"))]
    yield "command", said[0] == said[1] != ""


def main():
    wrong = number = 0
    with tempfile.TemporaryDirectory(prefix="kit-selftest-") as top, tempfile.TemporaryDirectory(prefix="kit-selftest-") as room:
        write_files(top, FILES)
        for name, is_right in tries(top, room):
            number, wrong = number + 1, wrong + (not is_right)
            if not is_right:
                print(f"kit.py on itself: WRONG: {name}")
    print(f"{number - wrong} passed, {wrong} failed")
    return 1 if wrong else 0


if __name__ == "__main__":
    sys.exit(main())

"""All that the scripts take from inside the toolchain. The rest goes by commands of rt. kit_selftest.py tries each name.

Called with words it runs rt with these (see sum_once)."""
import functools
import importlib.machinery
import importlib.util
import json
import os
import re
import shutil
import subprocess
import sys

KEPT = "out/incremental"  # what a crate's own checks keep, in its folder


@functools.lru_cache(maxsize=None)
def rt():
    """Returns the command rt as a module."""
    loader = importlib.machinery.SourceFileLoader("rt", os.path.realpath(shutil.which("rt") or sys.exit("there is no rt")))
    made = sys.modules["rt"] = importlib.util.module_from_spec(importlib.util.spec_from_loader("rt", loader))
    loader.exec_module(made)
    made.rtlib.guarded()  # (its first call sets a signal's handler, which only the main thread may)
    return made


def sum_once():
    """Has this program sum the files of each crate once. The toolchain sums them once for each way that leads down to a crate, at
    each question whether a library is that of its files: for the highest crates that takes minutes. Only where nobody writes to
    the files meanwhile."""
    crate, known = rt().rtlib.Crate, {}
    sum_of = crate.stamp

    def known_sum(it):
        if it.folder not in known:
            known[it.folder] = sum_of(it)
        return known[it.folder]

    crate.stamp = known_sum


def command(*words):
    """Returns the words that run rt, with sum_once."""
    return [sys.executable, os.path.realpath(__file__), *words]


def crates(top):
    """Returns the crates, lowest first. Each has a name, a folder and an rlib, and tells below() and is_built()."""
    return rt().rtlib.crates_below(top)


def check_words(crate, kept, *more):
    """Returns the command that checks the crate, in a folder with its files, over the work in the folder `kept`."""
    own, rtlib = crate.words(["--jobs", "1"], keeps=False), rt().rtlib
    return [*rtlib.guarded(), rtlib.RATTLE, "check", *own, "--incremental", kept, *more]


def modules_in(kept):
    """Returns the files of the modules that checks left in the folder."""
    return [it for at in os.listdir(kept) for it in os.scandir(f"{kept}/{at}") if it.name.endswith(".oantt")]


def take_modules(crate, kept):
    """Writes the modules that the crate's library holds of its own check to where a check has made its folder."""
    held, (inside,) = f"{crate.rlib}/toolchain", os.listdir(kept)
    with open(f"{held}/checked.json", encoding="utf-8") as rows, open(f"{held}/checked.a", "rb") as modules:
        for name, start, size in (it for it in map(json.loads, rows) if "/" not in it[0] and len(it[0]) < 250):
            modules.seek(start)
            with open(f"{kept}/{inside}/{name}.oantt", "wb") as file:
                file.write(modules.read(size))


def unread(lines, paths):
    """Returns the first line that says that a text of src/, specs/ or these files could not be read, or ""."""
    return next((it for it in lines if rt().rtlib.STALE.search(it) or rt().unread(it, paths)), "")


def token_lines(files):
    """Returns the lines on each file's tokens, or None where one of the files cannot be read."""
    ran = subprocess.run([rt().rtlib.RATTLE, "fmt", "--tokens", *files], capture_output=True, text=True, errors="replace")
    parts = re.split(r"(?m)^file \d+\n", ran.stdout)[1:]
    return [it.splitlines() for it in parts] if ran.returncode == 0 and len(parts) == len(files) else None


if __name__ == "__main__":
    sum_once()
    sys.exit(rt().main(sys.argv[1:]))

#!/usr/bin/env python3
"""Proves a crate from nothing, with one job, and tells how long each of its functions took, the slowest first, and of what that was:
`Lts` is the flow of control, with what each way out drops; `Proof` the search for a proof; `Tie`, `Kinds`, `Layout`, `Reads` how the
code lies on its types. A file of lemmas stands in a line of its own, and the crate's name is what the libraries took to load.

  CRATE     its name; the libraries below it are built first where they are not
  --test    with its tests
  --only FN this function alone, and those that it calls (may be repeated)
  --least N only what took as many seconds (3)

Nothing that is kept is used, and nothing is kept. The times are those between the files that the check leaves of its modules, so
other work on the machine is in them."""
import argparse
import os
import re
import shutil
import subprocess
import sys
import tempfile
from collections import Counter, defaultdict

import kit
import source

# A module of a function's proof: the function, and which part it is.
PART = re.compile(r"(.+?)\.(Lts|Proof|Tie|Kinds|Layout|Reads|Named|Code|Answers|Goals|Given|Invariants|Statement|Met|Key|Carried)\b.*")


def modules_of(kept):
    """Returns the modules that a check left in the folder, as it ended them, each with the seconds since the one before."""
    ended = sorted((it.stat().st_mtime, it.name.removesuffix(".oantt")) for it in kit.modules_in(kept))
    return [(now[0] - before[0], now[1]) for before, now in zip(ended, ended[1:])]


def times_by_function(crate, modules):
    """Returns for each function, or other module, its seconds by part."""
    found = defaultdict(Counter)
    for seconds, name in modules:
        inside = re.sub(rf"^Rattle[-.]{crate}(-proofs|-specs)?\.?", "", name) or crate
        part = PART.fullmatch(inside)
        found[part[1] if part else inside][part[2] if part else "all"] += seconds
    return found


def prove(crate, more):
    """Proves a copy of the crate from nothing, and returns whether it is proved, what was said last, and the modules."""
    with tempfile.TemporaryDirectory(prefix="slow-") as room:
        for part in ("src", "specs", "proofs"):
            if os.path.isdir(f"{crate.folder}/{part}"):
                shutil.copytree(f"{crate.folder}/{part}", f"{room}/{part}")
        how = {"stdin": subprocess.DEVNULL, "stdout": subprocess.PIPE, "stderr": subprocess.STDOUT, "text": True}
        words = kit.check_words(crate, f"{room}/kept", *more)
        ran = subprocess.run(words, cwd=room, **how, errors="replace", check=False)
        return ran.returncode == 0, ran.stdout.rstrip().rpartition("\n")[2], modules_of(f"{room}/kept")


def main():
    options = argparse.ArgumentParser(description=__doc__, formatter_class=argparse.RawDescriptionHelpFormatter)
    options.add_argument("crate")
    options.add_argument("--test", action="store_true")
    options.add_argument("--only", action="append", default=[])
    options.add_argument("--least", type=float, default=3)
    given = options.parse_args()
    crate = next((it for it in kit.crates(source.TOP) if it.name == given.crate), None)
    if not crate:
        sys.exit(f"crates.txt names no {given.crate}")
    for below in crate.below():
        if not below.is_built() and subprocess.run(["rt", "lib", "--jobs", "1"], cwd=below.folder, check=False).returncode:
            sys.exit(f"{below.name} was not built")
    more = ["--test"] * given.test + [word for it in given.only for word in ("--only", it)]
    is_proved, last, modules = prove(crate, more)
    times = times_by_function(crate.name, modules)
    for name, parts in sorted(times.items(), key=lambda it: -it[1].total()):
        if given.least <= parts.total():
            told = ", ".join(f"{part} {seconds:.1f}" for part, seconds in parts.most_common() if 0.5 <= seconds)
            print(f"{parts.total():7.1f} {name} ({told})")
    print(f"{sum(seconds for seconds, _ in modules):7.1f} all: {last}")
    return 0 if is_proved else 1


if __name__ == "__main__":
    sys.exit(main())

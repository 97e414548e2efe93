#!/usr/bin/env python3
"""Lists the public functions without an edit that must fail, edits/CRATE/*.edit, inside their body, and fails where they are
more than MOST. So it fails where the only edit of a function is deleted while the function stands.

A law has an empty body; its edit stands in its clauses. Crates of tests, benchmarks and the texts of worked_sets have no
edits, and are not looked at.

  --top DIR   the repository
  --most N    in place of MOST
  --brief     the number alone
The last line is `1 passed, 0 failed` or `0 passed, 1 failed`.
"""
import argparse
import os
import re
import sys

import edits
import kit
import source

# May only fall: with an edit for a function, write the number down that this script then counts.
MOST = 76
LEFT_OUT = re.compile(r"bench_\w+|\w+_tests|worked_sets")


def public_functions(folder):
    """Returns the public functions with a body, as (path, function)."""
    found = []
    for file, rows in source.tokens(source.files_below(f"{folder}/src", ".rt")).items():
        path = os.path.relpath(file, folder)
        place = {it.start: at for at, it in enumerate(rows or [])}
        for it in source.functions(rows or []):
            words = [one.text for one in rows[max(place[it.start] - 4, 0) : place[it.start]]]
            if is_public(words) and not source.is_of_tests(path):
                found.append((path, it))
    return found


def is_public(words):
    """Returns whether the words before `fn` say that all may call it; `pub(crate)` does not."""
    while words and words[-1] in ("const", "unsafe"):
        words = words[:-1]
    return words[-1:] == ["pub"]


def touched(crate, top):
    """Returns the functions in whose blocks edits of the crate stand, as (path, where it starts)."""
    standing, found = source.functions_of(crate.folder), set()
    good, _ = edits.read_edits(crate, f"{top}/edits/{crate.name}")
    for edit in good:
        for path, start, end in edits.changes(edit, crate.folder):
            functions = standing.get(path) or []
            laws = [it for it in functions if it.end - it.body == len("{}") and it.start <= start and end <= it.body]
            found |= {(path, it.start) for it in [source.around(functions, start, end), *laws] if it}
    return found


def main():
    options = argparse.ArgumentParser(description=__doc__, formatter_class=argparse.RawDescriptionHelpFormatter)
    options.add_argument("--top", default=source.TOP)
    options.add_argument("--most", type=int, default=MOST)
    options.add_argument("--brief", action="store_true")
    given = options.parse_args()
    number = bare = 0
    for crate in kit.crates(os.path.abspath(given.top)):
        if LEFT_OUT.fullmatch(crate.name):
            continue
        functions, has_edit = public_functions(crate.folder), touched(crate, os.path.abspath(given.top))
        without = [(path, it) for path, it in functions if (path, it.start) not in has_edit]
        number, bare = number + len(functions), bare + len(without)
        for path, it in [] if given.brief else without:
            name = "::".join([crate.name, *source.module_of(path), *it.module, *[it.of] * bool(it.of), it.name])
            print(f"{name} (crates/{crate.name}/{path}:{it.line})")
    print(f"{bare} of {number} public functions have no edit in their body; {given.most} may")
    print("0 passed, 1 failed" if given.most < bare else "1 passed, 0 failed")
    return int(given.most < bare)


if __name__ == "__main__":
    sys.exit(main())

#!/usr/bin/env python3
"""Tries the edits that must fail, edits/CRATE/*.edit: each turns what a function means, and the prover must refuse it.

An edit is a file with a line `file: src/lib.rt`, and then pairs of lines `old: TEXT` and `new: TEXT`. A text stands once in that
file, and further pairs apply to what the earlier ones made.

What a function promises is all that its callers rely on, so a wrong body concerns its own function alone. Edits of different
functions are therefore tried together, in one check of a fresh copy of the crate over the proved crate's kept work, and each is
judged by what the prover says of its own function:
  it did not prove a goal of it, or found an error in its own proof files: refused;
  it only calls another function that is not proved, or nothing can be told: the edit is tried alone;
  the function is proved: NOT REFUSED, once it has been tried alone too.
Likewise for the clauses of a function that nothing else in the crate names, as a law's. An edit of anything else is tried alone
from the start. Edits that are not Rattle are found by the places of the errors, or by halving.

  --crate C     the edits of this crate alone (may be repeated)
  --alone       each edit by itself
  -j N          N checks side by side; by default one a processor
  --top DIR     the repository
  --built       trust the libraries that a run of `rt ci` has just left in crates/*/out, and what they hold of each crate's own check
  --look        try nothing: say which edits cannot be applied
A crate that is done has a line `CRATE: N edits refused, M not`. The last line is `N passed, M failed`.
"""
import argparse
import itertools
import os
import re
import shutil
import subprocess
import sys
import tempfile
from collections import Counter, namedtuple
from concurrent.futures import FIRST_COMPLETED, ThreadPoolExecutor, wait

import kit
import source

NAME = re.compile(r"[A-Za-z0-9_-][A-Za-z0-9_.-]*\.edit")
PARTS = ("src", "specs", "proofs")
# A proof file that names what the edit took away, or what cites a proof that was not admitted.
NAMES = re.compile(r"has no field|is not in scope|has no `|was not admitted")
CALLS = re.compile(r"it calls [^;]*which (is|are) not proved")
# A goal that is open, at a place in the source.
OPEN = re.compile(r"note: (?:\./)?(src/\S+?):(\d+):\d+: it is not proved that .*?\(`([^`]+)`\)")

# pairs: (path, old, new); function: the one whose block alone the edit changes, or its clauses, with its path, or None.
Edit = namedtuple("Edit", "crate name pairs function")
# proved: the prover's lines on functions; whole: whether it came to a verdict.
Ran = namedtuple("Ran", "status lines whole")


class Bad(Exception):
    """An edit that cannot be applied."""


def read_pairs(file):
    path, old, pairs = "", None, []
    with open(file, encoding="utf-8") as it:
        for line in it.read().split("\n"):
            if line.startswith("file: "):
                path = line[len("file: ") :].strip()
                if os.path.normpath(path) != path or not path.startswith(("src/", "specs/", "proofs/")):
                    raise Bad("a 'file:' line names no file below src/, specs/ or proofs/")
            elif line.startswith("old: "):
                old = line[len("old: ") :]
            elif line.startswith("new:"):
                if not path or not old:
                    raise Bad("a 'new:' line stands before any 'file:' or 'old:' line")
                pairs.append((path, old, line[len("new:") :].removeprefix(" ")))
                old = None
    if not pairs:
        raise Bad("it has no 'old:' and 'new:' pair")
    return pairs


def text_of(folder, path):
    try:
        with open(f"{folder}/{path}", encoding="utf-8") as it:
            return it.read()
    except (OSError, UnicodeDecodeError):
        raise Bad(f"there is no file {path}") from None


def apply(edits, folder):
    """Returns the texts that the edits give, by path."""
    texts = {}
    for edit in edits:
        for path, old, new in edit.pairs:
            if path not in texts:
                texts[path] = text_of(folder, path)
            count = texts[path].count(old)
            if count != 1:
                raise Bad(f"an 'old:' text is in {path} {count} times, and not once")
            texts[path] = texts[path].replace(old, new)
    return texts


def changed_bytes(old, new):
    """Returns from where to where the old text differs from the new one, in bytes of the old."""
    old, new = old.encode(), new.encode()
    start = len(os.path.commonprefix([old, new]))
    end = len(os.path.commonprefix([old[start:][::-1], new[start:][::-1]]))
    return start, max(len(old) - end, start)


def changes(edit, folder):
    """Returns what the edit changes, as (path, from which byte, to which byte)."""
    return [(path, *changed_bytes(text_of(folder, path), text)) for path, text in apply([edit], folder).items()]


def function_of(edit, folder, standing):
    """Returns the one function whose block, or whose clauses where they concern it alone, have all that the edit changes, or None."""
    changed = changes(edit, folder)
    if len(changed) != 1:
        return None
    path, start, end = changed[0]
    found = source.around(standing.get(path) or [], start, end)
    if not found:
        # (in its signature and clauses)
        found = next((it for it in standing.get(path) or [] if it.start <= start and end <= it.body), None)
        found = found if found and is_named_once(found, folder) else None
    return (path, found) if found else None


def is_named_once(function, folder):
    """Returns whether nothing in the crate but its own proof names the function, so that its clauses too concern it alone."""
    word, count = re.compile(rf"(?<![\w-]){re.escape(function.name)}(?![\w-])"), 0
    for part, ending in (("src", ".rt"), ("specs", ".antt"), ("proofs", ".antt")):
        for file in source.files_below(f"{folder}/{part}", ending):
            path = os.path.relpath(file, folder)
            if not source.is_of_tests(path) and os.path.basename(os.path.dirname(path)) != function.name:
                text = text_of(folder, path)
                text = re.sub(r"(?m)^\s*(pub(\([^)]*\))? )?use [^;]*;|//.*|(^|\s)--\s.*", "", text)
                count += len(word.findall(text))
    return count == 1


def read_edits(crate, folder):
    """Returns the crate's edits that can be applied, and what to say of those that cannot."""
    good, bad = [], []
    names = sorted(os.listdir(folder)) if os.path.isdir(folder) else []
    standing = source.functions_of(crate.folder) if names else {}
    for name in names:
        try:
            if not NAME.fullmatch(name):
                raise Bad("its name is not of letters, digits, _, - and . with .edit at its end")
            edit = Edit(crate, name.removesuffix(".edit"), read_pairs(f"{folder}/{name}"), None)
            good.append(edit._replace(function=function_of(edit, crate.folder, standing)))
        except (Bad, OSError, UnicodeDecodeError) as why:
            bad.append(f"{crate.name}/{name.removesuffix('.edit')}: BAD EDIT: {why}")
    return good, bad


def batches_of(edits):
    """Returns the edits in groups that are tried together: at most one of each function in a group, and all else alone."""
    groups, alone = [], []
    for edit in edits:
        if edit.function is None:
            alone.append([edit])
            continue
        for group in groups:
            if edit.function in {it.function for it in group}:
                continue
            try:
                # (what one writes may hold the text that another replaces)
                apply([*group, edit], edit.crate.folder)
            except Bad:
                continue
            group.append(edit)
            break
        else:
            groups.append([edit])
    return groups + alone


class Runs:
    """The checks of this run, each in a folder of its own."""

    def __init__(self, room, built):
        self.room, self.built, self.numbers = room, built, itertools.count()

    def folder(self):
        return f"{self.room}/{next(self.numbers)}"

    def check(self, crate, texts, kept, *more):
        """Checks a copy of the crate with these texts in place of its own, with the words of `rt ci`, over the kept work."""
        copy = self.folder()
        os.mkdir(copy)
        for part in PARTS:
            if os.path.isdir(f"{crate.folder}/{part}"):
                shutil.copytree(f"{crate.folder}/{part}", f"{copy}/{part}")
        for path, text in texts.items():
            with open(f"{copy}/{path}", "w", encoding="utf-8") as it:
                it.write(text)
        how = {"stdin": subprocess.DEVNULL, "stdout": subprocess.PIPE, "stderr": subprocess.STDOUT, "text": True}
        ran = subprocess.run(kit.check_words(crate, kept, *more), cwd=copy, **how, errors="replace", check=False)
        lines = ran.stdout.rstrip("\n").split("\n")
        shutil.rmtree(copy)
        whole = ran.returncode == 1 and lines[-1].startswith("logic=not-proved") or ran.returncode == 0
        return Ran(ran.returncode, lines, whole)

    def prove(self, crate):
        """Proves the crate, and returns the folder of what that kept, or None, and the run."""
        kept, own = self.folder(), f"{crate.folder}/{kit.KEPT}"
        if os.path.isdir(own):
            shutil.copytree(own, kept)
        elif self.built:
            # (a check that proves nothing makes the folder in which this build of the toolchain looks for modules)
            self.check(crate, {}, kept, "--only", "")
            kit.take_modules(crate, kept)
        ran = self.check(crate, {}, kept)
        return (kept, ran) if ran.status == 0 else (None, ran)

    def on_copy(self, edits, kept):
        """Tries the edits together over a copy of the kept work."""
        copy, crate = self.folder(), edits[0].crate
        # (a check replaces what it keeps anew, and writes into no file that is there)
        shutil.copytree(kept, copy, copy_function=os.link)
        ran = self.check(crate, apply(edits, crate.folder), copy)
        shutil.rmtree(copy, ignore_errors=True)
        return ran


def lines_on(edit, lines):
    """Returns the prover's lines on the edit's function and its closures, as pairs of a name and a verdict."""
    path, it = edit.function
    base = "::".join([edit.crate.name, *source.module_of(path), *it.module])
    of = rf"{re.escape(it.of)}{re.escape(it.by)}\w*::" if it.by else f"{re.escape(it.of)}::" if it.of else ""
    last = rf"(?:{of}{re.escape(it.name)}|fn::{of}{re.escape(it.name)}::\S+)"
    found = [one for one in map(re.compile(rf"fn ({re.escape(base)}::{last}): (.*)").fullmatch, lines) if one]
    if it.of and not found:
        # (an impl may stand in another module than its type, whose path the name has)
        found = [one for one in map(re.compile(rf"fn ({edit.crate.name}::(?:\w+::)*{last}): (.*)").fullmatch, lines) if one]
    return [(one[1], one[2]) for one in found]


def judge(edit, ran):
    """Returns whether the prover refused the edit's function, None where this run cannot tell, and what it said."""
    found = lines_on(edit, ran.lines)
    names = {name for name, _ in found if "::fn::" not in name[len(edit.crate.name) :]}
    if len(names) != 1:
        return None, "its function's line was not found"
    if all(said == "proved" for _, said in found):
        return False, "its function is still proved"
    for name, said in found:
        if "did not prove" in said:
            goals = said[said.index("did not prove") :].partition(";")[0]
            return True, f"{name.removeprefix(edit.crate.name + '::')} {goals}"
    # (an edit's texts are one line each, so the lines stand where they stood)
    path, it = edit.function
    for goal in filter(None, map(OPEN.match, ran.lines)):
        if goal[1] == path and it.line <= int(goal[2]) <= it.last:
            return True, f"{found[0][0].removeprefix(edit.crate.name + '::')} did not prove `{goal[3]}`"
    for name, said in found:
        folder = "proofs/" + "/".join(name.split("::")[1:]) + "/"
        errors = [it.removeprefix("./") for it in ran.lines if it.removeprefix("./").startswith(folder) and ": error" in it]
        errors = [it for it in errors if not NAMES.search(it)]
        if errors and not CALLS.search(said):
            return True, errors[0][:160]
    return None, next(said for _, said in found if said != "proved")[:160]


def judge_alone(edit, ran):
    """Returns whether the prover refused the crate with this edit alone, and what to say, as `rt ci` does."""
    paths = {path for path, _, _ in edit.pairs}
    bad = kit.unread(ran.lines, paths)
    if bad:
        return False, f"BAD EDIT: the prover cannot read the edited text, so no contract was tried: {bad[:200]}"
    if ran.status == 0:
        return False, "NOT REFUSED: the crate is still proved with this edit"
    if not ran.whole:
        return False, "\n".join(["BAD EDIT: it did not reach the prover; the first lines of what it said:", *ran.lines[:6]])
    refused, why = judge(edit, ran) if edit.function else (None, "")
    if refused:
        return True, f"refused: {why}"
    told = [it for it in ran.lines if re.match(r"(note: )?\S+:\d+:\d+:", it) and (": error" in it or it.startswith("note: "))]
    first = next((it for it in told if not (it.removeprefix("./").startswith("proofs/") and NAMES.search(it))), "")
    if told and not first:
        return True, f"refused, though only because a proof file names what the edit took away (keep the names): {told[0][:160]}"
    return True, f"refused: {first[:160] or why}"


def is_blamed(edit, lines):
    """Returns whether an error stands in the edit's function."""
    path, it = edit.function
    errors = (re.match(r"(?:\./)?(src/\S+?):(\d+):\d+: error", line) for line in lines)
    return any(error[1] == path and it.line <= int(error[2]) <= it.last for error in filter(None, errors))


def try_group(runs, edits, kept):
    """Returns what is known of each edit of the group after a check, and the groups to try next."""
    try:
        ran = runs.on_copy(edits, kept)
    except OSError as why:
        return [(it, False, f"NOT TRIED: {why}") for it in edits], []
    if len(edits) == 1:
        return [(edits[0], *judge_alone(edits[0], ran))], []
    paths = {path for it in edits for path, _, _ in it.pairs}
    if not ran.whole or kit.unread(ran.lines, paths):
        blamed = [it for it in edits if is_blamed(it, ran.lines)]
        rest = [it for it in edits if it not in blamed]
        half = len(edits) // 2
        return [], [[it] for it in blamed] + [rest] if blamed and rest else [edits[:half], edits[half:]]
    given, again = [], []
    for edit in edits:
        refused, why = judge(edit, ran)
        if refused:
            given.append((edit, True, f"refused: {why}"))
        else:
            again.append([edit])
    return given, again


def try_all(runs, groups, jobs, tell):
    """Proves each crate and then tries its groups, those of the largest crates first."""
    with ThreadPoolExecutor(jobs) as pool:
        largest = sorted(groups, key=lambda it: -source.size_of(it.folder))
        running = {pool.submit(runs.prove, it): it for it in largest}
        kept, left = {}, {it: 0 for it in groups}
        while running:
            for it in wait(running, return_when=FIRST_COMPLETED).done:
                about = running.pop(it)
                if about in groups:
                    crate, (kept[about], ran) = about, it.result()
                    more = groups[crate]
                    if kept[crate] is None:
                        print("\n".join(ran.lines[-20:]))
                        tell([(edit, False, "NOT TRIED: the crate itself is not proved") for group in more for edit in group])
                        more = []
                else:
                    given, more = it.result()
                    crate = about[0]
                    tell(given)
                    left[crate] -= 1
                for group in more:
                    left[crate] += 1
                    running[pool.submit(try_group, runs, group, kept[crate])] = (crate, id(group))
                if not left[crate] and kept.get(crate):
                    shutil.rmtree(kept[crate], ignore_errors=True)


def read_all(crates, top, given):
    """Returns the groups of each crate's edits, how many edits it has, and what to say of those that cannot be applied."""
    groups, number, bad = {}, {}, []
    for crate in crates:
        good, wrong = read_edits(crate, f"{top}/edits/{crate.name}")
        bad += wrong
        number[crate] = len(good) + len(wrong)
        if good:
            groups[crate] = [[it] for it in good] if given.alone else batches_of(good)
    return groups, number, bad


def build_below(groups, built):
    """Has all libraries that the crates with edits stand on."""
    for crate in groups:
        for below in crate.below():
            if not built and not below.is_built():
                subprocess.run(["rt", "lib", "--jobs", "1"], cwd=below.folder, check=False)
            if not os.path.isdir(below.rlib):
                sys.exit(f"{below.name} is not built")


class Told:
    """Says what becomes of each edit, and of each crate once all of its edits are judged."""

    def __init__(self, number, bad):
        self.number, self.passed, self.failed = number, Counter(), Counter(it.partition("/")[0] for it in bad)

    def tell(self, found):
        for edit, refused, said in found:
            name = edit.crate.name
            (self.passed if refused else self.failed)[name] += 1
            print(f"{name}/{edit.name}: {said}", flush=True)
            if self.passed[name] + self.failed[name] == self.number[edit.crate]:
                print(f"{name}: {self.passed[name]} edits refused, {self.failed[name]} not", flush=True)


def main():
    options = argparse.ArgumentParser(description=__doc__, formatter_class=argparse.RawDescriptionHelpFormatter)
    options.add_argument("--crate", action="append")
    options.add_argument("--alone", action="store_true")
    options.add_argument("-j", type=int, default=len(os.sched_getaffinity(0)))
    options.add_argument("--top", default=source.TOP)
    options.add_argument("--built", action="store_true")
    options.add_argument("--look", action="store_true")
    given = options.parse_args()
    top = os.path.abspath(given.top)
    crates = kit.crates(top)
    names = {*(given.crate or []), *(os.listdir(f"{top}/edits") if os.path.isdir(f"{top}/edits") else [])}
    unknown = sorted(names - {it.name for it in crates})
    crates = [it for it in crates if not given.crate or it.name in given.crate]
    groups, number, bad = read_all(crates, top, given)
    print(*(f"edits/{it}: crates.txt names no such crate" for it in unknown), *bad, sep="\n", end="\n" * bool(unknown + bad))
    if given.look:
        print(f"{sum(number.values()) - len(bad)} passed, {len(unknown + bad)} failed")
        return 1 if unknown + bad else 0
    build_below(groups, given.built)
    told = Told(number, bad)
    with tempfile.TemporaryDirectory(prefix="edits-") as room:
        try_all(Runs(room, given.built), groups, max(given.j, 1), told.tell)
    failed = told.failed.total() + len(unknown)
    print(f"{told.passed.total()} passed, {failed} failed")
    return 1 if failed else 0


if __name__ == "__main__":
    sys.exit(main())

"""Which crates' edits were all refused, so that the short run need not try them again. Called by tests/gate.py.

A line counts while its key is that of the crate as it stands. It speaks of edits alone: no proof and no test is left out for it.
"""
import hashlib
import os
import re
import subprocess
from collections import namedtuple
from datetime import datetime, timezone

import source

GREEN = "tests/green.txt"
# The scripts that decide whether an edit was refused.
SCRIPTS = ("edits.py", "green.py", "kit.py", "source.py")
HEADING = """# Written by tests/gate.sh: a line for each crate all of whose edits were refused. Its name; the key, a hash of all that
# this depends on; when it was seen, and under which release of the toolchain. A line with another key counts for nothing."""
# Items of an .antt file that mean something by themselves: what is no statement of a lemma, or equation of its proof.
DEFINES = re.compile(r"(pub )?(use|mod|abbrev|unfoldable|opaque|data|record|infix[lr]?)\b")
# What a crate above can name of proofs/ stands in none of these: they are each one function's.
OWN_PROOFS = ("Proof.antt", "Answers.antt", "Invariants.antt")
# when: as it is written; release: of the toolchain
Line = namedtuple("Line", "key when release")


def tracked(top):
    """Returns the repository's files: what git has or would take, or all but what runs leave."""
    if os.path.exists(f"{top}/.git"):
        words = ["git", "-C", top, "ls-files", "-z", "-co", "--exclude-standard"]
        said = subprocess.run(words, stdout=subprocess.PIPE, text=True, check=True).stdout
        return sorted({it for it in said.split("\0") if os.path.isfile(f"{top}/{it}")})
    inside = (os.path.relpath(it, top) for it in source.files_below(top))
    return sorted(it for it in inside if not {"out", "__pycache__"} & {*it.split("/")[:-1]})


def version():
    """Returns the whole line of `rt version`."""
    return subprocess.run(["rt", "version"], capture_output=True, text=True, check=True).stdout.strip()


def hash_of(parts):
    made = hashlib.sha256()
    for it in parts:
        made.update(it if isinstance(it, bytes) else it.encode())
        made.update(b"\0")
    return made.hexdigest()[:32]


class Repository:
    """The crates of crates.txt, with what each stands on and its key."""

    def __init__(self, top):
        self.top, self.lines, self.files = top, {}, tracked(top)
        with open(f"{top}/crates.txt", encoding="utf-8") as it:
            for line in it:
                if line.strip() and not line.startswith("#"):
                    self.lines[line.partition(":")[0].split()[0]] = line.strip()

    def below(self, name):
        """Returns the repository's crates below this one, lowest first."""
        found = []
        for it in self.lines[name].partition(":")[2].split():
            if it in self.lines:
                found += [one for one in [*self.below(it), it] if one not in found]
        return found

    def with_edits(self):
        return [it for it in self.lines if any(file.startswith(f"edits/{it}/") for file in self.files)]

    def keys(self):
        """Returns for each crate with edits the hash of all that their verdicts depend on."""
        scripts = [f"tests/{it}" for it in SCRIPTS]
        common = hash_of([version(), *self.texts(it for it in self.files if it in ("HANDLES", *scripts))])
        stated = {name: hash_of(self.statements(name)) for name in self.lines}
        key = lambda name: hash_of([common, *self.own(name), *map(stated.get, self.below(name))])
        return {name: key(name) for name in self.with_edits()}

    def texts(self, files):
        return [part for it in files for part in (it, source.bytes_of(f"{self.top}/{it}"))]

    def own(self, name):
        folders = *(f"crates/{name}/{part}/" for part in ("src", "specs", "proofs")), f"edits/{name}/"
        return [self.lines[name], *self.texts(it for it in self.files if it.startswith(folders))]

    def statements(self, name):
        """Returns what a crate above can rely on: specs/, statements of lemmas, and code without functions' blocks and comments."""
        mine = [it.removeprefix(f"crates/{name}/") for it in self.files if it.startswith(f"crates/{name}/")]
        folder, found = f"{self.top}/crates/{name}", [self.lines[name]]
        found += self.texts(f"crates/{name}/{it}" for it in mine if it.startswith("specs/"))
        for it in mine:
            if it.startswith("proofs/") and os.path.basename(it) not in OWN_PROOFS:
                found += [it, *lemmas(source.bytes_of(f"{folder}/{it}").decode(errors="replace"))]
        code = [it for it in mine if it.startswith("src/") and not source.is_of_tests(it)]
        for file, rows in source.tokens(f"{folder}/{it}" for it in code if it.endswith(".rt")).items():
            found += [os.path.relpath(file, folder), signatures(file, rows)]
        return found


def lemmas(text):
    """Returns the items of a proof file without comments, private statements and the equations by which statements are proved."""
    found, is_definition = [], False
    for item in re.findall(r"(?m)^\S.*\n?(?:(?:[ \t}].*)?\n)*", text):
        if item.startswith("--"):
            continue
        if DEFINES.match(item):
            is_definition = True
        elif item.startswith("pub ") or re.match(r"\S+ :\s", item):
            is_definition = False
        if is_definition or item.startswith("pub "):
            found.append(re.sub(r"(?m)^\s*--.*\n?", "", item).rstrip())
    return found


def signatures(file, rows):
    """Returns the text of a .rt file without comments and without what stands in functions' blocks."""
    if rows is None:
        return source.bytes_of(file)
    blocks = [(it.body, it.end) for it in source.functions(rows)]
    return " ".join(it.text for it in rows if not any(start <= it.start < end for start, end in blocks))


def read(top):
    """Returns what is told of each crate."""
    if not os.path.isfile(f"{top}/{GREEN}"):
        return {}
    with open(f"{top}/{GREEN}", encoding="utf-8") as it:
        rows = [line.split() for line in it if line.strip() and not line.startswith("#")]
    return {row[0]: Line(*row[1:]) for row in rows if len(row) == 4}


def write(top, key_of):
    """Writes that all edits of these crates were refused now, under these keys, and keeps what is told of other crates."""
    now, (release, *_) = datetime.now(timezone.utc), version().split()
    told = read(top) | {name: Line(key, f"{now:%Y-%m-%dT%H:%MZ}", release) for name, key in key_of.items()}
    rows = [" ".join([it, *told[it]]) for it in Repository(top).lines if it in told]
    os.makedirs(f"{top}/tests", exist_ok=True)
    with open(f"{top}/{GREEN}", "w", encoding="utf-8") as it:
        it.write("\n".join([HEADING, *rows]) + "\n")

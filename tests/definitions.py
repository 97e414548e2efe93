#!/usr/bin/env python3
"""Counts what a reader must believe of a public contract: the definitions that its clauses stand on, one by one, and not whole files.

From the clauses of a function, and the types of its signature, it follows the names that `ghost use` and `use` lines bring through
specs/ of the repository's crates, and Rust's types and constants where a name is declared in src/. What the toolchain's library
defines is not counted.

  FUNCTION   `run_script` where none is given; of several of that name, CRATE::NAME
  --most N   fail where the lines in specs/ are more; for `run_script` MOST where it is not given
  --brief    the files alone, and not the definitions
The lines are those of a definition and of the comment right above it. Of these are told apart: the comments; the types, which
the prover checks; and what is left to believe, equations and the fields of records. BELIEVED bounds that. The last line is `1 passed, 0 failed` or `0 passed, 1 failed`."""
import argparse
import os
import re
import sys
from collections import namedtuple

import source

# The lines that a script's contract may stand on, with what a set's file says.
MOST = 1704
APART = ("mgn_setfile",)
# What a contract may leave to believe, without what a set's file says, and without comments and types.
BELIEVED = {"run_script": 791, "mgn_world::run": 977, "mgn_service::exec": 561, "mgn_service::close": 556}
HEAD = re.compile(r"(?:(?:pub|abbrev|unfoldable|opaque|data|record)\s+)+([^\s:({]+)")
FIXITY = re.compile(r"infix[lr]?\s+\d+\s+(\S+)")
# key: (crate, file, name); lines: with comment and type; believed: without; scope: the use lines that its words are read by
Definition = namedtuple("Definition", "crate file name line lines comments believed words scope")


def read(file):
    with open(file, encoding="utf-8") as it:
        return it.read()


def believed_in(lines):
    """Returns how many of a definition's lines, which have no comments, are not those of its type."""
    is_type = lambda line: HEAD.match(line) and not re.search(r"\b(?:record|data)\b", line.partition(":")[0])
    of_type = counted = 0
    for line in lines:
        of_type = is_type(line) or (of_type and line[0].isspace())
        counted += not of_type
    return counted


def words_of(text):
    """Returns the words of antt's text, without comments and strings; `a.b` also gives `a`."""
    text = re.sub(r"\{-.*?-\}", " ", re.sub(r'"[^"\n]*"', " ", text), flags=re.S)
    text = re.sub(r"(?m)(^|(?<=[\s(){};,]))--.*$", " ", text)
    found = {*re.findall(r"[^\s(){};,@]+", text)}
    return found | {it.partition(".")[0] for it in found} | {it for word in found for it in re.findall(r"^\w+\.\w+", word)}


def imports(text):
    """Yields for each name that the use lines bring: the name, the module, and the name there, None for the module itself."""
    for item in re.findall(r"(?m)^\s*(?:pub\s+)?(?:ghost\s+)?use\s+(Rattle\.[^;{\n]*(?:\{[^}]*\})?[^;\n]*)", text):
        path, _, names = item.partition("{")
        if names:
            for name in filter(None, map(str.strip, names.partition("}")[0].split(","))):
                there, _, here = name.partition(" as ")
                yield (here or there).strip(), path.strip().rstrip("."), there.strip()
        else:
            there, _, here = path.strip().partition(" as ")
            yield (here or there.rpartition(".")[2]).strip(), there.strip(), None


class Definitions:
    def __init__(self, top):
        self.top, self.crates, self.below = top, [], {}
        with open(f"{top}/crates.txt", encoding="utf-8") as it:
            for line in it:
                if line.strip() and not line.startswith("#"):
                    name, _, names = line.partition(":")
                    self.crates.append(name.split()[0])
                    self.below[name.split()[0]] = names.split()
        self.antt, self.rust, self.rows = {}, {}, {}
        for crate in self.crates:
            for at, _, names in os.walk(f"{top}/crates/{crate}"):
                if re.search(rf"/crates/{crate}/specs(/|$)", at):
                    for name in sorted(names):
                        if name.endswith(".antt"):
                            self.read_antt(crate, f"{at}/{name}")
                if re.search(rf"/crates/{crate}/src(/|$)", at):
                    for name in sorted(names):
                        if name.endswith(".rt") and not source.is_of_tests(os.path.relpath(f"{at}/{name}", top)):
                            self.rows[f"{at}/{name}"] = crate
        self.tokens = source.tokens(self.rows)
        for file, crate in self.rows.items():
            self.read_rust(crate, file)

    def all_below(self, crate):
        found = []
        for it in self.below.get(crate, []):
            found += [one for one in [*self.all_below(it), it] if one not in found]
        return found

    def read_antt(self, crate, file):
        text = read(file)
        module = os.path.relpath(file, f"{self.top}/crates/{crate}/specs").removesuffix(".antt").replace("/", ".")
        scope, lines, chunks, comment = list(imports(text)), text.split("\n"), [], None
        for at, line in enumerate(lines):
            if line.startswith("--"):
                comment = at if comment is None else comment
                continue
            if line.startswith(("use ", "mod ", "pub mod ", "pub use ")):
                comment = None
                continue
            head, fixity = HEAD.match(line), FIXITY.match(line)
            if (head or fixity) and not line[0].isspace():
                name = (head or fixity)[1]
                if chunks and chunks[-1][0] == name:
                    chunks[-1][2] = at
                else:
                    chunks.append([name, at if comment is None else comment, at])
            elif line.strip() and chunks:
                chunks[-1][2] = at
            comment = None
        for name, start, end in chunks:
            own = [it for it in lines[start : end + 1] if it.strip()]
            words = words_of("\n".join(own))
            said = [it for it in own if not it.lstrip().startswith("--")]
            counts = (len(own), len(own) - len(said), believed_in(said))
            key = (crate, module, name)
            self.antt[key] = Definition(crate, os.path.relpath(file, self.top), name, start + 1, *counts, words, (module, scope))

    def read_rust(self, crate, file):
        """Reads the types and constants of a file. Of a type with an `impl Model` a contract sees `Value` by `view`, and no field."""
        lines, rows, scope = read(file).split("\n"), self.tokens[file] or [], list(imports(read(file)))
        for at, it in enumerate(rows):
            if it.kind != "Code" or it.text not in ("struct", "enum", "const", "static", "trait", "impl"):
                continue
            words, depth, end = [], 0, at
            for end in range(at, len(rows)):
                one = rows[end]
                words += [one.text] if one.kind != "Literal" else []
                depth += (one.text in "{([") - (one.text in "})]") if one.kind == "Code" else 0
                if one.kind == "Code" and depth == 0 and one.text in (";", "}"):
                    break
            is_model = it.text == "impl" and "Model" in words[: words.index("{") if "{" in words else 0]
            if it.text == "impl" and not is_model:
                continue
            name = words[words.index("for") + 1] if is_model else words[1]
            start = it.line - 1
            while not is_model and start > 0 and re.match(r"\s*(///|//|#\[)", lines[start - 1]):
                start -= 1
            own = [row for row in lines[start : rows[end].line] if row.strip()]
            if is_model:
                members = re.findall(r"(?ms)^\s*ghost (?:Value|view) = \{.*?\};$", "\n".join(own))
                own, words = [row for one in members for row in one.split("\n") if row.strip()], [" ".join(members)]
            words = words_of(" ".join(words[:2] if it.text == "trait" else words))
            key, before = (crate, name), self.rust.get((crate, name))
            if before and is_model:
                self.rust[key] = before._replace(lines=before.lines + len(own), words=words)
            elif not before:
                self.rust[key] = Definition(crate, os.path.relpath(file, self.top), name, start + 1, len(own), 0, 0, words, ("", scope))

    def of_rust(self, crate, name):
        """Returns the Rust type of a name that a crate sees."""
        for it in [crate, *reversed(self.all_below(crate))]:
            if (it, name) in self.rust:
                return self.rust[it, name]
        return None

    def cited(self, crate, words, module, scope, is_rust):
        """Yields the definitions that these words name."""
        named = {}
        for here, path, there in scope:
            named.setdefault(here, []).append((path, there))
        parts = lambda name: [it for it in name.split("◌") if it]
        for here, places in named.items():
            is_cited = all(it in words for it in parts(here)) if "◌" in here else here in words
            for path, there in places if is_cited else []:
                found = re.match(r"Rattle\.(\w+)\.specs\.?(.*)", path)
                if not found or found[1] not in self.below:
                    continue
                other, inside = found[1], found[2]
                if inside.startswith("declared"):
                    names = [it for it in [*inside.split("."), there or ""] if (other, it) in self.rust]
                    yield from (self.rust[other, it] for it in names[:1])
                elif there is None:
                    for word in words:
                        if word.startswith(f"{here}.") and (other, inside, word[len(here) + 1 :]) in self.antt:
                            yield self.antt[other, inside, word[len(here) + 1 :]]
                elif (other, inside, there) in self.antt:
                    yield self.antt[other, inside, there]
        for (other, inside, name), it in self.antt.items():
            if not is_rust and (other, inside) == (crate, module):
                if all(part in words for part in parts(name)) if "◌" in name else name in words:
                    yield it
        for word in words if is_rust else ():
            it = self.of_rust(crate, word) if re.fullmatch(r"[A-Z]\w*", word) else None
            if it:
                yield it

    def closure(self, crate, words, scope, apart=()):
        """Returns the definitions that these words stand on, without those of the crates that are apart."""
        found, left = {}, list(self.cited(crate, words, "", scope, True))
        while left:
            it = left.pop()
            if (it.file, it.name) in found or it.crate in apart:
                continue
            found[it.file, it.name] = it
            left += self.cited(it.crate, it.words, *it.scope, it.file.endswith(".rt"))
        return found.values()

    def contract(self, name):
        """Returns the crate of the public function, the words of its contract and signature, and the file's use lines."""
        wanted, _, last = name.rpartition("::")
        places = []
        for file, crate in self.rows.items():
            rows = self.tokens[file] or []
            for it in source.functions(rows):
                head = [row for row in rows if it.start <= row.start < it.body]
                is_pub = re.search(rb"\bpub (?:\w+ )*$", read(file).encode()[max(0, it.start - 40) : it.start])
                if it.name == last and is_pub and wanted in ("", crate):
                    text = " ".join(row.text for row in head if row.kind != "Literal")
                    places.append((crate, file, words_of(text), list(imports(read(file)))))
        if len(places) != 1:
            sys.exit(f"{len(places)} public functions are named {name}: {' '.join(it[0] for it in places)}")
        return places[0]


def main():
    options = argparse.ArgumentParser(description=__doc__, formatter_class=argparse.RawDescriptionHelpFormatter)
    options.add_argument("function", nargs="?", default="run_script")
    options.add_argument("--most", type=int)
    options.add_argument("--brief", action="store_true")
    given = options.parse_args()
    most = MOST if given.most is None and given.function == "run_script" else given.most
    definitions = Definitions(source.TOP)
    crate, file, words, scope = definitions.contract(given.function)
    found = definitions.closure(crate, words, scope)
    order = {it: (len(definitions.all_below(it)), it) for it in definitions.crates}
    files = {}
    for it in sorted(found, key=lambda it: (order[it.crate], it.file, it.line)):
        files.setdefault(it.file, []).append(it)
    for path, those in files.items():
        to_believe = f", {sum(it.believed for it in those)} to believe" if path.endswith(".antt") else ""
        print(f"{path}: {len(those)} definitions, {sum(it.lines for it in those)} lines{to_believe}")
        for it in [] if given.brief else those:
            print(f"    {it.line}: {it.name}, {it.lines}")
    total = sum(it.lines for it in found)
    of_specs = [it for it in found if it.file.endswith(".antt")]
    stated = sum(it.lines for it in of_specs)
    print(f"the contract of {given.function} ({os.path.relpath(file, source.TOP)}) stands on {len(of_specs)} definitions, {stated} lines in {len({it.file for it in of_specs})} files of specs/,")
    print(f"and on {len(found) - len(of_specs)} types and constants, {total - stated} lines")
    rest = [it for it in definitions.closure(crate, words, scope, APART if crate not in APART else ()) if it.file.endswith(".antt")]
    lines, comments, believed = (sum(getattr(it, part) for it in rest) for part in ("lines", "comments", "believed"))
    print(f"without what a set's file says: {len(rest)} definitions, {lines} lines,")
    print(f"of which {comments} are comments, {lines - comments - believed} types, and {believed} equations and fields")
    is_well = True
    for count, bound, of in ((stated, most, "of specs/"), (believed, BELIEVED.get(given.function), "to believe")):
        if bound is not None and count > bound:
            print(f"that is more than {bound} lines {of}")
            is_well = False
    print("1 passed, 0 failed" if is_well else "0 passed, 1 failed")
    return 0 if is_well else 1


if __name__ == "__main__":
    sys.exit(main())

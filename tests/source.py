"""What the scripts of the gate share: the tokens of a .rt file as the check itself reads them, and where each function stands."""
import json
import os
import re
from collections import namedtuple

import kit

TOP = os.path.dirname(os.path.dirname(os.path.abspath(__file__)))

Token = namedtuple("Token", "line start end kind text")
# name: of the fn; module: names of `mod` blocks around it; of: the type of its impl, or the trait that it stands in; by: the
# trait that the impl is of; start: of the word `fn`; body and end: of its block, from `{` to behind `}`, in bytes; line and
# last: of the word `fn` and of the `}`.
Function = namedtuple("Function", "name module of by start line body end last")


def bytes_of(file):
    with open(file, "rb") as it:
        return it.read()


def tokens(files):
    """Returns for each file its tokens, without comments, and None where it has a text that is none."""
    files = list(files)
    if not files:
        return {}
    told = kit.token_lines(files)
    if told is None:
        # One file that cannot be read hides the others.
        return {files[0]: None} if len(files) == 1 else {it: tokens([it])[it] for it in files}
    found = {}
    for file, lines in zip(files, told):
        rows = [it.split(" ", 4) for it in lines]
        found[file] = [Token(int(it[0]), int(it[1]), int(it[2]), it[3], json.loads(it[4])) for it in rows]
    return found


def files_below(folder, ending=""):
    return sorted(f"{at}/{it}" for at, _, names in os.walk(folder) for it in names if it.endswith(ending))


def size_of(folder):
    """Returns how many bytes of code, definitions and proofs a crate has, which its proof takes longer the more there are."""
    return sum(os.path.getsize(it) for part in ("src", "specs", "proofs") for it in files_below(f"{folder}/{part}"))


def is_of_tests(path):
    """Returns whether a file of a crate, by its path there, is one of its tests."""
    return bool(re.search(r"(^|/)tests/|(^|[/_])tests\.rt$", path))


def functions(rows):
    """Returns the functions with a block among the tokens, in the order in which their blocks end."""
    found, frames, head = [], [], []
    for it in rows:
        if it.kind != "Code":
            continue
        if it.text in ("{", "(", "["):
            frames.append((it, head, opened(head) if it.text == "{" else None))
            head = []
        elif it.text in ("}", ")", "]"):
            if not frames:
                break
            start, outer, item = frames.pop()
            # What stands in ( ) or [ ] belongs to the head that it stands in; a block ends its item.
            head = outer + [start, it] if it.text != "}" else []
            if item and item[0] == "fn":
                kinds = [frame[2] for frame in frames if frame[2]]
                module = [name for kind, name, _ in kinds if kind == "mod"]
                of = [(name, by) for kind, name, by in kinds if kind in ("impl", "trait")]
                name, by = of[-1] if of else ("", "")
                found.append(Function(item[1].text, tuple(module), name, by, item[2].start, item[2].line, start.start, it.end, it.line))
        elif it.text == ";":
            head = []
        else:
            head.append(it)
    return found


def functions_of(folder):
    """Returns the functions of each file of a crate's src/, by its path in the crate, None where the file cannot be read."""
    rows = tokens(files_below(f"{folder}/src", ".rt"))
    return {os.path.relpath(file, folder): row and functions(row) for file, row in rows.items()}


def opened(head):
    """Returns which item's block the tokens open: its kind and names."""
    words = [it.text for it in head]
    for at, word in enumerate(words[:-1]):
        if word == "fn" and re.fullmatch(r"\w+", words[at + 1]):
            return "fn", head[at + 1], head[at]
    for at, word in enumerate(words[:-1]):
        if word in ("mod", "trait"):
            return word, words[at + 1], ""
        if word == "impl":
            rest = without_angles(words[at + 1 :])
            if "where" in rest:
                rest = rest[: rest.index("where")]
            cut = rest.index("for") if "for" in rest else None
            last = lambda names: next((it for it in reversed(names) if re.fullmatch(r"\w+", it)), "")
            return ("impl", last(rest), "") if cut is None else ("impl", last(rest[cut + 1 :]), last(rest[:cut]))
    return None


def without_angles(words):
    """Returns the words that stand in no < >."""
    found, depth = [], 0
    for at, it in enumerate(words):
        depth += it == "<"
        if depth == 0:
            found.append(it)
        depth -= it == ">" and depth > 0 and words[at - 1] != "-"
    return found


def around(found, start, end):
    """Returns the innermost function whose block has all of these bytes inside its braces."""
    inside = [it for it in found if it.body < start and end < it.end]
    return min(inside, key=lambda it: it.end - it.body, default=None)


def module_of(path):
    """Returns the modules by which the prover names what stands in a file of src/."""
    parts = path.removeprefix("src/").removesuffix(".rt").split("/")
    return tuple(parts[:-1] if parts[-1] in ("lib", "main", "mod") else parts)

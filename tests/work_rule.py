#!/usr/bin/env python3
"""Holds the code to a rule that no contract states: a count of work is lent, and is made only where ALLOWED says. That a call
works nothing out is said of the count that it is lent, so a body that made one of its own could work all the same.

The last line is `N passed, M failed`, of the places that make one outside tests and benches."""
import os
import re
import sys
import tempfile

import source

# The places that make a count, by (file, function): calls that no clause keeps from working, or that are the last to lend one.
ALLOWED = {
    ("crates/mgn_desk/src/bringing.rt", "bring_net"),
    ("crates/mgn_ledger/src/ledger.rt", "enter"),
    ("crates/mgn_ledger/src/ledger.rt", "enter_switch"),
    ("crates/mgn_prepare/src/marker.rt", "mark"),
    ("crates/mgn_pricing/src/desks.rt", "foresee"),
    ("crates/mgn_pricing/src/desks.rt", "take_back"),
    ("crates/mgn_script/src/plain.rt", "switch"),
    ("crates/mgn_script/src/plain.rt", "exec"),
    ("crates/mgn_statement/src/build.rt", "commodity_figures"),
    ("crates/mgn_unit_desk/src/unit_desk.rt", "apply"),
    ("crates/mgn_unit_desk/src/unit_desk.rt", "take_back"),
    ("crates/mgn_world/src/deciding.rt", "decide"),
    ("crates/mgn_world/src/gathering.rt", "prepare"),
    ("crates/mgn_world/src/state.rt", "enter"),
    ("crates/mgn_world/src/switches.rt", "commit_set"),
    ("crates/mgn_world/src/unit_desks.rt", "apply_one"),
    ("crates/mgn_world/src/unit_desks.rt", "take_back_one"),
}
PLANTED = "impl A { fn made(&self) { go(&mut Work::new()); } }\nfn lent(w: &mut Work) { go(w); }\nfn named() { let n = mgn_params::Work :: new; }\n"


def places(files):
    """Returns the places that make a count of work, as (file, line, function)."""
    found = []
    for file, rows in source.tokens(files).items():
        code = [it for it in rows or [] if it.kind == "Code"]
        functions = source.functions(rows or [])
        for at, row in enumerate(code):
            if row.text == "Work" and re.match(r": ?: ?new\b", " ".join(it.text for it in code[at + 1 : at + 4])):
                inside = [it for it in functions if it.body < row.start < it.end]
                function = min(inside, key=lambda it: it.end - it.body, default=None)
                found.append((file, row.line, function.name if function else ""))
    return found


def main():
    with tempfile.TemporaryDirectory(prefix="work-rule-") as room:
        with open(f"{room}/planted.rt", "w", encoding="utf-8") as it:
            it.write(PLANTED)
        missed = [it[1:] for it in places([f"{room}/planted.rt"])] != [(1, "made"), (3, "named")]
    if missed:
        print("the planted places were not found")
    files = [
        f"{at}/{it}"
        for at, _, names in os.walk(f"{source.TOP}/crates")
        for it in sorted(names)
        if it.endswith(".rt")
        and re.search(r"/crates/(?!bench_|\w*_tests/)\w+/src(/|$)", at)
        and not source.is_of_tests(os.path.relpath(f"{at}/{it}", source.TOP))
    ]
    made = {(os.path.relpath(file, source.TOP), function): line for file, line, function in places(sorted(files))}
    wrong = [f"{file}:{made[file, function]}: {function or 'a constant'} makes a count of work" for file, function in sorted({*made} - ALLOWED)]
    wrong += [f"{file}: {function} makes no count of work, and is allowed to" for file, function in sorted(ALLOWED - {*made})]
    print("".join(f"{it}\n" for it in wrong) + f"{len({*made} & ALLOWED)} passed, {len(wrong) + missed} failed")
    return 1 if wrong or missed else 0


if __name__ == "__main__":
    sys.exit(main())

#!/usr/bin/env python3
"""Tries tests/caught.py itself, on three small crates: that it tells an edit that a test catches from one that no test does, and
passes none that cannot be applied, does not compile, or is tried by tests that fail by themselves. The last line is
`N passed, M failed`."""
import os
import re
import subprocess
import sys
import tempfile

from kit_selftest import write_files

LOW = """//! Numbers.
#![tactic(auto)]

/// Twice a number.
pub fn double(x: u32) -> u64 {
    u64::from(x) + u64::from(x)
}

/// The half, rounded down.
pub fn half(x: u32) -> u32 {
    x / 2
}
"""
TESTS = """//! Tests.
#![tactic(auto)]

#[cfg(test)]
mod tests {
    use low::{double, half};

    #[test]
    fn twice_three_is_six(rt: HostRuntime) {
        assert_eq!(rt; double(3), 6);
    }

    #[test]
    fn the_half_of_six_is_three(rt: HostRuntime) {
        assert_eq!(rt; half(6), 3);
    }
}
"""
FILES = {
    "crates.txt": "low:\nlow_tests: low\nodd_tests: low\n",
    "HANDLES": "Handles allowed: none.\n",
    "crates/low/src/lib.rt": LOW,
    "crates/low_tests/src/lib.rt": TESTS,
    "crates/odd_tests/src/lib.rt": TESTS.replace("half(6), 3", "half(6), 2"),
}
ADDS, HALVES = "u64::from(x) + u64::from(x)", "    x / 2"
FILE, OWN = "crates/low/src/lib.rt", "crates/low_tests/src/lib.rt"
DOUBLE, HALF, NONE = "tests::twice_three_is_six", "tests::the_half_of_six_is_three", "tests::there_is_none"
# name, the crate of the tests, those that must fail, file, old, new, and how what is said of it starts
EDITS = [
    ("doubled_once", "low_tests", (DOUBLE,), FILE, ADDS, "u64::from(x)", f"CAUGHT doubled_once: {DOUBLE}: "),
    ("half_of_one_more", "low_tests", (HALF,), FILE, HALVES, "    (x + 1) / 2", f"NOT CAUGHT half_of_one_more: passed: {HALF} "),
    ("one_of_two", "low_tests", (DOUBLE, HALF), FILE, HALVES, "    x / 3", f"NOT CAUGHT one_of_two: passed: {DOUBLE} "),
    ("no_rattle", "low_tests", (HALF,), FILE, HALVES, "    x / true", "BAD EDIT no_rattle: the tests were not run: "),
    ("odd", "odd_tests", (DOUBLE,), FILE, ADDS, "u64::from(x)", "NOT TRIED odd: the tests of odd_tests fail without it"),
    ("twice", "low_tests", (DOUBLE,), FILE, "u64::from(x)", "1", f"BAD EDIT twice: an 'old:' text is in {FILE} 2 times"),
    ("no_test", "low_tests", (NONE,), FILE, ADDS, "u64::from(x)", f"BAD EDIT no_test: low_tests has no {NONE}"),
    ("of_tests", "low_tests", (DOUBLE,), OWN, "double(3), 6", "double(3), 7", f"BAD EDIT of_tests: {OWN} is no file"),
]


def main():
    wrong = []
    with tempfile.TemporaryDirectory(prefix="caught-selftest-") as top:
        write_files(top, FILES)
        for name, crate, fails, path, old, new, _ in EDITS:
            head = "".join(f"fails: {it}\n" for it in fails)
            text = f"tests: {crate}\n{head}file: {path}\nold: {old}\nnew: {new}\n"
            write_files(top, {f"caught/{name}.edit": text})
        script = f"{os.path.dirname(os.path.abspath(__file__))}/caught.py"
        words = [sys.executable, script, "--top", top, *sys.argv[1:]]
        ran = subprocess.run(words, stdout=subprocess.PIPE, stderr=subprocess.STDOUT, text=True, check=False)
    for *_, wanted in EDITS:
        if not re.search(f"(?m)^{re.escape(wanted)}", ran.stdout):
            wrong.append(f"nothing said begins with {wanted!r}")
    # (the tests of low_tests, and doubled_once)
    last = f"2 passed, {len(EDITS)} failed"
    if ran.returncode != 1 or ran.stdout.splitlines()[-1:] != [last]:
        wrong.append(f"status {ran.returncode}, and at its end {ran.stdout.splitlines()[-1:]}, not {last}")
    if wrong:
        print(ran.stdout, end="")
    print(*wrong, sep="\n", end="\n" * bool(wrong))
    print(f"{max(len(EDITS) + 1 - len(wrong), 0)} passed, {len(wrong)} failed")
    return 1 if wrong else 0


if __name__ == "__main__":
    sys.exit(main())

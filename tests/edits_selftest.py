#!/usr/bin/env python3
"""Tries tests/edits.py itself, on a small crate: that it refuses what the prover refuses, blames no caller of a function with a
wrong body, and passes no edit that the contracts let through, or that is no edit at all."""
import os
import re
import subprocess
import sys
import tempfile

import source

CRATE = """#![tactic(auto)]

ghost use Rattle.std.specs.Prelude.{◌≡◌, ◌≤◌, ◌+◌, ◌/◌, ◌<◌};

const STEP: u32 = 3;

/// Twice a number.
pub fn double(x: u32) -> u64
    ensures { result ≡ x + x }
{
    u64::from(x) + u64::from(x)
}

/// Four times a number.
pub fn quadruple(x: u32) -> u64
    ensures { result ≡ (x + x) + (x + x) }
{
    double(x) + double(x)
}

/// A number that is as large as either. Of three such the contract tells nothing more.
pub fn above_both(x: u32, y: u32) -> u32
    ensures first { x ≤ result }
    ensures second { y ≤ result }
{
    if x < y { y } else { x }
}

/// The half, rounded down.
pub fn half(x: u32) -> u32
    ensures { result ≡ x / 2 }
{
    x / 2
}

/// The third, rounded down.
pub fn third(x: u32) -> u32
    ensures { result ≡ x / 3 }
{
    x / 3
}

/// A step on.
pub fn stepped(x: u32) -> u64
    ensures { result ≡ x + 3 }
{
    u64::from(x) + u64::from(STEP)
}

/// A number.
pub struct Held {
    pub number: u32,
}

mod far {
    use crate::Held;

    impl Held {
        /// The number.
        pub fn taken(&self) -> u32
            ensures { result ≡ self.now.number }
        {
            self.number
        }
    }
}
"""

# name, old, new, and the start of what is to be said of it
EDITS = [
    ("double_of_one", "u64::from(x) + u64::from(x)", "u64::from(x) + 1", "refused: double did not prove"),
    ("half_of_more", "    x / 2", "    x / 2 + 1", "refused: half did not prove"),
    ("harmless", "double(x) + double(x)", "{ let twice = double(x); twice + twice }", "NOT REFUSED"),
    ("quarter_promised", "result ≡ x / 2", "result ≡ x / 4", "refused: half did not prove"),
    ("third_promised_again", "result ≡ x / 3", "x / 3 ≡ result", "NOT REFUSED"),
    ("double_promised", "result ≡ x + x }", "result ≡ x + 1 }", "refused: "),
    ("even_larger", "if x < y { y } else { x }", "if x < y { y } else { u32::MAX }", "NOT REFUSED"),
    ("least_of_both", "if x < y { y } else { x }", "if x < y { x } else { y }", "refused: above_both did not prove"),
    ("far_from_its_type", "            self.number", "            self.number / 2", "refused: Held::taken did not prove"),
    ("longer_step", "STEP: u32 = 3", "STEP: u32 = 4", "refused: "),
    ("no_rattle", "    x / 3", "    x / true", "BAD EDIT: it did not reach the prover"),
    ("twice_there", "double(x)", "double(0)", "BAD EDIT: an 'old:' text is in src/lib.rt 2 times"),
    ("nowhere", "x / 5", "x / 6", "BAD EDIT: an 'old:' text is in src/lib.rt 0 times"),
]


def main():
    wrong = []
    with tempfile.TemporaryDirectory(prefix="edits-selftest-") as top:
        os.makedirs(f"{top}/crates/fixture/src")
        os.makedirs(f"{top}/edits/fixture")
        files = {"crates.txt": "fixture:\n", "HANDLES": "Handles allowed: none.\n", "crates/fixture/src/lib.rt": CRATE}
        for name, old, new, _ in EDITS:
            files[f"edits/fixture/{name}.edit"] = f"file: src/lib.rt\nold: {old}\nnew: {new}\n"
        for path, text in files.items():
            with open(f"{top}/{path}", "w", encoding="utf-8") as it:
                it.write(text)
        tests = os.path.dirname(os.path.abspath(__file__))
        for flags in ([], ["--alone"]) if "--alone" in sys.argv else ([],):
            words = [sys.executable, f"{tests}/edits.py", "--top", top, *flags]
            ran = subprocess.run(words, stdout=subprocess.PIPE, stderr=subprocess.STDOUT, text=True)
            said = dict(re.findall(r"(?m)^fixture/(\w+): (.*)", ran.stdout))
            wrong += [f"{name}: {said.get(name)}, and not {wanted}" for name, _, _, wanted in EDITS if not said.get(name, "").startswith(wanted)]
            refused = sum(wanted.startswith("refused") for _, _, _, wanted in EDITS)
            last = f"{refused} passed, {len(EDITS) - refused} failed"
            if ran.returncode != 1 or ran.stdout.splitlines()[-1:] != [last]:
                wrong.append(f"status {ran.returncode}, and at its end {ran.stdout.splitlines()[-1:]}, not {last}")
            if wrong:
                print(ran.stdout, end="")
    rows = source.functions(source_of(CRATE))
    places = {it.name: (it.line, it.last) for it in rows}
    if [*places] != ["double", "quadruple", "above_both", "half", "third", "stepped", "taken"] or places["half"] != (30, 34):
        wrong.append(f"functions were found at {places}")
    print(*wrong, sep="\n", end="\n" * bool(wrong))
    print(f"{max(len(EDITS) - len(wrong), 0)} passed, {len(wrong)} failed")
    return 1 if wrong else 0


def source_of(text):
    with tempfile.NamedTemporaryFile("w", suffix=".rt", encoding="utf-8") as it:
        it.write(text)
        it.flush()
        return source.tokens([it.name])[it.name]


if __name__ == "__main__":
    sys.exit(main())

#!/usr/bin/env python3
"""Tries the gate itself on a repository of four small crates: that it passes as it stands, and that each of these fails or
is tried: a lemma renamed that a crate above cites, a text changed that tests above read, lines of tests/green.txt written
by hand, and an edit deleted while its function stands. The last line is `N passed, M failed`."""
import contextlib
import io
import math
import os
import re
import shutil
import subprocess
import sys
import tempfile

import gate
import green
import source
from kit_selftest import write_files

LOW = """//! Twice a number.
#![tactic(auto)]

ghost use Rattle.std.specs.Prelude.{◌≡◌, ◌+◌};

/// Twice a number.
pub fn double(x: u32) -> u64
    ensures { result ≡ x + x }
{
    u64::from(x) + u64::from(x)
}
"""
STEPS = """-- A step.
use Rattle.std.specs.Prelude.{ℕ, ◌+◌}

-- three further
abbrev pub step : ℕ → ℕ
step n = n + 3
"""
LEMMAS = """-- Steps and sums.
use Rattle.std.proofs.Common.{◌≡◌, ℕ, ◌+◌, arith}
use Rattle.low.specs.Steps.{step}

pub step_of_sum : (a b : ℕ) → step (a + b) ≡ step a + b
step_of_sum a b = omega arith
"""
HIGH = """//! A law.
#![tactic(auto)]

ghost use Rattle.low.specs.Steps.{step};
ghost use Rattle.std.specs.Prelude.{◌≡◌, ◌+◌};

/// A step goes through a sum.
#[tactic(auto, using(low::proofs::SumLemmas::step_of_sum))]
pub fn steps_through_sums(x: u8, y: u8)
    ensures { step (x + y) ≡ step x + y }
{}
"""
TEXTS = """//! A text for tests.
#![tactic(auto)]

/// A line.
pub fn line() -> &'static str {
    "one,2"
}
"""
TESTS = """//! Tests of the text.
#![tactic(auto)]

#[cfg(test)]
mod tests {
    use worked_sets::line;

    #[test]
    fn line_has_two_fields(rt: HostRuntime) {
        assert_eq!(rt; line(), "one,2");
    }
}
"""
FILES = {
    "crates.txt": "low:\nhigh: low\nworked_sets:\ntexts_tests: worked_sets\n",
    "HANDLES": "Handles allowed: none.\n",
    "crates/low/src/lib.rt": LOW,
    "crates/low/specs/Lib.antt": "pub mod Steps\n",
    "crates/low/specs/Steps.antt": STEPS,
    "crates/low/proofs/Lib.antt": "pub mod SumLemmas\n",
    "crates/low/proofs/SumLemmas.antt": LEMMAS,
    "crates/high/src/lib.rt": HIGH,
    "crates/worked_sets/src/lib.rt": TEXTS,
    "crates/texts_tests/src/lib.rt": TESTS,
    "edits/low/once.edit": "file: src/lib.rt\nold: u64::from(x) + u64::from(x)\nnew: u64::from(x)\n",
    "edits/high/further.edit": "file: src/lib.rt\nold: ≡ step x + y }\nnew: ≡ step x }\n",
}
RENAMED = {"crates/low/proofs/SumLemmas.antt": LEMMAS.replace("step_of_sum", "step_of_a_sum")}
OTHER_TEXT = {"crates/worked_sets/src/lib.rt": TEXTS.replace("one,2", "one,3"), "sets/one.csv": "one,3"}


def tried(top):
    """Returns the crates whose edits the short run would try, having seen that it proves every crate."""
    proved, found = gate.chosen(green.Repository(top), "", ())
    return sorted(found) if proved == {*green.Repository(top).lines} else ["some crate is not proved"]


def with_change(top, path, old, new):
    """Returns whose edits the short run would try with this change, which is taken back."""
    text = FILES[path]
    assert text.count(old), old
    write_files(top, {path: text.replace(old, new)})
    found = tried(top)
    write_files(top, {path: text})
    return found


def run(top, until=math.inf):
    """Proves, tests and tries what the short run would until then, and returns how much failed and what was said."""
    repository = green.Repository(top)
    with tempfile.TemporaryDirectory(prefix="gate-") as room, contextlib.redirect_stdout(io.StringIO()) as said:
        made = gate.Gate(top, room)
        made.crates(*gate.chosen(repository, "", ()), until)
        made.tell_faults()
    return made.failed, said.getvalue()


def bare(top, most):
    words = [sys.executable, f"{top}/tests/bare.py", "--most", str(most)]
    ran = subprocess.run(words, capture_output=True, text=True, check=False)
    return ran.returncode, ran.stdout


def keys(top):
    """Yields what an unchanged repository, and one with this change or that, has tried."""
    repository = green.Repository(top)
    yield "a line by hand with another key", both(top, "0" * 32) == ["high", "low"]
    green.write(top, repository.keys())
    yield "lines with the keys of what stands", tried(top) == []
    src, lemmas, steps = "crates/low/src/lib.rt", "crates/low/proofs/SumLemmas.antt", "crates/low/specs/Steps.antt"
    yield "another body below", with_change(top, src, "u64::from(x) + u64::from(x)", "2 * u64::from(x)") == ["low"]
    yield "another contract below", with_change(top, src, "x + x", "x + x + 0") == ["high", "low"]
    yield "another proof of a lemma below", with_change(top, lemmas, "= omega arith", "= omega (arith)") == ["low"]
    yield "another statement of a lemma below", with_change(top, lemmas, "step a + b", "b + step a") == ["high", "low"]
    yield "another definition below", with_change(top, steps, "n + 3", "n + 4") == ["high", "low"]
    yield "another edit", with_change(top, "edits/high/further.edit", "step x }", "step y }") == ["high"]
    yield "another HANDLES", with_change(top, "HANDLES", "none", "Wait") == ["high", "low"]


def both(top, key):
    """Returns what is tried where lines with this key stand for both crates with edits."""
    green.write(top, {"low": key, "high": key})
    return tried(top)


def runs(top):
    """Yields what runs of the gate say."""
    os.remove(f"{top}/{green.GREEN}")
    failed, said = run(top, 0)
    yield f"no time left for edits\n{said}", failed == 0 and "edits not tried: of low high" in said and tried(top) == ["high", "low"]
    failed, said = run(top)
    each = all(f"{it}: 1 edits refused, 0 not" in said for it in ("low", "high"))
    yield f"as it stands\n{said}", failed == 0 and each and tried(top) == []
    has_edits = bare(top, 0)
    yield f"each function has its edit\n{has_edits[1]}", has_edits[0] == 0
    os.remove(f"{top}/edits/low/once.edit")
    deleted = bare(top, 0)
    yield "a deleted edit: too many functions are bare", deleted[0] == 1 and "low::double" in deleted[1]
    yield "a deleted edit: the crate above stays as it was", tried(top) == []
    write_files(top, {**FILES, **RENAMED, **OTHER_TEXT})
    green.write(top, green.Repository(top).keys())
    failed, said = run(top)
    lost = re.findall(r"(?m)^rt: FAILED: (.*)$", said)
    yield f"a renamed lemma, for all that is written by hand\n{said}", failed and any("high" in it for it in lost)
    yield f"another text, for all that is written by hand\n{said}", failed and any("texts_tests (tests)" in it for it in lost)
    again = said.rpartition("gate: what failed:\n")[2]
    yield f"what failed, again at the end\n{said}", again.startswith("gate: FAILED: rt ci") and "rt: FAILED: high" in again


def main():
    number = wrong = 0
    with tempfile.TemporaryDirectory(prefix="gate-selftest-") as top:
        write_files(top, FILES)
        for it in source.files_below(f"{source.TOP}/tests", ".py"):
            os.makedirs(f"{top}/tests", exist_ok=True)
            shutil.copy(it, f"{top}/tests")
        for part in (keys, runs):
            for name, is_right in part(top):
                number, wrong = number + 1, wrong + (not is_right)
                if not is_right:
                    print(f"the gate on itself: WRONG: {name}")
    print(f"{number - wrong} passed, {wrong} failed")
    return 1 if wrong else 0


if __name__ == "__main__":
    sys.exit(main())

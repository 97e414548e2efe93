"""Random days and random sets, answered by the program and by the reference in plain Python: all replies must be the same.

python3 tests/fuzz.py [--program PROGRAM] [--seed N] [--lines N] [--sets N] [--minutes M]

It ends after so many lines of days and so many changed sets, or after so many minutes. At a difference it writes the case to a
folder: the sets, the shortest script that it found, and both answers. Then it ends with status 1. `--seed` makes it again.
"""
import argparse
import collections
import os
import random
import shutil
import subprocess
import sys
import tempfile
import time

import fuzz_days
import fuzz_sets
from reference.fault_words import told_fault, told_set
from reference.session import NoSet, Session, SetFault, set_of_file

HERE = os.path.dirname(os.path.abspath(__file__))
PROGRAM = os.path.join(os.path.dirname(HERE), "crates", "spand", "out", "spand")
LEAST_DONE = 0.2  # of the lines of each word, once there are a thousand


class Difference(Exception):
    """The program and the reference do not agree: the folder of the sets, the set of the start, and the lines."""

    def __init__(self, folder, name, lines, rest=b""):
        super().__init__(folder, name)
        self.folder, self.name, self.lines, self.rest = folder, name, lines, rest


class Counts:
    """How much was compared: lines of days by word, those that were done, and changed sets by what became of them."""

    def __init__(self):
        self.lines, self.sets, self.checks = 0, 0, 0
        self.asked, self.done, self.reasons, self.causes, self.figures = (collections.Counter() for _ in range(5))

    def add(self, line, reply):
        """Counts a line of a day by its reply."""
        self.lines += 1
        words, told = line.split(b" ", 1), reply.split("\n", 1)[0].split()
        word = words[0].decode("ascii", "replace")
        if told[0] == "ERR":
            self.reasons[told[-1] if told[-1].isalpha() else "BADSET"] += 1
        if told[-1] not in ("SYNTAX", "RANGE", "LONG"):
            self.asked[word] += 1
            self.done[word] += told[0] == "OK"
        for row in reply.split("\n")[1:]:
            self.add_figures(row.split(" "))

    def add_figures(self, row):
        """Counts which figures in a row of a statement are not 0, and where the minimum decides."""
        self.figures[f"rows {row[0]}"] += row[0] != ""
        names = {"G": ["scan", "", "intra", "spot", "credit", "minimum", "risk"], "N": ["option value"]}.get(row[0], [])
        for name, value in zip(names, row[2 if row[0] == "G" else 1:]):
            self.figures[name] += name != "" and int(value) != 0
        self.figures["risk is minimum"] += row[0] == "G" and row[7] != "0" and row[7] == row[8]

    def told(self):
        """Returns the lines that tell what was compared."""
        shares = ", ".join(f"{word} {self.done[word]} of {asked}" for word, asked in sorted(self.asked.items()))
        listed = lambda numbers: ", ".join(f"{what} {number}" for what, number in sorted(numbers.items()))
        return [f"{self.lines} lines and {self.sets} changed sets are the same, and {self.checks} checks of sets",
                f"done: {shares}", f"refused: {listed(self.reasons)}", f"in statements, other than 0: {listed(+self.figures)}",
                f"faults of the sets checked: {listed(self.causes)}"]

    def empty_words(self):
        """Returns the words that were asked often and done too seldom."""
        return [word for word, asked in self.asked.items() if asked >= 1_000 and self.done[word] < LEAST_DONE * asked]


def run(program, folder, name, text, command="script"):
    """Returns what the program answers to the text: output, errors, status."""
    words = [program, command, "--dir", folder, "--set", name]
    ran = subprocess.run(words, input=text, capture_output=True, check=False)
    return ran.stdout, ran.stderr.decode("utf-8", "replace"), ran.returncode


def expected(folder, name, lines):
    """Returns what the reference answers to the lines, as a list of replies, with errors and status."""
    try:
        session = Session(folder, set_of_file(folder, name))
    except NoSet:
        return [], "spand: set NOSET\n", 3
    except SetFault as fault:
        return [], f"spand: set BADSET {fault.number}\n", 3
    return [session.reply_to(line) for line in lines], "", 0


def agree(program, folder, name, lines, rest=b"", replies=None):
    """Returns whether the program's answer to the lines is that of the reference."""
    want = (replies, "", 0) if replies is not None else expected(folder, name, lines)
    text = b"".join(line + b"\n" for line in lines) + rest
    return run(program, folder, name, text) == ("".join(want[0]).encode("ascii"), *want[1:])


def written(folder, texts):
    """Writes the files of sets and returns the folder."""
    os.makedirs(folder)
    for name, text in texts.items():
        with open(os.path.join(folder, f"{name}.csv"), "wb") as file:
            file.write(text)
    return folder


def run_day(program, work, seed, most, counts):
    """Compares one day of at most so many lines."""
    pick = random.Random(f"day {seed}")
    texts = fuzz_sets.family(pick, pick.choice([1, 2, 4, 8]))
    names = [*texts, *texts, "NONE", "BAD", "EMPTY", "A" * 17]
    texts.update(BAD=fuzz_sets.changed(pick, pick.choice(list(texts.values()))), EMPTY=b"")
    folder = written(os.path.join(work, f"day{seed}"), texts)
    session = Session(folder, set_of_file(folder, "S0"))
    kind = fuzz_days.Crowd if pick.random() < 0.2 else fuzz_days.Day
    day, lines, replies = kind(pick, session, names), [], []
    number = min(most, pick.choice([50, 500, 2_000, 3_000]) if kind is fuzz_days.Day else 3_000)
    until = time.monotonic() + 8  # (a day over large sets is short)
    while len(lines) < number and time.monotonic() < until:
        if len(lines) == number - 12 and pick.random() < 0.7:
            day.waiting = day.end()
        lines.append(day.line())
        replies.append(session.reply_to(lines[-1]))
        counts.add(lines[-1], replies[-1])
    rest = b"" if pick.random() < 0.5 else pick.choice([b"ASK A0", b"\xff", b"x" * 300])
    if not agree(program, folder, "S0", lines, rest, replies):
        raise Difference(folder, "S0", lines, rest)
    shutil.rmtree(folder)


def changed_sets(pick, most):
    """Returns a good set and so many files that are good ones with random changes, by name."""
    texts, good = {"GOOD": fuzz_sets.good_small_set(pick)}, b""
    for number in range(most):
        if number % 25 == 0:
            good = fuzz_sets.full_set(pick) if pick.random() < 0.04 else fuzz_sets.good_small_set(pick)
        how = pick.random()
        texts[f"B{number}"] = fuzz_sets.odd_line(pick) if how < 0.1 else good if how < 0.15 else fuzz_sets.changed(pick, good)
    return texts


def run_sets(program, work, seed, most, counts, checks):
    """Compares a day of SWITCHes to so many changed sets, scripts that begin with a few, and how `check` tells some."""
    pick = random.Random(f"sets {seed}")
    texts = changed_sets(pick, most)
    folder = written(os.path.join(work, f"sets{seed}"), texts)
    session = Session(folder, set_of_file(folder, "GOOD"))
    lines = ["ORIGIN N NET", "OPEN A N"]
    for number, contract in enumerate(list(session.book.parameters.contracts)[:pick.choice([0, 1, 1, 2])], 1):
        lines.append(f"TRADE A {number} {contract} {pick.randint(-9, 9) or 1} 0")
    for number in range(most):
        lines += [f"SWITCH B{number}"] + (["STMT A"] if pick.random() < 0.3 else [])
    lines = [line.encode("ascii") for line in lines]
    replies = [session.reply_to(line) for line in lines]
    if not agree(program, folder, "GOOD", lines, b"", replies):
        raise Difference(folder, "GOOD", lines)
    counts.sets += most
    for name in pick.sample(sorted(texts), min(3, len(texts))):
        if not agree(program, folder, name, lines[:3]):
            raise Difference(folder, name, lines[:3])
    for name in pick.sample(sorted(texts), min(checks, len(texts))):
        run_check(program, folder, name, counts)
    shutil.rmtree(folder)


def run_check(program, folder, name, counts):
    """Compares how `check` tells a set."""
    try:
        told = "".join(f"{line}\n" for line in told_set(set_of_file(folder, name))), "", 0
        counts.causes["none"] += 1
    except SetFault as fault:
        told = "", f"spand: {told_fault(fault)}\n", 3
        counts.causes[fault.cause] += 1
    output, errors, status = run(program, folder, name, b"", "check")
    counts.checks += 1
    if (output.decode("utf-8", "replace"), errors, status) != told:
        print(f"check of {name}: the program {(output, errors, status)}, the reference {told}")
        raise Difference(folder, name, [])


def cut(program, folder, name, lines):
    """Returns the lines up to the first whose reply differs."""
    output, at = run(program, folder, name, b"".join(line + b"\n" for line in lines))[0], 0
    replies = expected(folder, name, lines)[0]
    for number, reply in enumerate(replies, 1):
        if output[at:at + len(reply)] != reply.encode("ascii"):
            return lines[:number]
        at += len(reply)
    return lines


def shortened(program, folder, name, lines):
    """Returns fewer of the lines, whose replies still differ: parts are left out while that is so."""
    part, until = len(lines) // 2, time.monotonic() + 60
    while part > 0 and time.monotonic() < until:
        at = 0
        while at < len(lines) and time.monotonic() < until:
            fewer = lines[:at] + lines[at + part:]
            if agree(program, folder, name, fewer):
                at += part
            else:
                lines = fewer
        part //= 2
    return lines


def keep(program, found, seed):
    """Writes a difference to a folder of its own and tells where it is, and the two replies."""
    lines = found.lines
    if not agree(program, found.folder, found.name, lines):
        lines = shortened(program, found.folder, found.name, cut(program, found.folder, found.name, lines))
    text = b"".join(line + b"\n" for line in lines) + (found.rest if lines is found.lines else b"")
    output, errors, status = run(program, found.folder, found.name, text)
    replies, *rest = expected(found.folder, found.name, lines)
    kept = tempfile.mkdtemp(prefix="difference_")
    shutil.copytree(found.folder, os.path.join(kept, "sets"))
    for file, content in (("lines", text), ("program", output), ("reference", "".join(replies).encode("ascii"))):
        with open(os.path.join(kept, file), "wb") as opened:
            opened.write(content)
    print(f"seed {seed}: they differ, on set {found.name}; lines, sets and both answers are in {kept}")
    print(f"line {len(lines)}: {lines[-1] if lines else b''!r}")
    print(f"the program: {output.splitlines()[-1:]}, {errors!r}, {status}")
    print(f"the reference: {replies[-1:]}, {rest}")


def words_of(arguments):
    """Returns the words of the command line."""
    parser = argparse.ArgumentParser(description=__doc__.split("\n")[0])
    parser.add_argument("--program", default=PROGRAM, help="what is compared, by default what the gate leaves")
    parser.add_argument("--seed", type=int, default=1, help="the seed of the first day and of the first changed sets")
    parser.add_argument("--lines", type=int, default=100_000, help="how many lines of days")
    parser.add_argument("--sets", type=int, default=10_000, help="how many changed sets")
    parser.add_argument("--checks", type=int, default=2, help="how many of a hundred changed sets are told by `check` too")
    parser.add_argument("--minutes", type=float, default=10, help="after how many minutes no other day begins")
    return parser.parse_args(arguments)


def main(arguments):
    """Compares days and sets by turns, and returns the exit status."""
    words, counts = words_of(arguments), Counts()
    seed, until = words.seed, time.monotonic() + 60 * words.minutes
    with tempfile.TemporaryDirectory() as work:
        while time.monotonic() < until and (counts.lines < words.lines or counts.sets < words.sets):
            try:
                if counts.lines < words.lines:
                    run_day(words.program, work, seed, words.lines - counts.lines, counts)
                if counts.sets < words.sets:
                    run_sets(words.program, work, seed, min(200, words.sets - counts.sets), counts, 2 * words.checks)
            except Difference as found:
                keep(words.program, found, seed)
                return 1
            seed += 1
    print("\n".join(counts.told()))
    print(f"seeds {words.seed} to {seed - 1}")
    for word in counts.empty_words():
        print(f"too few lines {word} were done")
    return 1 if counts.empty_words() else 0


if __name__ == "__main__":
    sys.exit(main(sys.argv[1:]))

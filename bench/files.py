#!/usr/bin/env python3
"""Times what reading a set's file takes, whatever its lines look like.

Usage: bench/files.py [PROGRAM] [--runs R]

The set has 256 commodities with 12 months and 32 spreads each, and 4,096 contracts; its file is filled up with empty lines to the
8,388,608 bytes that a file may have. Told is the least processor time of `check` for each kind of lines, with its ratio to plain
ones; the slowest is to stay below 3 times.
"""
import argparse
import pathlib
import resource
import subprocess
import tempfile

import desks

TOP = pathlib.Path(__file__).resolve().parent.parent
LARGEST = 8_388_608
COMMODITIES, CONTRACTS, SPREADS = 256, 4096, 32
FAULT = "K,NONE"


def records():
    """The records of the set, with as many spreads as there may be."""
    text = desks.set_file(COMMODITIES, CONTRACTS)
    kept = [line for line in text.splitlines() if not line.startswith("S,")]
    return kept + [f"S,C{g},1,10000,2,{10000 + n},40" for g in range(COMMODITIES) for n in range(SPREADS)]


def quoted(line):
    return ",".join(f'"{field}"' for field in line.split(","))


def left_open(line):
    front, _, last = line.rpartition(",")
    return f'{front},"{last}'


def kinds():
    """Returns of each kind of file its name, how a line of it is written, what ends a line, and what follows the records."""
    return [
        ("plain", str, "\n", ""),
        ("plain, a fault at the end", str, "\n", FAULT),
        ("CR LF", str, "\r\n", ""),
        ("carriage returns around each line", lambda line: f"\r\r{line}", "\r\r\r\n", ""),
        ("all fields quoted", quoted, "\n", ""),
        ("the same, a fault at the end", quoted, "\n", FAULT),
        ("a byte order mark on each line", lambda line: f"\ufeff{line}", "\n", ""),
        ("a quote left open on each line", left_open, "\n", ""),
        ("the same, two records in the last line", left_open, "\n", f"{FAULT}\r{FAULT}"),
    ]


def file_of(written, end, last):
    """Returns the bytes of a file, as many as there may be."""
    front = "".join(written(line) + end for line in records()) + (last + end if last else "")
    front, end = front.encode(), end.encode()
    return front + end * ((LARGEST - len(front)) // len(end))


def seconds_of(program, folder, runs):
    """Returns the least processor time of a check, in seconds."""
    took = []
    for _ in range(runs):
        before = resource.getrusage(resource.RUSAGE_CHILDREN)
        subprocess.run([program, "check", "--dir", folder, "--set", "BENCH"], capture_output=True, check=False)
        after = resource.getrusage(resource.RUSAGE_CHILDREN)
        took.append(after.ru_utime - before.ru_utime + after.ru_stime - before.ru_stime)
    return min(took)


def main():
    parser = argparse.ArgumentParser(description="Times spand check on files of all kinds.")
    parser.add_argument("program", nargs="?", default=TOP / "crates/spand/out/spand")
    parser.add_argument("--runs", type=int, default=5)
    words = parser.parse_args()
    plain = None
    with tempfile.TemporaryDirectory() as folder:
        for name, *how in kinds():
            (pathlib.Path(folder) / "BENCH.csv").write_bytes(file_of(*how))
            seconds = seconds_of(words.program, folder, words.runs)
            plain = plain or seconds
            print(f"{name:40} {seconds:6.3f} s {seconds / plain:5.2f}")


if __name__ == "__main__":
    main()

#!/usr/bin/env python3
"""Times `spand script` on a long input, beside `cat` and a plain echo of lines.

Usage: bench/script.py [LINES [PROGRAM]]; 600,000 lines and the program that `rt run` or `rt ci` leaves by default.
It needs a C compiler, `cc`, for the echo and for what tells the memory. The three programs run in turn, seven times
from a file to a file, and of each the fastest run counts. The memory of a line is what the program holds at most, less
what it holds for an empty input, by the lines that it keeps.
"""
import pathlib
import random
import subprocess
import sys
import tempfile
import time

import native

HERE = pathlib.Path(__file__).resolve().parent
ACCOUNTS = 100
FUTURES = 20
COMMODITIES = 4
MOVES = [0, 0, -1, -1, 1, 1, -2, -2, 2, 2, -3, -3, 3, 3, -2.1, 2.1]


def set_file():
    """Futures of four commodities, five months each, with spreads between months and between two commodities."""
    records = ["H,1,BENCH"]
    for g in range(COMMODITIES):
        records.append(f"G,C{g},0")
        for month in range(1, 6):
            records.append(f"M,C{g},{month},{1 if month < 3 else 2}")
    for i in range(FUTURES):
        step = 100 - i
        array = ",".join(str(int(move * step)) for move in MOVES)
        records.append(f"K,F{i},C{i % COMMODITIES},{i // COMMODITIES + 1},F,F,10000,0,{array}")
    for g in range(COMMODITIES):
        records.append(f"S,C{g},1,10000,2,10000,40")
    records.append("I,5000,C0,A,10000,C1,B,20000")
    return "\n".join(records) + "\n"


def script(lines):
    """Six lines in ten trade, two post, two ask."""
    pick = random.Random(1)
    yield "ORIGIN CUST GROSS\n"
    for account in range(ACCOUNTS):
        yield f"OPEN A{account} CUST\n"
    lots = [0] * ACCOUNTS
    for _ in range(lines - ACCOUNTS - 1):
        account = pick.randrange(ACCOUNTS)
        kind = pick.randrange(10)
        if kind < 6:
            lots[account] += 1
            quantity = pick.choice([-1, 1]) * pick.randrange(1, 100)
            yield f"TRADE A{account} {lots[account]} F{pick.randrange(FUTURES)} {quantity} 0\n"
        elif kind < 8:
            yield f"POST A{account} CASH {pick.randrange(1, 100000)}\n"
        else:
            yield f"ASK A{account}\n"


def run(command, source, target):
    """The seconds of one run."""
    with open(source, "rb") as given, open(target, "wb") as taken:
        begin = time.perf_counter()
        subprocess.run(command, stdin=given, stdout=taken, check=True)
        return time.perf_counter() - begin


def fastest(commands, source, target):
    """The seconds of the fastest run of each command, in turn."""
    runs = [[run(command, source, target) for command in commands] for _ in range(7)]
    return [min(of_one) for of_one in zip(*runs)]


def main():
    lines = int(sys.argv[1]) if len(sys.argv) > 1 else 600_000
    program = pathlib.Path(sys.argv[2] if len(sys.argv) > 2 else HERE.parent / "crates/spand/out/spand").resolve()
    with tempfile.TemporaryDirectory() as folder:
        work = pathlib.Path(folder)
        (work / "BENCH.csv").write_text(set_file())
        with open(work / "input", "w", encoding="ascii") as made:
            made.writelines(script(lines))
        (work / "empty").write_text("")
        echo, _ = native.built(work, "echo"), native.built(work, "most")
        command = [str(program), "script", "--dir", str(work), "--set", "BENCH"]
        commands = [["cat"], [echo], command]
        cat_seconds, echo_seconds, seconds = fastest(commands, work / "input", work / "output")
        refused = sum(line.startswith(b"ERR") for line in open(work / "output", "rb"))
        most, least = [native.most_held(work, command, work / name, work / "output") for name in ("input", "empty")]
        size = (work / "input").stat().st_size
    print(f"{lines:,} lines, {size:,} bytes, {refused:,} refused")
    print(f"cat     {cat_seconds:8.3f} s")
    print(f"echo    {echo_seconds:8.3f} s")
    print(f"spand   {seconds:8.3f} s, {lines / seconds:,.0f} lines a second, {seconds / echo_seconds:.1f} times the echo")
    print(f"memory  {most:,} bytes at most, {(most - least) / lines:.0f} bytes a line")


if __name__ == "__main__":
    main()

#!/usr/bin/env python3
"""Times what questions and new sets cost in `spand script`: each is the time of a session with them, less that of the same
session without, by their number. Then tells the memory that a question takes, in `spand script` and in `spand serve`.

Usage: bench/questions.py [PROGRAM] [--memory]; the program that `rt run` or `rt ci` leaves by default, and the memory alone. It
needs a C compiler, `cc`. Sessions run in turn, five times from a file to a file, and of each the fastest run counts.

Memory is the most that a day of 1,000,000 entries held at once, nearly all of them questions, less that of the same day without
them, by their number. One day asks for an account that is there, one for an account that is not, which is refused. The server has
one session, and from its start a slot for each entry, so what all of the day takes by that number is told too: the slots are in it.
It is to stay below 150 bytes.
"""
import argparse
import pathlib
import random
import subprocess
import sys
import tempfile
import time

import native
import serve

HERE = pathlib.Path(__file__).resolve().parent
ACCOUNTS = 1024
COMMODITIES = 40
MONTHS = 50
LOTS = 10_000
# Of the history, and the lines of a session.
ENTRIES = 1_000_000
MOVES = [0, 0, -1, -1, 1, 1, -2, -2, 2, 2, -3, -3, 3, 3, -2.1, 2.1]


def set_file():
    """2,000 futures: 40 commodities of 50 months, spreads between near and far months, and one between two commodities."""
    records = ["H,1,BENCH"]
    records += [f"G,C{g},0" for g in range(COMMODITIES)]
    records += [f"M,C{g},{m + 1},{1 if m < 10 else 2}" for g in range(COMMODITIES) for m in range(MONTHS)]
    for i in range(COMMODITIES * MONTHS):
        array = ",".join(str(int(move * (2100 - i))) for move in MOVES)
        records.append(f"K,F{i},C{i // MONTHS},{i % MONTHS + 1},F,F,10000,0,{array}")
    records += [f"S,C{g},1,10000,2,10000,40" for g in range(COMMODITIES)]
    records.append("I,5000,C0,A,10000,C1,B,20000")
    return "\n".join(records) + "\n"


def opened():
    """1,024 customers with two lots each."""
    pick = random.Random(1)
    lines = ["ORIGIN CUST GROSS"]
    for a in range(ACCOUNTS):
        lines.append(f"OPEN A{a} CUST")
        for lot in (1, 2):
            lines.append(f"TRADE A{a} {lot} F{pick.randrange(COMMODITIES * MONTHS)} {pick.choice([-1, 1]) * lot} 0")
    return lines


def filled():
    """1,024 customers with a lot in each of 40 contracts."""
    pick, lines = random.Random(3), ["ORIGIN CUST GROSS"]
    for a in range(ACCOUNTS):
        lines.append(f"OPEN A{a} CUST")
        for lot, contract in enumerate(pick.sample(range(COMMODITIES * MONTHS), 40), 1):
            lines.append(f"TRADE A{a} {lot} F{contract} {pick.choice([-1, 1]) * pick.randrange(1, 5)} 0")
    return lines


def entered():
    """One account with 10,000 lots."""
    pick = random.Random(2)
    lines = ["ORIGIN HOUSE NET", "OPEN H1 HOUSE"]
    return lines + [f"TRADE H1 {lot + 1} F{pick.randrange(40)} {pick.choice([-1, 1])} 0" for lot in range(LOTS)]


def seconds(command, work, lines):
    (work / "input").write_text("\n".join(lines) + "\n")
    with open(work / "input", "rb") as given, open(work / "output", "wb") as taken:
        begin = time.perf_counter()
        subprocess.run(command, stdin=given, stdout=taken, check=True)
        return time.perf_counter() - begin


def held_by_script(program, work, before, line, count):
    """Returns the bytes that a day held at most, and how many lines were refused."""
    with open(work / "input", "w", encoding="ascii") as made:
        made.writelines(f"{it}\n" for it in before)
        made.writelines(f"{line}\n" for _ in range(count))
    most = native.most_held(work, [program, "script", "--dir", work, "--set", "BENCH"], work / "input", work / "output")
    with open(work / "output", "rb") as taken:
        return most, sum(reply.startswith(b"ERR") for reply in taken)


def held_by_server(program, work, before, line, count):
    """Returns the same of a server with one session."""
    (work / "opening").write_bytes(serve.text(before))
    (work / "asked").write_bytes(serve.text([line] * count))
    _, _, refused = serve.loaded(native.watched(work, [program]), work, serve.WINDOW, "NOACCT", [work / "asked"])
    return native.told(work), refused


def tell_memory(program, work):
    for tool in ("load", "most"):
        native.built(work, tool)
    before = opened()[:4]
    count = ENTRIES - len(before)
    for way, held in (("script", held_by_script), ("serve", held_by_server)):
        without, _ = held(program, work, before, "", 0)
        for name, line, all_refused in (("answered", "ASK A0", 0), ("refused", "ASK NONE", count)):
            most, refused = held(program, work, before, line, count)
            if refused != all_refused:
                sys.exit(f"{way}: {refused:,} of {count:,} questions were refused")
            each, whole = (most - without) / count, most / count
            print(f"a question {name + ', ' + way:27} {each:12,.1f} bytes, {whole:,.1f} with all that the program holds")


def tell_times(program, work):
    none, customers, holders, house = ["ORIGIN CUST GROSS"], opened(), filled(), entered()
    sessions = {
        "read the file of a set": (none, "SWITCH BENCH", 16),
        "SWITCH of 1,024 units of two lots": (customers, "SWITCH BENCH", 16),
        "SWITCH of 1,024 units of 40 contracts": (holders, "SWITCH BENCH", 16),
        "ASK": (customers, "ASK A7", 400_000),
        "TOTAL of 1,024 accounts": (customers, "TOTAL CUST", 100_000),
        "STMT of two lots": (customers, "STMT A7", 20_000),
        "STMT of 10,000 lots": (house, "STMT H1", 100),
    }
    command = [program, "script", "--dir", str(work), "--set", "BENCH"]
    runs = {name: [] for name in sessions}
    for _ in range(5):
        for name, (lines, line, count) in sessions.items():
            without = seconds(command, work, lines)
            runs[name].append((seconds(command, work, lines + [line] * count) - without) / count)
    for name, each in runs.items():
        print(f"{name:38} {min(each) * 1e6:12,.1f} microseconds")


def main():
    parser = argparse.ArgumentParser(description="Times questions and new sets, and tells the memory of questions.")
    parser.add_argument("program", nargs="?", default=HERE.parent / "crates/spand/out/spand")
    parser.add_argument("--memory", action="store_true")
    words = parser.parse_args()
    program = str(pathlib.Path(words.program).resolve())
    with tempfile.TemporaryDirectory() as folder:
        work = pathlib.Path(folder)
        (work / "BENCH.csv").write_text(set_file())
        if not words.memory:
            tell_times(program, work)
        tell_memory(program, work)


if __name__ == "__main__":
    main()

#!/usr/bin/env python3
"""Times what commands cost in `spand script` by the size of the set, and how much memory a unit's desk takes.

A command's time is the processor's for a session with many of them, less that for the same session without, by their number.
It is to stay the same: with 4,096 contracts, or 256 commodities, at most 1.3 times as much as with one.

Usage: bench/desks.py [PROGRAM]; the program that `rt run` or `rt ci` leaves by default. It needs a C compiler, `cc`. Sessions
run in turn, seven times from a file to a file, and of each, with commands and without, the run with the least counts.
"""
import os
import pathlib
import random
import subprocess
import sys
import tempfile

import native

HERE = pathlib.Path(__file__).resolve().parent
MONTHS = 12
# (an account has at most 65,536 lots)
ACCOUNTS = 8
COUNT = 60_000 * ACCOUNTS
REPEATS = 7
UNITS = 512
MOVES = [0, 0, -1, -1, 1, 1, -2, -2, 2, 2, -3, -3, 3, 3, -2.1, 2.1]
# (commodities, contracts)
SETS = [(1, 1), (1, 256), (16, 16), (16, 4096), (256, 256), (256, 4096)]


def set_file(commodities, contracts):
    """Futures, as many in each commodity, of 12 months in two tiers with a spread between these."""
    records = ["H,1,BENCH"]
    records += [f"G,C{g},0" for g in range(commodities)]
    records += [f"M,C{g},{m + 1},{1 if m < 4 else 2}" for g in range(commodities) for m in range(MONTHS)]
    for i in range(contracts):
        array = ",".join(str(int(move * (100 + i % 900))) for move in MOVES)
        records.append(f"K,F{i},C{i % commodities},{i // commodities % MONTHS + 1},F,F,10000,0,{array}")
    records += [f"S,C{g},1,10000,2,10000,40" for g in range(commodities)]
    return "\n".join(records) + "\n"


def trades(pick, contracts):
    return [f"TRADE A{n % ACCOUNTS} {n + 1} F{pick.randrange(contracts)} {pick.choice([-2, -1, 1, 2])} 0" for n in range(COUNT)]


def holds(pick, contracts):
    lines = []
    for n in range(COUNT // 2):
        lines.append(f"HOLD A{n % ACCOUNTS} {n + 1} F{pick.randrange(contracts)} {pick.choice([-2, -1, 1, 2])} 0")
        lines.append(f"RELEASE A{n % ACCOUNTS} {n + 1}")
    return lines


def fills(pick, contracts):
    lines = []
    for n in range(COUNT // 2):
        side = pick.choice([-1, 1])
        lines.append(f"HOLD A{n % ACCOUNTS} {n + 1} F{pick.randrange(contracts)} {side} 0")
        lines.append(f"FILL A{n % ACCOUNTS} {n + 1} {n + 1} {side} 0")
    return lines


KINDS = {"TRADE": trades, "HOLD, RELEASE": holds, "HOLD, FILL": fills}
OPENED = ["ORIGIN CUST GROSS"]
OPENED += [line for a in range(ACCOUNTS) for line in (f"OPEN A{a} CUST", f"POST A{a} CASH 900000000000000")]


def run(command, work, lines):
    """Returns the processor seconds of a session."""
    (work / "input").write_text("\n".join(lines) + "\n")
    with open(work / "input", "rb") as given, open(work / "output", "wb") as taken:
        ran = subprocess.Popen(command, stdin=given, stdout=taken)
        _, status, used = os.wait4(ran.pid, 0)
    ran.returncode = os.waitstatus_to_exitcode(status)
    if ran.returncode:
        sys.exit(f"status {ran.returncode}")
    refused = [line for line in (work / "output").read_text().splitlines() if line.startswith("ERR")]
    if refused:
        sys.exit(f"{len(refused)} replies like {refused[0]}")
    return used.ru_utime + used.ru_stime


def held(command, work, lines):
    """Returns the bytes that a session held at most."""
    (work / "input").write_text("\n".join(lines) + "\n")
    return native.most_held(work, command, work / "input", work / "output")


def main():
    program = pathlib.Path(sys.argv[1] if len(sys.argv) > 1 else HERE.parent / "crates/spand/out/spand").resolve()
    took, unit = {}, {}
    with tempfile.TemporaryDirectory() as folder:
        work = pathlib.Path(folder)
        native.built(work, "most")
        for commodities, contracts in SETS:
            (work / f"S{commodities}X{contracts}.csv").write_text(set_file(commodities, contracts))
        for _ in range(REPEATS):
            for commodities, contracts in SETS:
                command = [str(program), "script", "--dir", str(work), "--set", f"S{commodities}X{contracts}"]
                took.setdefault((commodities, contracts), []).append(run(command, work, OPENED))
                for kind, lines_of in KINDS.items():
                    lines = lines_of(random.Random(1), contracts)
                    took.setdefault((commodities, contracts, kind), []).append(run(command, work, OPENED + lines))
        for commodities, contracts in SETS:
            command = [str(program), "script", "--dir", str(work), "--set", f"S{commodities}X{contracts}"]
            opened = ["ORIGIN CUST GROSS"] + [f"OPEN A{a} CUST" for a in range(UNITS)]
            with_desks = held(command, work, opened + [f"TRADE A{a} 1 F0 1 0" for a in range(UNITS)])
            unit[commodities, contracts] = (with_desks - held(command, work, opened)) / UNITS
    each_of = lambda commodities, contracts, kind: (min(took[commodities, contracts, kind]) - min(took[commodities, contracts])) / COUNT
    one = {kind: each_of(1, 1, kind) for kind in KINDS}
    print("| Commodities, contracts | " + " | ".join(KINDS) + " | A unit's memory |")
    print("|---" * (len(KINDS) + 2) + "|")
    for commodities, contracts in SETS:
        each = {kind: each_of(commodities, contracts, kind) for kind in KINDS}
        cells = [f"{each[kind] * 1e9:,.0f} ns, {each[kind] / one[kind]:.2f}" for kind in KINDS]
        print(f"| {commodities:,}, {contracts:,} | " + " | ".join(cells) + f" | {unit[commodities, contracts] / 1024:,.1f} KiB |")


if __name__ == "__main__":
    main()

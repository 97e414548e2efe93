#!/usr/bin/env python3
"""Counts the instructions of a command by one seat of a service, how many of them run while it has the book's lock, and those of
the same command by `spand script`, which has the book to itself.

Usage: bench/held.py [SEAT [SCRIPT]], by default the seat_script and the spand that `rt run` or `rt ci` leaves. It needs valgrind.

A program answers a script once without and once with a number of commands of one kind, under callgrind; what is told is the
difference, for each command. A service calls the book, its ledger or its register under the lock alone, so its calls of these are
counted, with all that they call. What is compiled into the service's own functions, as the lock's own steps, is not.

A customer has a position in each of 20 futures in four commodities. A switch is to a set with the same contracts, with 100 such
customers, and is worked out on the thread of the session. The ratio of TRADE, HOLD, RELEASE and ASK is to stay below 1.3.
"""
import collections
import pathlib
import re
import subprocess
import sys
import tempfile

import script

TOP = pathlib.Path(__file__).resolve().parent.parent
# Whose calls count: the service, and what it may be compiled into. What the book calls may call the book again.
ABOVE = ("mgn_service::", "mgn_seat::", "mgn_session::", "seat_script::")
UNDER = ("mgn_ledger::", "mgn_book::", "mgn_register::")
# What an owner calls before the lock is there, or lets go of without it.
OUTSIDE = re.compile(r"Destruct|::Ledger::new\b")
# What a switch calls under the lock: a copy of all nets, and its commit.
SWITCH_PARTS = ("gather", "enter_switch")
COUNT = 200
SWITCHES = 10
CUSTOMERS = 100


def customer(name):
    """A customer with a position in each future."""
    lots = [f"TRADE {name} {n + 1} F{n} {1 + n % 3} 0" for n in range(script.FUTURES)]
    return [f"OPEN {name} CUST", f"POST {name} CASH 100000000", *lots]


def kinds():
    """Returns the name of each kind of command, what comes before, and its commands."""
    one = ["ORIGIN CUST GROSS", *customer("A1")]
    many = ["ORIGIN CUST GROSS", *(line for n in range(CUSTOMERS) for line in customer(f"A{n}"))]
    numbers = range(1000, 1000 + COUNT)
    holds = [f"HOLD A1 {n} F{n % script.FUTURES} {1 if n % 2 else -1} 0" for n in numbers]
    return [
        ("TRADE", one, [f"TRADE A1 {n} F{n % script.FUTURES} {1 if n % 2 else -1} 0" for n in numbers]),
        ("HOLD", one, holds),
        ("RELEASE", [*one, *holds], [f"RELEASE A1 {n}" for n in numbers]),
        ("ASK", one, ["ASK A1"] * COUNT),
        ("SWITCH", many, ["SWITCH BENCH"] * SWITCHES),
    ]


def held_in(lines):
    """Returns the instructions of a run as callgrind tells them: all, and those of calls under the lock, by what is called."""
    everything, held = 0, collections.Counter()
    caller = callee = ""
    is_call = False
    for line in lines:
        if line.startswith("fn="):
            caller = line[3:].strip()
        elif line.startswith("cfn="):
            callee = line[4:].strip()
        elif line.startswith("calls="):
            is_call = True
        elif line.startswith(("totals:", "summary:")):
            everything = int(line.split()[1])
        elif is_call:
            is_call = False
            if caller.startswith(ABOVE) and callee.startswith(UNDER) and not OUTSIDE.search(callee):
                held[re.sub(r"::<.*", "", callee).rpartition("::")[2]] += int(line.split()[1])
    return everything, held


def counted(program, room, lines):
    """Runs a script under callgrind."""
    out = f"{room}/callgrind.out"
    words = ["valgrind", "--tool=callgrind", f"--callgrind-out-file={out}", "--compress-strings=no", "--compress-pos=no", "--demangle=no"]
    words += [program, "script", "--dir", room, "--set", "BENCH"]
    ran = subprocess.run(words, input="".join(f"{it}\n" for it in lines), capture_output=True, text=True, check=False)
    wrong = [it for it in ran.stdout.splitlines() if not it.startswith("OK ")]
    if ran.returncode or wrong or ran.stdout.count("\n") != len(lines):
        sys.exit(f"{program}: status {ran.returncode}: {(wrong or ran.stderr.splitlines()[-1:])[:1]}")
    with open(out, encoding="utf-8") as it:
        return held_in(it)


def each_of(program, room, before, asked):
    """Returns the instructions of each command that is asked: all, and those of calls under the lock, by what is called."""
    without, held_without = counted(program, room, before)
    everything, held = counted(program, room, before + asked)
    return (everything - without) // len(asked), {it: (held[it] - held_without[it]) // len(asked) for it in held}


def main(words):
    seat = words[0] if words else str(TOP / "crates/seat_script/out/seat_script")
    alone = words[1] if len(words) > 1 else str(TOP / "crates/spand/out/spand")
    print("| Command | A seat | of these under the book's lock | A script | A seat beside a script |\n|---|---|---|---|---|")
    with tempfile.TemporaryDirectory() as room:
        pathlib.Path(room, "BENCH.csv").write_text(script.set_file(), encoding="utf-8")
        for name, before, asked in kinds():
            all_of_seat, held = each_of(seat, room, before, asked)
            all_of_script, _ = each_of(alone, room, before, asked)
            if not any(held.values()):
                sys.exit(f"{name}: no call under the lock was found: the program has no such names")
            ratio = all_of_seat / all_of_script
            print(f"| {name} | {all_of_seat:,} | {sum(held.values()):,} | {all_of_script:,} | {ratio:.2f} |", flush=True)
            parts = [(what, held[what]) for what in SWITCH_PARTS if held.get(what)] if name == "SWITCH" else []
            for what, count in parts:
                print(f"| .. in `{what}` | | {count:,} | | |", flush=True)


if __name__ == "__main__":
    main(sys.argv[1:])

#!/usr/bin/env python3
"""Times the server with several sessions beside a script of the same lines.

Usage: bench/serve.py [PROGRAM] [--contracts N] [--lines N] [--runs R] [--window N] [--mix orders|trades]

Each session has accounts of its own, in contracts at random of a set of 50 commodities. With `orders` it trades, holds, releases
and asks in turn; with `trades` six lines in ten trade, two post and two ask. The lines are the same for every number of sessions,
dealt out to them. The client is bench/load.c, a thread for each session, which sends lines ahead. It needs a C compiler, `cc`.

The server and the script run in turn, and medians are told, with the least and the most. The client's share is its processor time
by the time of the whole: where that comes near to one for each session, the client is what is measured.
"""
import argparse
import pathlib
import random
import socket
import statistics
import subprocess
import tempfile
import time

import desks
import native

HERE = pathlib.Path(__file__).resolve().parent
ACCOUNTS = 16
COMMODITIES = 50
SESSIONS = (1, 2, 4, 16)
# Lines under way of a session: so many that a server which has answered what it reads at once, 65,536 bytes, finds more.
WINDOW = 8192


def opening():
    lines = ["ORIGIN CUST GROSS"]
    for account in range(ACCOUNTS):
        lines += [f"OPEN A{account} CUST", f"POST A{account} CASH 1000000000000"]
    return lines


def orders(account, count, contracts):
    """Returns so many lines in an account: a trade, an order, its release and a question in turn."""
    name, lines, pick = f"A{account}", [], random.Random(account)
    for turn in range(1, count // 4 + 1):
        traded, held = pick.randrange(contracts), pick.randrange(contracts)
        quantity = 1 if turn % 2 else -1
        lines += [f"TRADE {name} {turn} F{traded} {quantity} 0", f"HOLD {name} {turn} F{held} {quantity} 0",
                  f"RELEASE {name} {turn}", f"ASK {name}"]
    return lines


def trades(account, count, contracts):
    """Returns so many lines in an account: six in ten trade, two post, two ask."""
    name, lines, pick = f"A{account}", [], random.Random(account)
    for turn in range(1, count + 1):
        kind = pick.randrange(10)
        if kind < 6:
            lines.append(f"TRADE {name} {turn} F{pick.randrange(contracts)} {pick.choice([-1, 1])} 0")
        else:
            lines.append(f"POST {name} CASH {pick.randrange(1, 100_000)}" if kind < 8 else f"ASK {name}")
    return lines


MIXES = {"orders": orders, "trades": trades}


def text(lines):
    return "".join(f"{line}\n" for line in lines).encode()


def time_of_script(program, folder, names):
    """Returns the seconds that a script of all lines takes, from a file to a file, less those of the opening alone."""
    seconds = []
    for files in ([], names):
        given = pathlib.Path(folder, "given")
        given.write_bytes(b"".join(pathlib.Path(name).read_bytes() for name in [f"{folder}/opening", *files]))
        with open(given, "rb") as lines, open(f"{folder}/taken", "wb") as replies:
            began = time.monotonic()
            subprocess.run([program, "script", "--dir", folder, "--set", "BENCH"], stdin=lines, stdout=replies, check=True)
            seconds.append(time.monotonic() - began)
    return seconds[1] - seconds[0]


def loaded(words, folder, window, refusal, names):
    """Starts a server by these words, with a session for each file of lines, and returns what the client tells: seconds, those of
    its processors, and how many lines were refused."""
    with socket.create_server(("127.0.0.1", 0)) as it:
        port = it.getsockname()[1]
    words = [*words, "serve", "--dir", folder, "--set", "BENCH", "--port", str(port), "--sessions", str(len(names))]
    with subprocess.Popen(words, stdout=subprocess.PIPE, text=True) as server:
        try:
            if not server.stdout.readline().startswith("READY"):
                raise SystemExit("the server did not start")
            client = [f"{folder}/load", str(port), str(window), refusal, f"{folder}/opening", *names]
            told = subprocess.run(client, stdout=subprocess.PIPE, text=True, check=True).stdout.split()
        except BaseException:
            server.kill()
            raise
        if not server.stdout.read().startswith("AUDIT") or server.wait() != 0:
            raise SystemExit(f"the server ended with status {server.wait()}")
    return float(told[0]), float(told[1]), int(told[2])


def main():
    parser = argparse.ArgumentParser(description="Times spand serve beside spand script.")
    parser.add_argument("program", nargs="?", default=HERE.parent / "crates/spand/out/spand")
    parser.add_argument("--contracts", type=int, default=2000)
    parser.add_argument("--lines", type=int, default=640_000)
    parser.add_argument("--runs", type=int, default=9)
    parser.add_argument("--window", type=int, default=WINDOW)
    parser.add_argument("--mix", choices=MIXES, default="orders")
    words = parser.parse_args()
    program, took, share = str(pathlib.Path(words.program).resolve()), {}, {}
    with tempfile.TemporaryDirectory() as folder:
        native.built(folder, "load")
        pathlib.Path(folder, "BENCH.csv").write_text(desks.set_file(COMMODITIES, words.contracts))
        pathlib.Path(folder, "opening").write_bytes(text(opening()))
        parts = [text(MIXES[words.mix](account, words.lines // ACCOUNTS, words.contracts)) for account in range(ACCOUNTS)]
        names = {it: [f"{folder}/lines{it}.{at}" for at in range(it)] for it in SESSIONS}
        for it in SESSIONS:
            for at, name in enumerate(names[it]):
                pathlib.Path(name).write_bytes(b"".join(parts[at::it]))
        for _ in range(words.runs):
            took.setdefault("script", []).append(time_of_script(program, folder, names[1]))
            for it in SESSIONS:
                seconds, worked, _ = loaded([program], folder, words.window, "-", names[it])
                took.setdefault(it, []).append(seconds)
                share.setdefault(it, []).append(worked / seconds)
    count = sum(part.count(b"\n") for part in parts)
    middle = {it: statistics.median(seconds) for it, seconds in took.items()}
    print("| Sessions | Median | Least, most | Lines a second | beside one | The client's share |\n|---|---|---|---|---|---|")
    for it, seconds in took.items():
        client = f"{statistics.median(share[it]):.2f}" if it in share else ""
        print(f"| {it} | {middle[it]:.3f} s | {min(seconds):.3f}, {max(seconds):.3f} s | {count / middle[it]:,.0f} "
              f"| {middle[1] / middle[it]:.2f} | {client} |")
    more = [it for it in SESSIONS if it > 1]
    print(f"\n| `spand serve`, 1 session, beside a script of the same lines | {middle[1] / middle['script']:.2f} times its time |")
    print(f"| {', '.join(map(str, more))} sessions beside one: the same lines in all "
          f"| {', '.join(f'{middle[1] / middle[it]:.2f}' for it in more)} times its commands a second |")


if __name__ == "__main__":
    main()

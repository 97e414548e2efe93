#!/usr/bin/env python3
"""Times the longest wait of a session beside the switches of another one.

Usage: bench/switch.py [PROGRAM] [--units N] [--contracts N] [--switches N]

One session has so many units of 40 contracts each, under a set of 2,000 contracts in 50 commodities, and switches to and fro
between two such sets. Another one trades and asks in a unit of its own, one line at a time. Told are, in milliseconds: how long
the switches took, and the longest wait of the other session for a reply, in each switch and in as long a time without one. A
switch holds the book twice, to copy all nets and for its commit: of the two longest waits beside it the earlier one and the
later one are told, too.
"""
import argparse
import pathlib
import random
import socket
import statistics
import subprocess
import tempfile
import threading
import time

import desks
import serve

TOP = pathlib.Path(__file__).resolve().parent.parent
COMMODITIES = 50
HELD = 40


class Client:
    """One session, a line at a time."""

    def __init__(self, port):
        self.socket = socket.create_connection(("127.0.0.1", port))
        self.socket.setsockopt(socket.IPPROTO_TCP, socket.TCP_NODELAY, 1)
        self.left = b""

    def call(self, line):
        """Returns the first line of the reply, and the seconds until it came."""
        began = time.perf_counter()
        self.socket.sendall(line.encode() + b"\n")
        while b"\n" not in self.left:
            self.left += self.socket.recv(1 << 16)
        reply, self.left = self.left.split(b"\n", 1)
        return reply.decode(), time.perf_counter() - began


class Trader(threading.Thread):
    """Trades and asks in a unit of its own until it is told to end, and keeps when each reply came and how long it took."""

    def __init__(self, client):
        super().__init__(daemon=True)
        self.client, self.is_over, self.waits = client, False, []

    def run(self):
        number = 0
        while not self.is_over:
            number += 1
            for line in (f"TRADE OWN {number} F{number % 7} {1 if number % 2 else -1} 0", "ASK OWN"):
                reply, seconds = self.client.call(line)
                if not reply.startswith("OK"):
                    raise SystemExit(f"{line}: {reply}")
                self.waits.append((time.perf_counter(), seconds))

    def waits_in(self, since, until):
        """Returns the waits that were under way in a time, in milliseconds, in their order."""
        return [1000 * took for end, took in list(self.waits) if end >= since and end - took <= until] or [0.0]

    def longest(self, since, until):
        """Returns the longest of them."""
        return max(self.waits_in(since, until))

    def two_longest(self, since, until):
        """Returns the two longest of them, the earlier one first."""
        waits = [*self.waits_in(since, until), 0.0]
        places = sorted(sorted(range(len(waits)), key=lambda place: -waits[place])[:2])
        return [waits[place] for place in places]


def opening(units, contracts):
    pick = random.Random(7)
    lines = ["ORIGIN CUST GROSS", "OPEN OWN CUST", *(f"OPEN A{unit} CUST" for unit in range(units))]
    for unit in range(units):
        for lot, contract in enumerate(pick.sample(range(contracts), HELD), 1):
            lines.append(f"TRADE A{unit} {lot} F{contract} {pick.choice([-2, -1, 1, 2])} 0")
    return lines


def exchange(connection, lines):
    """Sends the lines, and reads as many replies meanwhile."""
    sender = threading.Thread(target=connection.sendall, args=(lines,), daemon=True)
    sender.start()
    left = lines.count(b"\n")
    while left > 0:
        left -= connection.recv(1 << 18).count(b"\n")
    sender.join()


def started(program, folder):
    with socket.create_server(("127.0.0.1", 0)) as it:
        port = it.getsockname()[1]
    words = [program, "serve", "--dir", folder, "--set", "FIRST", "--port", str(port), "--sessions", "2"]
    server = subprocess.Popen(words, stdout=subprocess.PIPE)
    server.stdout.readline()
    return server, Client(port), Client(port)


def main():
    parser = argparse.ArgumentParser(description="Times the longest wait beside a switch.")
    parser.add_argument("program", nargs="?", default=TOP / "crates/spand/out/spand")
    parser.add_argument("--units", type=int, default=1023)
    parser.add_argument("--contracts", type=int, default=2000)
    parser.add_argument("--switches", type=int, default=20)
    words = parser.parse_args()
    with tempfile.TemporaryDirectory() as folder:
        for name in ("FIRST", "OTHER"):
            text = desks.set_file(COMMODITIES, words.contracts).replace("H,1,BENCH", f"H,1,{name}")
            (pathlib.Path(folder) / f"{name}.csv").write_text(text)
        server, first, second = started(words.program, folder)
        exchange(first.socket, serve.text(opening(words.units, words.contracts)))
        trader = Trader(second)
        trader.start()
        took, beside, alone, twice = [], [], [], []
        for turn in range(words.switches):
            time.sleep(0.2)
            since = time.perf_counter()
            reply, seconds = first.call(f"SWITCH {('OTHER', 'FIRST')[turn % 2]}")
            if not reply.startswith("OK"):
                raise SystemExit(reply)
            time.sleep(0.05)
            took.append(1000 * seconds)
            beside.append(trader.longest(since, since + seconds))
            twice.append(trader.two_longest(since, since + seconds))
            alone.append(trader.longest(since - seconds, since))
        trader.is_over = True
        trader.join()
        first.socket.close()
        second.socket.close()
        server.wait()
    first, second = zip(*twice)
    rows = [("switches", took), ("longest wait beside one", beside), ("longest wait without one", alone)]
    for name, row in [*rows, ("earlier of the two longest", first), ("later of the two longest", second)]:
        print(f"{name:26} median {statistics.median(row):8.2f}  most {max(row):8.2f} ms")


if __name__ == "__main__":
    main()

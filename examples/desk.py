#!/usr/bin/env python3
"""Shows a risk desk's view over one session of `spand serve`: the accounts of a file by room, least first.

Usage: desk.py PORT ACCOUNTS_FILE [--once] [--rate RATE] [--transcript FILE]

ACCOUNTS_FILE names an account on each line. They are asked for in turn, at most RATE a second (5 if not given), since each
question is an entry of the history. The table is drawn anew after each reply, as far as the screen goes; with --once it is
printed after all accounts were asked for once. It has the figures of the account's margin unit, in cents, and their age in
seconds. CALL marks an account whose requirement is above its value. Below stands the last place that a reply told, and how
many of the history's 1,000,000 entries are left. When the history is full (code 91) the desk ends with status 1, as it does
when the server ends or answers 92. Another refusal is shown in place of an account's figures. The transcript is like that of
client.py: a day can be gone through by replay.py where every session keeps one.
"""
import argparse
import shutil
import socket
import sys
import time

ENTRIES = 1_000_000
HEAD = ("requirement", "exposure req.", "value", "exposure value", "room")


class Ended(Exception):
    """No more questions are answered."""


def ask(connection, replies, account, transcript):
    """Returns the place and the five figures of the account, or the code and name of the refusal in their stead."""
    connection.sendall(f"ASK {account}\n".encode())
    reply = replies.readline().decode()
    words = reply.split()
    if not reply.endswith("\n"):
        raise Ended("the server has ended the connection")
    if transcript:
        print(f"> ASK {account}\n{reply}", end="", file=transcript, flush=True)
    if words[0] == "OK":
        return int(words[1]), [int(word) for word in words[2:]]
    reason = " ".join(words[-2:])
    if reason in ("91 FULL", "92 BROKEN"):
        raise Ended(f"the server answers {reason}")
    return int(words[1]) if len(words) == 4 else None, reason


def table(rows, last):
    """Returns the lines of the table, and the line below. An account's row is its figures, or else a text, and when it came."""
    now = time.monotonic()
    lines = ["".join([f"{'account':21}", *(f"{it:>16}" for it in HEAD), f"{'age':>7}"])]
    known = [it for it in rows.items() if isinstance(it[1][0], list)]
    for account, (figures, came) in sorted(known, key=lambda it: it[1][0][4]):
        mark = "CALL" if figures[0] > figures[2] else ""
        lines.append("".join([f"{account:16} {mark:4}", *(f"{it:16,}" for it in figures), f"{now - came:7.1f}"]))
    lines += [f"{account:21} {figures}" for account, (figures, _) in rows.items() if isinstance(figures, str)]
    return lines, f"last place {last:,}; {ENTRIES - last:,} entries are left"


def draw(lines, foot):
    """Draws the table over what the screen shows, as many lines as it has."""
    high = shutil.get_terminal_size().lines
    print("\x1b[H\x1b[J" + "\n".join([*lines[:high - 2], foot]), flush=True)


def watch(connection, accounts, once, rate, transcript):
    """Asks for the accounts in turn, and shows what is known."""
    rows = {account: ("not asked for yet", 0) for account in accounts}
    last = 0
    with connection.makefile("rb") as replies:
        while True:
            for account in rows:
                asked = time.monotonic()
                place, figures = ask(connection, replies, account, transcript)
                rows[account] = figures, time.monotonic()
                last = place or last
                if not once:
                    draw(*table(rows, last))
                time.sleep(max(0, asked + 1 / rate - time.monotonic()))
            if once:
                lines, foot = table(rows, last)
                print("\n".join([*lines, foot]))
                return


def main():
    parser = argparse.ArgumentParser(description="Shows accounts of spand serve by room, least first.")
    parser.add_argument("port", type=int)
    parser.add_argument("accounts", metavar="ACCOUNTS_FILE", help="a file with an account on each line")
    parser.add_argument("--once", action="store_true", help="ask for each account once, and print the table")
    parser.add_argument("--rate", type=float, default=5, help="questions a second at most")
    parser.add_argument("--transcript", metavar="FILE", help="a new file for the questions and their replies")
    words = parser.parse_args()
    try:
        transcript = open(words.transcript, "x", encoding="utf-8") if words.transcript else None
        with open(words.accounts, encoding="utf-8", errors="replace") as lines:
            accounts = lines.read().split()
        if not accounts or words.rate <= 0:
            parser.error("there must be an account, and RATE must be above 0")
        with socket.create_connection(("127.0.0.1", words.port)) as connection:
            connection.setsockopt(socket.IPPROTO_TCP, socket.TCP_NODELAY, 1)
            watch(connection, accounts, words.once, words.rate, transcript)
    except (OSError, Ended) as fault:
        sys.exit(f"desk: {fault}")
    except KeyboardInterrupt:
        pass


if __name__ == "__main__":
    main()

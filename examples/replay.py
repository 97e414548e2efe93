#!/usr/bin/env python3
"""Goes through a day of `spand serve` again: merges the transcripts of all its sessions by place, has the whole day answered
anew as one session, and compares all replies that have a place, to the byte.

Usage: replay.py [--program PROGRAM] [--dir DIR] [--entries N] --set NAME TRANSCRIPT...
       replay.py [--entries N] --to PORT TRANSCRIPT...

NAME is the set that the server was started with, and DIR has the files of all sets of the day, unchanged. The day is answered
by `PROGRAM script`. With --to it is sent to a server instead, one that was just started on the same set and has no entry yet,
as one of its sessions: this brings a book back after a restart. All entries are then that session's.

Transcripts are those that client.py writes. Lines that were answered without a place (codes 10, 11, 12, 40, 41, 90, 91 and 92)
changed nothing and are left out. A place that is missing, a place given twice and a reply that differs are named, and the
status is 1. The status is 0 where all replies are the same. N is the number of the day's entries, as the server's line AUDIT
tells it. Without it the last place is the highest that a transcript has, and no place after that is missing.
"""
import argparse
import contextlib
import io
import pathlib
import re
import socket
import subprocess
import sys
import threading

TOP = pathlib.Path(__file__).resolve().parent.parent
ENTRY = re.compile(rb"^> (.*\n)((?:(?!> ).+\n?)*)", re.MULTILINE)
NAMED = 10  # As many faults are named; the rest is counted.


def read_transcript(path):
    """Returns each command of the transcript with its reply, which is empty where none came."""
    return ENTRY.findall(pathlib.Path(path).read_bytes())


def place_of(reply):
    """Returns the place that a reply tells, or None: `OK place ..` and `ERR place code NAME` have one, `ERR code NAME` not."""
    words = reply.split(None, 3)
    return int(words[1]) if len(words) > 1 and (words[0] == b"OK" or words[2].isdigit()) else None


def merge(paths, least):
    """Returns the day, which is the commands with their replies by place, and what is wrong with the places. It has at least so
    many places, whether a transcript has them or not."""
    day, faults, unanswered = {}, [], []
    for path in paths:
        entries = read_transcript(path)
        unanswered += [f"{path} has no reply to {text(command)}" for command, reply in entries if not reply][:1]
        for command, reply in entries:
            place = place_of(reply)
            if place in day:
                faults.append(f"place {place} is given twice")
            elif place:
                day[place] = command, reply
    missing = [f"place {place} is missing" for place in range(1, max([*day, least]) + 1) if place not in day]
    return [day[place] for place in sorted(day)], faults + missing + (unanswered if missing else [])


def text(line):
    return line.decode(errors="replace").rstrip()


def answers_of_script(program, folder, name, lines):
    """Has the lines answered by `PROGRAM script` and returns its output."""
    words = [program, "script", "--dir", folder, "--set", name]
    return subprocess.run(words, input=lines, stdout=subprocess.PIPE, check=True).stdout


def answers_of_server(port, lines):
    """Sends the lines to the server, while another thread reads, and returns all that it answered before the end."""
    with socket.create_connection(("127.0.0.1", port)) as connection:
        def send():
            with contextlib.suppress(OSError):
                connection.sendall(lines)
                connection.shutdown(socket.SHUT_WR)
        threading.Thread(target=send, daemon=True).start()
        with connection.makefile("rb") as replies:
            return replies.read()


def next_reply(command, replies):
    """Reads the reply to this command; that to a STMT tells in its first line how many lines follow."""
    first = replies.readline()
    more = int(first.split()[2]) if command.startswith(b"STMT ") and first.startswith(b"OK ") else 0
    return first + b"".join(replies.readline() for _ in range(more))


def differences(day, answers):
    """Returns a line for each entry whose reply is another now, with the first line in which they differ."""
    found, replies = [], io.BytesIO(answers)
    for place, (command, before) in enumerate(day, 1):
        now = next_reply(command, replies)
        if now != before:
            pairs = zip((before + b"nothing").splitlines(), (now + b"nothing").splitlines())
            old, new = next(pair for pair in pairs if pair[0] != pair[1])
            found.append(f"place {place}: the reply was {text(old)}, and now it is {text(new)}")
    return found


def main():
    parser = argparse.ArgumentParser(description="Has a day of spand serve answered anew and compares the replies.")
    parser.add_argument("--program", default=TOP / "crates/spand/out/spand")
    parser.add_argument("--dir", default=TOP / "sets")
    parser.add_argument("--entries", type=int, default=0, metavar="N", help="how many entries the day has, as AUDIT tells")
    how = parser.add_mutually_exclusive_group(required=True)
    how.add_argument("--set", metavar="NAME")
    how.add_argument("--to", type=int, metavar="PORT")
    parser.add_argument("transcripts", nargs="+", metavar="TRANSCRIPT")
    words = parser.parse_args()
    try:
        day, faults = merge(words.transcripts, words.entries)
        lines = b"".join(command for command, _ in day)
        if not faults and words.to:
            faults = differences(day, answers_of_server(words.to, lines))
        elif not faults:
            faults = differences(day, answers_of_script(words.program, words.dir, words.set, lines))
    except (OSError, subprocess.CalledProcessError) as fault:
        sys.exit(f"replay: {fault}")
    if faults:
        print("\n".join(faults[:NAMED]))
        sys.exit(f"replay: {len(faults)} faults")
    print(f"{len(day)} entries are the same")


if __name__ == "__main__":
    main()

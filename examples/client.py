#!/usr/bin/env python3
"""Sends commands to `spand serve` over one connection, and prints the replies as they come.

Usage: client.py PORT [FILE] [--transcript FILE]

The commands are the lines of FILE, or else lines of standard input, so that they can be typed; a last line without an end gets
one. Replies are read while lines are sent, so a file may be as long as a session takes. At the end of the lines this half of
the connection is closed, and missing replies are waited for. The status is 0 where every line got its reply, else 1.

A transcript has, for each line that was sent, the line after `> `, and then its reply as it came:

    > ASK A1
    OK 5 600 600 1000 1000 400

No line of a reply begins with `> `. A line that got no reply stands there without one. Each reply is in the file before it is
printed. The file must be new, since the transcripts of a day are what replay.py brings a book back from.
"""
import argparse
import collections
import socket
import sys
import threading


def send_lines(connection, lines, sent, flush):
    """Sends each line and adds it to `sent` before, and closes this half of the connection at the end."""
    try:
        with connection.makefile("wb") as writer:
            for line in lines:
                command = line.rstrip(b"\n")
                sent.append(command)
                writer.write(command + b"\n")
                if flush:
                    writer.flush()
        connection.shutdown(socket.SHUT_WR)
    except OSError:
        pass  # The connection has ended; whoever reads the replies sees it too.


def lines_of_statement(command, first):
    """Returns how many lines follow the first line of the reply to this command."""
    return int(first.split()[2]) if command.startswith(b"STMT ") and first.startswith(b"OK ") else 0


def each_reply(connection, sent):
    """Gives each command with its whole reply, and takes it from `sent`, until the connection ends."""
    replies = connection.makefile("rb")
    try:
        for first in replies:
            command = sent[0]
            lines = [first] + [replies.readline() for _ in range(lines_of_statement(command, first))]
            if not lines[-1].endswith(b"\n"):
                return
            sent.popleft()
            yield command, b"".join(lines)
    except ConnectionError:
        return


def run(port, lines, typed, transcript):
    """Sends the lines, writes down and prints the replies, and returns how many lines got none."""
    sent = collections.deque()
    with socket.create_connection(("127.0.0.1", port)) as connection:
        connection.setsockopt(socket.IPPROTO_TCP, socket.TCP_NODELAY, 1)
        threading.Thread(target=send_lines, args=(connection, lines, sent, typed), daemon=True).start()
        for command, reply in each_reply(connection, sent):
            if transcript:
                transcript.write(b"> " + command + b"\n" + reply)
                transcript.flush()
            sys.stdout.buffer.write(reply)
            sys.stdout.buffer.flush()
    unanswered = [sent.popleft() for _ in range(len(sent))]
    if transcript:
        transcript.writelines(b"> " + command + b"\n" for command in unanswered)
    return len(unanswered)


def main():
    parser = argparse.ArgumentParser(description="Sends commands to spand serve and prints the replies.")
    parser.add_argument("port", type=int)
    parser.add_argument("file", nargs="?", help="the lines to send; else they are read from standard input")
    parser.add_argument("--transcript", metavar="FILE", help="a new file for the commands and their replies")
    words = parser.parse_args()
    try:
        transcript = open(words.transcript, "xb") if words.transcript else None
        # (A reader of its own: sys.stdin cannot be given up while a thread waits for it.)
        lines = open(words.file, "rb") if words.file else open(0, "rb", closefd=False)
        missing = run(words.port, lines, not words.file, transcript)
    except OSError as fault:
        sys.exit(f"client: {fault}")
    except KeyboardInterrupt:
        sys.exit("client: interrupted")
    if missing:
        sys.exit(f"client: the connection ended, and {missing} lines got no reply")


if __name__ == "__main__":
    main()

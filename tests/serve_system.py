"""What the server asks of the system: that each connection sends at once, that replies go out together, and what it does where the
system has no thread for it. A library in C stands before the program's calls and tells them."""
import contextlib
import os
import pathlib
import socket
import subprocess
import tempfile

from clients import BEGIN, TRADED, Client, started, want

LINES = 1_000


@contextlib.contextmanager
def watched(**more):
    """Gives how a server is to be started so that its calls are told, and the file in which they are."""
    with tempfile.TemporaryDirectory() as folder:
        library, calls = f"{folder}/system_calls.so", pathlib.Path(folder, "calls")
        source = pathlib.Path(__file__).with_name("system_calls.c")
        subprocess.run(["cc", "-shared", "-fPIC", "-O1", "-o", library, source, "-ldl"], check=True)
        calls.touch()
        yield {**os.environ, "LD_PRELOAD": library, "CALLS": str(calls), **more}, calls


def each_connection_sends_at_once(program):
    with watched() as (environment, calls):
        with started(program, "ONE", 3, env=environment) as server:
            for _ in range(3):
                with Client(server.port) as client:
                    client.finish()
            server.ends_with(0)
        want("connections that send at once", calls.read_text().split().count("nodelay"), 3)


def writes_of(calls, count):
    """By how many writes the last so many bytes went out. The write of an earlier reply may be told late."""
    writes = 0
    for line in reversed(calls.read_text().splitlines()):
        word, _, size = line.partition(" ")
        if word == "write" and count > 0:
            writes, count = writes + 1, count - int(size)
    return writes


def replies_go_out_together(program):
    """A thousand lines, which come in a few pieces: for each of these there is one write, and none for each line."""
    with watched() as (environment, calls):
        with started(program, "ONE", 1, env=environment) as server:
            with Client(server.port) as client:
                client.wants(*BEGIN)
                calls.write_text("")
                client.send(b"ASK A1\n" * LINES)
                client.close_half()
                replies = client.rest()
            want("replies", replies.count(b"\n"), LINES)
            server.ends_with(2 + LINES)
        reads, writes = calls.read_text().split().count("read"), writes_of(calls, len(replies))
        want("writes are no more than reads", 0 < writes <= reads, True)
        want("a piece has many lines", reads < LINES // 10, True)


def no_thread_for_a_session(program):
    """The second connection and the third get no thread."""
    with watched(FAIL_THREAD="2") as (environment, _):
        with started(program, "ONE", 3, env=environment) as server:
            with Client(server.port) as first:
                first.wants(*BEGIN)
                for _ in range(2):
                    with socket.create_connection(("127.0.0.1", server.port)) as other:
                        want("what a connection without a thread gets", other.recv(1), b"")
                first.wants("POST A1 CASH 1000 -> OK 3")
                first.finish()
            server.ends_with(3, b"spand: session 2 MEMORY\nspand: session 3 MEMORY\n")


def no_threads_for_a_new_set(program):
    """What units require under a new set is worked out all the same where no worker can be started."""
    with watched(FAIL_THREAD="2") as (environment, _):
        with started(program, "ONE", 1, env=environment) as server:
            with Client(server.port) as client:
                client.wants(*TRADED, "SWITCH TWO -> OK 6 1 1", "ASK A1 -> OK 7 1200 1200 1000 1000 -200")
                client.finish()
            server.ends_with(7)


CASES = [
    each_connection_sends_at_once, replies_go_out_together, no_thread_for_a_session, no_threads_for_a_new_set]

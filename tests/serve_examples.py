"""The programs of examples/ as processes."""
import functools
import pathlib
import signal
import socket
import subprocess
import sys
import tempfile

import clients
from clients import LINES, REPLIES, ROOM, Client, started, want

EXAMPLES = clients.TOP / "examples"


def example(name, *words, typed=b""):
    return subprocess.run([sys.executable, EXAMPLES / name, *map(str, words)], input=typed, capture_output=True, check=False)


def client_of(port, folder, name, lines, typed=False):
    """Lets client.py send the lines, from a file or typed, and returns its output; its transcript is called as the client."""
    file = pathlib.Path(folder, f"{name}.in")
    file.write_bytes(lines)
    words = [port, *([] if typed else [file]), "--transcript", pathlib.Path(folder, name)]
    ran = example("client.py", *words, typed=lines if typed else b"")
    want(f"status and faults of client {name}", (ran.returncode, ran.stderr), (0, b""))
    return ran.stdout


def desk(port, folder, accounts, *words):
    file = pathlib.Path(folder, "accounts")
    file.write_text("".join(f"{it}\n" for it in accounts), encoding="ascii")
    return example("desk.py", port, file, "--once", "--rate", "1000", *words)


EXAMPLE_DAY = LINES + b"\nSWITCH NOPE\nOPEN A2 CUST\nTRADE A2 1 AAA1 -1 0\nSTMT A2\n"
EXAMPLE_REPLIES = REPLIES + b"""ERR 10 SYNTAX
ERR 40 NOSET
OK 6
OK 7
OK 8 6
S A2 CUST GROSS ONE 0
F 300 300 0 0 -300 300
G AAA 300 11 0 0 0 0 300
N 0
L 1 AAA1 -1 0 T
C CASH 0
"""


def the_examples(program):
    """A day of two clients and a desk, gone through again, brought back, and with each fault that a transcript can have."""
    with tempfile.TemporaryDirectory() as folder:
        at = lambda name: pathlib.Path(folder, name)
        with started(program, "ONE", 3) as server:
            want("replies to a file", client_of(server.port, folder, "first", EXAMPLE_DAY), EXAMPLE_REPLIES)
            typed = client_of(server.port, folder, "second", b"SWITCH TWO\nASK A1", typed=True)
            want("replies to typed lines", typed, b"OK 9 1 2\nOK 10 1200 1200 1000 1000 -200\n")
            look_at_desk(desk(server.port, folder, ["A1", "A2", "A3"], "--transcript", at("third")))
            server.ends_with(13)
        everything = [at("second"), at("first"), at("third")]
        same = ["--program", program, "--set", "ONE"]
        wants_of_replay("the whole day", [*same, *everything], 0, b"13 entries are the same\n")
        wants_of_replay("the entries that AUDIT tells", [*same, "--entries", 13, *everything], 0, b"13 entries are the same\n")
        wants_of_replay("a missing place", [*same, *everything[1:]], 1, b"place 9 is missing\nplace 10 is missing\n")
        wants_of_replay("places that are missing at the end", [*same, "--entries", 13, *everything[:2]], 1,
                        b"".join(b"place %d is missing\n" % it for it in (11, 12, 13)))
        wants_of_replay("a place twice", [*same, *everything, at("third")], 1,
                        b"".join(b"place %d is given twice\n" % it for it in (11, 12, 13)))
        at("other").write_bytes(at("second").read_bytes().replace(b"-200", b"-201"))
        wants_of_replay("a reply that differs", [*same, at("first"), at("other"), at("third")], 1,
                        b"place 10: the reply was OK 10 1200 1200 1000 1000 -201, and now it is OK 10 1200 1200 1000 1000 -200\n")
        with started(program, "ONE", 2) as server:
            wants_of_replay("a book brought back", ["--to", server.port, *everything], 0, b"13 entries are the same\n")
            with Client(server.port) as client:
                client.wants("ASK A2 -> OK 14 600 600 0 0 -600")
                client.finish()
            server.ends_with(14)
        with started(program, "TWO", 1) as server:
            wants_of_replay("a book on another set", ["--to", server.port, at("first")], 1,
                            b"place 5: the reply was OK 5 600 600 1000 1000 400, and now it is OK 5 1200 1200 1000 1000 -200\n"
                            b"place 8: the reply was S A2 CUST GROSS ONE 0, and now it is S A2 CUST GROSS TWO 0\n")
            server.ends_with(8)


def wants_of_replay(what, words, status, output):
    ran = example("replay.py", *words)
    want(f"replay of {what}", (ran.returncode, ran.stdout, bool(ran.stderr)), (status, output, status != 0))


def look_at_desk(ran):
    want("status and faults of the desk", (ran.returncode, ran.stderr), (0, b""))
    head, *rows, foot = ran.stdout.decode().splitlines()
    want("head of the desk", head.split()[0], "account")
    want("rows of the desk", [row.split()[:-1] for row in rows[:2]], [
        ["A2", "CALL", "600", "600", "0", "0", "-600"], ["A1", "CALL", "1,200", "1,200", "1,000", "1,000", "-200"]])
    want("row without an account", rows[2].split(), ["A3", "20", "NOACCT"])
    want("foot of the desk", foot, "last place 13; 999,987 entries are left")


def a_desk_that_is_redrawn(program):
    with started(program, "ONE", 2) as server, tempfile.TemporaryDirectory() as folder, Client(server.port) as client:
        client.wants(*ROOM)
        accounts = pathlib.Path(folder, "accounts")
        accounts.write_text("A1\n", encoding="ascii")
        words = [sys.executable, EXAMPLES / "desk.py", str(server.port), accounts, "--rate", "20"]
        # (Where the tests run in the background of a shell, the interrupt is ignored in what they start.)
        heeds = functools.partial(signal.signal, signal.SIGINT, signal.SIG_DFL)
        with subprocess.Popen(words, bufsize=0, stdout=subprocess.PIPE, stderr=subprocess.PIPE, preexec_fn=heeds) as seen:
            try:
                shown = b""
                while b"last place 5;" not in shown:
                    shown += seen.stdout.read(1000)
                want("a call before the trade", b"CALL" in shown, False)
                client.ask(b"TRADE A1 1 AAA1 4 0")
                while b"CALL" not in shown:
                    shown += seen.stdout.read(1000)
                seen.send_signal(signal.SIGINT)
                want("status and faults", (seen.wait(), seen.stderr.read()), (0, b""))
            finally:
                seen.kill()
        client.finish()
        want("status", server.end()[0], 0)


def a_long_file(program):
    """Its replies are more than connections keep, so client.py must read them while it sends."""
    lots, statements = 50, 20_000
    lines = LINES + b"".join(b"TRADE A1 %d AAA2 1 0\n" % lot for lot in range(2, lots + 1)) + b"STMT A1\n" * statements
    with started(program, "ONE", 1) as server, tempfile.TemporaryDirectory() as folder:
        replies = client_of(server.port, folder, "client", lines)
        want("replies", replies.count(b"\n"), 5 + lots - 1 + statements * (1 + 5 + lots))
        server.ends_with(5 + lots - 1 + statements)


def a_server_that_goes(_program):
    """Its connection ends after one reply. The client ends too, though more could be typed, and tells what got no reply."""
    with socket.create_server((clients.HOST, 0)) as listener, tempfile.TemporaryDirectory() as folder:
        transcript = pathlib.Path(folder, "transcript")
        words = [sys.executable, EXAMPLES / "client.py", str(listener.getsockname()[1]), "--transcript", transcript]
        with subprocess.Popen(words, bufsize=0, stdin=subprocess.PIPE, stdout=subprocess.PIPE, stderr=subprocess.PIPE) as client:
            try:
                client.stdin.write(b"ORIGIN CUST GROSS\nASK A1\n")
                connection, _ = listener.accept()
                with connection:
                    got = b""
                    while got.count(b"\n") < 2:
                        got += connection.recv(100)
                    connection.sendall(b"OK 1\nOK 2 6")
                want("output", client.stdout.read(), b"OK 1\n")
                want("fault", client.stderr.read(), b"client: the connection ended, and 1 lines got no reply\n")
                want("status", client.wait(), 1)
            finally:
                client.kill()
        want("transcript", transcript.read_bytes(), b"> ORIGIN CUST GROSS\nOK 1\n> ASK A1\n")


CASES = [the_examples, a_desk_that_is_redrawn, a_long_file, a_server_that_goes]

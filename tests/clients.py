"""What the tests of the server share: a server that is always ended, connections to it, and how replies are read."""
import contextlib
import os
import pathlib
import signal
import socket
import struct
import subprocess
import tempfile

HOST = "127.0.0.1"
TOP = pathlib.Path(__file__).resolve().parent.parent
SETS = TOP / "sets"

# Rows of a session on the set ONE, and all of them as lines and as replies.
BEGIN = ("ORIGIN CUST GROSS -> OK 1", "OPEN A1 CUST -> OK 2")
ROOM = (*BEGIN, "POST A1 CASH 1000 -> OK 3")
TRADED = (*ROOM, "TRADE A1 1 AAA1 2 0 -> OK 4", "ASK A1 -> OK 5 600 600 1000 1000 400")
LINES = b"".join(row.split(" -> ")[0].encode() + b"\n" for row in TRADED)
REPLIES = b"".join(row.split(" -> ")[1].encode() + b"\n" for row in TRADED)


class Wrong(Exception):
    """A test did not get what it wanted."""


def want(what, got, wanted):
    if got != wanted:
        raise Wrong(f"{what}: {got!r:.300}, wanted {wanted!r:.300}")


@contextlib.contextmanager
def deadline(seconds):
    """Lets what runs in it, and waits for anything, end by Wrong after so many seconds. For the main thread."""
    def over(_signal, _frame):
        raise Wrong(f"nothing came in {seconds} seconds")
    signal.signal(signal.SIGALRM, over)
    signal.setitimer(signal.ITIMER_REAL, seconds)
    try:
        yield
    finally:
        signal.setitimer(signal.ITIMER_REAL, 0)


def free_port():
    with socket.create_server((HOST, 0)) as it:
        return it.getsockname()[1]


class Server:
    """`PROGRAM serve`, which is killed at the end of a `with` where it still runs."""

    def __init__(self, program, name, sessions, port, folder=SETS, **started):
        self.port = port
        words = [program, "serve", "--dir", folder, "--set", name, "--port", str(port), "--sessions", str(sessions)]
        self.faults = tempfile.TemporaryFile()
        self.process = subprocess.Popen(
            words, bufsize=0, stdin=subprocess.DEVNULL, stdout=subprocess.PIPE, stderr=self.faults, **started)

    def __enter__(self):
        return self

    def __exit__(self, *_):
        self.process.kill()
        self.process.wait()
        self.process.stdout.close()
        self.faults.close()

    def is_ready(self):
        """Waits for the first line, and returns whether it is READY with the port."""
        return self.process.stdout.readline() == b"READY %d\n" % self.port

    def said(self):
        """Returns what stands on standard error so far. (Its end is the program's own, so it is not moved.)"""
        return os.pread(self.faults.fileno(), 1 << 20, 0)

    def end(self):
        """Waits for the program's end, and returns its status, the rest of its output, and all of standard error."""
        output = self.process.stdout.read()
        return self.process.wait(), output, self.said()

    def ends_with(self, entries, faults=b"", status=0):
        """Waits for the end, at which the audit tells so many entries."""
        want("status, output and faults at the end", self.end(), (status, b"AUDIT %d\n" % entries, faults))


def begun(program, name, sessions, **more):
    """Starts a server, and returns it and whether it is ready. Where its port was taken meanwhile, it is one on another port."""
    for _ in range(5):
        server = Server(program, name, sessions, free_port(), **more)
        if server.is_ready():
            return server, True
        server.process.wait()
        if server.said() != b"spand: port\n":
            return server, False
        server.__exit__()
    raise Wrong("no port is free")


def started(program, name, sessions, **more):
    """Starts a server, and returns it when it is ready."""
    server, is_ready = begun(program, name, sessions, **more)
    if not is_ready:
        with server:
            raise Wrong(f"the server is not ready: {server.end()}")
    return server


class Client:
    """A connection to a server, closed at the end of a `with`."""

    def __init__(self, port, keeps=None):
        """`keeps` is how many bytes the system keeps of replies that are not read, if it is to be few."""
        self.socket = socket.socket()
        if keeps:
            self.socket.setsockopt(socket.SOL_SOCKET, socket.SO_RCVBUF, keeps)
        self.socket.connect((HOST, port))
        self.socket.setsockopt(socket.IPPROTO_TCP, socket.TCP_NODELAY, 1)
        self.replies = self.socket.makefile("rb", buffering=1 << 16)

    def __enter__(self):
        return self

    def __exit__(self, *_):
        self.replies.close()
        self.socket.close()

    def send(self, data):
        self.socket.sendall(data)

    def ask(self, command):
        """Sends a command, and returns its reply without the last LF."""
        self.send(command + b"\n")
        return read_reply(command, self.replies).rstrip(b"\n")

    def wants(self, *rows):
        """Sends commands one after the other, and looks at each reply. A row is `COMMAND -> REPLY`."""
        for row in rows:
            command, reply = row.split(" -> ")
            want(command, self.ask(command.encode()).decode(), reply)

    def close_half(self):
        self.socket.shutdown(socket.SHUT_WR)

    def rest(self):
        """Returns what comes until the server ends the connection."""
        return self.replies.read()

    def finish(self):
        """Closes this half, after which nothing more may come, and then the connection."""
        self.close_half()
        want("what comes after the last reply", self.rest(), b"")
        self.__exit__()

    def reset(self):
        """Ends the connection by a reset in place of an orderly close."""
        self.socket.setsockopt(socket.SOL_SOCKET, socket.SO_LINGER, struct.pack("ii", 1, 0))
        self.__exit__()


def is_turned_away(port):
    """Tells whether one more client is refused, or ended without a byte."""
    try:
        with socket.create_connection((HOST, port)) as it:
            # (A connection to a port without a listener can come to be one to itself.)
            return it.getsockname() == it.getpeername() or it.recv(1) == b""
    except ConnectionError:
        return True


def read_reply(command, replies):
    """Reads the whole reply to a command; that to a STMT tells in its first line how many lines follow."""
    first = replies.readline()
    if command[:5] == b"STMT " and first[:3] == b"OK ":
        return first + b"".join([replies.readline() for _ in range(int(first.split()[2]))])
    return first


def place_of(reply):
    """Returns the place that a reply tells, or None where it has none."""
    words = reply.split(None, 3)
    return int(words[1]) if words[0] == b"OK" or words[2].isdigit() else None

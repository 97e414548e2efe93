"""Connections that are not taken, and faults of the program: of the command line, the set, memory, the port and accepting."""
import contextlib
import functools
import os
import pathlib
import resource
import socket
import subprocess
import tempfile
import time

import clients
from clients import BEGIN, LINES, Client, Server, Wrong, started, want

MEMORY_SECONDS = 90
# A desk that cannot be made changes no reply. Once so many runs in a row show nothing, no allocation is left to fail.
NOTHING_SHOWS = 300


def one_client_too_many(program):
    with started(program, "ONE", 2) as server:
        with Client(server.port) as first, Client(server.port) as second:
            first.wants("ORIGIN CUST GROSS -> OK 1")
            second.wants("OPEN A1 CUST -> OK 2")
            want("the third is turned away", clients.is_turned_away(server.port), True)
            first.finish()
            want("a connection that ended is not given back", clients.is_turned_away(server.port), True)
            second.wants("ASK A1 -> OK 3 0 0 0 0 0")
            second.finish()
        server.ends_with(3)


def one_too_many_who_is_early(program):
    """It connects before the server can have accepted the first."""
    with started(program, "ONE", 1) as server:
        with Client(server.port) as first:
            want("the second is turned away", clients.is_turned_away(server.port), True)
            first.wants(*BEGIN)
            first.finish()
        server.ends_with(2)


def no_other_address(program):
    with started(program, "ONE", 1) as server:
        try:
            socket.create_connection(("127.0.0.2", server.port)).close()
            raise Wrong("127.0.0.2 is listened to")
        except ConnectionRefusedError:
            pass
        with Client(server.port) as client:
            client.finish()
        server.ends_with(0)


def the_port_at_once_again(program):
    port = clients.free_port()
    for _ in range(5):
        with Server(program, "ONE", 1, port) as server:
            want("READY", server.is_ready(), True)
            with Client(port) as client:
                client.wants(*BEGIN)
                client.finish()
            server.ends_with(2)


def a_port_that_is_taken(program):
    with socket.create_server((clients.HOST, 0)) as taken, tempfile.TemporaryDirectory() as folder:
        port = taken.getsockname()[1]
        pathlib.Path(folder, "BAD.csv").write_text("H,1,BAD\nG,AAA,-1\n", encoding="ascii")
        for name, where, status, fault in [
                ("ONE", clients.SETS, 4, b"spand: port\n"),
                ("NOPE", clients.SETS, 3, b"spand: set NOSET\n"),
                ("no name", clients.SETS, 3, b"spand: set NOSET\n"),
                ("BAD", folder, 3, b"spand: set BADSET 2\n")]:
            with Server(program, name, 1, port, where) as server:
                want(f"the end on set {name}", server.end(), (status, b"", fault))


def limit_of_files(number):
    return lambda: resource.setrlimit(resource.RLIMIT_NOFILE, (number, number))


def accepting_fails(program):
    """Accepting asks for a free number of a file before it waits. The numbers that the server uses are looked up in a run without
    a limit: with none left it accepts nobody, and with as many as one session takes it accepts one."""
    with started(program, "ONE", 2) as server:
        files = f"/proc/{server.process.pid}/fd"
        none = 1 + max(map(int, os.listdir(files)))
        with Client(server.port) as client:
            client.wants(*BEGIN)
            one = 1 + max(map(int, os.listdir(files)))
    port = clients.free_port()
    words = [program, "serve", "--dir", clients.SETS, "--set", "ONE", "--port", str(port), "--sessions", "2"]
    ran = subprocess.run(words, stdin=subprocess.DEVNULL, stdout=subprocess.PIPE, stderr=subprocess.STDOUT,
                         preexec_fn=limit_of_files(none), check=False)
    want("status and all lines, in order", (ran.returncode, ran.stdout), (4, b"READY %d\nAUDIT 0\nspand: port\n" % port))
    with started(program, "ONE", 2, preexec_fn=limit_of_files(one)) as server:
        with Client(server.port) as client:
            client.wants(*BEGIN)
            time.sleep(0.5)  # (until the server asks for the next client; nothing tells when)
            client.wants("POST A1 CASH 1000 -> OK 3")
            client.finish()
        server.ends_with(3, b"spand: port\n", 4)


def faults_of_the_command_line(program):
    whole = {"--dir": str(clients.SETS), "--set": "ONE", "--port": str(clients.free_port()), "--sessions": "1"}
    wrong = [("--port", it) for it in ("0", "65536", "-1", "http", "")]
    wrong += [("--sessions", it) for it in ("0", "17", "-1", "many", "")]
    tried = [{**whole, option: value} for option, value in wrong]
    tried += [{option: value for option, value in whole.items() if option != left_out} for left_out in whole]
    tried += [{**whole, "--more": "1"}, {**whole, "--port": "0", "--set": "NOPE"}]
    for options in tried:
        words = [program, "serve", *(word for it in options.items() for word in it)]
        ran = subprocess.run(words, stdin=subprocess.DEVNULL, capture_output=True, check=False)
        want(f"status and output of {' '.join(words[1:])}", (ran.returncode, ran.stdout, ran.stderr != b""), (2, b"", True))


def each_allocation_fails(program):
    """An allocation of a run with one client fails, in each run the next one. The run must end by `spand: memory`, with a fault
    of the session and a front of the replies, or with one reply 90 and else those to the lines without that one. Where a new set or a desk does without the allocation, nothing is to be seen."""
    commands = (*LINES.splitlines(), b"SWITCH TWO", b"TRADE A1 2 AAA1 -1 0", b"STMT A1")
    began, allocation, whole, faults = time.monotonic(), 0, 0, []
    with tempfile.TemporaryDirectory() as folder:
        library = f"{folder}/failing_alloc.so"
        source = pathlib.Path(__file__).with_name("failing_alloc.c")
        subprocess.run(["cc", "-shared", "-fPIC", "-O1", "-o", library, source], check=True)
        while whole < NOTHING_SHOWS and time.monotonic() - began < MEMORY_SECONDS:
            allocation += 1
            replies, ended = run_without(program, commands, allocation, library)
            is_whole = ended[0] == 0 and b"".join(replies) == script(program, commands)
            whole = whole + 1 if is_whole else 0
            fault = fault_of_run(program, commands, replies, ended)
            if fault:
                faults.append(f"allocation {allocation}: {fault}")
    print(f"memory: {allocation - whole} allocations failed in turn", flush=True)
    if whole < NOTHING_SHOWS:
        print("memory: for want of time no more were tried", flush=True)
    if faults:
        raise Wrong(f"{len(faults)} runs ended otherwise, first {faults[0]}")


def run_without(program, commands, allocation, library):
    """Runs a server whose allocation of that number fails, and returns the replies that its client got, and how it ended."""
    environment = {**os.environ, "LD_PRELOAD": library, "FAIL_ALLOC": str(allocation)}
    server, is_ready = clients.begun(program, "ONE", 1, env=environment)
    replies = []
    with server:
        if is_ready:
            with Client(server.port) as client, contextlib.suppress(OSError):
                client.send(b"".join(it + b"\n" for it in commands))
                client.close_half()
                for command in commands:
                    replies.append(clients.read_reply(command, client.replies))
        return [it for it in replies if it], server.end()


def fault_of_run(program, commands, replies, ended):
    """Returns what is wrong with a run that had no memory once, or None."""
    if ended == (6, b"", b"spand: memory\n"):
        return None
    answered = [(command, reply) for command, reply in zip(commands, replies) if reply != b"ERR 90 MEMORY\n"]
    if len(answered) < len(replies) - 1:
        return f"more than one reply 90: {replies}"
    status, output, said = ended
    # (Where the session ended early, more can have been done than was answered.)
    is_cut = (status, said) == (0, b"spand: session 1 MEMORY\n") and output.startswith(b"AUDIT ")
    if not is_cut and (len(replies) < len(commands) or ended != (0, b"AUDIT %d\n" % len(answered), b"")):
        return f"{ended}, after {replies}"
    if not script(program, tuple(it for it, _ in answered)).startswith(b"".join(reply for _, reply in answered)):
        return f"other replies: {replies}"
    return None


@functools.lru_cache(maxsize=None)
def script(program, commands):
    """Returns what `script` answers to the commands."""
    words = [program, "script", "--dir", clients.SETS, "--set", "ONE"]
    return subprocess.run(words, input=b"".join(it + b"\n" for it in commands), capture_output=True, check=True).stdout


CASES = [
    one_client_too_many, one_too_many_who_is_early, no_other_address, the_port_at_once_again, a_port_that_is_taken,
    accepting_fails, faults_of_the_command_line, each_allocation_fails]

"""Sessions over one server: what each is answered, and how it ends."""
import contextlib
import socket
import tempfile
import threading
import time

from clients import BEGIN, LINES, REPLIES, ROOM, TRADED, Client, Server, place_of, read_reply, started, want
from serve_examples import desk

MANY = 1_000_000


def one_after_the_other(program):
    with started(program, "ONE", 2) as server:
        with Client(server.port) as first:
            first.wants(*TRADED)
            with Client(server.port) as second:
                second.wants("ASK A1 -> OK 6 600 600 1000 1000 400")
                second.finish()
            first.finish()
        server.ends_with(6)


def a_line_that_is_cut_off(program):
    with started(program, "ONE", 2) as server:
        with Client(server.port) as first:
            first.wants("ORIGIN CUST GROSS -> OK 1")
            first.send(b"OPEN A1 CU")
            first.finish()
        with Client(server.port) as second:
            second.wants("OPEN A1 CUST -> OK 2")
            second.finish()
        server.ends_with(2)


def single_bytes(program):
    with started(program, "ONE", 1) as server:
        with Client(server.port) as client:
            for byte in LINES:
                client.send(bytes([byte]))
            client.close_half()
            want("replies", client.rest(), REPLIES)
        server.ends_with(5)


def a_closed_half_gets_all_its_replies(program):
    lines = LINES + b"ASK A1\n" * 100_000
    replies = REPLIES + b"".join(b"OK %d 600 600 1000 1000 400\n" % place for place in range(6, 100_006))
    with started(program, "ONE", 1) as server:
        with Client(server.port) as client:
            sender = threading.Thread(target=lambda: (client.send(lines), client.close_half()), daemon=True)
            sender.start()
            want("replies", client.rest(), replies)
            sender.join()
        server.ends_with(100_005)


def a_client_that_says_nothing(program):
    with started(program, "ONE", 2) as server:
        with Client(server.port) as first:
            first.finish()
        with Client(server.port) as second:
            second.wants(*BEGIN)
            second.finish()
        server.ends_with(2)


def sixteen_at_once(program):
    with started(program, "ONE", 16) as server, contextlib.ExitStack() as stack:
        connections = [stack.enter_context(Client(server.port)) for _ in range(16)]
        connections[0].wants(*BEGIN)
        for place, client in enumerate(connections[::-1], 3):
            client.wants(f"ASK A1 -> OK {place} 0 0 0 0 0")
        for client in connections:
            client.send(b"POST A1 CASH 1\n" * 100)
        places = [int(client.replies.readline().split()[1]) for client in connections for _ in range(100)]
        want("places", sorted(places), list(range(19, 1619)))
        want("places of each in order", places, [it for at in range(16) for it in sorted(places[100 * at:100 * at + 100])])
        connections[3].wants("ASK A1 -> OK 1619 0 0 1600 1600 1600")
        for client in connections:
            client.finish()
        server.ends_with(1619)


def two_orders_and_room_for_one(program):
    for _ in range(10):
        with started(program, "ONE", 2) as server:
            with Client(server.port) as first, Client(server.port) as second:
                first.wants(*ROOM)
                first.send(b"HOLD A1 1 AAA1 2 0\n")
                second.send(b"HOLD A1 2 AAA1 2 0\n")
                replies = sorted([first.replies.readline(), second.replies.readline()])
                want("replies", replies, [b"ERR 5 30 NOROOM\n", b"OK 4\n"])
                first.finish()
                second.finish()
            server.ends_with(5)


def a_reset(program):
    with started(program, "ONE", 3) as server:
        with Client(server.port) as first, Client(server.port) as second, Client(server.port) as third:
            first.wants("ORIGIN CUST GROSS -> OK 1")
            second.send(b"OPEN A1 CUST\n")
            second.socket.recv(1, socket.MSG_PEEK)
            second.reset()
            while b"\n" not in server.said():
                time.sleep(0.01)
            third.wants("ASK A1 -> OK 3 0 0 0 0 0")
            first.wants("POST A1 CASH 5 -> OK 4")
            third.finish()
            first.finish()
        status, output, faults = server.end()
        want("status and output", (status, output), (0, b"AUDIT 4\n"))
        want("fault is one of reading or writing", faults in (b"spand: session 2 READ\n", b"spand: session 2 WRITE\n"), True)


def a_client_that_never_reads(program):
    """1,000 statements of 500 lots are more than connections keep of what is not read."""
    lots, statements = 500, 1_000
    with started(program, "ONE", 2) as server:
        with Client(server.port, keeps=4096) as first, Client(server.port) as second:
            first.wants(*BEGIN)
            first.send(b"".join(b"TRADE A1 %d AAA1 %d 0\n" % (lot, (-1) ** lot) for lot in range(1, lots + 1)))
            want("places", [first.replies.readline() for _ in range(lots)], [b"OK %d\n" % place for place in range(3, lots + 3)])
            first.send(b"STMT A1\n" * statements)
            places = set()
            for _ in range(200):
                reply = second.ask(b"ASK A1").split()
                want("reply to the other", reply[2:], [b"0"] * 5)
                places.add(int(reply[1]))
            wanted = None
            for _ in range(statements):
                reply = read_reply(b"STMT A1", first.replies)
                places.add(place_of(reply))
                wanted = wanted or reply.split(b"\n", 1)[1]
                want("statement", reply.split(b"\n", 1)[1], wanted)
            want("lines of a statement", wanted.count(b"\n"), lots + 4)
            last = 2 + lots + 200 + statements
            want("places", places, set(range(3 + lots, last + 1)))
            first.finish()
            second.finish()
        server.ends_with(last)


def one_that_never_reads_and_goes(program):
    with started(program, "ONE", 2) as server:
        with Client(server.port, keeps=4096) as first, Client(server.port) as second:
            first.socket.setblocking(False)
            with contextlib.suppress(BlockingIOError):
                for _ in range(60):
                    first.socket.send(b"TOTAL CUST\n" * 5_000)
            want("reply to the other", second.ask(b"ORIGIN CUST GROSS")[:3], b"OK ")
            first.reset()
            second.finish()
        status, output, faults = server.end()
        want("status and output", (status, output.startswith(b"AUDIT ")), (0, True))
        want("fault is one of reading or writing", faults in (b"spand: session 1 READ\n", b"spand: session 1 WRITE\n"), True)


def more_lines_than_a_session_takes(program):
    """The server ends that connection first, and its port can be used again at once all the same."""
    with started(program, "ONE", 2) as server:
        port = server.port
        with Client(port) as first, Client(port) as second:
            got = []
            threads = [threading.Thread(target=lambda: first.send(b"\n" * (MANY + 1)), daemon=True),
                       threading.Thread(target=lambda: got.append(first.rest()), daemon=True)]
            for it in threads:
                it.start()
            second.wants(*TRADED)
            for place in range(6, 506):
                second.wants(f"ASK A1 -> OK {place} 600 600 1000 1000 400")
            for it in threads:
                it.join()
            want("replies to empty lines", got == [b"ERR 10 SYNTAX\n" * MANY], True)
            while b"\n" not in server.said():
                time.sleep(0.01)
            second.wants("ASK A1 -> OK 506 600 600 1000 1000 400")
            second.finish()
        server.ends_with(506, b"spand: session 1 LINES\n")
    with Server(program, "ONE", 1, port) as server:
        want("READY on the same port", server.is_ready(), True)
        with Client(port) as client:
            client.wants(*TRADED)
            client.finish()
        server.ends_with(5)


def a_full_history(program):
    """Refused commands fill the history too, and then 91 is everybody's answer. A desk ends by it."""
    with started(program, "ONE", 3) as server, tempfile.TemporaryDirectory() as folder:
        with Client(server.port) as first:
            sender = threading.Thread(target=lambda: (first.send(b"ASK A\n" * MANY), first.close_half()), daemon=True)
            sender.start()
            want("refusals", first.rest() == b"".join(b"ERR %d 20 NOACCT\n" % place for place in range(1, MANY + 1)), True)
            sender.join()
        with Client(server.port) as second:
            second.wants("ORIGIN CUST GROSS -> ERR 91 FULL", "ASK A -> ERR 91 FULL", "A -> ERR 10 SYNTAX")
            second.finish()
        ran = desk(server.port, folder, ["A"])
        want("what the desk says", (ran.returncode, ran.stdout, ran.stderr), (1, b"", b"desk: the server answers 91 FULL\n"))
        server.ends_with(MANY)


CASES = [
    one_after_the_other, a_line_that_is_cut_off, single_bytes, a_closed_half_gets_all_its_replies, a_client_that_says_nothing,
    sixteen_at_once, two_orders_and_room_for_one, a_reset, a_client_that_never_reads, one_that_never_reads_and_goes,
    more_lines_than_a_session_takes, a_full_history]

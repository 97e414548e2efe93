"""Random days: several clients at once over one server. All replies with places, merged by place, must be those of the program's
`script` to the day as one session, to the byte. A day is made from its seed; how its sessions meet is up to the machine."""
import contextlib
import io
import random
import selectors
import socket
import subprocess
import tempfile
import time

import clients

CONTRACTS = ["AAA1", "AAA1", "AAA1", "AAA2", "AAA2", "AAAC", "AAAC", "BBB1", "BBB1", "ZZZ1"]
ACCOUNTS = ["A1", "A2", "A3", "A4", "A5", "H1", "H2", "H3", "N1", "N2"]
MOVES = [("A1", "A2"), ("A2", "A3"), ("A3", "A1"), ("A4", "A5"), ("H1", "H2"), ("H2", "H3"), ("H3", "H1"), ("N1", "N2"),
         ("A1", "H1"), ("A1", "A1"), ("NONE", "A1")]
SETS = ["ONE", "TWO", "TWO", "ODD", "FLAT", "NEG", "WIN", "FUT", "BILLS", "BAD", "NONE", "SAMEASTHENAMEOFNOFILE"]
WRONG = ["", "ASK", "ASK  A1", "ask A1", "TRADE A1 1 AAA1 0 0", "POST A1 CASH 01", "OPEN AAAAAAAAAAAAAAAAA CUST",
         "HOLD A1 1 AAA1 1", "ASK " + "A" * 300, "TRADE A1 1 AAA1 1 100000001", "ORIGIN X BOTH", "END OF DAY"]
OPENING = ["ORIGIN CUST GROSS", "ORIGIN HOUSE NET", "ORIGIN NETTED NET",
           *(f"OPEN {it} {'CUST' if it[0] == 'A' else 'HOUSE' if it[0] == 'H' else 'NETTED'}" for it in ACCOUNTS)]
WITHOUT_PLACE = (b"ERR 10 SYNTAX\n", b"ERR 11 LONG\n", b"ERR 12 RANGE\n", b"ERR 40 NOSET\n", b"ERR 41 BADSET 2\n")


class Lines:
    """Makes the lines of one session."""

    def __init__(self, pick, session):
        self.pick = pick
        self.next = session * 100_000 + 1
        self.held = []  # (account, order, what is left, limit), as far as this session knows
        self.traded = []  # (account, lot)
        self.kinds = [self.trade] * 20 + [self.hold] * 16 + [self.fill] * 12 + [self.release] * 5 + [self.bust] * 5 + [
            self.post] * 10 + [self.draw] * 8 + [self.move] * 8 + [self.ask] * 8 + [self.total] * 3 + [self.statement] + [
            self.wrong, self.open, self.large]

    def one_of(self, row):
        return row[int(self.pick() * len(row))]

    def account(self):
        return self.one_of(ACCOUNTS) if self.pick() < 0.98 else "NONE"

    def number(self):
        """A new number, or one that was given before, here or in another session."""
        if self.pick() < 0.05:
            return 100_000 * (1 + int(self.pick() * 4)) + int(self.pick() * 20)
        self.next += 1
        return self.next

    def quantity(self):
        size = 1 + int(self.pick() * 9)
        return size if self.pick() < 0.5 else -size

    def price(self, contract):
        """A premium fits the option AAAC alone."""
        return int(self.pick() * 100) if (contract == "AAAC") == (self.pick() < 0.98) else 0

    def line(self):
        return self.one_of(self.kinds)()

    def trade(self):
        account, lot, contract = self.account(), self.number(), self.one_of(CONTRACTS)
        self.traded.append((account, lot))
        return f"TRADE {account} {lot} {contract} {self.quantity()} {self.price(contract)}"

    def large(self):
        """Ten of these are the limit of a unit."""
        return f"TRADE N2 {self.number()} AAA2 {self.one_of([-1_000_000, 1_000_000])} 0"

    def hold(self):
        account, order, contract, left = self.account(), self.number(), self.one_of(CONTRACTS), self.quantity()
        limit = self.price(contract)
        self.held.append((account, order, left, limit))
        return f"HOLD {account} {order} {contract} {left} {limit}"

    def fill(self):
        if not self.held:
            return self.hold()
        at = int(self.pick() * len(self.held))
        account, order, left, limit = self.held[at]
        part = left if self.pick() < 0.3 else int(left * self.pick()) or left
        if part == left:
            self.held.pop(at)
        else:
            self.held[at] = account, order, left - part, limit
        price = limit if self.pick() < 0.8 else int(self.pick() * 100)
        return f"FILL {account} {order} {self.number()} {part if self.pick() < 0.97 else 2 * left} {price}"

    def release(self):
        account, order, *_ = self.held.pop(int(self.pick() * len(self.held))) if self.held else ("A1", 1)
        return f"RELEASE {account} {order}"

    def bust(self):
        account, lot = self.one_of(self.traded) if self.traded else ("A1", 1)
        return f"BUST {account} {lot}"

    def post(self):
        if self.pick() < 0.7:
            return f"POST {self.account()} CASH {1 + int(self.pick() * 20_000)}"
        return f"POST {self.account()} {'BILL' if self.pick() < 0.9 else 'NOTE'} {1 + int(self.pick() * 20)}"

    def draw(self):
        if self.pick() < 0.7:
            return f"DRAW {self.account()} CASH {1 + int(self.pick() * 2_000)}"
        return f"DRAW {self.account()} BILL {1 + int(self.pick() * 20)}"

    def move(self):
        giver, taker = self.one_of(MOVES)
        return f"MOVE {self.number()} {giver} {taker} {self.one_of(CONTRACTS)} {self.quantity()}"

    def ask(self):
        return f"ASK {self.account()}"

    def total(self):
        return f"TOTAL {self.one_of(['CUST', 'HOUSE', 'NETTED', 'NONE'])}"

    def statement(self):
        return f"STMT {self.account()}"

    def wrong(self):
        return self.one_of(WRONG)

    def open(self):
        return self.one_of(OPENING)


def day_of(seed):
    """Returns the sessions of a day, each a list of lines."""
    pick = random.Random(seed)
    sessions = []
    for session in range(1, pick.randrange(2, 17) + 1):
        lines = Lines(pick.random, session)
        made = OPENING + [f"POST {it} CASH 100000" for it in ACCOUNTS[:8]]
        made += [lines.line() for _ in range(pick.randrange(200, 2001) - len(made))]
        for _ in range(pick.choice([0, 2, 5, 8, 20])):
            made[pick.randrange(len(OPENING), len(made))] = f"SWITCH {pick.choice(SETS)}"
        sessions.append([line.encode() for line in made])
    longest = max(sessions, key=len)
    longest[-pick.randrange(1, 40)] = b"END"
    return sessions


def exchange(port, sessions, pick):
    """Sends the sessions over connections of their own at once, in pieces of random lengths, and returns what each received."""
    with selectors.DefaultSelector() as waiting, contextlib.ExitStack() as opened:
        received = [[] for _ in sessions]
        longest = pick.choice([40, 200, 3000])
        for number, lines in enumerate(sessions):
            connection = opened.enter_context(socket.create_connection((clients.HOST, port)))
            connection.setblocking(False)
            text = memoryview(b"".join([line + b"\n" for line in lines]))
            waiting.register(connection, selectors.EVENT_READ | selectors.EVENT_WRITE, [text, received[number]])
        while waiting.get_map():
            for key, events in waiting.select():
                connection, data = key.fileobj, key.data
                if events & selectors.EVENT_READ:
                    got = connection.recv(1 << 18)
                    data[1].append(got)
                    if not got:
                        waiting.unregister(connection)
                        continue
                if events & selectors.EVENT_WRITE:
                    data[0] = data[0][connection.send(data[0][:pick.randrange(1, longest)]):]
                    if not data[0]:
                        connection.shutdown(socket.SHUT_WR)
                        waiting.modify(connection, selectors.EVENT_READ, data)
    return [b"".join(it) for it in received]


def in_order(sessions, received):
    """Returns the commands with their replies: those with a place, by place, and those without. No place may be missing."""
    day, others = {}, []
    for lines, text in zip(sessions, received):
        replies = io.BytesIO(text)
        for line in lines:
            reply = clients.read_reply(line, replies)
            if reply in WITHOUT_PLACE:
                others.append((line, reply))
                continue
            if not reply.endswith(b"\n"):
                raise clients.Wrong(f"{line!r} got {reply!r}")
            place = clients.place_of(reply)
            if place is None or place in day:
                raise clients.Wrong(f"{line!r} got {reply!r}, and before it {day.get(place)!r}")
            day[place] = line, reply
        clients.want("what is left after the last reply", replies.read(), b"")
    if day and max(day) != len(day):
        raise clients.Wrong(f"the last place is {max(day)}, of {len(day)}")
    return [day[it] for it in range(1, len(day) + 1)], others


def run_day(program, folder, seed):
    """Lets a day happen, and has it answered again."""
    sessions = day_of(seed)
    with clients.started(program, "ONE", len(sessions), folder=folder) as server:
        received = exchange(server.port, sessions, random.Random(seed))
        day, others = in_order(sessions, received)
        server.ends_with(len(day))
    with tempfile.TemporaryFile() as script:
        script.write(b"".join([line + b"\n" for line, _ in day + others]))
        script.seek(0)
        words = [program, "script", "--dir", folder, "--set", "ONE"]
        ran = subprocess.run(words, stdin=script, capture_output=True, check=False)
    clients.want("status and faults of the script", (ran.returncode, ran.stderr), (0, b""))
    if ran.stdout != b"".join([reply for _, reply in day + others]):
        replies = io.BytesIO(ran.stdout)
        for line, reply in day + others:
            clients.want(f"the script's reply to {line!r}", clients.read_reply(line, replies), reply)
        raise clients.Wrong("the script answered more")


def run(program, folder, seed, number, seconds):
    """Runs days from this seed on, as many as this number and as begin in these seconds, and gives what was wrong with each."""
    began = time.monotonic()
    for at in range(seed, seed + number):
        if time.monotonic() - began > seconds:
            return
        try:
            with clients.deadline(60):
                run_day(program, folder, at)
            yield None
        except (clients.Wrong, OSError) as fault:
            yield f"the day of seed {at}: {fault}"

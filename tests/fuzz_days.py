"""Random days of lines for fuzz.py. Each line is chosen with the reference's book at hand, so that most commands are done."""
from reference.book import Lot, Order, size_in
from reference.room import least_portfolio

NAMES_OF_ORIGINS = ["CUST", "HOUSE", "NETTED", "O3", "O4", "O5", "O6", "O7", "O8", "O9"]
WRONG_WORDS = [
    b"", b"0", b"-0", b"00", b"01", b"-1", b"+1", b"1.0", b"1000001", b"-1000001", b"1000000", b"100000000", b"100000001",
    b"1000000000000", b"1000000000001", b"1000000000000000", b"1000000000000001", b"9223372036854775808", b"1" * 60,
    b"-" + b"9" * 60, b"A" * 16, b"A" * 17, b"a", b"A\r", b"\r", b"\xc3\x84", b"\xff", b"\0", b"\t", b"GROSS", b"NET",
    b"NETT", b"CASH", b"A_1", b"-",
]
WEIGHTS = {
    "trade": 20, "hold": 18, "fill": 14, "release": 5, "bust": 6, "move": 9, "post": 10, "draw": 10, "ask": 10, "total": 4,
    "statement": 10, "wrong": 6, "open": 2, "origin": 0.3, "switch": 2, "end": 0.01,
}


class Day:
    """Makes the lines of one day, over the book of a session of the reference."""

    def __init__(self, pick, session, sets):
        self.pick, self.session, self.sets = pick, session, sets
        self.waiting = []  # lines that belong together
        self.largest = pick.choice([1, 3, 3, 20, 1_000, 1_000_000])
        self.odd = pick.choice([0.0, 0.02, 0.05, 0.2])  # how often something does not fit
        self.weights = dict(WEIGHTS)
        for word in pick.sample(sorted(WEIGHTS), 3):
            self.weights[word] *= pick.choice([0, 0.2, 3, 6])
        self.open_some(pick.choice([2, 4, 8, 20]))

    def open_some(self, accounts):
        """Lets the day begin with some origins and accounts with cash."""
        origins = NAMES_OF_ORIGINS[:self.pick.randint(2, 4)]
        modes = ["GROSS", "NET", "GROSS", "NET"]
        self.waiting += [f"ORIGIN {name} {mode}" for name, mode in zip(origins, modes)]
        for number in range(accounts):
            self.waiting.append(f"OPEN A{number} {self.pick.choice(origins)}")
            cash = self.pick.choice([1_000, 100_000, 10**9, 10**15])
            self.waiting.append(f"POST A{number} CASH {cash}")

    def line(self):
        """Returns the next line, as bytes."""
        if not self.waiting:
            words = list(self.weights)
            kind = self.pick.choices(words, [self.weights[word] for word in words])[0]
            self.waiting += self.lines_of(kind)
        line = self.waiting.pop(0)
        return line if isinstance(line, bytes) else line.encode("ascii")

    def lines_of(self, kind):
        """Returns the lines that one of the commands below makes."""
        made = getattr(self, kind)()
        return [made] if isinstance(made, (str, bytes)) else made

    def rarely(self, share=1.0):
        """Returns whether something that does not fit is to be made."""
        return self.pick.random() < self.odd * share

    # What there is to choose from.

    @property
    def book(self):
        """The book as it is now."""
        return self.session.book

    def account(self):
        """Returns an account, or None if there is none."""
        return self.pick.choice(list(self.book.accounts.values())) if self.book.accounts else None

    def account_name(self):
        """Returns the name of an account, or now and then of none."""
        account = None if self.rarely() else self.account()
        return account.name if account else self.pick.choice(["A99", "NONE", "CUST"])

    def contract_name(self):
        """Returns the name of a contract of the set in force, or now and then of none."""
        names = list(self.book.parameters.contracts)
        return self.pick.choice(names) if names and not self.rarely() else self.pick.choice(["K9X9", "K0X1", "NONE"])

    def class_name(self):
        """Returns the name of a class."""
        names = ["CASH", *self.book.parameters.classes]
        return self.pick.choice(names) if not self.rarely() else self.pick.choice(["N0", "NONE"])

    def new_number(self, taken=()):
        """Returns a number for a lot or an order, now and then one that was given before."""
        if taken and self.rarely():
            return self.pick.choice(list(taken))
        return self.pick.choice([self.pick.randint(1, 10**12), self.pick.randint(1, 300), 10**12 - self.pick.randint(0, 9)])

    def quantity(self):
        """Returns a quantity."""
        size = self.pick.choice([1, self.pick.randint(1, 5), self.pick.randint(1, self.largest), self.largest])
        return size if self.pick.random() < 0.5 else -size

    def quantity_in(self, account, contract_name):
        """Returns a quantity, now and then one that just reaches the limit of sizes of the account's unit, or is one more."""
        rest = 10_000_000 - size_in(self.book.unit_of(account), contract_name) if account else 0
        if not 0 < rest <= 1_000_000 or self.pick.random() < 0.3:
            return self.quantity()
        return self.pick.choice([-1, 1]) * min(1_000_000, rest + self.pick.choice([0, 0, 1]))

    def price(self, contract_name):
        """Returns a premium or limit that fits the contract, or now and then one that does not."""
        contract = self.book.parameters.contracts.get(contract_name)
        if contract is None or (contract.has_premium() == self.rarely()):
            return 0
        width = self.pick.choice([3, 50])
        near = max(0, min(10**8, contract.value + self.pick.randint(-width, width)))
        return self.pick.choice([near, near, near, self.pick.randint(0, 100), 10**8, 0])

    def held(self):
        """Returns an account with a held order, the order's number and the order, or None."""
        some = [(account, number) for account in self.book.accounts.values() for number in account.orders]
        if not some:
            return None
        account, number = self.pick.choice(some)
        return account, number, account.orders[number]

    # The commands.

    def origin(self):
        """A new origin, or one that is there already."""
        return f"ORIGIN {self.pick.choice(NAMES_OF_ORIGINS)} {self.pick.choice(['GROSS', 'NET'])}"

    def open(self):
        """A new account."""
        name = f"A{self.pick.randint(0, 60)}" if self.rarely(5) else f"A{len(self.book.accounts)}"
        origins = list(self.book.origins)
        return f"OPEN {name} {self.pick.choice(origins) if origins and not self.rarely() else 'NONE'}"

    def trade(self):
        """A trade."""
        account, contract = self.account(), self.contract_name()
        taken = account.lots if account else ()
        return f"TRADE {self.account_name() if self.rarely() or not account else account.name} {self.new_number(taken)} " \
               f"{contract} {self.quantity_in(account, contract)} {self.price(contract)}"

    def bust(self):
        """A bust of a live lot, of a moved or busted one, or of none."""
        account = self.account()
        if account is None or self.rarely(2):
            return f"BUST {self.account_name()} {self.new_number()}"
        lots = [number for number, lot in account.lots.items() if lot.is_live and not lot.is_moved or self.rarely()]
        return f"BUST {account.name} {self.pick.choice(lots)}" if lots else self.trade()

    def hold(self):
        """An order, often after as much cash was posted as makes its room 0 or nearly so."""
        account, contract = self.account(), self.contract_name()
        if account is None:
            return f"HOLD {self.account_name()} 1 {contract} 1 0"
        number, quantity = self.new_number(account.orders), self.quantity_in(account, contract)
        limit = self.price(contract)
        line = f"HOLD {account.name} {number} {contract} {quantity} {limit}"
        known = self.book.parameters.contracts.get(contract)
        if known is None or number in account.orders or (limit and not known.has_premium()):
            return line
        room = self.room_with(account, number, Order(contract, quantity, limit))
        before = self.posts(account, -room - self.pick.choice([0, 0, 0, 0, 1, -1])) if room < 0 else []
        return before + [line] + (self.mirrored(account, known, quantity, limit) if self.pick.random() < 0.1 else [])

    def mirrored(self, account, contract, quantity, limit):
        """Returns an order of the other side, as far from the market value, so that two portfolios may tie, and a question."""
        other = max(0, min(10**8, 2 * contract.value - limit)) if contract.has_premium() else 0
        return [f"HOLD {account.name} {self.new_number()} {contract.name} {-quantity} {other}", f"ASK {account.name}"]

    def room_with(self, account, number, order):
        """Returns what the room of an account's unit would be with an order."""
        account.orders[number] = order
        room = least_portfolio(self.book.parameters, self.book.unit_of(account)).room
        del account.orders[number]
        return room

    def posts(self, account, cents):
        """Returns lines that post as much cash as an account can still take of this."""
        cents = min(cents, 10**15 - account.cash)
        return [f"POST {account.name} CASH {cents}"] if cents > 0 else []

    def fill(self):
        """A fill of a held order: in part, completely, or of too much."""
        found = self.held()
        if found is None:
            return f"FILL {self.account_name()} {self.new_number()} {self.new_number()} 1 0" if self.rarely() else self.hold()
        account, number, order = found
        part = order.left if self.pick.random() < 0.3 else int(order.left * self.pick.random()) or order.left
        if self.rarely():
            part = self.pick.choice([-part, 2 * order.left, order.left + (1 if order.left > 0 else -1)])
        part = max(-10**6, min(10**6, part))
        name = self.account_name() if self.rarely() else account.name
        price = self.price_of_fill(order)
        return f"FILL {name} {self.new_number() if self.rarely() else number} {self.new_number(account.lots)} {part} {price}"

    def price_of_fill(self, order):
        """Returns a premium that meets the order's limit, or now and then one that does not."""
        contract = self.book.parameters.contracts[order.contract]
        if not contract.has_premium() and not self.rarely():
            return 0
        better = self.pick.choice([0, 0, 1, 40, 10**8]) * (-1 if order.left > 0 else 1)
        if self.rarely():
            better = -better or 1
        return max(0, min(10**8, order.limit + better))

    def release(self):
        """A release of a held order."""
        found = self.held()
        if self.rarely():
            return f"RELEASE {self.account_name()} {self.new_number()}"
        if found is None:
            return self.hold()
        return f"RELEASE {found[0].name} {found[1]}"

    def move(self):
        """A transfer, mostly within an origin, and often after as much cash was posted as it needs."""
        givers = [it for it in self.book.accounts.values() if len(it.origin.accounts) > 1]
        giver = self.pick.choice(givers) if givers and not self.rarely() else self.account()
        if giver is None:
            return f"MOVE 1 A1 A2 {self.contract_name()} 1"
        others = [it for it in giver.origin.accounts if it is not giver]
        taker = self.account() if self.rarely() or not others else self.pick.choice(others)
        contract, quantity = self.contract_name(), self.quantity()
        live = [lot for lot in giver.lots.values() if lot.is_live]
        if live and self.pick.random() < 0.6:
            lot = self.pick.choice(live)
            contract, quantity = lot.contract, lot.quantity
        names = (giver.name, taker.name) if not self.rarely() else (giver.name, self.account_name())
        line = f"MOVE {self.new_number(taker.lots)} {names[0]} {names[1]} {contract} {quantity}"
        if contract not in self.book.parameters.contracts or self.pick.random() < 0.1:
            return line
        lacking = self.lacking_for_move(giver, taker, contract, quantity)
        near = self.pick.choice([0, 0, 0, 0, 1, -1])
        return [some for it, cents in lacking for some in self.posts(it, cents - near)] + [line]

    def lacking_for_move(self, giver, taker, contract, quantity):
        """Returns what the units of two accounts would have less than they require after a transfer."""
        giver.lots["moved"], taker.lots["moved"] = Lot(contract, -quantity, 0, True), Lot(contract, quantity, 0, True)
        lacking = []
        for account in (giver, taker) if giver.origin.mode == "GROSS" else (giver,):
            lacking.append((account, -least_portfolio(self.book.parameters, self.book.unit_of(account)).room))
        for account in {giver, taker}:
            del account.lots["moved"]
        return lacking

    def post(self):
        """Collateral, now and then exactly up to its limit, or one more."""
        account, name = self.account(), self.class_name()
        most = 10**15 if name == "CASH" else 10**9
        posted = 0 if account is None else account.cash if name == "CASH" else account.units.get(name, 0)
        units = self.pick.choice([self.pick.randint(1, 9), self.pick.randint(1, 20_000), self.pick.randint(1, most // 1000)])
        if self.rarely() or self.pick.random() < 0.02:
            units = max(1, most - posted + self.pick.choice([0, 0, 1]))
        return f"POST {account.name if account and not self.rarely() else self.account_name()} {name} {units}"

    def draw(self):
        """Collateral back: a little, all, too much, or exactly the room."""
        account = self.account()
        if account is None or self.rarely():
            return f"DRAW {self.account_name()} {self.class_name()} {self.pick.randint(1, 9)}"
        name = self.pick.choice(["CASH", "CASH", *account.units]) if not self.rarely() else self.class_name()
        posted = account.cash if name == "CASH" else account.units.get(name, 0)
        room = least_portfolio(self.book.parameters, self.book.unit_of(account)).room
        some = [1, posted, self.pick.randint(1, max(1, posted)), min(posted, room), room + self.rarely(5)]
        units = self.pick.choice(some)
        line = f"DRAW {account.name} {name} {max(1, min(10**15, units))}"
        return line if posted or self.rarely() else [*self.posts(account, self.pick.randint(1, 10**6)), line]

    def ask(self):
        """A question."""
        return f"ASK {self.account_name()}"

    def total(self):
        """A question for totals."""
        return f"TOTAL {self.pick.choice(list(self.book.origins) or ['NONE']) if not self.rarely() else 'NONE'}"

    def statement(self):
        """A question for a statement."""
        return f"STMT {self.account_name()}"

    def switch(self):
        """Another set."""
        return f"SWITCH {self.pick.choice(self.sets)}"

    def end(self):
        """The end, and some lines after it."""
        kinds = ["ask", "total", "statement", "post", "release", "open", "origin", "end_once"]
        return ["END"] + [line for kind in kinds for line in self.lines_of(kind)]

    def end_once(self):
        """The end, a second time."""
        return "END"

    def wrong(self):
        """A good line with one change that mostly makes it no command."""
        kinds = ["trade", "fill", "release", "bust", "post", "ask", "total", "origin", "open", "statement", "switch",
                 "end_once"]
        made = getattr(self, self.pick.choice(kinds))()
        words = (made if isinstance(made, str) else made[-1]).encode("ascii").split(b" ")
        at, how = self.pick.randrange(len(words)), self.pick.randrange(8)
        if how < 3:
            words[at] = self.pick.choice(WRONG_WORDS)
        elif how == 3:
            del words[at]
        elif how == 4:
            words.insert(at, self.pick.choice([b"", words[at], b"1"]))
        elif how == 5:
            words[at] = words[at].lower()
        elif how == 6:
            place = self.pick.randrange(len(words[at]) + 1)
            some = self.pick.choice([b"\r", b"\0", b"\x80", b"-", b"0", b".", b"\t", b"A"])
            words[at] = words[at][:place] + some + words[at][place:]
        else:
            fills = max(0, 256 - len(b" ".join(words)) + self.pick.choice([-1, 0, 1, 2, 3000]))
            words[at] += self.pick.choice([b"1", b"A", b"x"]) * fills
        return b" ".join(words)


class Crowd(Day):
    """A day at the limits: as many origins, accounts, orders, sizes and units of collateral as there may be."""

    def __init__(self, pick, session, sets):
        super().__init__(pick, session, sets)
        self.weights.update({"origin": 1, "open": 2, "switch": 3, "end": 0})
        getattr(self, pick.choice(["many_accounts", "many_orders", "large_sizes", "many_sets"]))()

    def many_accounts(self):
        """As many accounts as may be, or nearly."""
        self.waiting += [f"ORIGIN {name} {self.pick.choice(['GROSS', 'NET'])}" for name in NAMES_OF_ORIGINS]
        origins = NAMES_OF_ORIGINS[:self.pick.choice([1, 2, 4, 8])]
        if self.pick.random() < 0.5:
            self.waiting = [line for line in self.waiting if not line.endswith("NET")]
        self.waiting += [f"OPEN B{number} {self.pick.choice(origins)}" for number in range(self.pick.choice([1_018, 1_030]))]
        self.waiting += [f"ORIGIN LAST{number} NET" for number in range(3)] + ["OPEN LAST CUST", "OPEN LAST1 HOUSE"]

    def many_orders(self):
        """As many orders as an account may have, at one contract each."""
        names = list(self.book.parameters.contracts) or ["NONE"]
        self.waiting.append("POST A0 CASH 1000000000000000")
        for number in range(1, 262):
            self.waiting.append(f"HOLD A0 {number} {self.pick.choice(names)} {self.pick.choice([-1, 1])} 0")
        self.weights["release"] = 2

    def large_sizes(self):
        """Lots of the largest quantity, up to the limit of a unit and beyond."""
        contract = self.pick.choice(list(self.book.parameters.contracts) or ["NONE"])
        rest = self.pick.randint(1, 999_999)
        self.waiting.append("POST A0 CASH 1000000000000000")
        for number, size in enumerate([1_000_000] * 9 + [1_000_000 - rest, rest, 1, 1], 1):
            word = self.pick.choice(["TRADE", "HOLD"]) if number > 9 else "TRADE"
            self.waiting.append(f"{word} A0 {number} {contract} {self.pick.choice([-size, size])} 0")
        self.waiting += [f"MOVE 14 A1 A0 {contract} 1", "RELEASE A0 11", f"MOVE 15 A0 A1 {contract} {max(1, rest // 2)}"]
        self.largest = 1_000_000

    def many_sets(self):
        """More sets than may come into force."""
        self.waiting += [f"SWITCH {self.pick.choice(self.sets)}" for _ in range(120)]

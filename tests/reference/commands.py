"""The commands that change the book: the refusals of each, in their order, and what it does (docs/PROTOCOL.md, "Commands")."""
from reference.book import Account, Lot, Order, Origin, size_in
from reference.room import least_portfolio, lots_alone

MOST_ORIGINS, MOST_ACCOUNTS, MOST_UNITS = 8, 1_024, 1_024
MOST_LOTS, MOST_ORDERS, MOST_SIZE = 65_536, 256, 10_000_000
MOST_CASH, MOST_OF_A_CLASS, MOST_SWITCHES = 10**15, 10**9, 64


class Refused(Exception):
    """A command is refused, for this reason."""

    def __init__(self, reason):
        super().__init__(reason)
        self.reason = reason


def refuse_if(applies, reason):
    """Refuses the command if the reason applies."""
    if applies:
        raise Refused(reason)


def account_named(book, name):
    """Returns the account of that name."""
    refuse_if(name not in book.accounts, "NOACCT")
    return book.accounts[name]


def origin_named(book, name):
    """Returns the origin of that name."""
    refuse_if(name not in book.origins, "NOORIGIN")
    return book.origins[name]


def contract_named(book, name):
    """Returns the contract of that name in the set in force."""
    refuse_if(name not in book.parameters.contracts, "NOCONTRACT")
    return book.parameters.contracts[name]


def has_room(book, account):
    """Returns whether no portfolio of the account's unit has less than it requires."""
    return least_portfolio(book.parameters, book.unit_of(account)).room >= 0


# Each function takes the book and the words of its line, and returns the numbers of its reply that follow the place.


def add_origin(book, name, mode):
    """ORIGIN name GROSS|NET"""
    refuse_if(book.is_closed, "CLOSED")
    refuse_if(name in book.origins, "DUP")
    refuse_if(len(book.origins) >= MOST_ORIGINS, "LIMIT")
    refuse_if(mode == "NET" and len(book.units()) >= MOST_UNITS, "LIMIT")
    book.origins[name] = Origin(name, mode)
    return []


def open_account(book, name, origin_name):
    """OPEN account origin"""
    refuse_if(book.is_closed, "CLOSED")
    origin = origin_named(book, origin_name)
    refuse_if(name in book.accounts, "DUP")
    refuse_if(len(book.accounts) >= MOST_ACCOUNTS, "LIMIT")
    refuse_if(origin.mode == "GROSS" and len(book.units()) >= MOST_UNITS, "LIMIT")
    book.accounts[name] = Account(name, origin)
    origin.accounts.append(book.accounts[name])
    return []


def trade(book, name, number, contract_name, quantity, premium):
    """TRADE account lot contract quantity premium"""
    refuse_if(book.is_closed, "CLOSED")
    account = account_named(book, name)
    refuse_if(number in account.lots, "DUP")
    contract = contract_named(book, contract_name)
    refuse_if(premium != 0 and not contract.has_premium(), "PREMIUM")
    refuse_if(len(account.lots) >= MOST_LOTS, "LIMIT")
    refuse_if(size_in(book.unit_of(account), contract_name) + abs(quantity) > MOST_SIZE, "LIMIT")
    account.lots[number] = Lot(contract_name, quantity, premium, False)
    return []


def bust(book, name, number):
    """BUST account lot"""
    refuse_if(book.is_closed, "CLOSED")
    account = account_named(book, name)
    refuse_if(number not in account.lots or not account.lots[number].is_live, "NOTRADE")
    refuse_if(account.lots[number].is_moved, "MOVED")
    account.lots[number].is_live = False
    return []


def hold(book, name, number, contract_name, quantity, limit):
    """HOLD account order contract quantity limit"""
    refuse_if(book.is_closed, "CLOSED")
    account = account_named(book, name)
    refuse_if(number in account.orders, "DUP")
    contract = contract_named(book, contract_name)
    refuse_if(limit != 0 and not contract.has_premium(), "PREMIUM")
    refuse_if(len(account.orders) >= MOST_ORDERS, "LIMIT")
    refuse_if(size_in(book.unit_of(account), contract_name) + abs(quantity) > MOST_SIZE, "LIMIT")
    account.orders[number] = Order(contract_name, quantity, limit)
    if not has_room(book, account):
        del account.orders[number]
        raise Refused("NOROOM")
    return []


def fill(book, name, order_number, lot_number, quantity, premium):
    """FILL account order lot quantity premium"""
    refuse_if(book.is_closed, "CLOSED")
    account = account_named(book, name)
    refuse_if(lot_number in account.lots, "DUP")
    refuse_if(order_number not in account.orders, "NOORDER")
    order = account.orders[order_number]
    is_buy = order.left > 0
    refuse_if(premium > order.limit if is_buy else premium < order.limit, "PREMIUM")
    refuse_if(premium != 0 and not book.parameters.contracts[order.contract].has_premium(), "PREMIUM")
    refuse_if((quantity > 0) != is_buy or abs(quantity) > abs(order.left), "OVER")
    refuse_if(len(account.lots) >= MOST_LOTS, "LIMIT")
    account.lots[lot_number] = Lot(order.contract, quantity, premium, False)
    order.left -= quantity
    if order.left == 0:
        del account.orders[order_number]
    return []


def release(book, name, number):
    """RELEASE account order"""
    refuse_if(book.is_closed, "CLOSED")
    account = account_named(book, name)
    refuse_if(number not in account.orders, "NOORDER")
    del account.orders[number]
    return []


def move(book, number, giver_name, taker_name, contract_name, quantity):
    """MOVE lot from to contract quantity"""
    refuse_if(book.is_closed, "CLOSED")
    giver, taker = account_named(book, giver_name), account_named(book, taker_name)
    refuse_if(number in giver.lots or number in taker.lots or giver is taker, "DUP")
    contract_named(book, contract_name)
    refuse_if(giver.origin is not taker.origin, "ORIGIN")
    refuse_if(len(giver.lots) >= MOST_LOTS or len(taker.lots) >= MOST_LOTS, "LIMIT")
    giver.lots[number] = Lot(contract_name, -quantity, 0, True)
    taker.lots[number] = Lot(contract_name, quantity, 0, True)
    both = (giver, taker)
    is_large = any(size_in(book.unit_of(account), contract_name) > MOST_SIZE for account in both)
    if is_large or not all(has_room(book, account) for account in both):
        del giver.lots[number], taker.lots[number]
        raise Refused("LIMIT" if is_large else "NOROOM")
    return []


def posted_of(book, account, class_name):
    """Returns how much of a class, or of CASH, an account has posted."""
    refuse_if(class_name != "CASH" and class_name not in book.parameters.classes, "NOCLASS")
    return account.cash if class_name == "CASH" else account.units.get(class_name, 0)


def set_posted(account, class_name, units):
    """Sets how much of a class, or of CASH, an account has posted."""
    if class_name == "CASH":
        account.cash = units
    elif units > 0:
        account.units[class_name] = units
    else:
        account.units.pop(class_name, None)


def post(book, name, class_name, units):
    """POST account class units"""
    refuse_if(book.is_closed, "CLOSED")
    account = account_named(book, name)
    posted = posted_of(book, account, class_name)
    refuse_if(posted + units > (MOST_CASH if class_name == "CASH" else MOST_OF_A_CLASS), "LIMIT")
    set_posted(account, class_name, posted + units)
    return []


def draw(book, name, class_name, units):
    """DRAW account class units"""
    refuse_if(book.is_closed, "CLOSED")
    account = account_named(book, name)
    posted = posted_of(book, account, class_name)
    refuse_if(units > posted, "OVER")
    set_posted(account, class_name, posted - units)
    if not has_room(book, account):
        set_posted(account, class_name, posted)
        raise Refused("NOROOM")
    return []


def end(book):
    """END"""
    refuse_if(book.is_closed, "CLOSED")
    book.is_closed = True
    return []


def fits(parameters, account):
    """Returns whether a set has the contracts and the classes of all that an account has."""
    contracts = [lot.contract for lot in account.live_lots()] + [order.contract for order in account.orders.values()]
    return (all(contract in parameters.contracts for contract in contracts)
            and all(name in parameters.classes for name in account.units))


def switch(book, parameters):
    """SWITCH set, with the set that its file gave"""
    refuse_if(book.is_closed, "CLOSED")
    refuse_if(not all(fits(parameters, account) for account in book.accounts.values()), "MISSING")
    refuse_if(book.version >= MOST_SWITCHES, "SETS")
    book.parameters, book.version = parameters, book.version + 1
    return [book.version, sum(lots_alone(parameters, unit).room < 0 for unit in book.units())]

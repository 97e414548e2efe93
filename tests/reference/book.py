"""What the book holds, and nothing else: origins, accounts, lots, held orders, collateral, the set in force."""


class Lot:
    """A trade, or one side of a transfer."""

    def __init__(self, contract, quantity, premium, is_moved):
        self.contract, self.quantity, self.premium = contract, quantity, premium
        self.is_moved, self.is_live = is_moved, True


class Order:
    """A held order: what is left of it, and its limit."""

    def __init__(self, contract, left, limit):
        self.contract, self.left, self.limit = contract, left, limit


class Account:
    """An account: lots and orders by their numbers in order of entry, posted cash, and units by class."""

    def __init__(self, name, origin):
        self.name, self.origin = name, origin
        self.lots, self.orders = {}, {}
        self.cash, self.units = 0, {}

    def live_lots(self):
        """Returns the lots that were not busted."""
        return [lot for lot in self.lots.values() if lot.is_live]


class Origin:
    """An origin: GROSS, where each account is a margin unit, or NET, where all of them are one."""

    def __init__(self, name, mode):
        self.name, self.mode, self.accounts = name, mode, []

    def units(self):
        """Returns the margin units of the origin, each the list of its accounts."""
        return [self.accounts] if self.mode == "NET" else [[account] for account in self.accounts]


class Book:
    """The book of a day."""

    def __init__(self, parameters):
        self.parameters, self.version = parameters, 0
        self.origins, self.accounts = {}, {}
        self.is_closed, self.entries = False, 0

    def units(self):
        """Returns all margin units."""
        return [unit for origin in self.origins.values() for unit in origin.units()]

    def unit_of(self, account):
        """Returns the margin unit that an account belongs to."""
        return account.origin.accounts if account.origin.mode == "NET" else [account]


def live_lots(unit):
    """Returns the live lots of all accounts of a unit."""
    return [lot for account in unit for lot in account.live_lots()]


def held_orders(unit):
    """Returns the held orders of all accounts of a unit."""
    return [order for account in unit for order in account.orders.values()]


def size_in(unit, contract):
    """Returns the sizes of a unit's live lots and held orders in a contract, long and short added together."""
    lots = sum(abs(lot.quantity) for lot in live_lots(unit) if lot.contract == contract)
    return lots + sum(abs(order.left) for order in held_orders(unit) if order.contract == contract)

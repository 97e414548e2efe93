"""The value of a unit, its four portfolios and its room (docs/CALCULATION.md, "Value, portfolios and room")."""
from reference.book import held_orders, live_lots
from reference.calculation import requirement_of

TEN_THOUSAND = 10_000


class Portfolio:
    """What a portfolio requires, and what it is worth."""

    def __init__(self, requirement, value):
        self.requirement, self.value = requirement, value
        self.room = value - requirement


def class_value(parameters, name, units):
    """Returns the value of an account's units of a class after the haircut."""
    held = parameters.classes[name]
    return units * held.price * (TEN_THOUSAND - held.haircut) // TEN_THOUSAND


def collateral_value(parameters, account):
    """Returns an account's posted cash and the value of its classes."""
    return account.cash + sum(class_value(parameters, name, units) for name, units in account.units.items())


def nets_of(unit, orders):
    """Returns the nets of a unit's lots, with these orders filled completely."""
    nets = {}
    for lot in live_lots(unit):
        nets[lot.contract] = nets.get(lot.contract, 0) + lot.quantity
    for order in orders:
        nets[order.contract] = nets.get(order.contract, 0) + order.left
    return nets


def value_of(parameters, unit, orders):
    """Returns the value of a unit, with these orders filled completely at their limits."""
    collateral = sum(collateral_value(parameters, account) for account in unit)
    paid = sum(lot.quantity * lot.premium for lot in live_lots(unit))
    return collateral - paid - sum(order.left * order.limit for order in orders)


def portfolio(parameters, unit, orders):
    """Returns the portfolio of a unit's lots with these orders."""
    return Portfolio(requirement_of(parameters, nets_of(unit, orders)), value_of(parameters, unit, orders))


def lots_alone(parameters, unit):
    """Returns the portfolio of a unit's lots."""
    return portfolio(parameters, unit, [])


def four_portfolios(parameters, unit):
    """Returns the four portfolios of a unit: the lots; with held buys; with held sales; with all holds."""
    orders = held_orders(unit)
    buys, sales = [order for order in orders if order.left > 0], [order for order in orders if order.left < 0]
    return [portfolio(parameters, unit, some) for some in ([], buys, sales, orders)]


def least_portfolio(parameters, unit):
    """Returns the portfolio with the least room of the four, the first of those if several tie."""
    return min(four_portfolios(parameters, unit), key=lambda one: one.room)


def call_on(parameters, unit):
    """Returns what a unit's lots require above their value, or 0."""
    return max(-lots_alone(parameters, unit).room, 0)

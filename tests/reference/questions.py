"""The questions: ASK, TOTAL and STMT (docs/PROTOCOL.md, "Commands"). They change nothing."""
from reference.calculation import figures_by_commodity, net_option_value
from reference.commands import account_named, origin_named
from reference.room import call_on, class_value, least_portfolio, lots_alone, nets_of


def figures_of_unit(book, account):
    """Returns the five figures of an account's unit: requirement, exposure requirement, value, exposure value, room."""
    unit = book.unit_of(account)
    lots, least = lots_alone(book.parameters, unit), least_portfolio(book.parameters, unit)
    return [lots.requirement, least.requirement, lots.value, least.value, least.room]


def ask(book, name):
    """ASK account"""
    return figures_of_unit(book, account_named(book, name))


def total(book, name):
    """TOTAL origin"""
    origin = origin_named(book, name)
    lots = [lots_alone(book.parameters, unit) for unit in origin.units()]
    calls = [call_on(book.parameters, unit) for unit in origin.units()]
    return [sum(one.requirement for one in lots), sum(one.value for one in lots), sum(calls), len(origin.accounts)]


def statement(book, name):
    """STMT account: the lines of its statement"""
    account = account_named(book, name)
    unit, origin, parameters = book.unit_of(account), account.origin, book.parameters
    rows = [["S", account.name, origin.name, origin.mode, parameters.name, book.version]]
    rows.append(["F", *figures_of_unit(book, account), call_on(parameters, unit)])
    rows += commodity_rows(parameters, nets_of(unit, []))
    rows.append(["N", net_option_value(parameters, nets_of(unit, []))])
    for number, lot in account.lots.items():
        if lot.is_live:
            rows.append(["L", number, lot.contract, lot.quantity, lot.premium, "M" if lot.is_moved else "T"])
    for number, order in account.orders.items():
        rows.append(["O", number, order.contract, order.left, order.limit])
    return [" ".join(map(str, row)) for row in rows + collateral_rows(parameters, account)]


def commodity_rows(parameters, nets):
    """Returns the figures of each commodity in which the positions are not all 0, in file order."""
    rows = []
    for name, one in figures_by_commodity(parameters, nets).items():
        if any(nets.get(contract.name, 0) != 0 for contract in parameters.commodities[name].contracts):
            rows.append(["G", name, one.scan, one.active, one.intra, one.spot, one.credit, one.minimum, one.risk])
    return rows


def collateral_rows(parameters, account):
    """Returns the posted cash, and the classes of which the account has units, in file order."""
    rows = [["C", "CASH", account.cash]]
    for name in parameters.classes:
        if name in account.units:
            units = account.units[name]
            rows.append(["C", name, units, class_value(parameters, name, units)])
    return rows

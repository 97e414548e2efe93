"""Reading a parameter set: which file is one, and which record is wrong first, and why (docs/SETS.md)."""
from reference import spelling
from reference.records import numbered_lines, records_of
from reference.tables import (CollateralClass, Commodity, Contract, CreditSpread, Leg, Month, ParameterSet, SpotCharge,
                              Spread)

CENTS, RATIO, TEN_THOUSANDTHS, TIER = (0, 10**9), (1, 10**6), (0, 10_000), (1, 8)
MOST_COMMODITIES, MOST_MONTHS, MOST_CONTRACTS_OF_ONE, MOST_SPREADS = 256, 64, 256, 32
MOST_CONTRACTS, MOST_CREDIT_SPREADS, MOST_CLASSES = 4_096, 64, 16
FIELD_COUNTS = {b"G": [3], b"M": [4], b"K": [24], b"S": [7], b"I": [8, 11, 14], b"V": [4], b"T": [5]}
TWO_RECORDS, NO_LEG_A, NO_LEG_B, COUNT = "two records", "no leg on side A", "no leg on side B", "count"


class Wrong(Exception):
    """A record is wrong: the cause, the field that is wrong where one is, and a detail where none is."""

    def __init__(self, cause, field=None, detail=None):
        super().__init__(cause, field, detail)
        self.cause, self.field, self.detail = cause, field, detail


class SetFault(Exception):
    """The file is no set: the number of its first faulty record, the line that has it, the record and what is wrong."""

    def __init__(self, number, line, record, wrong):
        super().__init__(number, line, wrong)
        self.number, self.line, self.record = number, line, record
        self.cause, self.field, self.detail = wrong.cause, wrong.field, wrong.detail


def read_set(text):
    """Returns the set that the bytes of a file give, or raises the fault of its first faulty record."""
    made, number = None, 0
    for line, content in numbered_lines(text):
        records = records_of(content)
        if not records:
            continue
        number += 1
        try:
            if len(records) > 1:
                raise Wrong("Fields", None, TWO_RECORDS)
            if made is None:
                made = set_of_header(records[0])
            else:
                add_record(made, records[0])
        except Wrong as wrong:
            raise SetFault(number, line, records[0], wrong) from None
    if made is None:
        raise SetFault(1, 1, [], Wrong("Header"))
    return made


def set_of_header(record):
    """Returns the set that begins with this record, which must be a header."""
    if record[0] != b"H" or len(record) != 3:
        raise Wrong("Header")
    if record[1] not in (b"1", b"2"):
        raise Wrong("Header", 2)
    return ParameterSet(int(record[1]), name_in(record, 3))


def add_record(made, record):
    """Adds to the set what a record after the first one gives, or raises what is wrong with it."""
    kind = record[0]
    if kind == b"H":
        raise Wrong("Header")
    if kind not in FIELD_COUNTS or (kind == b"T" and made.version == 1):
        raise Wrong("Fields", 1)
    if len(record) not in FIELD_COUNTS[kind]:
        raise Wrong("Fields", None, COUNT)
    ADDING[kind](made, record)


# The fields. Each is asked for by its number, from 1, and from left to right.


def name_in(record, field):
    """Returns the name in a field."""
    try:
        return spelling.name_of(record[field - 1])
    except spelling.Misspelled:
        raise Wrong("Name", field) from None
    except spelling.OutOfRange:
        raise Wrong("Range", field) from None


def number_in(record, field, limits):
    """Returns the number in a field, which must be within its limits."""
    try:
        return spelling.number_of(record[field - 1], *limits)
    except spelling.Misspelled:
        raise Wrong("Number", field) from None
    except spelling.OutOfRange:
        raise Wrong("Range", field) from None


def letter_in(record, field, letters):
    """Returns the letter in a field, which must be one of these."""
    if record[field - 1] not in [letter.encode("ascii") for letter in letters]:
        raise Wrong("Name", field)
    return record[field - 1].decode("ascii")


def known_commodity(made, name, field):
    """Returns the commodity of that name, which an earlier record must have given."""
    if name not in made.commodities:
        raise Wrong("Unknown", field)
    return made.commodities[name]


def refuse_double(is_double, field):
    """Raises the fault of what was given before."""
    if is_double:
        raise Wrong("Double", field)


def refuse_full(table, most):
    """Raises the fault of one row more than a table may have."""
    if len(table) >= most:
        raise Wrong("Limit")


# The records. Each function reads all fields, and then looks at what the earlier records gave.


def add_commodity(made, record):
    """Adds the commodity of a G record."""
    name, charge = name_in(record, 2), number_in(record, 3, CENTS)
    refuse_double(name in made.commodities, 2)
    refuse_full(made.commodities, MOST_COMMODITIES)
    made.commodities[name] = Commodity(name, charge)


def add_month(made, record):
    """Adds the month of an M record."""
    name, number, tier = name_in(record, 2), number_in(record, 3, (1, 999_999)), number_in(record, 4, TIER)
    commodity = known_commodity(made, name, 2)
    refuse_double(commodity.has_month(number), 3)
    refuse_full(commodity.months, MOST_MONTHS)
    commodity.months.append(Month(number, tier))


def add_contract(made, record):
    """Adds the contract of a K record."""
    name, of, month = name_in(record, 2), name_in(record, 3), number_in(record, 4, (1, 999_999))
    kind, style = letter_in(record, 5, "FCP"), letter_in(record, 6, "PF")
    if kind == "F" and style == "P":
        raise Wrong("Range", 6)
    delta, value = number_in(record, 7, (-10**5, 10**5)), number_in(record, 8, (0, 10**8))
    if style == "F" and value != 0:
        raise Wrong("Range", 8)
    array = [number_in(record, field, (-10**8, 10**8)) for field in range(9, 25)]
    commodity = known_commodity(made, of, 3)
    if not commodity.has_month(month):
        raise Wrong("Unknown", 4)
    refuse_double(name in made.contracts, 2)
    refuse_full(made.contracts, MOST_CONTRACTS)
    refuse_full(commodity.contracts, MOST_CONTRACTS_OF_ONE)
    made.contracts[name] = Contract(name, of, month, kind, style, delta, value, array)
    commodity.contracts.append(made.contracts[name])


def add_spread(made, record):
    """Adds the intracommodity spread of an S record."""
    name = name_in(record, 2)
    spread = Spread(number_in(record, 3, TIER), number_in(record, 4, RATIO), number_in(record, 5, TIER),
                    number_in(record, 6, RATIO), number_in(record, 7, CENTS))
    commodity = known_commodity(made, name, 2)
    refuse_full(commodity.spreads, MOST_SPREADS)
    commodity.spreads.append(spread)


def add_credit_spread(made, record):
    """Adds the intercommodity spread of an I record."""
    rate, starts = number_in(record, 2, TEN_THOUSANDTHS), range(3, len(record), 3)
    legs = [Leg(name_in(record, at), letter_in(record, at + 1, "AB"), number_in(record, at + 2, RATIO)) for at in starts]
    for side, missing in (("A", NO_LEG_A), ("B", NO_LEG_B)):
        if all(leg.side != side for leg in legs):
            raise Wrong("Fields", None, missing)
    for at, leg in zip(starts, legs):
        known_commodity(made, leg.commodity, at)
    names = [leg.commodity for leg in legs]
    for place, at in enumerate(starts):
        refuse_double(names[place] in names[:place], at)
    refuse_full(made.credit_spreads, MOST_CREDIT_SPREADS)
    made.credit_spreads.append(CreditSpread(rate, legs))


def add_class(made, record):
    """Adds the collateral class of a V record."""
    name, price = name_in(record, 2), number_in(record, 3, (0, 10**8))
    haircut = number_in(record, 4, TEN_THOUSANDTHS)
    refuse_double(name in made.classes or name == "CASH", 2)
    refuse_full(made.classes, MOST_CLASSES)
    made.classes[name] = CollateralClass(name, price, haircut)


def add_spot_charge(made, record):
    """Adds the spot month charge of a T record."""
    name, tier = name_in(record, 2), number_in(record, 3, TIER)
    charge = SpotCharge(tier, number_in(record, 4, CENTS), number_in(record, 5, CENTS))
    commodity = known_commodity(made, name, 2)
    refuse_double(commodity.spot is not None, 2)
    commodity.spot = charge


ADDING = {b"G": add_commodity, b"M": add_month, b"K": add_contract, b"S": add_spread, b"I": add_credit_spread,
          b"V": add_class, b"T": add_spot_charge}

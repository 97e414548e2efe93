"""What a parameter set holds (docs/SETS.md, "The records")."""


class Month:
    """A month of a commodity, and the tier that it belongs to."""

    def __init__(self, number, tier):
        self.number, self.tier = number, tier


class Spread:
    """A spread between two tiers of one commodity."""

    def __init__(self, first_tier, first_ratio, second_tier, second_ratio, charge):
        self.first_tier, self.first_ratio = first_tier, first_ratio
        self.second_tier, self.second_ratio = second_tier, second_ratio
        self.charge = charge


class SpotCharge:
    """The spot month charge of a commodity: its tier and its two rates."""

    def __init__(self, tier, spread_rate, outright_rate):
        self.tier, self.spread_rate, self.outright_rate = tier, spread_rate, outright_rate


class Commodity:
    """A commodity with all that belongs to it alone, in file order."""

    def __init__(self, name, option_charge):
        self.name, self.option_charge = name, option_charge
        self.months, self.contracts, self.spreads, self.spot = [], [], [], None

    def has_month(self, number):
        """Returns whether the commodity has this month."""
        return any(month.number == number for month in self.months)


class Contract:
    """A contract: a future (F), a call (C) or a put (P), of premium style (P) or not (F)."""

    def __init__(self, name, commodity, month, kind, style, delta, value, array):
        self.name, self.commodity, self.month = name, commodity, month
        self.kind, self.style = kind, style
        self.delta, self.value, self.array = delta, value, array

    def is_option(self):
        """Returns whether this is a call or a put."""
        return self.kind in "CP"

    def has_premium(self):
        """Returns whether its price is paid up front."""
        return self.style == "P"


class Leg:
    """A leg of an intercommodity spread."""

    def __init__(self, commodity, side, ratio):
        self.commodity, self.side, self.ratio = commodity, side, ratio


class CreditSpread:
    """A spread between commodities, which has 2 to 4 legs."""

    def __init__(self, rate, legs):
        self.rate, self.legs = rate, legs


class CollateralClass:
    """A class of collateral other than CASH."""

    def __init__(self, name, price, haircut):
        self.name, self.price, self.haircut = name, price, haircut


class ParameterSet:
    """All tables of a set. Those with names are found by name, and keep the order of the file."""

    def __init__(self, version, name):
        self.version, self.name = version, name
        self.commodities, self.contracts, self.classes = {}, {}, {}
        self.credit_spreads = []

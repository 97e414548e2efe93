"""What positions require under a set, rule by rule (docs/CALCULATION.md, sections 1 to 10).

The positions are given as nets: the net quantity of each contract by its name; a contract that is not named has 0.
All divisions are of whole numbers: `//` rounds down, and ceiling() up.
"""
SCENARIOS = range(16)
UNCHANGED_PRICE = (0, 1)  # scenarios 1 and 2, by their places
EXTREME = (14, 15)  # scenarios 15 and 16
TEN_THOUSAND = 10_000


class Figures:
    """The figures of one commodity, as a statement tells them."""

    def __init__(self, scan, active, intra, spot, credit, minimum):
        self.scan, self.active, self.intra, self.spot = scan, active, intra, spot
        self.credit, self.minimum = credit, minimum
        self.risk = max(scan + intra + spot - credit, minimum)


def ceiling(numerator, denominator):
    """Returns the fraction rounded up."""
    return -(-numerator // denominator)


# 1. Scenario totals


def scenario_total(commodity, nets, scenario):
    """Returns the sum over the commodity's contracts of net quantity times array value."""
    return sum(nets.get(contract.name, 0) * contract.array[scenario] for contract in commodity.contracts)


def scenario_totals(commodity, nets):
    """Returns the 16 totals of a commodity."""
    return [scenario_total(commodity, nets, scenario) for scenario in SCENARIOS]


# 2. Scan risk and active scenario


def scan_risk(totals):
    """Returns the largest total, or 0 if that is below 0."""
    return max(max(totals), 0)


def active_place(totals):
    """Returns the place, from 0, of the active scenario: the first of those with the largest total."""
    return totals.index(max(totals))


# 3. Price risk from paired scenarios


def pair_of(scenario):
    """Returns the place of the scenario with the same price move; an extreme scenario is its own pair."""
    if scenario in EXTREME:
        return scenario
    return scenario + 1 if scenario % 2 == 0 else scenario - 1


def doubled_price_risk(totals):
    """Returns twice the price risk."""
    if scan_risk(totals) == 0:
        return 0
    active = active_place(totals)
    moved = totals[active] + totals[pair_of(active)]
    return max(moved - sum(totals[scenario] for scenario in UNCHANGED_PRICE), 0)


# 4. Deltas


def month_delta(commodity, month, nets):
    """Returns the sum over the month's contracts of net quantity times scaled delta."""
    of_month = [contract for contract in commodity.contracts if contract.month == month.number]
    return sum(nets.get(contract.name, 0) * contract.delta for contract in of_month)


def tier_deltas(commodity, tier, nets):
    """Returns the long and the short delta of a tier, both as sizes."""
    deltas = [month_delta(commodity, month, nets) for month in commodity.months if month.tier == tier]
    return sum(delta for delta in deltas if delta > 0), sum(-delta for delta in deltas if delta < 0)


def net_delta(commodity, nets):
    """Returns the sum of all month deltas of a commodity."""
    return sum(month_delta(commodity, month, nets) for month in commodity.months)


# 5. Intracommodity spreads. A leg is a tier with a direction, ("long", 3) or ("short", 1).


def leg_starts(commodity, nets):
    """Returns what each leg starts with."""
    starts = {}
    for tier in range(1, 9):
        starts["long", tier], starts["short", tier] = tier_deltas(commodity, tier, nets)
    return starts


def stages_of(spread):
    """Returns the stages of a spread: the two legs of each, with their ratios."""
    first, second = spread.first_tier, spread.second_tier
    stages = [(("long", first), spread.first_ratio, ("short", second), spread.second_ratio)]
    if first != second:
        stages.append((("long", second), spread.second_ratio, ("short", first), spread.first_ratio))
    return stages


def form_spreads(commodity, starts):
    """Returns the intracommodity charge, and what all stages together leave of each leg."""
    left, charge = dict(starts), 0
    for spread in commodity.spreads:
        for one, one_ratio, other, other_ratio in stages_of(spread):
            formed = min(TEN_THOUSAND * left[one] // one_ratio, TEN_THOUSAND * left[other] // other_ratio)
            left[one] -= formed * one_ratio // TEN_THOUSAND
            left[other] -= formed * other_ratio // TEN_THOUSAND
            charge += ceiling(formed * spread.charge, TEN_THOUSAND)
    return charge, left


# 6. Spot month charge


def spot_charge(commodity, starts, left):
    """Returns what the stages used of the spot tier at the one rate, and what they left of it at the other."""
    spot = commodity.spot
    if spot is None:
        return 0
    legs = [("long", spot.tier), ("short", spot.tier)]
    used, outright = sum(starts[leg] - left[leg] for leg in legs), sum(left[leg] for leg in legs)
    return ceiling(used * spot.spread_rate, TEN_THOUSAND) + ceiling(outright * spot.outright_rate, TEN_THOUSAND)


# 7. Intercommodity credits


def forms(spread, rests):
    """Returns whether no leg's remaining delta is 0, all A legs have one sign, and all B legs the other."""
    if any(rests[leg.commodity] == 0 for leg in spread.legs):
        return False
    signs = {side: {rests[leg.commodity] > 0 for leg in spread.legs if leg.side == side} for side in "AB"}
    return len(signs["A"]) == 1 and len(signs["B"]) == 1 and signs["A"] != signs["B"]


def credits_of(parameters, net_deltas, doubled_risks):
    """Returns the credit of each commodity; all three tables are by its name."""
    rests, credits = dict(net_deltas), {name: 0 for name in net_deltas}
    for spread in parameters.credit_spreads:
        if not forms(spread, rests):
            continue
        formed = min(TEN_THOUSAND * abs(rests[leg.commodity]) // leg.ratio for leg in spread.legs)
        for leg in spread.legs:
            name, used = leg.commodity, formed * leg.ratio // TEN_THOUSAND
            credits[name] += used * spread.rate * doubled_risks[name] // (2 * TEN_THOUSAND * abs(net_deltas[name]))
            rests[name] -= used if rests[name] > 0 else -used
    return credits


# 8. Short option minimum


def short_option_minimum(commodity, nets):
    """Returns the sizes of the nets below 0 of options, times the commodity's charge."""
    sizes = [-nets.get(contract.name, 0) for contract in commodity.contracts if contract.is_option()]
    return sum(size for size in sizes if size > 0) * commodity.option_charge


# 9. Net option value


def net_option_value(parameters, nets):
    """Returns the sum over premium-style options of net times market value."""
    with_premium = [contract for contract in parameters.contracts.values() if contract.has_premium()]
    return sum(nets.get(contract.name, 0) * contract.value for contract in with_premium)


# 10. Risk and requirement


def figures_by_commodity(parameters, nets):
    """Returns the figures of every commodity, by its name."""
    commodities = parameters.commodities
    totals = {name: scenario_totals(commodity, nets) for name, commodity in commodities.items()}
    net_deltas = {name: net_delta(commodity, nets) for name, commodity in commodities.items()}
    credits = credits_of(parameters, net_deltas, {name: doubled_price_risk(totals[name]) for name in commodities})
    figures = {}
    for name, commodity in commodities.items():
        starts = leg_starts(commodity, nets)
        intra, left = form_spreads(commodity, starts)
        figures[name] = Figures(scan_risk(totals[name]), active_place(totals[name]) + 1, intra,
                                spot_charge(commodity, starts, left), credits[name],
                                short_option_minimum(commodity, nets))
    return figures


def requirement_of(parameters, nets):
    """Returns the sum of the risks less the net option value, or 0."""
    risks = sum(figures.risk for figures in figures_by_commodity(parameters, nets).values())
    return max(risks - net_option_value(parameters, nets), 0)

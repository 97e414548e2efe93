"""Random files of parameter sets for fuzz.py: families of good ones with the same contracts, and ones with random changes."""

CENTS, RATIO, SHARE = (0, 10**9), (1, 10**6), (0, 10_000)
LOSS, DELTA, PRICE = (-10**8, 10**8), (-10**5, 10**5), (0, 10**8)
MANNERS = ["plain", "small", "edge", "wild", "mixed"]
SPECIAL_BYTES = [b",", b'"', b"\r", b"\n", b"\xef\xbb\xbf", b"\0", b"\xff", b" ", b"-", b"0", b"1", b"A", b"a", b'""',
                 b"\r\n"]
SPECIAL_FIELDS = [
    b"", b"0", b"-0", b"00", b"-", b"+1", b"1", b"-1", b"2", b"8", b"9", b"01", b" 1", b"1 ", b"1.0", b"1e3", b"10000",
    b"10001", b"99999", b"100000", b"100001", b"-100000", b"-100001", b"999999", b"1000000", b"1000001", b"100000000",
    b"100000001", b"-100000000", b"-100000001", b"1000000000", b"1000000001", b"9223372036854775808", b"18446744073709551617",
    b"1" * 40, b"9" * 400, b"A" * 16, b"A" * 17, b"a" * 17, b"CASH", b"F", b"C", b"P", b"A", b"B", b"T", b"H", b"G", b"M", b"K",
    b"S", b"I", b"V", b"X", b"f", b"FF", b"\xc3\x84", b'"', b'""', b'"A"', b'"1"0', b'"1', b"'1'", b"\r", b"\t",
]


class Plan:
    """The names of a family of sets: commodities, their months and contracts, and classes."""

    def __init__(self, pick, size):
        self.commodities, self.months, self.contracts = [], [], []
        for number in range(within(pick, size["commodities"])):
            self.add_commodity(pick, size, number)
        self.classes = [f"N{number}" for number in range(within(pick, size["classes"]))]

    def add_commodity(self, pick, size, number):
        """Adds a commodity, with some months and contracts, as long as there is room for them."""
        commodity = f"C{number}"
        self.commodities.append(commodity)
        months = pick.sample(range(1, 200), within(pick, size["months"]))
        if months and pick.random() < 0.1:
            months[0] = 999_999
        self.months += [(commodity, month) for month in months]
        for serial in range(within(pick, size["contracts"]) if months else 0):
            if len(self.contracts) < 4096:
                kind = pick.choice("FFFCP")
                style = "F" if kind == "F" else pick.choice("PPF")
                self.contracts.append((f"K{number}X{serial}", commodity, pick.choice(months), kind, style))


SIZES = {
    "tiny": {"commodities": (1, 2), "months": (1, 2), "contracts": (1, 3),
             "spreads": (0, 2), "credits": (0, 2), "classes": (0, 2)},
    "usual": {"commodities": (2, 5), "months": (1, 5), "contracts": (1, 8),
              "spreads": (0, 6), "credits": (1, 8), "classes": (1, 4)},
    "broad": {"commodities": (8, 16), "months": (1, 8), "contracts": (0, 9),
              "spreads": (0, 32), "credits": (30, 64), "classes": (16, 16)},
    "deep": {"commodities": (1, 2), "months": (64, 64), "contracts": (256, 256),
             "spreads": (32, 32), "credits": (0, 1), "classes": (0, 16)},
    "full": {"commodities": (256, 256), "months": (1, 1), "contracts": (16, 16),
             "spreads": (0, 1), "credits": (64, 64), "classes": (16, 16)},
}


def within(pick, limits):
    """Returns a number of the range, its ends included."""
    return pick.randint(*limits)


def number(pick, limits, manner):
    """Returns a number within limits: small, at an edge, or anything."""
    least, most = limits
    if manner == "mixed":
        manner = pick.choice(MANNERS[:-1])
    if manner == "small":
        return pick.randint(max(least, -3), min(most, 3))
    if manner == "edge":
        return pick.choice([it for it in (least, least + 1, most, most - 1, -1, 0, 1) if least <= it <= most])
    if manner == "plain":
        return min(max(pick.choice([least, -most // 1000, 0, most // 1000]) + pick.randint(0, 400), least), most)
    return pick.randint(least, most)


def plain_array(pick):
    """Returns an array like that of a price that moves, with some noise of volatility."""
    size, noise = pick.randint(-400, 400), pick.randint(0, 40)
    moves = [0, 0, -1, -1, 1, 1, -2, -2, 2, 2, -3, -3, 3, 3, -2.1, 2.1]
    return [int(move * size) + (pick.randint(-noise, noise) if noise else 0) for move in moves]


def array_of(pick, manner):
    """Returns the 16 values of a contract."""
    if manner == "plain":
        return plain_array(pick)
    if manner == "mixed" and pick.random() < 0.5:
        return plain_array(pick)
    if pick.random() < 0.1:
        return [pick.choice([0, 0, number(pick, LOSS, manner)])] * 16
    return [number(pick, LOSS, manner) for _ in range(16)]


def records_of_plan(pick, plan, size, name, manner):
    """Returns the records of a set with the names of a plan and numbers of its own, in an order that is allowed."""
    version = pick.choice([1, 2, 2])
    of = lambda limits: number(pick, limits, manner)
    ratio = lambda: pick.choice([10_000, 20_000, 30_000, pick.randint(1, 30_000), of(RATIO)])
    rows = [("G", it, of(CENTS)) for it in plan.commodities]
    tiers = pick.choice([1, 2, 3, 8])
    rows += [("M", commodity, month, pick.randint(1, tiers)) for commodity, month in plan.months]
    for contract, commodity, month, kind, style in plan.contracts:
        value = of(PRICE) if style == "P" else 0
        delta = pick.choice([10_000, -10_000, pick.randint(-10_000, 10_000), of(DELTA)])
        rows.append(("K", contract, commodity, month, kind, style, delta, value, *array_of(pick, manner)))
    for commodity in plan.commodities:
        for _ in range(within(pick, size["spreads"])):
            rows.append(("S", commodity, pick.randint(1, tiers), ratio(), pick.randint(1, tiers), ratio(), of(CENTS)))
        if version == 2 and pick.random() < 0.5:
            rows.append(("T", commodity, pick.randint(1, tiers), of(CENTS), of(CENTS)))
    rows += credit_rows(pick, plan, size, of, ratio)
    rows += [("V", it, of(PRICE), of(SHARE)) for it in plan.classes]
    return [("H", version, name)] + (in_some_order(pick, rows) if pick.random() < 0.5 else rows)


def credit_rows(pick, plan, size, of, ratio):
    """Returns the intercommodity spreads of a set."""
    rows = []
    for _ in range(within(pick, size["credits"]) if len(plan.commodities) > 1 else 0):
        legs = pick.sample(plan.commodities, pick.randint(2, min(4, len(plan.commodities))))
        sides = ["A", "B"] + [pick.choice("AB") for _ in legs[2:]]
        pick.shuffle(sides)
        rate = pick.choice([5_000, 10_000, of(SHARE)])
        rows.append(("I", rate, *(part for leg, side in zip(legs, sides) for part in (leg, side, ratio()))))
    return rows


def in_some_order(pick, rows):
    """Returns the rows in a random order in which each refers only to rows before it."""
    rows = list(rows)
    pick.shuffle(rows)
    commodities, months, found = set(), set(), []
    while rows:
        later = []
        for row in rows:
            needed = row[2::3] if row[0] == "I" else [] if row[0] in "GV" else [row[2] if row[0] == "K" else row[1]]
            ready = all(it in commodities for it in needed) and (row[0] != "K" or (row[2], row[3]) in months)
            (found if ready else later).append(row)
            if ready and row[0] == "G":
                commodities.add(row[1])
            if ready and row[0] == "M":
                months.add((row[1], row[2]))
        rows = later
    return found


def text_of(pick, records):
    """Returns the bytes of a file with these records, sometimes with other line ends, quotes, marks and empty lines."""
    lines = [",".join(map(str, record)).encode() for record in records]
    if pick.random() < 0.7:
        return b"\n".join(lines) + b"\n"
    ending = pick.choice([b"\n", b"\r\n", b"\r\r\n"])
    for _ in range(pick.randint(0, 6)):
        lines.insert(pick.randrange(len(lines) + 1), pick.choice([b"", b"\r", b"\xef\xbb\xbf", b"\xef\xbb\xbf\r"]))
    for _ in range(pick.randint(0, 6)):
        at = pick.randrange(len(lines))
        if lines[at].strip(b"\r\xef\xbb\xbf") and b'"' not in lines[at]:
            lines[at] = pick.choice([b"\xef\xbb\xbf", b"\r", b""]) + quoted(pick, lines[at].strip(b"\r\xef\xbb\xbf"))
    return ending.join(lines) + pick.choice([b"", ending])


def quoted(pick, line):
    """Returns the line with some of its fields in quotes."""
    in_quotes = lambda field: pick.choice([b'"%s"' % field, b'"%s"%s' % (field[:1], field[1:]), field, field])
    return b",".join(map(in_quotes, line.split(b",")))


def family(pick, count):
    """Returns files of sets by name, S0, S1 and so on, most with the same contracts and classes."""
    shape = pick.choice(["tiny"] * 4 + ["usual"] * 10 + ["broad"] * 3 + ["deep", "full"])
    if shape in ("deep", "full"):
        count = 2
    plan, manner, texts = Plan(pick, SIZES[shape]), pick.choice(MANNERS), {}
    for serial in range(count):
        changed = varied(pick, plan) if serial and pick.random() < 0.4 else plan
        some = manner if pick.random() < 0.7 else pick.choice(MANNERS)
        name = f"S{serial}" if pick.random() < 0.8 else "N" * 16
        texts[f"S{serial}"] = text_of(pick, records_of_plan(pick, changed, SIZES[shape], name, some))
    return texts


def varied(pick, plan):
    """Returns a plan with other contracts or classes here and there."""
    made = object.__new__(Plan)
    made.commodities, made.months = list(plan.commodities), list(plan.months)
    made.contracts, made.classes = list(plan.contracts), list(plan.classes)
    for row in pick.sample(made.contracts, min(len(made.contracts), pick.choice([0, 0, 1, 2]))):
        made.contracts.remove(row)
        if pick.random() < 0.6:
            kind = pick.choice("FCP")
            made.contracts.append((*row[:3], kind, "F" if kind == "F" else pick.choice("PF")))
    if made.classes and pick.random() < 0.2:
        made.classes.remove(pick.choice(made.classes))
    pick.shuffle(made.contracts)
    pick.shuffle(made.classes)
    pick.shuffle(made.commodities)
    return made


# Files with random changes.


def good_small_set(pick):
    """Returns the bytes of a small set with all kinds of records."""
    plan = Plan(pick, SIZES[pick.choice(["tiny", "usual"])])
    return text_of(pick, records_of_plan(pick, plan, SIZES["tiny"], "GOOD", pick.choice(MANNERS)))


def full_set(pick):
    """Returns the bytes of a set in which some tables are as full as they may be, or one row fuller."""
    zeros = ",".join(["0"] * 16)
    more = lambda most: most + pick.choice([0, 0, 0, 0, 1])
    lines = ["H,2,FULL", "G,AAA,1", "G,BBB,1", "M,AAA,1,1", "M,BBB,1,1"]
    tables = [
        [f"G,G{it},0" for it in range(more(256) - 2)], [f"M,AAA,{it},1" for it in range(2, more(64) + 1)],
        [f"K,A{it},AAA,1,F,F,0,0,{zeros}" for it in range(more(256))], ["S,AAA,1,1,1,1,0"] * more(32),
        ["S,BBB,8,1,1,1,0"] * more(32), ["I,0,AAA,A,1,BBB,B,1"] * more(64), [f"V,V{it},0,0" for it in range(more(16))],
    ]
    for rows in pick.sample(tables, pick.randint(1, 3)):
        lines += rows
    return "\n".join(lines).encode() + b"\n"


def odd_line(pick):
    """Returns a file with one line of quotes, commas, CRs and the like between good records, and a wrong record after them."""
    line = b"".join(pick.choices([b'"', b",", b"\r", b"1", b"A", b"\xef\xbb\xbf"], k=pick.randint(0, 7)))
    around = [(b"", b""), (b"V,", b""), (b"V,", b",1,1"), (b"V,A,1,", b""), (b'"V",', b""), (b"", b"V,A,1,1")]
    before, after = pick.choice(around)
    return b"H,1,ODD\n" + before + line + after + b"\nV,B,1,1\nX\n"


def changed(pick, text):
    """Returns the file with one or two random changes."""
    for _ in range(pick.choice([1, 1, 2])):
        text = pick.choice([change_bytes, change_field, change_field, change_field, change_record])(pick, text)
    return text


def change_bytes(pick, text):
    """Returns the file with some bytes put in, taken out or replaced, or cut."""
    at, some = pick.randrange(len(text) + 1), pick.choice(SPECIAL_BYTES)
    how = pick.randrange(8)
    if how == 0:
        return text[:at]
    return text[:at] + (some if how > 2 else b"") + text[at + (pick.choice([1, 2, 3]) if how in (1, 2) else how % 2):]


def change_field(pick, text):
    """Returns the file with a field replaced, taken out, doubled or exchanged for its neighbour."""
    lines = text.split(b"\n")
    at = pick.randrange(len(lines))
    fields = lines[at].split(b",")
    place, how = pick.randrange(len(fields)), pick.randrange(10)
    if how < 6:
        fields[place] = pick.choice(SPECIAL_FIELDS)
    elif how == 6:
        fields[place] = pick.choice(pick.choice(lines).split(b","))
    elif how == 7:
        del fields[place]
    elif how == 8:
        fields.insert(place, pick.choice([fields[place], b""]))
    else:
        other = pick.randrange(len(fields))
        fields[place], fields[other] = fields[other], fields[place]
    lines[at] = b",".join(fields)
    return b"\n".join(lines)


def change_record(pick, text):
    """Returns the file with a line taken out, doubled, moved, changed in kind, or joined with the next one."""
    lines = text.split(b"\n")
    at, how = pick.randrange(len(lines)), pick.randrange(6)
    line = lines.pop(at)
    to = pick.randrange(len(lines) + 1)
    if how == 1:
        lines[at:at] = [line, line]
    elif how == 2:
        lines.insert(to, line)
    elif how == 3:
        lines[at:at] = [pick.choice([b"H", b"G", b"M", b"K", b"S", b"I", b"V", b"T", b"X"]) + line[1:]]
    elif how == 4:
        lines[at:at] = [line + b"\r" + (lines[at] if at < len(lines) else b"x")]
    elif how == 5:
        lines.insert(at, line)
        lines.insert(to, pick.choice(lines))
    return b"\n".join(lines)

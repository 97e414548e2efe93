"""How `spand check` tells a set, and the fault of a file that is none (docs/SETS.md, "Checking a file")."""
from reference.sets import COUNT, FIELD_COUNTS, NO_LEG_A, NO_LEG_B, TWO_RECORDS

FIELD_NAMES = {
    b"H": ["version", "name"],
    b"G": ["commodity", "charge"],
    b"M": ["commodity", "month", "tier"],
    b"K": ["contract", "commodity", "month", "kind", "style", "delta", "value",
           *(f"loss in scenario {number}" for number in range(1, 17))],
    b"S": ["commodity", "first tier", "first ratio", "second tier", "second ratio", "charge"],
    b"I": ["rate", *(f"{part} of leg {leg}" for leg in range(1, 5) for part in ("commodity", "side", "ratio"))],
    b"V": ["class", "price", "haircut"],
    b"T": ["commodity", "tier", "spread rate", "outright rate"],
}
LETTERS = {"kind": "F, C or P", "style": "P or F", "side": "A or B"}
HEADER = "the first record, and no other, must be a header: H, version 1 or 2, and a name"
OUTSIDE = "the number is outside its limits"


def told_set(made):
    """Returns the lines that tell what a set has."""
    commodities = made.commodities.values()
    return [
        f"set {made.name}",
        f"version {made.version}",
        f"commodities {len(made.commodities)}",
        f"months {sum(len(commodity.months) for commodity in commodities)}",
        f"contracts {len(made.contracts)}",
        f"intracommodity spreads {sum(len(commodity.spreads) for commodity in commodities)}",
        f"intercommodity spreads {len(made.credit_spreads)}",
        f"collateral classes {len(made.classes)}",
        f"spot month charges {sum(commodity.spot is not None for commodity in commodities)}",
    ]


def told_fault(fault):
    """Returns the text that tells a fault of a file: where it is, and why."""
    where = f"record {fault.number}"
    if fault.line != fault.number:
        where += f", line {fault.line}"
    if fault.field is None:
        return f"{where}: {reason_of_record(fault)}"
    name = field_name(fault)
    return f"{where}, field {fault.field} ({name}): {reason_of_field(fault, name)}"


def field_name(fault):
    """Returns what the field that is wrong tells."""
    return "kind of record" if fault.field == 1 else FIELD_NAMES[fault.record[0]][fault.field - 2]


def reason_of_record(fault):
    """Returns the reason of a fault that no field has."""
    if fault.detail == COUNT:
        return reason_of_count(fault.record)
    return {
        TWO_RECORDS: "it is two records in one line",
        NO_LEG_A: "it has no leg on side A",
        NO_LEG_B: "it has no leg on side B",
        None: HEADER if fault.cause == "Header" else "its table has as many rows as it may have",
    }[fault.detail]


def reason_of_count(record):
    """Returns the reason of a wrong number of fields."""
    kind, counts = record[0].decode("ascii"), [str(count) for count in FIELD_COUNTS[record[0]]]
    fields = "1 field" if len(record) == 1 else f"{len(record)} fields"
    right = " or ".join([", ".join(counts[:-1]), counts[-1]]) if len(counts) > 1 else counts[0]
    return f"it has {fields}, and {'an' if kind in 'MSI' else 'a'} {kind} record has {right}"


def reason_of_field(fault, name):
    """Returns the reason of a fault that the field of this name has."""
    cause, part = fault.cause, name.split(" ")[0]
    if cause == "Header":
        return "the version must be 1 or 2"
    if cause == "Fields":
        return "this version has no record of this kind"
    if cause == "Name":
        return f"it must be {LETTERS[part]}" if part in LETTERS else "a name must be 1 to 16 of the letters A to Z and digits"
    if cause == "Number":
        return "it is not spelled as a number"
    if cause == "Range":
        return reason_of_range(part)
    if cause == "Unknown":
        return f"no earlier record gives this {'commodity' if part == 'commodity' else 'month of its commodity'}"
    return reason_of_double(fault.record[0], name)


def reason_of_range(part):
    """Returns the reason of a name that is too long, or of a number or a style that is not allowed."""
    return {
        "name": "the name has more than 16 bytes",
        "commodity": "the name has more than 16 bytes",
        "contract": "the name has more than 16 bytes",
        "class": "the name has more than 16 bytes",
        "style": "the style of a future must be F",
        "value": f"{OUTSIDE}, or is not 0 though the style is F",
    }.get(part, OUTSIDE)


def reason_of_double(kind, name):
    """Returns the reason of what stands twice."""
    if kind == b"T":
        return "an earlier record gives the charge of this commodity"
    if name.startswith("commodity of leg"):
        return "an earlier leg is of this commodity"
    if name == "class":
        return "an earlier record gives this class, or it is CASH, which every set has"
    if name == "month":
        return "an earlier record gives this month of its commodity"
    return "an earlier record gives this name"

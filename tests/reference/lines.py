"""Reading a line of commands: its words, and the first fault that applies (docs/PROTOCOL.md, "Lines")."""
from reference import spelling

LONGEST_LINE = 256
NAME, MODE = "name", "mode"
NUMBER_OF_LOT, QUANTITY, PREMIUM, UNITS = (1, 10**12), (-10**6, 10**6), (0, 10**8), (1, 10**15)
# What must stand in the places after the first word: a name, a mode, or a number of a range.
PLACES = {
    b"ORIGIN": [NAME, MODE],
    b"OPEN": [NAME, NAME],
    b"TRADE": [NAME, NUMBER_OF_LOT, NAME, QUANTITY, PREMIUM],
    b"BUST": [NAME, NUMBER_OF_LOT],
    b"HOLD": [NAME, NUMBER_OF_LOT, NAME, QUANTITY, PREMIUM],
    b"FILL": [NAME, NUMBER_OF_LOT, NUMBER_OF_LOT, QUANTITY, PREMIUM],
    b"RELEASE": [NAME, NUMBER_OF_LOT],
    b"MOVE": [NUMBER_OF_LOT, NAME, NAME, NAME, QUANTITY],
    b"POST": [NAME, NAME, UNITS],
    b"DRAW": [NAME, NAME, UNITS],
    b"ASK": [NAME],
    b"TOTAL": [NAME],
    b"END": [],
    b"SWITCH": [NAME],
    b"STMT": [NAME],
}


class WrongLine(Exception):
    """The line is no command: SYNTAX, LONG or RANGE."""

    def __init__(self, reason):
        super().__init__(reason)
        self.reason = reason


def read_line(line):
    """Returns the first word of a line and the values of the words after it, or raises its first fault."""
    if len(line) > LONGEST_LINE:
        raise WrongLine("LONG")
    words = line.split(b" ")
    places = PLACES.get(words[0])
    if b"" in words or places is None or len(words) != 1 + len(places):
        raise WrongLine("SYNTAX")
    try:
        return words[0].decode("ascii"), [value_of(word, place) for word, place in zip(words[1:], places)]
    except spelling.Misspelled:
        raise WrongLine("SYNTAX") from None
    except spelling.OutOfRange:
        raise WrongLine("RANGE") from None


def value_of(word, place):
    """Returns the value of a word, by what must stand in its place."""
    if place == NAME:
        return spelling.name_of(word)
    if place == MODE:
        if word not in (b"GROSS", b"NET"):
            raise spelling.Misspelled
        return word.decode("ascii")
    number = spelling.number_of(word, *place)
    if place == QUANTITY and number == 0:
        raise spelling.OutOfRange
    return number

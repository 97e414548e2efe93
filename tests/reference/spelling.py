"""How names and numbers are spelled, in a line of commands and in a file of a set alike (docs/PROTOCOL.md)."""
import re

LONGEST_NAME = 16
NAME = re.compile(rb"[A-Z0-9]+")
NUMBER = re.compile(rb"0|-?[1-9][0-9]*")


class Misspelled(Exception):
    """The word is no name, or no number, at all."""


class OutOfRange(Exception):
    """The word is a name of too many bytes, or a number outside its range."""


def name_of(word):
    """Returns the name that the bytes spell."""
    if not NAME.fullmatch(word):
        raise Misspelled
    if len(word) > LONGEST_NAME:
        raise OutOfRange
    return word.decode("ascii")


def number_of(word, least, most):
    """Returns the number that the bytes spell, if it is in the range."""
    if not NUMBER.fullmatch(word):
        raise Misspelled
    # No range has a number of more than 16 digits, and Python reads no number of some thousands of digits.
    if len(word) > 20 or not least <= int(word) <= most:
        raise OutOfRange
    return int(word)

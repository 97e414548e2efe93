"""A session: one reply to each line, in order (docs/PROTOCOL.md)."""
import os

from reference import commands, questions, spelling
from reference.book import Book
from reference.lines import LONGEST_LINE, WrongLine, read_line
from reference.sets import SetFault, read_set

MOST_ENTRIES, MOST_LINES, MOST_BYTES, MOST_BYTES_OF_A_SET = 1_000_000, 1_000_000, 268_435_456, 8_388_608
CODES = {
    "SYNTAX": 10, "LONG": 11, "RANGE": 12, "NOACCT": 20, "NOORIGIN": 21, "DUP": 22, "NOCONTRACT": 23, "NOTRADE": 24,
    "NOORDER": 25, "NOCLASS": 26, "NOROOM": 30, "LIMIT": 31, "PREMIUM": 32, "OVER": 33, "ORIGIN": 34, "MOVED": 35,
    "NOSET": 40, "BADSET": 41, "MISSING": 42, "SETS": 43, "CLOSED": 50, "FULL": 91,
}
DOING = {
    "ORIGIN": commands.add_origin, "OPEN": commands.open_account, "TRADE": commands.trade, "BUST": commands.bust,
    "HOLD": commands.hold, "FILL": commands.fill, "RELEASE": commands.release, "MOVE": commands.move,
    "POST": commands.post, "DRAW": commands.draw, "ASK": questions.ask, "TOTAL": questions.total, "END": commands.end,
    "SWITCH": commands.switch, "STMT": questions.statement,
}


class NoSet(Exception):
    """There is no file of a set, or none that can be read and is short enough."""


class TooMuch(Exception):
    """A session has more lines or bytes than it may take."""


def set_of_file(folder, name):
    """Returns the set of a folder's file, or raises NoSet or SetFault."""
    try:
        spelling.name_of(os.fsencode(name))
        with open(os.path.join(folder, f"{name}.csv"), "rb") as file:
            text = file.read(MOST_BYTES_OF_A_SET + 1)
    except (spelling.Misspelled, spelling.OutOfRange, OSError):
        raise NoSet from None
    if len(text) > MOST_BYTES_OF_A_SET:
        raise NoSet
    return read_set(text)


def reply_without_place(reason, *more):
    """Returns the reply to a line that has no entry."""
    return " ".join(["ERR", str(CODES[reason]), reason, *map(str, more)]) + "\n"


class Session:
    """A session on a book of its own, with the folder of the sets."""

    def __init__(self, folder, parameters):
        self.folder, self.book = folder, Book(parameters)
        self.lines, self.bytes, self.begun = 0, 0, b""

    def reply_to(self, line):
        """Returns the reply to a line, with its LFs."""
        try:
            word, values = read_line(line)
            if word == "SWITCH":
                values = [set_of_file(self.folder, values[0])]
        except WrongLine as wrong:
            return reply_without_place(wrong.reason)
        except NoSet:
            return reply_without_place("NOSET")
        except SetFault as fault:
            return reply_without_place("BADSET", fault.number)
        if self.book.entries >= MOST_ENTRIES:
            return reply_without_place("FULL")
        self.book.entries += 1
        return self.reply_with_place(word, values)

    def reply_with_place(self, word, values):
        """Returns the reply to a command that has an entry."""
        place = self.book.entries
        try:
            told = DOING[word](self.book, *values)
        except commands.Refused as refused:
            return f"ERR {place} {CODES[refused.reason]} {refused.reason}\n"
        if word == "STMT":
            return "".join(f"{line}\n" for line in [f"OK {place} {len(told)}", *told])
        return " ".join(map(str, ["OK", place, *told])) + "\n"

    def replies_to(self, read):
        """Gives the replies to the lines that end in the bytes just read. What follows the last LF is kept for later."""
        ended = read.split(b"\n")
        last = ended.pop()
        for part in ended:
            self.take(part + b"\n")
            line, self.begun = self.begun + part, b""
            self.lines += 1
            yield self.reply_to(line)
        self.take(last)
        self.begun = (self.begun + last)[:LONGEST_LINE + 1]  # (more would be too long all the same)

    def take(self, some):
        """Counts bytes of a line, unless one of them is more than a session takes."""
        if some and (self.lines >= MOST_LINES or self.bytes + len(some) > MOST_BYTES):
            raise TooMuch
        self.bytes += len(some)

"""The command line: `python3 tests/reference script --dir DIR --set NAME`, or `check` in place of `script`."""
import argparse
import os
import sys

sys.path.insert(0, os.path.dirname(os.path.dirname(os.path.abspath(__file__))))

from reference.fault_words import told_fault, told_set  # noqa: E402
from reference.session import NoSet, Session, SetFault, TooMuch, set_of_file  # noqa: E402

INPUT, OUTPUT = 0, 1


def words_of(arguments):
    """Returns the words of the command line: which command, the folder and the set."""
    parser = argparse.ArgumentParser(prog="reference", allow_abbrev=False)
    below = parser.add_subparsers(dest="command", required=True)
    for command, what in (("script", "answers standard input"), ("check", "tells what a set has")):
        one = below.add_parser(command, help=what, allow_abbrev=False)
        one.add_argument("--dir", required=True, help="the folder of the sets")
        one.add_argument("--set", required=True, help="the name of the set")
    return parser.parse_args(arguments)


def fault(text, status):
    """Tells a fault on standard error and returns the exit status."""
    print(f"spand: {text}", file=sys.stderr)
    return status


def write(text):
    """Writes a text to standard output."""
    left = text.encode("ascii")
    while left:
        left = left[os.write(OUTPUT, left):]


def script(session):
    """Answers standard input and returns the exit status."""
    while True:
        try:
            read = os.read(INPUT, 65_536)
        except OSError:
            return fault("session READ", 4)
        if not read:
            return 0
        replies, is_too_much = [], False
        try:
            for reply in session.replies_to(read):
                replies.append(reply)
        except TooMuch:
            is_too_much = True
        if not written(replies):
            return fault("session WRITE", 4)
        if is_too_much:
            return fault("session LINES", 4)


def written(replies):
    """Writes replies and returns whether they could be written."""
    try:
        write("".join(replies))
    except OSError:
        return False
    return True


def main(arguments):
    """Does what the command line says and returns the exit status."""
    words = words_of(arguments)
    try:
        parameters = set_of_file(words.dir, words.set)
    except NoSet:
        return fault("set NOSET", 3)
    except SetFault as wrong:
        return fault(told_fault(wrong) if words.command == "check" else f"set BADSET {wrong.number}", 3)
    if words.command == "script":
        return script(Session(words.dir, parameters))
    return 0 if written([f"{line}\n" for line in told_set(parameters)]) else fault("check WRITE", 4)


if __name__ == "__main__":
    sys.exit(main(sys.argv[1:]))

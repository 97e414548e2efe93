"""From the bytes of a set's file to its records (docs/SETS.md, "From lines to records")."""

BYTE_ORDER_MARK = b"\xef\xbb\xbf"
RETURN, COMMA, QUOTE = b"\r", b",", b'"'


def numbered_lines(text):
    """Returns the lines of a file, each with its number. An empty one after the last LF does no harm: it has no record."""
    return enumerate(text.split(b"\n"), 1)


def records_of(line):
    """Returns the records of a line, each a list of its fields: none, one, or several where the line is wrong."""
    found = []
    at = len(BYTE_ORDER_MARK) if line.startswith(BYTE_ORDER_MARK) else 0
    at = behind_returns(line, at)
    while at < len(line):
        record, at = record_at(line, at)
        found.append(record)
        at = behind_returns(line, at)
    return found


def behind_returns(line, at):
    """Returns the place of the first byte from here on that is no CR."""
    while line[at:at + 1] == RETURN:
        at += 1
    return at


def record_at(line, at):
    """Returns the fields of the record that begins here, and the place behind it: a CR, or the end of the line."""
    field, at = field_at(line, at)
    fields = [field]
    while line[at:at + 1] == COMMA:
        field, at = field_at(line, at + 1)
        fields.append(field)
    return fields, at


def field_at(line, at):
    """Returns the field that begins here, and the place behind it: a comma, a CR, or the end of the line."""
    quoted = b""
    if line[at:at + 1] == QUOTE:
        quoted, at = quoted_at(line, at + 1)
    ends = [end for end in (line.find(COMMA, at), line.find(RETURN, at)) if end >= 0]
    end = min(ends, default=len(line))
    return quoted + line[at:end], end


def quoted_at(line, at):
    """Returns the bytes up to the closing quote, each pair of quotes as one, and the place behind that quote."""
    parts = []
    while True:
        quote = line.find(QUOTE, at)
        if quote < 0:
            return b"".join(parts) + line[at:], len(line)
        parts.append(line[at:quote])
        if line[quote + 1:quote + 2] != QUOTE:
            return b"".join(parts), quote + 1
        parts.append(QUOTE)
        at = quote + 2

"""The fields of a message as a table of text."""
from message import digits_of

A_ROW = 16  # octets that stand beside each other
ROWS = 4  # of them, of a long field
HEADS = ("at", "size", "octets", "field", "what it says")


def rows_of(message):
    """A row for each field: its place, how many octets it has, the octets, its name, and what it says."""
    rows = []
    at = 0
    for field in message.fields:
        digits = [digits_of(field.octets[n : n + A_ROW]) for n in range(0, len(field.octets), A_ROW)] or [""]
        if len(digits) > ROWS:
            digits[ROWS - 1 :] = [".."]
        rows.append((str(at), str(len(field.octets)), digits[0], field.name, field.words))
        rows += [("", "", it, "", "") for it in digits[1:]]
        at += len(field.octets)
    return rows


def lines_of(rows, numbers=0):
    """The lines of a table, whose first columns are numbers."""
    widths = [max(map(len, column)) for column in zip(*rows)]
    for row in rows:
        cells = [it.rjust(width) if n < numbers else it.ljust(width) for n, (it, width) in enumerate(zip(row, widths))]
        yield "  ".join(cells).rstrip()


def lines_of_message(message):
    return lines_of([HEADS, *rows_of(message)], numbers=2)

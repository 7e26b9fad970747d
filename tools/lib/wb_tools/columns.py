"""Aligned tables in a terminal, for tools/bin/wb-table and tools/bin/wb-history.

A table that is wider than the terminal first leaves out the columns that its question can do without. Then texts are
cut: messages first, reasons after them, and names last."""
from collections.abc import Iterator, Sequence
from dataclasses import dataclass

from wb_tools.answers import width_of

GAP = "  "
LEAST_CUT = 12  # no text is cut to less
LEAST_READ = 24  # a reason is cut to no less while names are whole
READABLE = 60  # columns are left out until a reason is whole, or has as many
WHOLE, MESSAGE, REASON, NAME = "whole", "message", "reason", "name"  # kinds of texts, by when they are cut
CUTS = ((MESSAGE, LEAST_CUT), (REASON, LEAST_READ), (NAME, LEAST_CUT), (REASON, LEAST_CUT))


@dataclass(slots=True)
class Column:
    """A column: its head, its texts, whether they are numbers, of which kind they are, and how soon the column is left
    out of a table that is too wide: the greatest number first, and 0 never."""

    head: str
    texts: list[str]
    is_number: bool = False
    kind: str = WHOLE
    spare: int = 0

    def width(self) -> int:
        return max(map(width_of, [self.head, *self.texts]))


def cut(text: str, width: int) -> str:
    """The front of a text, with three dots after it, if it is wider."""
    if width_of(text) <= width:
        return text
    while width_of(text) > width - 3:
        text = text[:-1]
    return f"{text}..."


def excess_of(widths: Sequence[int], limit: int) -> int:
    """By how much columns of these widths are wider than the limit; a limit of 0 is none."""
    return sum(widths) + len(GAP) * (len(widths) - 1) - limit if limit > 0 else 0


def fitted(columns: Sequence[Column], limit: int) -> tuple[list[Column], list[str]]:
    """The columns that a table of this width has, and the heads of those that it leaves out."""
    kept, left_out = list(columns), []
    while True:
        least = [min(READABLE, one.width()) if one.kind == REASON else one.width() for one in kept]
        spare = max(kept, key=lambda one: one.spare, default=None)
        if spare is None or not spare.spare or excess_of(least, limit) <= 0:
            return kept, [one.head for one in columns if one.head in left_out]
        kept = [one for one in kept if one is not spare]
        left_out.append(spare.head)


def widths_of(columns: Sequence[Column], limit: int) -> list[int]:
    """How wide each column is, so that all fit into the limit if those that may be cut can be."""
    widths = [column.width() for column in columns]
    for kind, least in CUTS:
        while excess := max(0, excess_of(widths, limit)):
            cutable = [at for at, one in enumerate(columns) if one.kind == kind and widths[at] > least]
            if not cutable:
                break
            widest = max(cutable, key=lambda at: widths[at])
            widths[widest] = max(least, widths[widest] - excess)
    return widths


def lines_of(columns: Sequence[Column], limit: int) -> Iterator[str]:
    """The lines of a table, with its heads, and what it leaves out where the limit is too narrow."""
    columns, left_out = fitted([column for column in columns if any(column.texts)], limit)
    widths = widths_of(columns, limit)
    for row in zip(*([column.head, *column.texts] for column in columns)):
        cells = []
        for text, width, column in zip(row, widths, columns):
            text = cut(text, width)
            blanks = " " * (width - width_of(text))
            cells.append(blanks + text if column.is_number else text + blanks)
        yield GAP.join(cells).rstrip()
    if left_out:
        yield f"left out here: {', '.join(left_out)}; --wide shows all"


def beside(first: Column, others: Sequence[Column], limit: int) -> Iterator[list[Column]]:
    """Columns in tables that each fit into the limit, each with the first column."""
    part = [first]
    for other in others:
        if len(part) > 1 and excess_of([one.width() for one in [*part, other]], limit) > 0:
            yield part
            part = [first]
        part.append(other)
    yield part

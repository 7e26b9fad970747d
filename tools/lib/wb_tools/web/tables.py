"""The tables of the site: sorted and parted into pages by the address of a page."""
import re
import urllib.parse
from collections.abc import Mapping, Sequence
from dataclasses import dataclass
from typing import Any

ROWS = 100  # of a table on a page
LAST = 10**6  # no page has a greater number
NOTHING = (None, "", [])
Row = dict[str, Any]


@dataclass(frozen=True, slots=True)
class Column:
    """The key of a column in the rows, its head, the kind of its cells, which a template shows, and whether its head
    leads to the greatest first."""

    key: str
    head: str
    kind: str = "text"
    is_down: bool = False


@dataclass(frozen=True, slots=True)
class Order:
    """By which column a table is sorted, whether the greatest comes first, and which of its pages is shown."""

    key: str
    is_down: bool
    page: int

    @property
    def offset(self) -> int:
        return (self.page - 1) * ROWS


def order_of(args: Mapping[str, str], columns: Sequence[Column], default: str, name: str = "") -> Order:
    """The order that an address asks for, else this one: a key, with a hyphen before it for the greatest first."""
    asked = args.get(f"{name}sort", "")
    if asked.lstrip("-") not in {column.key for column in columns}:
        asked = default
    page = args.get(f"{name}page", "1")
    number = int(page) if re.fullmatch("[0-9]{1,7}", page) else 1
    return Order(asked.lstrip("-"), asked.startswith("-"), min(max(1, number), LAST))


def address(args: Mapping[str, str], **changes: str | None) -> str:
    """The address of the same page with other words after its question mark."""
    words = {key: value for key, value in {**args, **changes}.items() if value}
    return "?" + urllib.parse.urlencode(words)


def rank(value: object) -> tuple[int, Any]:
    """Where a value stands among others of its column; nothing comes last."""
    if isinstance(value, dict):
        value = value.get("at")
    if value is None or value == "":
        return 2, ""
    return (0, value) if isinstance(value, (int, float)) else (1, str(value))


def places_in(values: Sequence[object], is_down: bool) -> list[int]:
    """Where each of these values stands, in their order; nothing comes last in either."""
    kinds = set(map(type, values))
    if kinds == {int} or kinds == {str} and all(values):  # as in most columns of a long list
        return sorted(range(len(values)), key=values.__getitem__, reverse=is_down)
    ranks = list(map(rank, values))
    there = sorted((at for at, one in enumerate(ranks) if one[0] < 2), key=ranks.__getitem__, reverse=is_down)
    return there + [at for at, one in enumerate(ranks) if one[0] == 2]


def sort(rows: Sequence[Row], order: Order) -> list[Row]:
    """The rows in an order; those without a value stay at the end."""
    return [rows[at] for at in places_in([row.get(order.key) for row in rows], order.is_down)]


def table(
    caption: str, columns: Sequence[Column], rows: list[Row], total: int, order: Order, args: Mapping[str, str],
    name: str = "", size: int = 0, is_fixed: bool = False,
) -> Row:
    """A table of these rows, which stand on one of its pages, of another size if one is given, without the columns in
    which nothing stands; the heads of one whose order is fixed lead nowhere."""
    heads = []
    for column in (one for one in columns if not rows or any(row.get(one.key) not in NOTHING for row in rows)):
        is_here = column.key == order.key
        is_down_next = not order.is_down if is_here else column.is_down
        asked = f"-{column.key}" if is_down_next else column.key
        how = ("descending" if order.is_down else "ascending") if is_here else None
        href = None if is_fixed else address(args, **{f"{name}sort": asked, f"{name}page": None})
        heads.append({"key": column.key, "head": column.head, "kind": column.kind, "sorted": how, "href": href})
    return {
        "caption": caption, "columns": heads, "rows": rows, "total": total, "page": order.page,
        "pages": pages_of(max(1, -(-total // (size or ROWS))), order, args, name),
    }


def pages_of(last: int, order: Order, args: Mapping[str, str], name: str) -> list[Row]:
    """The pages of a table to which links lead: the first and the last, and some around this one."""
    near = {1, last, *range(order.page - 2, order.page + 3)}
    found = []
    for number in sorted(one for one in near if 1 <= one <= last):
        page = {f"{name}page": str(number) if number > 1 else None}
        found.append({"number": number, "is_here": number == order.page, "href": address(args, **page)})
    return found if last > 1 or order.page > 1 else []


def listed(
    caption: str, columns: Sequence[Column], rows: list[Row], args: Mapping[str, str], default: str, name: str = ""
) -> Row:
    """A table of all these rows, sorted and parted here."""
    order = order_of(args, columns, default, name)
    shown = sort(rows, order)[order.offset : order.offset + ROWS]
    return table(caption, columns, shown, len(rows), order, args, name)

"""The commands of an office that a request becomes, for tools/bin/wb-requests: as the body of a request of HTTP, as a
line of a run, and what a record is before and after each (docs/PROTOCOL.md, "Moves")."""
import re
from dataclasses import dataclass
from typing import Any

from wb_tools.lists import is_version, version_key
from wb_tools.moves import MOVES
from wb_tools.requests.lines import Package, Request
from wb_tools.wanna_build.office import Record, another_version, held_by

GREATEST = 999  # number of a rebuild


@dataclass(frozen=True)
class Order:
    """What a request asks for a package on an architecture; of a rebuild its number is known."""

    request: Request
    package: Package
    arch: str
    number: int | None

    @property
    def command(self) -> str:
        return self.request.kind.command

    def arguments(self) -> dict[str, Any]:
        """What a command has besides the architecture, the source package and its version, as HTTP names it."""
        if self.command == "rebuild":
            return {"number": self.number, "message": self.request.text}
        if self.command == "build-priority":
            return {"value": self.number}
        return {self.request.kind.text: self.request.text} if self.request.kind.text else {}

    def line(self) -> str:
        """The line of a run. What has a word that begins with a hyphen stands after two hyphens."""
        words = [self.command, self.arch, self.package.source, self.package.version]
        more = " ".join(str(value) for value in self.arguments().values()).strip()
        mark = ["--"] if re.search("(^| )-.", more) else []
        return " ".join([*words, *mark, *([more] if more else [])])


def is_of(record: Record, version: str) -> bool:
    """Whether a version is that of a record: of the source, or of what is built of it. No version is that of each."""
    versions = [text for text in (record["version"], record["build"]) if is_version(text)]
    return not version or any(version_key(text) == version_key(version) for text in versions)


def next_number(records: list[Record]) -> int:
    """The number of a rebuild that is above that of each record, so that the builds of a package have one number on all
    architectures."""
    return max((record["number"] for record in records), default=0) + 1


def refusal_before(order: Order, record: Record) -> str:
    """Why an order is not sent: the record has another version, or the order would end a hold and does not say so."""
    if not is_of(record, order.package.version):
        return another_version(record)
    if order.command in ("build-priority", "rebuild") or order.request.ends_holds or not record["holder"]:
        return ""
    return f"it is {record['state']}{held_by(record)}; -o in the line ends the hold"


def refusal_of(order: Order, record: Record) -> str:
    """Why an office refuses an order that is sent; empty if it accepts it. It may also find that of the relations
    nothing is left for the architecture."""
    if order.command == "build-priority":
        return ""
    if record["state"] not in MOVES[order.command][0]:
        return f"it is {record['state']}"
    if order.command != "rebuild" or order.number is None:
        return ""
    if order.number > GREATEST:
        return f"it was rebuilt {GREATEST} times"
    return "" if order.number > record["number"] else f"the last rebuild has the number {record['number']}"


def after(order: Order, record: Record) -> dict[str, Any]:
    """The record once the order is carried out. What it waits for is not known: the office reduces relations."""
    arguments = order.arguments()
    if order.command == "build-priority":
        return {**record, "build_priority": arguments["value"]}
    found = {**record, "state": MOVES[order.command][1], "holder": None, "take": None, "note": "", **arguments}
    found.pop("relations", None)
    if order.command == "rebuild":
        found["build"] = f"{record['version']}+b{order.number}"
    return found


def is_carried_out(order: Order, record: Record) -> bool:
    """Whether a record is as the order leaves it."""
    if order.command == "build-priority":
        return bool(record["build_priority"] == order.number)
    said = {key: value for key, value in order.arguments().items() if key != "relations"}
    return record["state"] == MOVES[order.command][1] and all(record[key] == value for key, value in said.items())


def change(before: Record, now: Record) -> str:
    """What became of a record."""
    if before["build_priority"] != now["build_priority"]:
        return f"build priority {before['build_priority']} becomes {now['build_priority']}"
    if before["state"] == now["state"]:
        return "nothing changes"
    build = f" as {now['build']}" if before["build"] != now["build"] else ""
    return f"{before['state']}{held_by(before)}{',' * bool(before['holder'])} becomes {now['state']}{build}"

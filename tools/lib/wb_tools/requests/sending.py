"""Orders to serving offices, for tools/bin/wb-requests: each is sent once its record was looked at, or only tried on
the record, and what came of it is a row."""
import sys
import time
from collections.abc import Callable, Iterable, Iterator, Mapping
from dataclasses import dataclass, field
from typing import Any

from wb_tools.lists import say
from wb_tools.requests.commands import (
    Order, after, change, is_carried_out, is_of, next_number, refusal_before, refusal_of,
)
from wb_tools.requests.lines import Package, Request
from wb_tools.wanna_build.office import NoAnswer, NotAdmitted, Office, Record, Refusal, held_by

# What came of an order. ABSENT: ANY or ALL stands for an architecture that does not have the package.
ACCEPTED, REFUSED, ABSENT, NO_ANSWER, NOT_SENT = "accepted", "refused", "not there", "no answer", "not sent"
PAUSE = 0.3  # seconds between two tries


@dataclass(frozen=True)
class Row:
    """What came of an order, and why, or what became of the record."""

    order: Order
    answer: str
    what: str = ""


@dataclass
class Desk:
    """Where requests are sent: the office of each suite; that of lines without one has the empty name. If it only
    simulates, nothing is sent, and each line finds the records as those before it would leave them."""

    program: str
    offices: Mapping[str, Office]
    wait: float
    simulates: bool = False
    fault: str = ""  # why an office did not answer; nothing is sent after it
    simulated: dict[tuple[int, str, str], Record] = field(default_factory=dict)

    def rows(self, requests: Iterable[Request]) -> Iterator[Row]:
        """What comes of each request, in their order."""
        for request in requests:
            for package in request.packages:
                looked = {arch: self.looked_at(request, package, arch) for arch in request.archs}
                records = [record for record in looked.values() if record and not isinstance(record, Refusal)]
                number = number_of(request, package, records)
                for arch, record in looked.items():
                    yield self.row(Order(request, package, arch, number), record, bool(records))

    def row(self, order: Order, record: Record | Refusal | None, is_somewhere: bool) -> Row:
        """What comes of one order, and whether some architecture of its line has the package."""
        if self.fault or record is None:
            return Row(order, NOT_SENT)
        if isinstance(record, Refusal):
            is_absent = record.name == "UnknownSource" and is_somewhere and not order.request.archs[order.arch]
            return Row(order, ABSENT) if is_absent else Row(order, REFUSED, why(record))
        try:
            refused = refusal_before(order, record) or self.refused(order, record)
        except NoAnswer as fault:
            self.fault = str(fault)
            return Row(order, NO_ANSWER, "whether it was carried out is not known: look at the record")
        if refused:
            return Row(order, REFUSED, refused)
        now = after(order, record)
        if self.simulates:
            self.simulated[self.key(order.request, order.package, order.arch)] = now
        return Row(order, ACCEPTED, change(record, now))

    def key(self, request: Request, package: Package, arch: str) -> tuple[int, str, str]:
        return self.offices[request.suite].port, arch, package.source

    def looked_at(self, request: Request, package: Package, arch: str) -> Record | Refusal | None:
        """The record of a package; nothing if an office did not answer."""
        found = self.simulated.get(self.key(request, package, arch))
        if self.fault or found:
            return found
        try:
            return self.in_time(lambda: self.offices[request.suite].item(arch, package.source))
        except NoAnswer as fault:
            self.fault = str(fault)
            return None

    def refused(self, order: Order, before: Record) -> str:
        """Why an order is refused; empty if it is accepted. If its answer is lost the record shows what became of it,
        and it is sent again only if the record is as it was."""
        if self.simulates:
            return refusal_of(order, before)
        office, is_sent = self.offices[order.request.suite], False

        def once() -> str:
            nonlocal is_sent
            if is_sent:
                record = office.item(order.arch, order.package.source)
                if isinstance(record, Refusal):
                    return why(record)
                if is_carried_out(order, record):
                    return ""
                if record != before:
                    return f"its answer was lost, and now it is {record['state']}{held_by(record)}"
            is_sent = True
            refusal = office.post(
                order.command, arch=order.arch, source=order.package.source, version=before["version"],
                **order.arguments(),
            )
            return why(refusal) if refusal else ""

        return str(self.in_time(once))

    def in_time(self, once: Callable[[], Any]) -> Any:
        """What a step answers that is tried again until it has an answer, or for so long."""
        end, is_said = time.monotonic() + self.wait, not sys.stderr.isatty()
        while True:
            try:
                return once()
            except NotAdmitted:
                raise
            except NoAnswer as fault:
                if time.monotonic() >= end:
                    raise
                if not is_said:
                    say(self.program, f"{fault}; it is asked again for {self.wait:g} s")
                    is_said = True
            time.sleep(PAUSE)


def number_of(request: Request, package: Package, records: list[Record]) -> int | None:
    """The number of an order: that of its line. Of a rebuild without one it is above those of the package's records, so
    that its builds have one number on all architectures of the line."""
    if request.kind.command != "rebuild" or request.number is not None:
        return request.number
    return next_number([record for record in records if is_of(record, package.version)])


def why(refusal: Refusal) -> str:
    """A refusal of an office in words."""
    if refusal.name == "WrongState":
        return f"it is {refusal.more.get('state')}"
    if refusal.name == "OtherVersion":
        return f"the office has version {refusal.more.get('have')}"
    if refusal.name == "BadRelations" and refusal.more.get("fault") == "Nothing":
        return "nothing of the relations is left for this architecture"
    said = {"UnknownArch": "the office has no such architecture", "UnknownSource": "the office has no such package"}
    return said.get(refusal.name, str(refusal))

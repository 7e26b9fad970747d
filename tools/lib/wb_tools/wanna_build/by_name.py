"""What is said of packages by name, for tools/bin/wanna-build: what porters say, and what buildd-mail says of packages
that its builder does not hold.

No take number stands in it, so the record is looked at before, and after an answer that was lost.
"""
from __future__ import annotations

import re
from collections.abc import Mapping
from dataclasses import dataclass
from typing import Any

from wb_tools.moves import MOVES
from wb_tools.wanna_build.office import Office, Record, Refusal, another_version, held_by, is_of
from wb_tools.wanna_build.reports import reason_of, tried
from wb_tools.wanna_build.settings import WRONG_WORDS, Fault
from wb_tools.wanna_build.words import Call

MOST_TEXT = 1000  # bytes of a note
PRIORITIES, NUMBERS = range(-1000, 1001), range(1, 1000)  # build priorities, and numbers of rebuilds

# The command for each action. A build priority moves nothing.
COMMANDS = {
    "give-back": "give-back", "dep-wait": "dep-wait", "failed": "fail", "not-for-us": "not-for-us",
    "rebuild": "rebuild", "build-priority": "build-priority",
}  # fmt: skip


def cut(text: str) -> str:
    """As much of a text as an office takes for a note."""
    return text.encode(errors="replace")[:MOST_TEXT].decode(errors="ignore")


@dataclass(frozen=True)
class Order:
    """A command of the office, with what it has besides the package, and the word that asked for it."""

    command: str
    more: Mapping[str, Any]
    word: str

    def refusal(self, record: Record) -> str:
        """Why an office refuses it of a record; it may also find that it cannot read the relations, or that nothing of
        them is left."""
        if self.command == "build-priority":
            is_in = self.more["value"] in PRIORITIES
            return "" if is_in else f"a build priority is from {PRIORITIES[0]} to {PRIORITIES[-1]}"
        if record["state"] not in MOVES[self.command][0]:
            return f"it is {record['state']}{held_by(record)}, and {self.word} moves nothing from there"
        if self.command == "rebuild" and not record["number"] < self.more["number"] <= NUMBERS[-1]:
            return f"the number has to be from {record['number'] + 1} to {NUMBERS[-1]}"
        return ""

    def change(self, record: Record) -> str:
        """What becomes of a record of which it is not refused."""
        if self.command == "build-priority":
            return f"build priority {record['build_priority']} -> {self.more['value']}"
        more = {"rebuild": f", as {record['version']}+b{self.more.get('number')}"}
        more["dep-wait"] = ", if the office can read the relations"
        return f"{record['state']} -> {MOVES[self.command][1]}{more.get(self.command, '')}"

    def is_heard(self, record: Record) -> bool:
        """Whether a record shows that it was carried out."""
        if self.command == "build-priority":
            return bool(record["build_priority"] == self.more["value"])
        number = self.more.get("number", record["number"])
        return bool(record["state"] == MOVES[self.command][1] and record["number"] == number)


def order_of(call: Call, text: str) -> Order:
    """The command that the words of a call are; a Fault says which value is no number."""
    command = COMMANDS[call.action]
    more: dict[str, Any] = {}
    if command in ("rebuild", "build-priority"):
        if not re.fullmatch("-?[0-9]{1,9}", call.value):
            raise Fault(f"{call.word}: {call.value!r} is no number", WRONG_WORDS)
        number = int(call.value)
        more = {"number": max(0, number), "message": cut(text)} if command == "rebuild" else {"value": number}
    elif command == "dep-wait":
        more = {"relations": text}
    elif command in ("fail", "not-for-us"):
        more = {"note": cut(text)}
    return Order(command, more, call.word)


@dataclass(frozen=True)
class ByName:
    """Who says it, to which office, of which architecture. `overrides`: whether it ends the hold of another builder;
    `is_builders`: whether it is said only of what this builder holds, or was the last to try."""

    office: Office
    arch: str
    caller: str
    seconds: float  # for which it is tried
    overrides: bool = False
    is_builders: bool = False

    def say(self, order: Order, source: str, version: str) -> str:
        """Says it of the version that the record has. Why it was refused, if it was."""
        sent = False

        def once() -> str:
            nonlocal sent
            record = self.office.item(self.arch, source)
            if isinstance(record, Refusal):
                return str(record)
            if sent and is_of(record, version) and order.is_heard(record):
                return ""
            if why := self.objection(order, record, version):
                return why
            sent = True
            version_of = record["version"]
            refusal = self.office.post(order.command, arch=self.arch, source=source, version=version_of, **order.more)
            return str(refusal) if refusal else ""

        return tried(self.seconds, once)

    def simulated(self, order: Order, source: str, version: str) -> str:
        """What saying it would change; a Fault says why it would be refused."""
        record = self.office.item(self.arch, source)
        if isinstance(record, Refusal):
            raise Fault(str(record))
        if why := self.objection(order, record, version) or order.refusal(record):
            raise Fault(why)
        return order.change(record)

    def objection(self, order: Order, record: Record, version: str) -> str:
        """Why it is not sent: the office would carry it out."""
        if not is_of(record, version):
            return another_version(record)
        is_own = record["holder"] == self.caller or (
            record["state"] == "Build-Attempted" and record["note"] == reason_of(self.caller)
        )
        if self.is_builders and not is_own:
            is_now = f"it is {record['state']}{held_by(record)}"
            return f"{self.caller} neither holds it nor was the last to try it: {is_now}"
        if order.command == "build-priority" or record["holder"] in (None, self.caller) or self.overrides:
            return ""
        return f"it is {record['state']}{held_by(record)}; --override ends the hold"

    # -- a builder that is gone

    def release(self, record: Record) -> str:
        """Gives back what a builder holds, and nothing that is held anew meanwhile. Why it was refused, if it was."""

        def once() -> str:
            now = self.office.item(record["arch"], record["source"])
            if isinstance(now, Refusal):
                return str(now)
            if now["take"] != record["take"]:
                return ""
            name = {"arch": record["arch"], "source": record["source"], "version": record["version"]}
            is_building = now["state"] == "Building"
            refusal = self.office.post("put-back", take=record["take"]) if is_building else None
            if not is_building or (refusal and refusal.name == "NotAllowed"):  # a porter may say it by name alone
                refusal = self.office.post("give-back", **name)
            return "" if refusal is None or refusal.name == "NotHeld" else str(refusal)

        return tried(self.seconds, once)

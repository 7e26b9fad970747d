"""What porters say on the site of marked rows: which rows and what, as a form sends them, and what the offices answer.
A row has what the page showed of its record. If that went on meanwhile, nothing is sent, or the office refuses it."""
from __future__ import annotations

import re
import time
from collections.abc import Mapping, Sequence
from dataclasses import dataclass
from typing import Any

from wb_tools.answers import STATES, made
from wb_tools.answers import Record as Whole
from wb_tools.lists import Refused, is_arch_name, is_version
from wb_tools.moves import MOVES
from wb_tools.requests.commands import change, is_of, next_number
from wb_tools.requests.sending import ACCEPTED, NO_ANSWER, NOT_SENT, REFUSED, why
from wb_tools.wanna_build.office import NoAnswer, NotKnown, NotSent, Office, Record, Refusal, held_by
from wb_tools.web.rights import office_of
from wb_tools.web.sessions import Session
from wb_tools.web.settings import Settings
from wb_tools.web.tables import Row

MOST = 1000  # rows of a form
DOUBT = "whether it was carried out is not known: look at the record"


@dataclass(frozen=True)
class Command:
    """A command of porters: what its button says, and the field that it needs, with the name that HTTP has for it."""

    word: str
    label: str
    field: str = ""
    key: str = ""


COMMANDS = {one.word: one for one in (
    Command("give-back", "Give back"), Command("dep-wait", "Let it wait", "relations", "relations"),
    Command("fail", "Fail", "reason", "note"), Command("not-for-us", "Not for us", "reason", "note"),
    Command("rebuild", "Rebuild", "reason", "message"),
    Command("build-priority", "Set the build priority", "priority", "value"),
)}  # fmt: skip
FIELDS = {"relations": "Relations", "reason": "Reason", "priority": "Build priority"}


def commands_from(states: Sequence[str]) -> list[Command]:
    """The commands that some of these states allow."""
    return [one for one in COMMANDS.values() if any(is_allowed(one.word, state) for state in states)]


def is_allowed(word: str, state: str) -> bool:
    return word == "build-priority" or state in MOVES[word][0]


# ---- what a form sends


class Malformed(Exception):
    """What a form lacks, or has otherwise than the pages give it."""


@dataclass(frozen=True)
class Marked:
    """A row that was marked, with what its page showed of the record."""

    suite: str
    arch: str
    source: str
    version: str
    build: str
    state: str
    take: str

    def text(self) -> str:
        """The same as the value of a box."""
        return " ".join((self.suite, self.arch, self.source, self.version, self.build, self.state, self.take))

    @property
    def key(self) -> tuple[str, str, str]:
        return self.suite, self.arch, self.source


def marked_of(text: str, settings: Settings) -> Marked:
    """The row that the value of a box is."""
    words = text.split(" ")
    suites = {suite.name for suite in settings.suites}
    if len(words) == 7 and words[0] in suites and is_arch_name(words[1]) and words[5] in STATES:
        if re.fullmatch("[0-9]{1,20}|-", words[6]) and is_version(words[3]) and is_version(words[4]):
            return Marked(*words)
    raise Malformed("A row of the form is not as the pages of this site give it.")


def all_marked(texts: Sequence[str], settings: Settings) -> list[Marked]:
    """The rows of a form, each record once."""
    if not texts:
        raise Malformed("No row is marked.")
    if len(texts) > MOST:
        raise Malformed(f"{len(texts)} rows are marked, and {MOST} may be.")
    return list({one.key: one for one in (marked_of(text, settings) for text in texts)}.values())


@dataclass(frozen=True)
class Said:
    """What is said of each row: a command, the value of its field, and whether it ends holds of builders."""

    command: Command
    value: str | int = ""
    ends_holds: bool = False

    def objection(self, one: Marked, record: Record) -> str:
        """Why nothing is sent of a record that the office might move: it went on, or a builder holds it."""
        if self.command.word == "build-priority":
            return ""
        if gone := went_on(one, record):
            return f"{gone} when the page was made"
        if not record["holder"] or self.ends_holds:
            return ""
        return f"it is {record['state']}{held_by(record)}, and the form does not say to end holds"

    def arguments(self, number: int) -> dict[str, Any]:
        """What HTTP has besides the package; a rebuild has this number."""
        more = {"number": number} if self.command.word == "rebuild" else {}
        return more | ({self.command.key: self.value} if self.command.key else {})

    def after(self, record: Record, number: int) -> dict[str, Any]:
        """As much of the record once it is carried out as says what changed."""
        if self.command.word == "build-priority":
            return {**record, "build_priority": self.value}
        build = f"{record['version']}+b{number}" if self.command.word == "rebuild" else record["build"]
        return {**record, "state": MOVES[self.command.word][1], "build": build}


def said_of(fields: Mapping[str, str]) -> Said:
    """What a form says, by the button that was pressed and the field of it."""
    command = COMMANDS.get(fields.get("do", ""))
    if command is None:
        raise Malformed("The form does not say what is to be done.")
    ends_holds = bool(fields.get("holds"))
    if not command.field:
        return Said(command, ends_holds=ends_holds)
    text = " ".join(fields.get(command.field, "").split())
    if not text:
        raise Malformed(f"{command.label}: the field {FIELDS[command.field]} is empty.")
    if command.field != "priority":
        return Said(command, text, ends_holds)
    if not re.fullmatch("-?[0-9]{1,9}", text, re.ASCII):
        raise Malformed("A build priority is a number from -1000 to 1000.")
    return Said(command, int(text))


# ---- what the offices answer


class Desk:
    """Sends what was said of each row to its office, within the time that a page has. An office that does not answer is
    sent nothing more. `faults` are why."""

    def __init__(self, settings: Settings, session: Session, said: Said) -> None:
        self.settings, self.session, self.said = settings, session, said
        self.suites = {suite.name: suite for suite in settings.suites}
        self.end = time.monotonic() + settings.wait
        self.faults: dict[str, NoAnswer] = {}
        self.is_over = False
        self.are_for_keys: list[bool] = []  # of each refusal, whether it is for want of a key
        self.unknown: set[str] = set()  # the suites whose offices do not know the key any more

    def rows(self, marked: Sequence[Marked]) -> list[Row]:
        """What came of each row, in their order."""
        numbers = self.numbers(marked) if self.said.command.word == "rebuild" else {}
        return [self.row(one, numbers.get((one.suite, one.source), 0)) for one in marked]

    def numbers(self, marked: Sequence[Marked]) -> dict[tuple[str, str], int]:
        """The number of a rebuild of each package, so that its builds have one on all architectures that are marked."""
        records: dict[tuple[str, str], list[Record]] = {}
        for one in marked:
            found = self.looked_at(one)
            records.setdefault((one.suite, one.source), []).extend(
                [found] if found and not isinstance(found, Refusal) else []
            )
        return {key: next_number(found) for key, found in records.items()}

    def row(self, one: Marked, number: int) -> Row:
        answer, what = self.answer(one, self.looked_at(one), number)
        return {"suite": one.suite, "source": one.source, "arch": one.arch, "build": one.build, "answer": answer,
                "what": what}

    def answer(self, one: Marked, record: Record | Refusal | None, number: int) -> tuple[str, str]:
        """What came of a row, and why, or what became of its record."""
        if record is None:
            return NOT_SENT, self.why_not(one.suite)
        if isinstance(record, Refusal):
            return self.refused(one, record)
        if objection := self.said.objection(one, record):
            self.are_for_keys.append(False)
            return REFUSED, objection
        try:
            refusal = self.office(one.suite).post(
                self.said.command.word, arch=one.arch, source=one.source, version=one.version,
                **self.said.arguments(number),
            )
        except NoAnswer as fault:
            self.faults[one.suite] = fault
            is_unsent = isinstance(fault, (NotSent, NotKnown))
            return (NOT_SENT, str(fault)) if is_unsent else (NO_ANSWER, f"{fault}; {DOUBT}")
        return self.refused(one, refusal) if refusal else (ACCEPTED, change(record, self.said.after(record, number)))

    def refused(self, one: Marked, refusal: Refusal) -> tuple[str, str]:
        self.are_for_keys.append(refusal.is_for_want_of_a_key)
        if refusal.name == "NoKey":
            self.unknown.add(one.suite)
        return REFUSED, why(refusal)

    def looked_at(self, one: Marked) -> Record | Refusal | None:
        """The record of a row; nothing if its office does not answer."""
        if self.is_out(one.suite):
            return None
        try:
            found = self.office(one.suite).item(one.arch, one.source)
            if not isinstance(found, Refusal):
                made(Whole, found)
            return found
        except NoAnswer as fault:
            self.faults[one.suite] = fault
        except Refused:
            self.faults[one.suite] = NotKnown(f"{one.suite}: this is no record of an office")
        return None

    def office(self, suite: str) -> Office:
        return office_of(self.suites[suite], self.session.rights[suite].key, self.end)

    def is_out(self, suite: str) -> bool:
        """Whether nothing more is sent to an office."""
        self.is_over = self.is_over or time.monotonic() >= self.end
        return self.is_over or suite in self.faults or suite not in self.session.rights

    def why_not(self, suite: str) -> str:
        if suite in self.faults:
            return str(self.faults[suite])
        if suite not in self.session.rights:
            return f"no key was given that the office of {suite} knows"
        return f"the time of {self.settings.wait} seconds is over"

    def status(self, rows: Sequence[Row]) -> int:
        """The status of the page that says what came of the rows."""
        if all(row["answer"] == ACCEPTED for row in rows):
            return 200
        if any(isinstance(fault, NotKnown) for fault in self.faults.values()):
            return 502
        if self.faults or self.is_over:
            return 503
        return 403 if all(self.are_for_keys) and not any(row["answer"] == ACCEPTED for row in rows) else 409


def went_on(one: Marked, record: Record) -> str:
    """What of a record of the same version differs from what its page showed; empty if nothing does."""
    take = "-" if record["take"] is None else str(record["take"])
    is_now = f"it is {record['state']}{held_by(record)}"
    if not is_of(record, one.version):
        return ""  # the office refuses it
    if record["state"] != one.state:
        return f"{is_now}, and was {one.state}"
    if take != one.take:
        return f"{is_now} under take number {take}, and was under {one.take}"
    return f"its build is {record['build']}, and was {one.build}" if record["build"] != one.build else ""

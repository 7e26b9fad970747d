"""Reports of builders, for tools/bin/wanna-build: each is written down, sent under the take number of its hold, and
kept until the office has answered.

No call of buildd names a take number, so the number that the office gave is kept, and a late report stays fenced by it.
A report is sent only while the office shows that number as held for that package: so a number that an office which
began anew gave to another package is never used.
"""
from __future__ import annotations

import sys
import time
from collections.abc import Callable, Mapping, Sequence
from typing import TypeVar

from wb_tools.wanna_build.office import (
    NOT_SET_UP, NoAnswer, NotAdmitted, Office, Record, Refusal, another_version, held_by, is_of,
)
from wb_tools.wanna_build.settings import WRONG_WORDS, Fault, Settings
from wb_tools.wanna_build.state import ATTEMPTED, BUILDING, BUILT, ENDED, Debt, Kept, StateFile, Take

# The command by which each report is sent, and the states that show that it was heard.
COMMANDS = {
    "built": "built", "attempted": "attempted", "uploaded": "uploaded", "give-back": "put-back", "dep-wait": "waits",
}
HEARD = {"built": {"Built", "Uploaded"}, "uploaded": {"Uploaded"}}
AFTER = {"attempted": "Build-Attempted", "give-back": "Needs-Build", "dep-wait": "Dep-Wait", "uploaded": "Installed"}
FIRST_PAUSE, LONGEST_PAUSE = 0.2, 5.0  # seconds between two tries
Said = TypeVar("Said")


class MayNot(Exception):
    """The key of the builder does not let it say what a report asks for by name: it is refused, since it would wait for
    ever."""


def reason_of(builder: str) -> str:
    """The reason of a failed build, of which buildd gives none: by it is known who was the last to try."""
    return f"the build failed on {builder}"


def tried(seconds: float, once: Callable[[], Said]) -> Said:
    """What a step answers that is tried again until it has an answer, or for so long; not if it lacks a key."""
    end, pause = time.monotonic() + seconds, FIRST_PAUSE
    while True:
        try:
            return once()
        except NotAdmitted:
            raise
        except NoAnswer as why:
            if time.monotonic() + pause > end:
                raise
            if pause == FIRST_PAUSE and sys.stderr.isatty():
                print(f"wanna-build: {why}; trying again for {seconds:.0f} s", file=sys.stderr, flush=True)
        time.sleep(pause)
        pause = min(2 * pause, LONGEST_PAUSE)


class Reports:
    """The reports of one call, and those that earlier calls owe."""

    def __init__(self, settings: Settings, state: StateFile) -> None:
        self.settings, self.state = settings, state

    @property
    def kept(self) -> Kept:
        return self.state.kept

    def office(self, suite: str, builder: str = "BUILDER") -> Office:
        port = self.settings.port_of(suite)
        if port is None:
            raise NoAnswer(f"the settings do not have the suite {suite} any more")
        return Office(port, self.settings.answer, self.settings.keys.of(suite), builder)

    def save(self) -> str:
        """Writes what is kept, and says why it could not be written."""
        try:
            self.state.write()
        except Fault as fault:
            self.settings.note(str(fault))
            return str(fault)
        return ""

    # -- what is owed

    def owed(self, suite: str) -> list[Debt]:
        return [debt for debt in self.kept.owed if debt.suite == suite]

    def send_owed(self, suite: str) -> str:
        """Sends what is owed to the office of a suite, in order. Says why the last report was refused, if it was;
        NoAnswer if one is still owed."""
        said = ""
        for debt in self.owed(suite):
            try:
                said = self.deliver(debt)
            except MayNot as why:
                said = str(why)
            if said:
                self.settings.note(f"refused: {debt}: {said}")
            self.kept.owed.remove(debt)
            self.save()
        return said

    def report(self, debt: Debt, seconds: float) -> str:
        """Writes a report down, and sends it after those that are owed. Says why it was refused, if it was."""
        self.kept.owed.append(debt)
        self.mark(debt, BUILT if debt.word == "built" else None)
        fault = self.save()
        try:
            return tried(seconds, lambda: self.send_owed(debt.suite))
        except NoAnswer as why:
            kept = f"it cannot be kept: {fault}" if fault else "it is kept, and sent before the next command"
            self.settings.note(f"owed: {debt}: {why}")
            raise NoAnswer(f"{debt} is not delivered: {why}; {kept}") from None

    def mark(self, debt: Debt, stage: str | None) -> None:
        take = self.kept.find(debt.suite, debt.arch, debt.builder, debt.source)
        if take and stage and take.take == debt.take and take.stage in (BUILDING, BUILT):
            take.stage = stage

    def owed_as(self, word: str, suites: Sequence[str], arch: str, builder: str) -> list[Debt]:
        """What is owed under a take number, or of a package, as a word names it; of the suites, the architecture and
        the builder that are given. A Fault says if that is nothing, or is owed by several."""
        found = [
            debt
            for debt in self.kept.owed
            if word in (str(debt.take), f"{debt.source}_{debt.version}")
            and (not suites or debt.suite in suites)
            and arch in ("", debt.arch)
            and builder in ("", debt.builder)
        ]
        if not found:
            raise Fault(f"nothing is owed as {word}; --owed shows what is")
        if len({(debt.suite, debt.arch, debt.builder) for debt in found}) > 1:
            raise Fault(f"{word} is owed by several; --dist, --arch and --user say by which", WRONG_WORDS)
        return found

    def forget(self, debts: Sequence[Debt]) -> None:
        for debt in debts:
            self.kept.owed.remove(debt)
            self.settings.note(f"forgotten: {debt}")
        self.state.write()

    # -- one report

    def known(self, debt: Debt, said: Record | Refusal | list[Record]) -> Record | Refusal | list[Record]:
        """An answer, unless it shows that the office was not set up: a report on what was taken waits until it is. Any
        other is refused then, since it would wait for ever. Each report waits for a key that is missing."""
        if isinstance(said, Refusal):
            self.need_a_key(said)
        is_of_take = debt.take is not None or self.kept.find(debt.suite, debt.arch, debt.builder, debt.source)
        if isinstance(said, Refusal) and said.name in NOT_SET_UP and is_of_take:
            raise NoAnswer(str(said))
        return said

    @staticmethod
    def need_a_key(refusal: Refusal | None) -> None:
        """Lets a report wait for the key, or for its right, without which the office does not let it through."""
        if refusal and refusal.is_for_want_of_a_key:
            raise NotAdmitted(str(refusal))

    def deliver(self, debt: Debt) -> str:
        """Sends a report until the office has answered. Says why it was refused, if it was."""
        office = self.office(debt.suite, debt.builder)
        while True:
            if debt.take is None and not self.find_take(office, debt):
                return self.without_hold(office, debt)
            held = self.held(office, debt)
            if isinstance(held, str):
                return self.ended(office, debt, held)
            if held["state"] in HEARD.get(debt.word, ()):
                return self.finished(debt)
            if held["state"] == "Building" and debt.word == "uploaded":
                return (
                    f"it is not reported as built under take {debt.take}: if what was uploaded was built under it, say "
                    "--built first"
                )
            if held["state"] == "Building" or debt.word not in ("give-back", "dep-wait"):
                return self.send(office, debt)
            if debt.word == "dep-wait":
                # malformed relations are refused before the state is; the package is to be taken anew, which is written
                # down before it is sent
                refusal = office.post("waits", take=debt.take, relations=debt.text)
                self.need_a_key(refusal)
                if refusal and refusal.name == "BadRelations":
                    return str(refusal)
                debt.take = None
            self.give_back(office, debt, held)
            if debt.word == "give-back":
                return self.finished(debt)

    def send(self, office: Office, debt: Debt) -> str:
        debt.sent = True
        self.save()
        refusal = office.post(COMMANDS[debt.word], take=debt.take, **self.more(debt))
        if refusal is None:
            return self.finished(debt)
        self.need_a_key(refusal)
        if refusal.name == "NotHeld":
            return self.ended(office, debt, str(refusal))
        if debt.retaken:  # nobody builds it
            office.post("put-back", take=debt.take)
            self.mark(debt, ENDED)
        return str(refusal)

    @staticmethod
    def more(debt: Debt) -> Mapping[str, str]:
        if debt.word == "attempted":
            return {"reason": debt.text}
        return {"relations": debt.text} if debt.word == "dep-wait" else {}

    def held(self, office: Office, debt: Debt) -> Record | str:
        """What is held under the take number of a report; why nothing is, if so."""
        records = self.known(debt, office.mine(debt.builder))
        if isinstance(records, Refusal):
            return str(records)
        found = [record for record in records if record["take"] == debt.take]
        if not found:
            return f"the hold under take {debt.take} has ended"
        if (found[0]["arch"], found[0]["source"]) != (debt.arch, debt.source) or not is_of(found[0], debt.version):
            return f"take {debt.take} is that of another package: the office has begun anew, or its file was restored"
        return found[0]

    def give_back(self, office: Office, debt: Debt, record: Record) -> None:
        """Gives back by name what is built already, or failed, which no report can do; a key of a builder alone may
        not."""
        debt.sent = True
        self.save()
        refusal = office.post("give-back", arch=debt.arch, source=debt.source, version=record["version"])
        if refusal and refusal.name == "NotAllowed":
            raise MayNot(str(refusal))
        self.meant(refusal)

    def meant(self, refusal: Refusal | None) -> None:
        """A step that was refused since the state changed meanwhile is looked at anew; any other refusal waits for a
        remedy."""
        self.need_a_key(refusal)
        if refusal and refusal.name != "WrongState":
            raise NoAnswer(str(refusal))

    def find_take(self, office: Office, debt: Debt) -> bool:
        """Finds what the builder holds of a package, or takes it if the report may do so. Says whether it is held."""
        while True:
            record = self.known(debt, office.item(debt.arch, debt.source))
            if isinstance(record, Refusal) or not is_of(record, debt.version):
                return False
            if record["holder"] == debt.builder:
                debt.take, debt.retaken = record["take"], debt.anew
                stage = BUILDING if record["state"] == "Building" else BUILT
                self.kept.put(take_of(debt, record, stage))
                self.save()
                return True
            if debt.anew and record["state"] == "Build-Attempted":
                self.give_back(office, debt, record)
            elif debt.anew and record["state"] == "Needs-Build":
                self.meant(
                    office.post(
                        "take", arch=debt.arch, builder=debt.builder, source=debt.source, version=record["version"]
                    )
                )
            else:
                return False

    def without_hold(self, office: Office, debt: Debt) -> str:
        """What is said of a report on what the builder does not hold: nothing if it is so already."""
        record = self.known(debt, office.item(debt.arch, debt.source))
        if isinstance(record, Refusal):
            return str(record)
        if not is_of(record, debt.version):
            return another_version(record)
        if record["state"] == AFTER.get(debt.word):
            return ""
        return f"{debt.builder} does not hold it: it is {record['state']}{held_by(record)}"

    # -- what becomes of a report

    def finished(self, debt: Debt) -> str:
        take = self.kept.find(debt.suite, debt.arch, debt.builder, debt.source)
        if take and take.take == debt.take:
            if debt.word in ("built", "attempted"):
                take.stage = BUILT if debt.word == "built" else ATTEMPTED
            else:
                self.kept.takes.remove(take)
        return ""

    def ended(self, office: Office, debt: Debt, why: str) -> str:
        """What is said of a report whose hold has ended: nothing, if it was heard before or is so all the same."""
        record = self.known(debt, office.item(debt.arch, debt.source))
        is_so = (
            not isinstance(record, Refusal) and is_of(record, debt.version) and record["state"] == AFTER.get(debt.word)
        )
        if is_so and (debt.word != "attempted" or (debt.sent and record["note"] == debt.text)):
            return self.finished(debt)
        self.mark(debt, ENDED)
        return why


def take_of(debt: Debt, record: Record, stage: str) -> Take:
    return Take(
        debt.suite, debt.arch, debt.builder, debt.source, record["version"], record["build"], record["take"], stage
    )

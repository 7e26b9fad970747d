"""What the words of a builder would change, for `wanna-build --simulate`: by the record, and by what is kept of the
package. Nothing is sent, and nothing is written."""
from __future__ import annotations

from dataclasses import dataclass

from wb_tools.wanna_build.office import Office, Record, Refusal, another_version, held_by, is_of
from wb_tools.wanna_build.reports import AFTER, reason_of
from wb_tools.wanna_build.settings import Fault
from wb_tools.wanna_build.state import ATTEMPTED, BUILDING, BUILT, Take

HELD = ("Building", "Built", "Uploaded")
# What becomes of what a builder holds, by its report and by the state.
REPORTED = {
    "built": {"Building": "Built", "Built": "Built", "Uploaded": "Uploaded"},
    "attempted": {"Building": "Build-Attempted"},
    "uploaded": {"Built": "Uploaded", "Uploaded": "Uploaded"},
    "give-back": dict.fromkeys(HELD, "Needs-Build"),
    "dep-wait": dict.fromkeys(HELD, "Dep-Wait"),
}


@dataclass(frozen=True)
class Simulation:
    """The words of a builder to an office, of an architecture."""

    office: Office
    arch: str
    builder: str

    def taken(self, source: str, version: str, retakes: bool) -> str:
        """What a take would change; a Fault says why it would be refused."""
        known = self.office.mine(self.builder)
        if isinstance(known, Refusal):
            raise Fault(str(known))
        record = self.found(source)
        if record["version"] != version:  # a take names the version of the source
            raise Fault(another_version(record))
        is_again = (record["state"], record["holder"], retakes) == ("Building", self.builder, True)
        if record["state"] != "Needs-Build" and not is_again:
            raise Fault(f"it is {record['state']}{held_by(record)}")
        return f"{record['state']} -> Building, held by {self.builder}"

    def is_report(self, word: str, source: str, take: Take | None) -> bool:
        """Whether a word is a report, and is not said by name."""
        if word not in ("give-back", "dep-wait"):
            return word in REPORTED
        is_kept = take is not None and take.stage in (BUILDING, BUILT)
        return is_kept or self.found(source)["holder"] == self.builder

    def reported(self, word: str, source: str, version: str, take: Take | None) -> str:
        """What a report would change; a Fault says why it would be refused."""
        record = self.found(source)
        state = record["state"]
        if not is_of(record, version):
            raise Fault(another_version(record))
        if record["holder"] == self.builder:
            after = REPORTED[word].get(state)
        elif word == "built" and take and take.stage == ATTEMPTED and state in ("Needs-Build", "Build-Attempted"):
            after = "Built"  # it was built once more, as an answer to a mail asked for
        else:
            after = state if self.is_so(word, record, take) else None
        if after is None:
            raise Fault(f"it is {state}{held_by(record)}: {self.builder} cannot report it as {word}")
        more = ", if the office can read the relations" if word == "dep-wait" else ""
        return f"{state} -> {after}{more}" if after != state else f"{state}, as before"

    def found(self, source: str) -> Record:
        record = self.office.item(self.arch, source)
        if isinstance(record, Refusal):
            raise Fault(str(record))
        return record

    def is_so(self, word: str, record: Record, take: Take | None) -> bool:
        """Whether what a report says is so already, and it is accepted for that."""
        is_own = take is None or (take.stage == ATTEMPTED and record["note"] == reason_of(self.builder))
        return record["state"] == AFTER.get(word) and (word != "attempted" or is_own)

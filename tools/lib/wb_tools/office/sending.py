"""Lines that are sent to a serving office, for tools/bin/office, with the answers and the status of a run."""
from __future__ import annotations

import io
import json
import sys
import time
from collections.abc import Callable, Iterable
from dataclasses import dataclass, field
from pathlib import Path
from typing import Any, cast

from wb_tools.office.folder import named_in
from wb_tools.office.lines import Fault, Line
from wb_tools.keys import NOT_ADMITTED, KeyFile, right_for
from wb_tools.office.settings import NOT_RUNNING, Refusal, tell
from wb_tools.wanna_build.office import NoAnswer, NotAdmitted, NotSent, Office

PAUSE = 0.3  # seconds between two tries
ANSWER = 120  # seconds: more than an office takes for the merge of another client and for one connection
MERGE = 3600  # seconds: more than a merge of all architectures takes
FAULTS = {"line": 2, "file": 3}  # the status of a line by its fault
ENDS = {"Store", "Closed"}  # refusals after which a run stops


def write_answers(said: bytes) -> None:
    """Writes what an office answered to standard output, at once and without a buffer: a signal in the middle would
    have what is in one written a second time at the end."""
    sys.stdout.flush()
    raw, left = cast(io.BufferedWriter, sys.stdout.buffer).raw, memoryview(said)
    while left:
        left = left[raw.write(left) or 0 :]


@dataclass
class Sender:
    """What sends lines one by one. An office that takes no connection is asked again for so many seconds, as long as
    its service runs. Lists of merges are put into its folder, and the key is shown to it."""

    port: int
    runs: Callable[[], bool]
    wait: float
    lists: Path | None
    key: KeyFile
    answered: list[str] = field(default_factory=list)

    def send(self, lines: Iterable[Line]) -> int:
        """Shows the answer to each line, and answers the status of the run."""
        status = 0
        for line in lines:
            try:
                status = max(status, self.give(line))
            except (KeyboardInterrupt, SystemExit):
                tell(f"it was ended at {line}, which is in doubt; nothing after it was sent")
                raise
        return status

    def give(self, line: Line) -> int:
        """Shows the answer to a line, keeps it, and answers its status."""
        try:
            answer = self.answer(line)
        except Fault as fault:
            tell(f"{line}: {fault}")
            answer = json.dumps({"fault": fault.name}, separators=(",", ":")).encode()
        said = self.judged(line, answer)
        self.answered.append(answer.decode(errors="replace"))
        try:
            write_answers(answer + b"\n")
        except OSError as error:
            raise Refusal(f"the answer to {line} cannot be written: {error}; nothing after it was sent") from None
        if said.get("refused") in ENDS:
            raise Refusal(f"the office closed at {line}: nothing after it was sent")
        return 1 if "refused" in said else FAULTS.get(said.get("fault", ""), 0)

    def answer(self, line: Line) -> bytes:
        """What is answered to a line. A fault is that of one that the program answers without asking the office."""
        if line.fault:
            raise Fault(line.fault, line.why)
        if line.merge is None:
            return self.asked(line, ANSWER, line.body)
        assert self.lists
        with named_in(self.lists, line.merge) as body:
            return self.asked(line, MERGE, body)

    def asked(self, line: Line, seconds: float, body: bytes | None) -> bytes:
        """What the office answers to a line. What it did not get, and a query, are sent again."""
        office = Office(self.port, seconds, self.key)
        end = time.monotonic() + self.wait
        while True:
            try:
                return office.answer("GET" if body is None else "POST", line.path, body)
            except NotAdmitted as fault:
                raise Refusal(f"{fault}; {line} was not carried out, and nothing after it was sent") from None
            except NoAnswer as fault:
                if body is not None and not isinstance(fault, NotSent):
                    raise Refusal(
                        f"{fault}. {line} is in doubt: it may have been carried out or not; nothing after it was sent",
                        NOT_RUNNING,
                    ) from None
                if time.monotonic() >= end or not self.runs():
                    raise Refusal(
                        f"{fault}. {line} was not carried out, and nothing after it was sent", NOT_RUNNING
                    ) from None
            time.sleep(PAUSE)

    def judged(self, line: Line, answer: bytes) -> dict[str, Any]:
        """The object that an answer is; what is no answer of an office to a line is refused."""
        try:
            said = json.loads(answer)
        except (ValueError, RecursionError):
            said = None
        if not isinstance(said, dict):
            raise Refusal(
                f"what answers on port {self.port} is no office: {line} is in doubt; nothing after it was sent",
                NOT_RUNNING,
            )
        if said.get("http") in NOT_ADMITTED:
            missing = self.key.missing(said["http"], right_for(line.path, line.subject))
            raise Refusal(
                f"the office answered {said['http']}: {missing}. {line} was not carried out, and nothing after it was "
                "sent"
            )
        if "http" in said:
            why = " (does it serve with another folder than LISTS?)" if said["http"] == "NoList" else ""
            raise Refusal(
                f"the office answered {said['http']}{why} to {line}, which was not carried out; nothing after it was "
                "sent",
                NOT_RUNNING,
            )
        return said

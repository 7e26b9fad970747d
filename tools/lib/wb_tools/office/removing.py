"""The removal of an architecture, for tools/bin/office: what goes with it is looked at and shown, a backup is made, and
the terminal is asked, before the office is given the command."""
from __future__ import annotations

import json
import subprocess
import sys
from collections.abc import Iterable, Sequence
from dataclasses import dataclass
from typing import Any, TypeVar

from wb_tools.answers import HELD, STATES, Builders, ByState, Record, Summary, answer_in, counted, path_of, printable
from wb_tools.lists import Refused
from wb_tools.office.lines import Line, line_of, read_lines
from wb_tools.office.merges import ask_served
from wb_tools.office.settings import NOT_RUNNING, WRONG_WORDS, Refusal, tell
from wb_tools.office.steps import Office

COMMAND = "remove-arch"
MOST_NAMED = 10  # records, or builders, that a message names
Kind = TypeVar("Kind")


@dataclass(frozen=True)
class Going:
    """What goes with an architecture: its records, of which builders hold some, and its pairs with builders. `accepted`
    is how many commands the office had accepted when it was looked at."""

    arch: str
    accepted: int
    counts: dict[str, int]
    held: Sequence[Record]
    builders: Sequence[str]

    def __str__(self) -> str:
        return f"{self.arch}, {self.all_records} and {self.all_pairs}"

    @property
    def all_records(self) -> str:
        return counted(sum(self.counts.values()), "record")

    @property
    def all_pairs(self) -> str:
        return f"{counted(len(self.builders), 'pair')} with a builder"

    def show(self) -> None:
        states = named(f"{self.counts[state]:,} {state}" for state in STATES if self.counts.get(state))
        tell(f"{self.arch} has {self.all_records}{states and f': {states}'}")
        builders = named(self.builders)
        tell(f"{self.arch} has {self.all_pairs}{builders and f': {builders}'}")

    def require_none_held(self) -> None:
        if self.held:
            count = counted(len(self.held), "record")
            held = named(f"{one.source} {one.version} ({one.state} by {one.holder})" for one in self.held)
            raise Refusal(
                f"{self.arch} has {count} that a builder holds (StillHeld): {held}; nothing was done: let the builders "
                "end that, or give-back each"
            )


def named(texts: Iterable[str]) -> str:
    """The first of these texts, and how many more there are."""
    found = list(texts)
    more = len(found) - MOST_NAMED
    return printable(", ".join(found[:MOST_NAMED])) + (f", and {more} more" if more > 0 else "")


def remove_arch(office: Office, arch: str, is_sure: bool) -> None:
    """Removes an architecture, its pairs with builders and its records. What the office would refuse is refused before
    anything is done; then a backup is made, and the terminal is asked, unless the caller is sure."""
    office.require_ready()
    line = next(read_lines(line_of([COMMAND, arch]).encode()))
    require_command(office)
    going = look_at(office, arch)
    going.show()
    going.require_none_held()
    if not is_sure:
        require_terminal(office)
    backup = office.backup(snapshot=False, stop=False)
    office.show_name(backup)
    if not is_sure:
        ask(office, f"remove {going}?", f"{arch} was not removed; the backup {backup} stays")
    report(going, give(office, line))


# ---- the look before it


def require_command(office: Office) -> None:
    """Refuses to ask a serving office that does not have the command, and a file that a program has open."""
    if not office.service.runs():
        office.require_unlocked()
    elif not office.takes(f"/v1/{COMMAND}"):
        raise Refusal(f"what serves on port {office.settings.port} takes no {COMMAND}; nothing was done")


def look_at(office: Office, arch: str) -> Going:
    """What goes with an architecture now; one that the office does not have is refused."""
    summary = asked(office, Summary, "summary", arch)
    pairs = asked(office, Builders, "builders").builders
    states = [state for state in HELD if summary.counts.get(state)]
    held = [record for state in states for record in asked(office, ByState, "by-state", arch, state).records]
    return Going(arch, summary.accepted, summary.counts, held, [one.builder for one in pairs if one.arch == arch])


def asked(office: Office, kind: type[Kind], query: str, *words: str) -> Kind:
    """What the office answers to a query, while it is served and while it is not; neither changes a file."""
    if office.service.runs():
        found = ask_served(office.settings.port, path_of(query, words), office.settings.key)
        if not found:
            raise Refusal(f"nothing answers {query} on port {office.settings.port}; nothing was done", NOT_RUNNING)
    else:
        found = ask_file(office, line_of([query, *words]).split(" "))
    if found.get("refused") == "UnknownArch":
        raise Refusal(f"the office has no architecture {words[0]} (UnknownArch); nothing was done")
    try:
        answer = answer_in(found)
    except Refused as why:
        raise Refusal(f"{query} {printable(' '.join(words))}: {why}; nothing was done") from None
    if not isinstance(answer, kind):
        raise Refusal(f"{query}: this is no answer to it; nothing was done")
    return answer


def ask_file(office: Office, words: Sequence[str]) -> dict[str, Any]:
    """What the program answers to a query of the file; its messages are shown."""
    called = [office.settings.program, "--store", office.settings.store, *words]
    with office.owner.start(called, stdin=subprocess.DEVNULL, stdout=subprocess.PIPE) as process:
        answered, _ = process.communicate()
    try:
        found = json.loads(answered)
    except (ValueError, RecursionError):
        found = None
    if not isinstance(found, dict):
        raise Refusal(f"the program ended with {process.returncode}, and did not answer {words[0]}; nothing was done")
    return found


# ---- the question


def require_terminal(office: Office) -> None:
    """Refuses if nobody can be asked; a dry run asks nobody."""
    if not office.dry and not (sys.stdin and sys.stdin.isatty() and sys.stderr and sys.stderr.isatty()):
        raise Refusal("there is no terminal to ask at; nothing was done: --yes removes without a question", WRONG_WORDS)


def ask(office: Office, question: str, otherwise: str) -> None:
    """Asks at the terminal, and refuses to go on by any other answer than yes."""
    if office.dry:
        tell(f"would ask: {question}")
        return
    print(f"office: {question} [y/N] ", end="", file=sys.stderr, flush=True)
    answer = sys.stdin.buffer.readline()
    if not answer.endswith(b"\n"):
        print(file=sys.stderr)  # the end of the input leaves the cursor after the question
    if answer.strip().lower() not in (b"y", b"yes"):
        raise Refusal(otherwise)


# ---- the command


def give(office: Office, line: Line) -> str:
    """Gives the office the command, by a request while it is served and else by its file, and answers its answer."""
    return office.send([line]) if office.service.runs() else office.give_all([line.text])


def report(going: Going, answered: str) -> None:
    """Says what was removed; what others had accepted between the look and the command may have changed the counts."""
    if not answered:  # of a dry run
        return
    others = json.loads(answered)["accepted"] - going.accepted - 1
    counted_before = f", as counted before {counted(others, 'command')} of others" if others else ""
    tell(f"removed {going}{counted_before}")

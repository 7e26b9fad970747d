"""The journal of an office: a line of JSON for each command that was accepted, with the time at which it was committed,
its arguments and its answer, and who gave it and what it changed, if the line says so. What follows from the lines
stands in `index/`."""
import calendar
import json
import re
import time
from collections.abc import Iterator
from dataclasses import dataclass
from typing import IO, Any

from wb_tools.lists import Refused, compressor_of

TIME = re.compile(r"(\d{4})-(\d\d)-(\d\d)T(\d\d):(\d\d):(\d\d)Z")
BEGIN = b'{"accepted":'
GREATEST = 1 << 63  # no count and no take number is as great
HAND_OUTS = ("next", "take")
IMPORTS = ("merge", "report")

# The state into which each command moves the package that it names, empty if it has no record then; a merge and a
# report name theirs in files, and what they moved stands in a journal only if the line has their changes.
STATE_AFTER = {
    "enter": "Needs-Build",
    "next": "Building",
    "take": "Building",
    "built": "Built",
    "uploaded": "Uploaded",
    "waits": "Dep-Wait",
    "attempted": "Build-Attempted",
    "put-back": "Needs-Build",
    "give-back": "Needs-Build",
    "dep-wait": "Dep-Wait",
    "fail": "Failed",
    "not-for-us": "Not-For-Us",
    "rebuild": "Needs-Build",
    "forget": "",
}

# Commands that name a package and leave it in its state.
STAYS = ("build-priority",)

# The command after which no package of an architecture has a record.
REMOVES_ALL = "remove-arch"

# The arguments that are texts for a person, relations, or a build priority.
TEXTS = ("relations", "reason", "note", "message", "value")

Key = tuple[str, str]  # an architecture and a source package
Change = tuple[str, str, str, str]  # a source package, its states before and after, empty for no record, its version


# ---- lines


@dataclass(frozen=True, slots=True)
class Entry:
    """A command that was accepted: when, in seconds; the count of accepted commands with it; its name, its arguments
    and its answer; and who gave it, if the line says so."""

    at: int
    accepted: int
    name: str
    words: dict[str, Any]
    answer: dict[str, Any]
    by: str | None = None


class Cut(Refused):
    """A line of which only the front is there, as after a kill."""


def seconds_of(text: object) -> int:
    """The seconds of a time as a journal writes it, in UTC."""
    found = TIME.fullmatch(text) if isinstance(text, str) else None
    if not found:
        raise Refused("it has no time such as 2026-11-27T08:15:30Z")
    year, month, day, hour, minute, second = map(int, found.groups())
    if not (1 <= month <= 12 and 1 <= day <= 31 and hour < 24 and minute < 60 and second <= 60):
        raise Refused(f"there is no time {text}")
    return calendar.timegm((year, month, day, hour, minute, second))


def time_of(at: int) -> str:
    return time.strftime("%Y-%m-%dT%H:%M:%SZ", time.gmtime(at))


def day_of(at: int) -> str:
    return time.strftime("%Y-%m-%d", time.gmtime(at))


def entry_in(found: object) -> Entry:
    """The entry that an object is, which has all that is asked of it here; other keys are let through."""
    if not isinstance(found, dict):
        raise Refused("this is no line of a journal")
    words, answer, accepted = found.get("command"), found.get("answer"), found.get("accepted")
    if (
        type(accepted) is not int
        or not 0 <= accepted < GREATEST
        or not isinstance(words, dict)
        or not isinstance(answer, dict)
        or not isinstance(words.get("command"), str)
    ):
        raise Refused("this is no line of a journal: it lacks `accepted`, `answer` or `command`")
    by = found.get("by")
    said = by if isinstance(by, str) else None
    return Entry(seconds_of(found.get("time")), accepted, words["command"], words, answer, said)


def read_entry(line: bytes) -> Entry:
    """The entry of a line; one that does not end in a line feed, or that is no JSON, may have been cut off."""
    try:
        return entry_in(json.loads(line.decode()))
    except (ValueError, RecursionError):
        raise Cut("this is no JSON in UTF-8, or was cut off") from None


def entry_after_cut(line: bytes) -> Entry | None:
    """The entry that stands after a piece of another one on a line: what a start wrote after a kill that had cut off
    the line before."""
    at = line.find(BEGIN, 1)
    while at > 0:
        try:
            return read_entry(line[at:])
        except Refused:
            at = line.find(BEGIN, at + 1)
    return None


def is_front(line: bytes) -> bool:
    """Whether a line that is no entry may be the front of one: the last line, or one after which a start began a new
    line."""
    return not line.endswith(b"\n") or line.startswith(BEGIN) or BEGIN.startswith(line.rstrip(b"\n"))


def read_line(place: str, line: bytes) -> Iterator[Entry | Refused]:
    """The entry of a line, if it is not blank; or why it is none, which names this place. A line that was cut off is a
    `Cut`."""
    if not line.strip():
        return
    try:
        yield read_entry(line)
    except Cut as why:
        entry = entry_after_cut(line)
        if entry:
            yield Cut(f"{place}: a line that was cut off stands before another one, as after a kill; it is left out")
            yield entry
        elif is_front(line):
            yield Cut(f"{place}: the line is cut off, as after a kill; it is left out")
        else:
            yield Refused(f"{place}: {why}")
    except Refused as why:
        yield Refused(f"{place}: {why}")


def compressed(name: str, line: bytes) -> Refused | None:
    """Why a journal with this first line cannot be read, if it is compressed."""
    if program := compressor_of(line):
        return Refused(f"{name}: it is compressed by {program}; uncompress it, since a journal is text")
    return None


def read_journal(name: str, file: IO[bytes]) -> Iterator[Entry | Refused]:
    """The entries of a journal, and of each line that is none why it is none."""
    for number, line in enumerate(file, 1):
        if number == 1 and (why := compressed(name, line)):
            yield why
            return
        yield from read_line(f"{name}, line {number}", line)


# ---- parts of an entry


def text_in(entry: Entry) -> str:
    """The text of a command, empty if it has none."""
    return next((str(entry.words[name]) for name in TEXTS if entry.words.get(name) not in (None, "")), "")


def parts_in(entry: Entry) -> dict[str, dict[str, Any]]:
    """What is answered of each architecture of a merge whose part was not refused, or of that of a report."""
    if entry.name == "report":
        return {str(entry.words.get("arch")): entry.answer}
    parts = entry.answer.get("parts")
    found = [part for part in parts if isinstance(part, dict)] if isinstance(parts, list) else []
    return {str(part.get("arch")): part for part in found if "refused" not in part}


def changes_in(entry: Entry, arch: str) -> list[Change] | None:
    """What a merge or a report changed on an architecture, if the line says so in a form that is known."""
    parts = entry.words.get("parts")
    given = [part for part in parts if isinstance(part, dict)] if isinstance(parts, list) else []
    places = [parts_in(entry).get(arch, {}), *(part for part in given if part.get("arch") == arch)]
    places += [entry.words] if entry.name == "report" else []
    found = next((place["changes"] for place in places if "changes" in place), None)
    if not isinstance(found, list) or not all(map(is_change, found)):
        return None
    return [(source, was or "", state or "", version or "") for source, was, state, version in found]


def is_change(found: object) -> bool:
    """Whether it is a source package, its states before and after, and its version; null stands for none."""
    is_list = isinstance(found, list) and len(found) == 4 and isinstance(found[0], str)
    return is_list and all(part is None or isinstance(part, str) for part in found)

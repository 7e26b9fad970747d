"""Lines of a run as the requests that ask the same, for tools/bin/office: how the program reads a line stands in
docs/PROTOCOL.md, "Lines" and "Words", and what a request has in docs/HTTP.md, "Requests"."""
from __future__ import annotations

import json
import os
import re
import stat
from collections.abc import Iterator, Sequence
from dataclasses import dataclass
from typing import Any

from wb_tools.answers import QUERIES, path_of
from wb_tools.office.settings import WRONG_WORDS, Refusal

MOST_LINE = 65536  # bytes of a line
MOST_BODY = 16777216  # bytes of the body of a request
MOST_PATH = 8000  # bytes of a path: with its fields it has room in a head

# The arguments of each command, as HTTP names them; two dots mark a last one of several words.
COMMANDS = {
    "add-arch": "name os cpu",
    "add-builder": "name arch",
    "remove-arch": "name",
    "remove-builder": "name arch",
    "enter": "arch source version priority section",
    "next": "arch builder",
    "take": "arch builder source version",
    "built": "take",
    "uploaded": "take",
    "waits": "take relations..",
    "attempted": "take reason..",
    "put-back": "take",
    "give-back": "arch source version",
    "dep-wait": "arch source version relations..",
    "fail": "arch source version note..",
    "not-for-us": "arch source version note..",
    "rebuild": "arch source version number message..",
    "build-priority": "arch source version value",
    "forget": "arch source version",
    "merge": "sources parts..",
    "report": "arch file",
}
MAY_BE_EMPTY = {"reason", "note", "message"}
NATURAL = (0, 2**64 - 1)
NUMBERS = {"take": NATURAL, "number": NATURAL, "after": NATURAL, "value": (-(2**63), 2**63 - 1)}


class Fault(Exception):
    """What the program answers to a line without asking the office, `line` or `file`, and why."""

    def __init__(self, name: str, why: str) -> None:
        super().__init__(why)
        self.name = name


class NoRequest(Exception):
    """Why no request asks what a line asks."""


@dataclass(frozen=True)
class Line:
    """A line that is not blank. It has the path of its request, and the body if that is no query, of a merge with paths
    in place of names; or the fault that is answered to it, and why; or else why it has no request."""

    number: int
    text: str
    path: str = ""
    body: bytes | None = None
    merge: dict[str, Any] | None = None
    fault: str = ""
    why: str = ""

    @property
    def subject(self) -> dict[str, Any]:
        """What the body says of a command that is no merge."""
        found: dict[str, Any] = json.loads(self.body) if self.body else {}
        return found

    @property
    def is_known(self) -> bool:
        """Whether it can be answered while the office is served."""
        return bool(self.path or self.fault)

    def __str__(self) -> str:
        return f"line {self.number} ({self.text[:100]})" if self.text.isprintable() else f"line {self.number}"


def line_of(words: Sequence[str]) -> str:
    """The line of these words, of which none may be empty or have a blank: a line has no quotes."""
    for word in words:
        if not word or re.search("[ \t\n]", word) or not is_text(word):
            raise Refusal(f"{word[:100]!r} is no word of a line, which has no blanks", WRONG_WORDS)
    marked = ["--"] if any(map(is_option, words)) else []
    return " ".join([words[0], *marked, *words[1:]])


def is_text(word: str) -> bool:
    """Whether the shell gave UTF-8."""
    return not any("\ud800" <= character <= "\udfff" for character in word)


def read_lines(data: bytes) -> Iterator[Line]:
    """The lines that a run answers, of these bytes: after one that is too long none is read."""
    for number, line in enumerate(data.split(b"\n"), 1):
        if len(line) > MOST_LINE:
            yield Line(number, "", fault="line", why=f"it has more than {MOST_LINE} bytes; nothing after it is read")
            return
        if line.strip(b" \t"):
            yield read_line(number, line)


def read_line(number: int, line: bytes) -> Line:
    try:
        text = line.decode().strip(" \t")
    except UnicodeDecodeError:
        return Line(number, "", fault="line", why="it is not UTF-8")
    words = re.split("[ \t]+", text)
    try:
        if words[0] == "merge":
            return Line(number, text, "/v1/merge", merge=merge_of(words))
        return Line(number, text, *request_of(words))
    except Fault as fault:
        return Line(number, text, fault=fault.name, why=str(fault))
    except NoRequest as why:
        return Line(number, text, why=str(why))


def request_of(words: Sequence[str]) -> tuple[str, bytes | None]:
    """The path and the body of the request for a line."""
    command = words[0]
    if command in QUERIES:
        keys = [word.lower() for word in QUERIES[command][0]]
        path = path_of(command, list(arguments_of(words, keys).values()))
        if len(path) > MOST_PATH:
            raise NoRequest("its words are too long for a request")
        return path, None
    if command not in COMMANDS:
        raise Fault("line", f"there is no command {command}")
    arguments = arguments_of(words, COMMANDS[command].split())
    if command == "report":
        arguments["text"] = report_text(arguments.pop("file"))
    body = json.dumps(arguments, ensure_ascii=False, separators=(",", ":")).encode()
    if len(body) > MOST_BODY:
        raise NoRequest(f"its request would have more than {MOST_BODY} bytes")
    return f"/v1/{command}", body


def merge_of(words: Sequence[str]) -> dict[str, Any]:
    """What the request for a merge has, with the paths of the lists in place of their names."""
    values, _ = parted(words)
    if len(values) < 2:
        raise Fault("line", f"merge lacks its argument {'parts' if values else 'sources'}")
    parts = [part.partition("=") for part in values[1:]]
    for (arch, equals, packages), word in zip(parts, values[1:]):
        if not equals:
            raise Fault("line", f"{word} is no ARCH=PACKAGESFILE")
    for file in (values[0], *(packages for _, _, packages in parts)):
        if os.path.isdir(file):
            raise NoRequest(f"{file} is a folder")
    return {"parts": [{"arch": arch, "packages": packages} for arch, _, packages in parts], "sources": values[0]}


def arguments_of(words: Sequence[str], keys: Sequence[str]) -> dict[str, Any]:
    """The arguments of a line by their keys."""
    values, after = parted(words)
    found: dict[str, Any] = {}
    if keys and keys[-1].endswith(".."):
        joined = " ".join(values[len(keys) - 1 :])
        values = [*values[: len(keys) - 1], *([joined] if joined or keys[-1][:-2] in MAY_BE_EMPTY else [])]
    for key, value in zip((key.removesuffix("..") for key in keys), values):
        found[key] = number_of(key, value) if key in NUMBERS else value
    if len(values) < len(keys):
        raise Fault("line", f"{words[0]} lacks its argument {keys[len(values)].removesuffix('..')}")
    if len(values) > len(keys):
        raise Fault("line", f"{words[0]} has a word too many, {values[len(keys)]}")
    if after is not None:
        found["after"] = number_of("after", after)
    return found


def parted(words: Sequence[str]) -> tuple[list[str], str | None]:
    """The arguments among the words of a line, and what stands after --after."""
    command, rest = words[0], list(words[1:])
    values: list[str] = []
    after = None
    while rest:
        word = rest.pop(0)
        is_value = command == "build-priority" and not rest and re.fullmatch("-[0-9]+", word)
        if word == "--":
            return values + rest, after
        if not is_option(word) or is_value:
            values.append(word)
            continue
        name, equals, value = word.partition("=")
        if command != "next" or name != "--after" or after is not None:
            raise Fault("line", f"{word} is no option of {command}, or stands twice")
        if not equals and (not rest or is_option(rest[0])):
            raise Fault("line", "--after lacks its number")
        after = value if equals else rest.pop(0)
    return values, after


def is_option(word: str) -> bool:
    return len(word) > 1 and word.startswith("-")


def number_of(key: str, word: str) -> int:
    least, greatest = NUMBERS[key]
    found = re.fullmatch("([+-]?)0*([0-9]{1,20})", word) if least else re.fullmatch("([+]?)0*([0-9]{1,20})", word)
    number = int(found[1] + found[2]) if found else None
    if number is None or not least <= number <= greatest:
        raise Fault("line", f"{key} is {word}, and has to be a whole number from {least} to {greatest}")
    return number


def report_text(name: str) -> str:
    """The text of a report, a file that can be read again if it is too large for a request."""
    try:
        mode = os.stat(name)
        if not stat.S_ISREG(mode.st_mode) and not stat.S_ISDIR(mode.st_mode):
            raise NoRequest(f"{name} is no file that can be read again")
        if mode.st_size > MOST_BODY:
            raise NoRequest(f"{name} has more bytes than the body of a request")
        with open(name, "rb") as file:
            return file.read().decode()
    except OSError as error:
        raise Fault("file", f"{name} cannot be read: {error.strerror}") from None
    except UnicodeDecodeError:
        raise Fault("file", f"{name} is not UTF-8") from None
    except ValueError as error:
        raise Fault("file", f"{name} cannot be read: {error}") from None

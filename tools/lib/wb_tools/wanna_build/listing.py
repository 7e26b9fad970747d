"""What --order and --format make of a list, for tools/bin/wanna-build."""
from __future__ import annotations

import re
from collections.abc import Callable, Iterator, Sequence
from typing import Any

from wb_tools.wanna_build.answers import notes_of, one_line
from wb_tools.wanna_build.office import Record
from wb_tools.wanna_build.settings import WRONG_WORDS, Fault

# The order of the queue, from the first; what is not there comes after them.
PRIORITIES = "required important standard optional extra".split()
SECTIONS = (
    "libs base devel kernel shells perl python admin utils text net web mail database editors interpreters graphics "
    "sound video x11 gnome kde science math doc misc oldlibs games"
).split()

# What each letter of --order orders by.
KEYS: dict[str, Callable[[Record], Any]] = {
    "p": lambda record: place_in(PRIORITIES, record["priority"]),
    "s": lambda record: place_in(SECTIONS, re.sub("^[^/]*/", "", record["section"])),
    "n": lambda record: record["source"],
    "b": lambda record: record["holder"] or "",
    "c": lambda record: not record["earlier"],
}

# What each letter of --format stands for, of a record, its suite and its place in the list.
LETTERS: dict[str, Callable[[Record, str, int], Any]] = {
    "a": lambda record, suite, place: record["arch"],
    "B": lambda record, suite, place: record["number"] or "",
    "c": lambda record, suite, place: record["section"],
    "d": lambda record, suite, place: suite,
    "D": lambda record, suite, place: record["note"] if record["state"] == "BD-Uninstallable" else "",
    "E": lambda record, suite, place: place if record["state"] == "Needs-Build" else record["waits"],
    "F": lambda record, suite, place: record["note"] if record["state"] != "BD-Uninstallable" else "",
    "p": lambda record, suite, place: record["source"],
    "S": lambda record, suite, place: record["state"],
    "u": lambda record, suite, place: record["holder"] or "",
    "v": lambda record, suite, place: record["version"],
    "V": lambda record, suite, place: record["build"],
    "X": lambda record, suite, place: notes_of(record),
}
MARKS = {"n": "\n", "%": "%"}
PART = re.compile(r"%\{(?P<no>!?)(?P<text>[^{}]*)\}(?P<of>.)|%(?P<letter>.)|(?P<plain>[^%]+)", re.S)


def place_in(words: Sequence[str], word: str) -> int:
    return words.index(word) if word in words else len(words)


def check_order(letters: str) -> None:
    """A Fault says which letter of --order is none."""
    for letter in letters:
        if letter not in KEYS:
            raise Fault(
                f"--order={letters} cannot be obeyed: {letter} is none of p, priority, s, section, n, name, b, builder "
                "and c, built before",
                WRONG_WORDS,
            )


def ordered(records: list[Record], letters: str) -> list[Record]:
    """The records by what the first letter says, and those that are alike in it by the next."""
    return sorted(records, key=lambda record: [KEYS[letter](record) for letter in letters])


# ---- formats


def check_format(text: str) -> None:
    """A Fault says what of a format is none."""
    at = 0
    for part in parts_of(text):
        for letter in letters_in(part):
            if letter not in LETTERS and letter not in MARKS:
                raise Fault(
                    f"--format cannot be obeyed: %{letter} is none of %{', %'.join([*sorted(LETTERS), *MARKS])}; the "
                    "office keeps no times",
                    WRONG_WORDS,
                )
        at = part.end()
    if at < len(text):
        raise Fault(f"--format cannot be obeyed: {text[at:]!r} is no %LETTER, no %{{TEXT}}LETTER", WRONG_WORDS)


def parts_of(text: str) -> Iterator[re.Match[str]]:
    at = 0
    while part := PART.match(text, at):
        yield part
        at = part.end()


def letters_in(part: re.Match[str]) -> list[str]:
    return [part["letter"]] if part["letter"] else [part["of"]] if part["of"] else []


def formatted(text: str, records: list[Record], suite: str, order: str) -> Iterator[str]:
    """The lines of a list in an order, each as the text has it. What waits is given in the order of the queue."""
    waiting = [record["source"] for record in records if record["state"] == "Needs-Build"]
    places = {source: place for place, source in enumerate(waiting, 1)}
    for record in ordered(records, order):
        yield "".join(said_by(part, record, suite, places.get(record["source"], 0)) for part in parts_of(text))


def said_by(part: re.Match[str], record: Record, suite: str, place: int) -> str:
    """A part of a format: %LETTER is what it stands for, in one line; %{TEXT}LETTER is the text if that is not empty,
    and %{!TEXT}LETTER if it is."""
    said = "".join(value_of(letter, record, suite, place) for letter in letters_in(part))
    if part["of"]:
        return part["text"] if bool(said) != bool(part["no"]) else ""
    return said or part["plain"] or ""


def value_of(letter: str, record: Record, suite: str, place: int) -> str:
    return MARKS[letter] if letter in MARKS else one_line(str(LETTERS[letter](record, suite, place)))

"""The words of a call of wanna-build, for tools/bin/wanna-build: those of buildd, buildd-mail and buildd-uploader, and
of the release team.

Words that are empty are passed over, and `--api 1` may be one word with a blank: so buildd gives them.
"""
from __future__ import annotations

import re
from collections.abc import Sequence
from dataclasses import dataclass, field
from pathlib import Path

from wb_tools.lists import is_version
from wb_tools.wanna_build.settings import FILE, WRONG_WORDS, Fault

STATES = (
    "Needs-Build Building Built Uploaded Installed Dep-Wait BD-Uninstallable Failed Not-For-Us Build-Attempted".split()
)

# Each word that says what is to be done, and what that is; those of VALUED have a value.
ACTIONS = {
    "take": "take",
    "list": "list",
    "info": "info",
    "built": "built",
    "attempted": "attempted",
    "uploaded": "uploaded",
    "give-back": "give-back",
    "needs-build": "give-back",
    "dep-wait": "dep-wait",
    "failed": "failed",
    "no-build": "not-for-us",
    "not-for-us": "not-for-us",
    "binNMU": "rebuild",
    "build-priority": "build-priority",
    "perm-build-priority": "build-priority",
    "permanent-build-priority": "build-priority",
    "permbuildpri": "build-priority",
    "forget-user": "forget-user",
    "may-upload": "may-upload",
    "owed": "owed",
    "forget": "forget",
}
VALUED = {
    "list", "binNMU", "build-priority", "perm-build-priority", "permanent-build-priority", "permbuildpri",
}  # fmt: skip
# Each word that says how, and whether it has a value. --forced may have one.
OPTIONS = {
    "arch": True, "dist": True, "database": True, "user": True, "message": True, "api": True, "settings": True,
    "min-age": True, "max-age": True, "category": True, "order": True, "format": True,
    "override": False, "simulate": False, "verbose": False, "no-propagation": False, "forced": False,
}  # fmt: skip
SHORT = {
    "A": "arch", "d": "dist", "b": "database", "U": "user", "m": "message", "a": "min-age", "O": "order",
    "c": "category", "o": "override", "v": "verbose", "N": "no-propagation",
    "l": "list", "i": "info", "u": "uploaded", "f": "failed", "n": "no-build",
}  # fmt: skip
# What narrows a list by what the office does not keep, and why it cannot; 0 days, and no category, narrow nothing.
CANNOT = {
    "min-age": "the office has no clock, and does not know since when a package waits",
    "max-age": "the office has no clock, and does not know since when a package waits",
    "category": "the office keeps no categories of failures",
}
OF_LISTS = ("order", "format")
NO_WORDS = ("list", "owed")  # no package stands beside them
NAME = re.compile(r"[a-z0-9][a-z0-9+.-]{1,199}")
BUILDER = re.compile(r"[A-Za-z0-9][A-Za-z0-9._-]{0,63}")


@dataclass
class Call:
    """What is asked for."""

    action: str = ""
    word: str = ""  # the word for it as the caller wrote it, without its value
    value: str = ""
    words: list[str] = field(default_factory=list)  # the packages, or the .changes of --may-upload
    said: dict[str, str] = field(default_factory=dict)  # the options, with their values
    flags: set[str] = field(default_factory=set)
    may: dict[str, list[str]] = field(default_factory=dict)  # what a forced command lets a call say, by option
    fault: str = ""

    @property
    def wants_yaml(self) -> bool:
        """Whether buildd reads the answer as YAML, where any other word ends it."""
        return self.action in ("", "take") and self.said.get("api", "0") not in ("", "0")

    @property
    def settings(self) -> Path:
        return Path(self.said.get("settings", FILE))

    @property
    def arch(self) -> str:
        return self.said.get("arch", "")

    @property
    def simulates(self) -> bool:
        return "simulate" in self.flags

    @property
    def is_builders(self) -> bool:
        """Whether a forced command leaves it the words of a builder alone."""
        return self.said.get("forced") == "builder"

    def packages(self) -> list[tuple[str, str]]:
        """The source packages and versions; a section before them, as a list has it, is dropped."""
        if not self.words:
            raise Fault(f"{self.word} wants a package, as in hello_1.0-1", WRONG_WORDS)
        return [split_package(word) for word in self.words]


def split_package(word: str) -> tuple[str, str]:
    source, underscore, version = word.rpartition("/")[2].partition("_")
    if not NAME.fullmatch(source) or not underscore or not is_version(version):
        raise Fault(f"{word!r} is no package with its version, as hello_1.0-1", WRONG_WORDS)
    return source, version


def add_words(call: Call, arguments: Sequence[str]) -> None:
    """Adds words to a call; a Fault says which of them cannot be read."""
    rest = [part for word in arguments for part in parted(word)]
    while rest:
        word = rest.pop(0)
        if not word:
            continue
        if word == "--":
            call.words += rest
            return
        if word in ("--help", "-h"):
            call.action, call.word = "help", word
        elif word.startswith("-") and len(word) > 1:
            add_option(call, word, rest)
        else:
            call.words.append(word)


def parted(word: str) -> list[str]:
    """The words of one that has an option and its value with a blank between them."""
    found = re.fullmatch("(--[a-z-]+) +([^ ]+)", word)
    return [found[1], found[2]] if found and OPTIONS.get(found[1][2:]) else [word]


def add_option(call: Call, word: str, rest: list[str]) -> None:
    if word.startswith("--"):
        written, equals, value = word.partition("=")
        name = written[2:]
    else:
        written, value = word[:2], word[2:]
        name, equals = SHORT.get(word[1], ""), value
    if name not in ACTIONS and name not in OPTIONS:
        raise Fault(f"the word {word!r} is not known, or not kept by this office", WRONG_WORDS)
    if name in VALUED or OPTIONS.get(name):
        if not equals:
            if not rest:
                raise Fault(f"{written} wants a value", WRONG_WORDS)
            value = rest.pop(0)
    elif equals and (name != "forced" or value != "builder"):
        raise Fault(f"{word}: {written} has no value" + (" but builder" if name == "forced" else ""), WRONG_WORDS)
    if name in ACTIONS:
        add_action(call, written, ACTIONS[name], value)
    elif OPTIONS[name] or equals:
        call.said[name] = value
    if OPTIONS.get(name) is False:
        call.flags.add(name)


def add_action(call: Call, written: str, action: str, value: str) -> None:
    if call.action and (call.action, call.value) != (action, value):
        raise Fault(f"{written} stands beside {call.word}; one of them says what to do", WRONG_WORDS)
    call.action, call.word, call.value = action, written, value


def check_call(call: Call) -> None:
    """Finds what the words of a whole call do: a Fault says what is missing, or cannot be done."""
    if not call.action and call.words:
        call.action, call.word = "take", "--take"
    if not call.action:
        raise Fault("no word says what to do: wanna-build --help has them", WRONG_WORDS)
    for name, why in CANNOT.items():
        if call.said.get(name, "") not in ("", "0"):
            raise Fault(f"--{name} cannot be obeyed: {why}", WRONG_WORDS)
    for name in OF_LISTS:
        if name in call.said and call.action != "list":
            raise Fault(f"--{name} stands beside {call.word}, and is for --list alone", WRONG_WORDS)
    if call.action in NO_WORDS and call.words:
        raise Fault(f"{call.word} stands alone, without {call.words[0]!r}", WRONG_WORDS)
    if call.said.get("database"):
        call.said["arch"] = call.said.get("arch") or call.said["database"].partition("/")[0]


def states_of(word: str) -> list[str]:
    """The states that a list asks for."""
    if word.lower() == "all":
        return STATES
    found = [state for state in STATES if state.lower() == word.lower()]
    if not found:
        raise Fault(f"there is no state {word!r}; the states are {', '.join(STATES)}", WRONG_WORDS)
    return found

"""Answers of an office to queries (docs/PROTOCOL.md), for tools/bin/wb-table and tools/bin/wb-status: read from lines
or asked of a serving office on this machine, each held to its form; and texts of the office as a terminal or a page may
show them."""
import argparse
import http.client
import json
import re
import sys
import time
import unicodedata
import urllib.parse
from collections.abc import Iterator, Mapping, Sequence
from dataclasses import dataclass
from pathlib import Path
from typing import IO, Any

from wb_tools.keys import NONE, NOT_ADMITTED, BadKey, KeyFile, add_key_option, right_for
from wb_tools.lists import Refused, a_form, say
from wb_tools.suites import NAME as SUITE

DONE, REFUSED, WORDS, FAILED = 0, 1, 2, 3
WAIT = 60  # seconds for one answer of a serving office
START = 30  # seconds for an office that does not take connections yet, as while it starts
ASK_AGAIN = 0.3  # seconds between two tries
HOSTS = {"127.0.0.1", "::1", "localhost"}

# The states in the order in which a package goes through them.
STATES = (
    "Needs-Build Building Built Uploaded Installed Dep-Wait BD-Uninstallable Build-Attempted Failed Not-For-Us".split()
)
HELD = ("Building", "Built", "Uploaded")

# The queries: the words after each, as the program takes them, and the word of its path.
QUERIES = {
    "queue": (("ARCH",), "queue"),
    "by-state": (("ARCH", "STATE"), "state"),
    "item": (("ARCH", "SOURCE"), "item"),
    "mine": (("BUILDER",), "mine"),
    "depends": (("ARCH", "SOURCE"), "depends"),
    "summary": (("ARCH",), "summary"),
    "office": ((), "office"),
    "archs": ((), "archs"),
    "builders": ((), "builders"),
}
WHOLE = ("office", "archs", "builders")  # what is asked of the whole office, and what an older one does not know


# ---- what is answered


class UnknownArch(Refused):
    """An office answers that it does not have the architecture."""


class NoRoute(Refused):
    """A program answers that it does not know the request."""


@dataclass(frozen=True, slots=True)
class Record:
    """A record, the answer to `item` and a part of others."""

    arch: str
    build: str
    build_priority: int
    earlier: bool
    holder: str | None
    message: str
    note: str
    number: int
    priority: str
    section: str
    source: str
    state: str
    take: int | None
    version: str
    waits: str


@dataclass(frozen=True, slots=True)
class Waiting:
    """A package of a queue."""

    build: str
    source: str


@dataclass(frozen=True, slots=True)
class Queue:
    arch: str
    queue: list[Waiting]


@dataclass(frozen=True, slots=True)
class ByState:
    arch: str
    records: list[Record]
    state: str


@dataclass(frozen=True, slots=True)
class Mine:
    builder: str
    records: list[Record]


@dataclass(frozen=True, slots=True)
class Depends:
    arch: str
    depends: str | None
    source: str


@dataclass(frozen=True, slots=True)
class Summary:
    accepted: int
    arch: str
    counts: dict[str, int]


@dataclass(frozen=True, slots=True)
class Counts:
    """How many commands an office accepted, and the last take number that it gave; the answer to `office`."""

    accepted: int
    handed: int


@dataclass(frozen=True, slots=True)
class KnownArch:
    """An architecture of an office, with the words of its processor and its operating system."""

    arch: str
    cpu: str
    os: str


@dataclass(frozen=True, slots=True)
class Archs:
    accepted: int
    archs: list[KnownArch]


@dataclass(frozen=True, slots=True)
class KnownBuilder:
    """A builder of an office, and an architecture for which it may build."""

    arch: str
    builder: str


@dataclass(frozen=True, slots=True)
class Builders:
    accepted: int
    builders: list[KnownBuilder]


Answer = Queue | ByState | Record | Mine | Depends | Summary | Counts | Archs | Builders

# The kind of each key; a record's `take` and `holder` and the `depends` of a source package may be null.
KINDS: Mapping[str, type] = {
    "accepted": int, "archs": list, "build_priority": int, "builders": list, "counts": dict, "earlier": bool,
    "handed": int, "number": int, "queue": list, "records": list,
}
INNER: Mapping[str, type] = {"queue": Waiting, "records": Record, "archs": KnownArch, "builders": KnownBuilder}
MAY_BE_NULL = {"depends": str, "holder": str, "take": int}


def is_of_kind(key: str, value: object) -> bool:
    kind = MAY_BE_NULL.get(key)
    if kind is not None:
        return value is None or type(value) is kind
    if key == "counts" and isinstance(value, dict):
        return all(type(count) is int for count in value.values())
    return type(value) is KINDS.get(key, str)


def made(kind: type[Any], found: object) -> Any:
    """An answer of this kind, of an object that has its keys, each with a value of its kind; other keys are let
    through."""
    keys = kind.__dataclass_fields__
    if not isinstance(found, dict) or not all(key in found and is_of_kind(key, found[key]) for key in keys):
        raise Refused("this is no answer to a query")
    return kind(**{key: [made(INNER[key], one) for one in found[key]] if key in INNER else found[key] for key in keys})


def answer_in(found: object) -> Answer | None:
    """The answer to a query that an object is, or none if it is that to a command. A refusal or a fault is refused by
    its name."""
    if not isinstance(found, dict):
        raise Refused("this is no object of JSON")
    for key in ("refused", "fault", "http"):
        if key in found:
            kinds = {"UnknownArch": UnknownArch, "NoRoute": NoRoute}
            kind = kinds.get(found[key], Refused) if isinstance(found[key], str) else Refused
            raise kind("the office answers " + text_of(found))
    if "ok" in found:
        return None
    marks = {"queue": Queue, "counts": Summary, "depends": Depends, "builder": Mine, "records": ByState}
    marks |= {"handed": Counts, "archs": Archs, "builders": Builders}
    kind = next((kind for key, kind in marks.items() if key in found), Record)
    return made(kind, found)  # type: ignore[no-any-return]


def text_of(found: object) -> str:
    return json.dumps(found, ensure_ascii=False, separators=(",", ":"))


def read_answer(text: bytes) -> Answer | None:
    try:
        found = json.loads(text.decode())
    except (ValueError, RecursionError):
        raise Refused("this is no JSON in UTF-8, or was cut off") from None
    return answer_in(found)


def read_lines(name: str, file: IO[bytes]) -> Iterator[Answer | Refused | None]:
    """What each line that is not blank answers; one that is refused says where it stands."""
    for number, line in enumerate(file, 1):
        if line.strip():
            try:
                yield read_answer(line)
            except Refused as why:
                yield Refused(f"{name}, line {number}: {why}")


# ---- a serving office


def is_loopback(word: str) -> bool:
    """Whether it is the address of an office on this machine, where alone one can be."""
    try:
        parts = urllib.parse.urlsplit(word)
        rest = parts.path.strip("/") + parts.query + parts.fragment
        return (
            parts.scheme == "http" and parts.hostname in HOSTS and parts.port != 0 and not rest and word.isprintable()
        )
    except ValueError:
        return False


url_word = a_form(
    is_loopback, "address of a serving office, such as http://127.0.0.1:8080: it has to be on this machine"
)


def suite_url(word: str) -> tuple[str, str]:
    """For argparse: URL or SUITE=URL of a serving office on this machine; the suite is empty if none is named."""
    suite, url = ("", word) if word.startswith("http:") else (word.partition("=")[0], word.partition("=")[2])
    if not is_loopback(url) or (suite and not SUITE.fullmatch(suite)) or (not suite and url != word):
        raise argparse.ArgumentTypeError(
            f"{word[:100]!r} is no address of a serving office on this machine, as http://127.0.0.1:8080, nor one "
            "after a suite, as sid=http://127.0.0.1:8080"
        )
    return suite, url


def seconds_word(word: str) -> int:
    if not (word.isascii() and word.isdigit() and len(word) < 6):
        raise argparse.ArgumentTypeError(f"{word[:100]!r} is no number of seconds")
    return int(word)


def add_url_options(parser: argparse.ArgumentParser) -> None:
    """The options of commands that ask a serving office."""
    parser.add_argument(
        "--url", metavar="URL", type=url_word, help="ask the office that serves there, such as http://127.0.0.1:8080"
    )
    add_wait_option(parser)
    add_key_option(parser)


def add_wait_option(parser: argparse.ArgumentParser) -> None:
    parser.add_argument(
        "--wait", metavar="SECONDS", type=seconds_word, default=START,
        help="how long to ask an office again that does not serve yet, as while it starts, else %(default)s",
    )


def path_of(query: str, words: Sequence[str]) -> str:
    """The path of the request for a query."""
    return "/".join(["/v1", QUERIES[query][1], *(urllib.parse.quote(word, safe="") for word in words)])


def body_of(url: str, path: str, key: KeyFile, wait: float = WAIT) -> bytes:
    """The body of one answer, over a connection of its own, each part of which comes within so many seconds."""
    parts, shown = urllib.parse.urlsplit(url), key.fields()
    connection = http.client.HTTPConnection(parts.hostname or "", parts.port or 80, timeout=wait)
    try:
        connection.request("GET", path, headers={"Connection": "close", **shown})
        return connection.getresponse().read()
    finally:
        connection.close()


def body_in_time(url: str, path: str, key: KeyFile, wait: float) -> bytes:
    """The body of an answer; an office that refuses the connection, or ends it, is asked again for so many seconds,
    since a query changes nothing. At a terminal this is said."""
    end, is_said = time.monotonic() + wait, not sys.stderr or not sys.stderr.isatty()
    while True:
        try:
            return body_of(url, path, key)
        except ConnectionError:
            if time.monotonic() >= end:
                raise
        if not is_said:
            say(Path(sys.argv[0]).name, f"{url}: no office answers yet; it is asked again for {wait:g} s")
            is_said = True
        time.sleep(ASK_AGAIN)


def meaning_of(body: bytes, query: str, words: Sequence[str], key: KeyFile = NONE) -> str:
    """What the refusal of a query means, to stand after its name; empty if the name says it, or there is none."""
    try:
        found = json.loads(body.decode())
        refused = found["http"] if found.get("http") in ("NoRoute", *NOT_ADMITTED) else found["refused"]
    except (ValueError, RecursionError, KeyError, TypeError, AttributeError):
        return ""
    if refused in NOT_ADMITTED:
        return f"; {key.missing(refused, right_for(path_of(query, words)))}"
    if refused == "NoRoute":
        return f"; it is older than the query {query}, which wb 0.1.0 has" if query in WHOLE else ""
    if refused == "BadName" and query == "by-state" and words[1] not in STATES:
        return f"; there is no state {words[1]!r}, and the states are {', '.join(STATES)}"
    meanings = {
        "UnknownArch": f"it has no architecture {words[0]}", "UnknownBuilder": f"it has no builder {words[0]}",
        "UnknownSource": f"{words[0]} has no record of {words[-1]}",
        "BadName": f"{' or '.join(map(repr, words))} is malformed",
    }
    return f"; {meanings[refused]}" if refused in meanings else ""


def ask(url: str, query: str, words: Sequence[str], wait: float = 0, key: KeyFile = NONE) -> Answer:
    """What a serving office answers to a query, to which this key is shown; one that does not serve yet has so many
    seconds to start. An OSError says that it does not answer, or that the key cannot be shown."""
    asked = " ".join([query, *words])
    try:
        body = body_in_time(url, path_of(query, words), key, wait)
    except BadKey:
        raise
    except OSError as why:
        raise OSError(why.errno, f"it does not answer: {why.strerror or why}", f"{url}, {asked}") from None
    except http.client.HTTPException as why:
        raise Refused(f"{url}, {asked}: this is no answer of an office: {type(why).__name__}") from None
    try:
        answer = read_answer(body)
    except Refused as why:
        raise type(why)(f"{url}, {asked}: {why}{meaning_of(body, query, words, key)}") from None
    if answer is None:
        raise Refused(f"{url}, {asked}: this is the answer to a command")
    return answer


def archs_of(url: str, wait: float = 0, key: KeyFile = NONE) -> list[str]:
    """The architectures of a serving office, by name; NoRoute if it is older than this query."""
    answer = ask(url, "archs", [], wait, key)
    if not isinstance(answer, Archs):
        raise Refused(f"{url}, archs: this is no answer to archs")
    return [one.arch for one in answer.archs]


def builders_of(url: str, wait: float = 0, key: KeyFile = NONE) -> list[str]:
    """The builders of a serving office, by name; NoRoute if it is older than this query."""
    answer = ask(url, "builders", [], wait, key)
    if not isinstance(answer, Builders):
        raise Refused(f"{url}, builders: this is no answer to builders")
    return list(dict.fromkeys(one.builder for one in answer.builders))


# ---- texts


def printable(text: str) -> str:
    """A text of one line that moves no cursor and turns no writing round: what is not printed is written as in JSON."""
    if text.isascii() and text.isprintable():
        return text
    return re.sub(r"[^ -\x7e]", lambda found: found[0] if found[0].isprintable() else escaped(found[0]), text)


def escaped(character: str) -> str:
    short = {"\t": "\\t", "\n": "\\n", "\r": "\\r"}
    code = ord(character)
    return short.get(character) or (f"\\u{code:04x}" if code < 0x10000 else f"\\U{code:08x}")


def width_of(text: str) -> int:
    """How many columns of a terminal a text of one line takes."""
    return (
        len(text)
        if text.isascii()
        else sum(
            0 if unicodedata.combining(one) else 2 if unicodedata.east_asian_width(one) in "WF" else 1 for one in text
        )
    )


def counted(number: int, what: str = "package") -> str:
    return f"{number:,} {what}s" if number > 1 else f"one {what}" if number else f"no {what}s"

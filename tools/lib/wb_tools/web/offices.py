"""Asks offices for a page of the site, within the time that the page has."""
import functools
import json
import re
import socket
import time
import urllib.parse
from typing import Any

from wb_tools.answers import STATES, WHOLE, Record, made, path_of
from wb_tools.keys import NOT_ADMITTED, BadKey
from wb_tools.lists import Refused
from wb_tools.web.settings import Suite

STOPPED, SLOW, ODD = 503, 504, 502


PART = 1 << 20  # bytes that are read at once
LENGTH = re.compile(rb"\r\ncontent-length: *([0-9]{1,18})(?=\r\n|$)", re.I)


class Fault(Exception):
    """Why an office gives no answer that can be shown, and the status of a page that has nothing else."""

    def __init__(self, suite: Suite, status: int, why: str) -> None:
        super().__init__(f"{suite.name}: {why}")
        self.status = status


def left_until(end: float) -> float:
    left = end - time.monotonic()
    if left <= 0:
        raise TimeoutError
    return left


def body_until(url: str, path: str, shown: str, end: float) -> bytes:
    """The body of an answer to a request with these fields, which has to be whole by a moment; a ValueError if it is
    none. An office answers one request a connection (docs/HTTP.md), and a page may ask it hundreds: http.client takes
    three times as long for each, and knows no end of all its parts."""
    parts = urllib.parse.urlsplit(url)
    with socket.create_connection((parts.hostname, parts.port), left_until(end)) as link:
        link.sendall(f"GET {path} HTTP/1.1\r\nHost: {parts.netloc}\r\n{shown}Connection: close\r\n\r\n".encode())
        head, body = b"", bytearray()
        while part := link.recv(PART):
            body += part
            if not head and b"\r\n\r\n" in body:
                head, _, rest = bytes(body).partition(b"\r\n\r\n")
                body, length = bytearray(rest), LENGTH.search(head)
            if head and length and len(body) >= int(length[1]):
                break
            link.settimeout(left_until(end))
    if not head.startswith(b"HTTP/1.") or length and len(body) != int(length[1]):
        raise ValueError("this is no answer, or was cut off")
    return bytes(body)


class Known:
    """What an office has been told of: its architectures and its builders. It is asked for them, once for a page,
    unless the settings name them."""

    def __init__(self, asker: "Asker", suite: Suite) -> None:
        self.asker, self.suite = asker, suite
        why = "the office is older than wb 0.1.0, and does not say its architectures: name them in ARCHS"
        self.is_older = Fault(suite, ODD, why)

    @functools.cached_property
    def archs(self) -> tuple[str, ...]:
        found = self.suite.archs or self.named("archs", "arch")
        if found is None:
            raise self.is_older
        return found

    @property
    def heard(self) -> tuple[str, ...]:
        """The architectures as far as the settings or an answer of the office have named them."""
        return self.suite.archs or self.__dict__.get("archs", ())

    @functools.cached_property
    def builders(self) -> tuple[str, ...] | None:
        """None if an older office does not say its builders: those of which the journal has a word are shown then."""
        return self.suite.builders or self.named("builders", "builder")

    def named(self, query: str, key: str) -> tuple[str, ...] | None:
        """The names that an office answers, or none if it does not know the query."""
        found = self.asker.ask(self.suite, query)
        names = found and [one.get(key) for one in found[query]]
        if names and not all(isinstance(name, str) for name in names):
            raise Fault(self.suite, ODD, f"this is no answer of an office to {query}")
        return None if names is None else tuple(dict.fromkeys(names))


class Asker:
    """Asks for one page. An office that failed once is not asked again for it."""

    def __init__(self, wait: float) -> None:
        self.wait, self.end = wait, time.monotonic() + wait
        self.faults: dict[str, Fault] = {}
        self.offices: dict[str, Known] = {}

    def known(self, suite: Suite) -> Known:
        """The architectures and builders of an office."""
        return self.offices.setdefault(suite.name, Known(self, suite))

    def ask(self, suite: Suite, query: str, *words: str) -> dict[str, Any] | None:
        """The object that an office answers to a query, or none if it refuses it, or is too old to know it."""
        if suite.name in self.faults:
            raise self.faults[suite.name]
        try:
            return self.answered(suite, query, words)
        except Fault as fault:
            self.faults[suite.name] = fault
            raise

    def answered(self, suite: Suite, query: str, words: tuple[str, ...]) -> dict[str, Any] | None:
        try:
            found = json.loads(body_until(suite.url, path_of(query, words), suite.key.lines(), self.end))
        except BadKey:
            raise Fault(suite, STOPPED, "the site cannot show the office its key, that of KEY_FILE") from None
        except TimeoutError:
            raise Fault(suite, SLOW, f"the office does not answer within {self.wait:g} seconds") from None
        except OSError as why:
            raise Fault(suite, STOPPED, f"the office does not answer: {why.strerror or why}") from None
        except (ValueError, RecursionError):
            raise Fault(suite, ODD, f"this is no answer of an office to {query}") from None
        if query in WHOLE and isinstance(found, dict) and found.get("http") == "NoRoute":
            return None
        if isinstance(found, dict) and found.get("http") in NOT_ADMITTED:
            why = f"the office answers {found['http']}: it wants a key with the right read, that of KEY_FILE"
            raise Fault(suite, STOPPED, why)
        if not isinstance(found, dict) or "fault" in found or "http" in found:
            raise Fault(suite, ODD, f"the office answers {json.dumps(found)[:200]} to {query}")
        if found.get("refused") in ("Memory", "Store", "Closed"):
            raise Fault(suite, STOPPED, f"the office answers {found['refused']}")
        return None if "refused" in found else self.checked(suite, query, found)

    def checked(self, suite: Suite, query: str, found: dict[str, Any]) -> dict[str, Any]:
        """An answer that has what a page shows of it; the records of a long list are checked once they are shown."""
        lists = {"queue": "queue", "by-state": "records", "mine": "records", "archs": "archs", "builders": "builders"}
        texts = {"depends": "depends"}
        key = lists.get(query)
        counts = found.get("counts")
        is_good = not key or isinstance(found.get(key), list) and all(type(one) is dict for one in found[key])
        if query == "summary":
            is_good = isinstance(counts, dict) and all(type(counts.get(state)) is int for state in STATES)
            is_good = is_good and type(found.get("accepted")) is int
        if not is_good or query in texts and not isinstance(found.get("depends"), (str, type(None))):
            raise Fault(suite, ODD, f"this is no answer of an office to {query}")
        return found

    def record(self, suite: Suite, found: dict[str, Any]) -> Record:
        """A record, if it has the form of one."""
        try:
            record: Record = made(Record, found)
            return record
        except Refused:
            raise Fault(suite, ODD, "this is no record of an office") from None

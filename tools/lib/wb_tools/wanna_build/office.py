"""Requests to a serving office, for tools/bin/wanna-build and others."""
from __future__ import annotations

import json
import re
import socket
import time
from collections.abc import Mapping
from dataclasses import dataclass
from typing import Any

from wb_tools.keys import NONE, NOT_ADMITTED, BadKey, KeyFile, right_for

# Refusals after which the command may stand, or is to be sent again: the office has no memory or no store, or has to be
# opened again.
TRANSIENT = {"Memory", "Closed", "Store"}
# Faults of a connection that broke off, or of a program that does not know the request.
BROKEN = {"BadHead", "BodyCut", "HeadTooLarge"}
OTHER = {"NoRoute", "WrongMethod"}
# Refusals of an office that was not set up, or that is another one: what was sent is kept until it is.
NOT_SET_UP = {"UnknownArch", "UnknownBuilder", "WrongArch"}
MOST = 1 << 30  # bytes of an answer
UNRESERVED = b"abcdefghijklmnopqrstuvwxyzABCDEFGHIJKLMNOPQRSTUVWXYZ0123456789-._~"  # RFC 3986, section 2.3

Record = Mapping[str, Any]


class NoAnswer(Exception):
    """There is no answer, or none that says what became of the request: it is to be sent again."""


class NotKnown(NoAnswer):
    """What serves does not know the request: it is no office, or an older one."""


class NotSent(NoAnswer):
    """No connection was made: the office did not get the request."""


class NotAdmitted(NotSent):
    """The key cannot be shown, or the office does not let it through: nothing was carried out, and it is in vain to ask
    again before that is mended."""


@dataclass(frozen=True)
class Refusal:
    """What an office refused, in its own word."""

    name: str
    more: Record

    def __str__(self) -> str:
        if self.is_for_want_of_a_key:
            return f"the office answered {self.name}: {self.more['missing']}"
        said = [f"{key} {value}" for key, value in self.more.items() if key not in ("code", "refused")]
        return f"the office answered {self.name}" + (f" ({', '.join(said)})" if said else "")

    @property
    def is_for_want_of_a_key(self) -> bool:
        return self.name in NOT_ADMITTED


class Office:
    """A serving office, on a port of this machine, and the key that is shown to it. A report names no builder, so
    `builder` is whose key a message says is missing."""

    def __init__(self, port: int, seconds: float, key: KeyFile = NONE, builder: str = "BUILDER") -> None:
        self.port, self.seconds, self.key, self.builder = port, seconds, key, builder

    def ask(self, method: str, path: str, body: Record | None = None) -> Record | Refusal:
        """What is answered to a request, if it is answered whole."""
        rest = self.answer(method, path, None if body is None else json.dumps(body).encode())
        try:
            said = json.loads(rest)
        except (ValueError, RecursionError):
            said = None
        if not isinstance(said, dict):
            raise NoAnswer(f"what answers on port {self.port} of 127.0.0.1 is no office")
        if said.get("http") in NOT_ADMITTED:
            right = right_for(path, {"builder": self.builder, **(body or {})})
            return Refusal(said["http"], {"missing": self.key.missing(said["http"], right)})
        return self.judged(said, f"{method} {path}")

    def answer(self, method: str, path: str, text: bytes | None = None) -> bytes:
        """The bytes that are answered to a request with this body, if they are answered whole."""
        length = f"Content-Length: {len(text)}\r\n" if text is not None else ""
        try:
            shown = self.key.lines()
        except BadKey as error:
            raise NotAdmitted(f"{error.filename}: {error.strerror}") from None
        head = f"{method} {path} HTTP/1.1\r\nHost: 127.0.0.1\r\n{shown}{length}Connection: close\r\n\r\n"
        try:
            answer = self.exchange(head.encode() + (text or b""))
        except OSError as error:
            raise NoAnswer(f"no answer from port {self.port} of 127.0.0.1: {error}") from None
        head_of, _, rest = answer.partition(b"\r\n\r\n")
        said_length = re.search(rb"(?i)\r\ncontent-length: *([0-9]+)", head_of)
        if not said_length or int(said_length[1]) != len(rest):
            raise NoAnswer(f"no answer, or a part of one, from port {self.port} of 127.0.0.1")
        return rest

    def connect(self) -> socket.socket:
        try:
            return socket.create_connection(("127.0.0.1", self.port), timeout=self.seconds)
        except OSError as error:
            raise NotSent(f"no answer from port {self.port} of 127.0.0.1: {error}") from None

    def exchange(self, request: bytes) -> bytes:
        """All that is answered until the connection is closed."""
        end = time.monotonic() + self.seconds
        parts, size = [], 0
        with self.connect() as link:
            link.sendall(request)
            while part := link.recv(1 << 16):
                parts.append(part)
                size += len(part)
                if size > MOST:
                    raise OSError("the answer is too long")
                link.settimeout(max(0.1, end - time.monotonic()))
        return b"".join(parts)

    def judged(self, said: Record, asked: str) -> Record | Refusal:
        fault = said.get("http")
        if fault in OTHER:
            raise NotKnown(f"what serves on port {self.port} does not know {asked}: is it an office, and new enough?")
        if fault in BROKEN or said.get("refused") in TRANSIENT:
            raise NoAnswer(f"the office on port {self.port} answered {fault or said['refused']}")
        if fault or "refused" in said:
            return Refusal(str(fault or said["refused"]), said)
        return said

    def get(self, *parts: str) -> Record | Refusal:
        return self.ask("GET", "/v1/" + "/".join(encoded(part) for part in parts))

    def post(self, command: str, **body: Any) -> Refusal | None:
        """Sends a command; none if it was accepted."""
        said = self.ask("POST", f"/v1/{command}", body)
        return said if isinstance(said, Refusal) else None

    # -- what is asked for by name

    def item(self, arch: str, source: str) -> Record | Refusal:
        return self.get("item", arch, source)

    def mine(self, builder: str) -> list[Record] | Refusal:
        return listed(self.get("mine", builder), "records")

    def archs(self) -> list[Record] | Refusal:
        return listed(self.get("archs"), "archs")

    def queue(self, arch: str) -> list[Record] | Refusal:
        return listed(self.get("queue", arch), "queue")

    def in_state(self, arch: str, state: str) -> list[Record] | Refusal:
        return listed(self.get("state", arch, state), "records")


def encoded(part: str) -> str:
    """A part of a path (RFC 3986, section 2.1)."""
    return "".join(chr(byte) if byte in UNRESERVED else f"%{byte:02X}" for byte in part.encode(errors="replace"))


def listed(said: Record | Refusal, key: str) -> list[Record] | Refusal:
    if isinstance(said, Refusal):
        return said
    found = said.get(key)
    if not isinstance(found, list):
        raise NoAnswer(f"the answer has no {key}: is it an office?")
    return found


def another_version(record: Record) -> str:
    """What is said of a version that is not that of a record; it may differ in the number of a rebuild alone."""
    return f"the office has version {record['build']}"


def held_by(record: Record) -> str:
    return f", held by {record['holder']}" if record["holder"] else ""


def is_of(record: Record, version: str) -> bool:
    """Whether a version, as buildd names it, is that of a record: of the source, or of what is built of it."""
    return version in (record.get("version"), record.get("build"))

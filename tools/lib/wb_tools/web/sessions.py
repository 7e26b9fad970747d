"""Who acts on the site: the keys that porters gave in their browsers. They are held in this process alone, each session
under a random identifier that the browser's cookie has, until it is forgotten or not used for a while."""
from __future__ import annotations

import hashlib
import hmac
import secrets
import threading
import time
from collections import OrderedDict, deque
from collections.abc import Callable, Mapping
from dataclasses import dataclass, field

from wb_tools.keys import KeyFile

MOST = 1000  # sessions that are held at once
OF_ONE_KEY = 10  # of them, those in which one key was given
LONGEST = 12 * 3600  # seconds of a session, however much it is used
SENT = 200  # forms of a session of which it is known that they were sent


@dataclass(frozen=True, repr=False)
class GivenKey(KeyFile):
    """A key that somebody gave on a page. It stands in no file, and in no text that is made of this."""

    text: str = field(default="", repr=False)

    def __repr__(self) -> str:
        return f"GivenKey({self.digits})"

    @property
    def digits(self) -> str:
        """The first digits of its hash, by which `wb-office key list` names it."""
        return hashlib.sha256(self.text.encode()).hexdigest()[:8]

    def read(self) -> str:
        return self.text

    def missing(self, fault: str, right: str) -> str:
        return "your key is on no line of its keys" if fault == "NoKey" else f"your key lacks the right {right}"


@dataclass(frozen=True)
class Right:
    """The key that was given for an office, and the architectures of which it may say what porters say."""

    key: GivenKey
    archs: frozenset[str]


@dataclass
class Session:
    """What one browser may do. `token` stands in each of its forms."""

    rights: Mapping[str, Right]
    begun: float
    used: float
    token: str = field(default_factory=lambda: secrets.token_urlsafe(32), repr=False)
    sent: deque[str] = field(default_factory=lambda: deque(maxlen=SENT), repr=False)
    lock: threading.Lock = field(default_factory=threading.Lock, repr=False)

    def may(self, suite: str, arch: str) -> bool:
        return suite in self.rights and arch in self.rights[suite].archs

    def has_token(self, text: str) -> bool:
        """Whether a form has the token of this session; how long that takes says nothing of it."""
        return hmac.compare_digest(text.encode(), self.token.encode())

    def begin(self, once: str) -> bool:
        """Whether a form is sent for the first time."""
        with self.lock:
            is_first = once not in self.sent
            if is_first:
                self.sent.append(once)
            return is_first

    def release(self, once: str) -> None:
        """Lets a form be sent again of which nothing was carried out."""
        with self.lock:
            if once in self.sent:
                self.sent.remove(once)

    @property
    def digits(self) -> list[str]:
        """The first digits of the hashes of its keys, each once."""
        return sorted({right.key.digits for right in self.rights.values()})


class Sessions:
    """The sessions that are held, those that were used last at the end. One ends after `idle` seconds without use. If
    there are too many, that which was not used for the longest ends."""

    def __init__(self, idle: float, clock: Callable[[], float] = time.monotonic) -> None:
        self.idle, self.clock = idle, clock
        self.held: OrderedDict[str, Session] = OrderedDict()
        self.lock = threading.Lock()

    def begin(self, rights: Mapping[str, Right], begun: float | None = None) -> str:
        """The identifier of a new session, which is kept nowhere: only its hash is. `begun` is that of the session from
        which a key is taken over."""
        identifier, now = secrets.token_urlsafe(32), self.clock()
        with self.lock:
            self.end_some(now)
            for digits in {right.key.digits for right in rights.values()}:
                same = [name for name, one in self.held.items() if digits in one.digits]
                for name in same[: max(0, len(same) - OF_ONE_KEY + 1)]:
                    del self.held[name]
            while len(self.held) >= MOST:
                self.held.popitem(last=False)
            self.held[hash_of(identifier)] = Session(rights, now if begun is None else begun, now)
        return identifier

    def end_some(self, now: float) -> None:
        """Forgets the sessions that have ended."""
        ended = [name for name, one in self.held.items() if now - one.used >= self.idle or now - one.begun >= LONGEST]
        for name in ended:
            del self.held[name]

    def of(self, identifier: str) -> Session | None:
        """The session of a cookie, which is used by that; none if there is none, or if it has ended."""
        if not identifier:
            return None
        with self.lock:
            now = self.clock()
            self.end_some(now)
            found = self.held.get(hash_of(identifier))
            if found:
                found.used = now
                self.held.move_to_end(hash_of(identifier))
            return found

    def forget(self, identifier: str) -> None:
        with self.lock:
            self.held.pop(hash_of(identifier), None)


def hash_of(identifier: str) -> str:
    return hashlib.sha256(identifier.encode(errors="replace")).hexdigest()

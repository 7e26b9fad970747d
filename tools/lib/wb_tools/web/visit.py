"""One request to the site: what it asks of offices and indexes, and what of it failed."""
import contextlib
import sqlite3
from collections.abc import Iterator, Mapping
from typing import Any

from wb_tools.answers import Record
from wb_tools.index import tables
from wb_tools.index.asking import Index, Since
from wb_tools.journal import Key, time_of
from wb_tools.lists import Refused
from wb_tools.web.offices import Asker, Fault, Known
from wb_tools.web.orders import Marked
from wb_tools.web.sessions import Session
from wb_tools.web.settings import Settings, Suite
from wb_tools.web.tables import Column, Row

FOUND, UNKNOWN = 200, 404


class Visit:
    """What one request asks, over all suites or that which its address names, by whoever gave a key, if somebody did.
    `marked` says which rows are marked at first: all, or those of a state."""

    def __init__(
        self, settings: Settings, args: Mapping[str, str], now: int, acting: Session | None = None
    ) -> None:
        self.settings, self.now, self.acting = settings, now, acting
        self.args = {key: value for key, value in args.items() if key != "marked"}
        self.marked = args.get("marked", "")
        self.asker = Asker(settings.wait)
        self.faults: list[Fault] = []
        self.notes: list[str] = []  # what is said above a page besides
        self.heard: set[str] = set()  # the suites whose offices answered all that they were asked
        self.indexes: dict[str, Index | None] = {}
        self.queues: dict[tuple[str, str], list[str]] = {}
        self.boxes: dict[str, dict[str, Row]] = {}  # of the cells of packages, by their names and the cells' columns

    def suites(self) -> list[Suite]:
        """The suites that the page is of: that which its address names, else all."""
        named = self.args.get("suite")
        return [suite for suite in self.settings.suites if named in (None, "", suite.name)]

    @property
    def is_of_several(self) -> bool:
        return len(self.settings.suites) > 1

    def columns(self, *columns: Column) -> list[Column]:
        """Columns of a table, with that of suites if there are several."""
        return [*([Column("suite", "Suite", "suite")] if self.is_of_several else []), *columns]

    @contextlib.contextmanager
    def of(self, suite: Suite) -> Iterator[None]:
        """What of a suite fails within is noted, and the page goes on with the others."""
        try:
            yield
        except Fault as fault:
            self.heard.discard(suite.name)
            if fault not in self.faults:
                self.faults.append(fault)
        except sqlite3.Error as why:
            self.notes.append(f"{suite.name}: the history cannot be read: {why}")

    def close(self) -> None:
        for index in filter(None, self.indexes.values()):
            index.connection.close()

    # ---- offices

    def known(self, suite: Suite) -> Known:
        return self.asker.known(suite)

    def archs_heard(self) -> list[str]:
        """The architectures of all suites that the settings name, or for which the page has asked."""
        heard = [arch for suite in self.settings.suites for arch in self.known(suite).heard]
        return list(dict.fromkeys(heard))

    def ask(self, suite: Suite, query: str, *words: str) -> dict[str, Any] | None:
        """What an office answers, or none if it refuses the query."""
        found = self.asker.ask(suite, query, *words)
        self.heard.add(suite.name)
        return found

    def queued(self, suite: Suite, arch: str) -> list[str]:
        """The names of what waits in a queue, which is asked for once."""
        if (suite.name, arch) not in self.queues:
            found = self.ask(suite, "queue", arch)
            self.queues[suite.name, arch] = [str(one.get("source")) for one in found["queue"]] if found else []
        return self.queues[suite.name, arch]

    def record(self, suite: Suite, found: dict[str, Any]) -> Record:
        return self.asker.record(suite, found)

    def box(self, suite: Suite, record: Record) -> Row | None:
        """The box by which a record is marked; none if nobody acts here, or not on its architecture."""
        if self.acting is None or not self.acting.may(suite.name, record.arch):
            return None
        take = "-" if record.take is None else str(record.take)
        one = Marked(suite.name, record.arch, record.source, record.version, record.build, record.state, take)
        return {"text": one.text(), "state": one.state, "is_marked": self.marked in ("all", one.state)}

    def status(self, is_known: bool) -> int:
        """The status of the page: that of the fault if no office answered all; or unknown, if nothing is known of what
        it is about."""
        if self.faults and not self.heard:
            return self.faults[0].status
        return FOUND if is_known else UNKNOWN

    # ---- indexes

    def index(self, suite: Suite) -> Index | None:
        """The index of a suite's journal, if there is one that can be read."""
        if suite.name not in self.indexes:
            self.indexes[suite.name] = self.opened(suite)
        return self.indexes[suite.name]

    def opened(self, suite: Suite) -> Index | None:
        if suite.index is None:
            return None
        try:
            return Index(tables.open_to_read(suite.index))
        except (OSError, Refused) as why:
            said = why.strerror if isinstance(why, OSError) else why
            self.notes.append(f"{suite.name}: there is no history: {said}")
            return None

    def mind_lag(self, suite: Suite, accepted: int) -> None:
        """Notes an index that ends before the office does."""
        index = self.index(suite)
        _, last = index.ends() if index else (None, None)
        if last and last[0] < accepted:
            behind = f"{accepted - last[0]:,} command{'s' if accepted - last[0] > 1 else ''}"
            said = f"the history ends {behind} ago, at {time_of(last[1])}; what came since has no time"
            self.notes.append(f"{suite.name}: {said}")

    def ask_accepted(self, suite: Suite) -> None:
        """Compares an office with its index."""
        archs = self.known(suite).archs if suite.index is not None else ()
        if archs:
            found = self.ask(suite, "summary", archs[0])
            if found:
                self.mind_lag(suite, found["accepted"])

    def since(self, suite: Suite, key: Key, state: str, take: int | None) -> Row | None:
        """Since when a package is in its state."""
        index = self.index(suite)
        return self.time_since(index.since(key, state, take) if index else None)

    def time_since(self, since: Since | None) -> Row | None:
        if since is None:
            return None
        age = max(0, self.now - since.at) if since.is_exact else None
        return {"at": time_of(since.at), "is_exact": since.is_exact, "age": age}

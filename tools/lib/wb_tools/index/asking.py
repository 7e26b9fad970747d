"""Asks an index: what became of packages, since when they are in their states, and what builders did."""
import functools
import sqlite3
import statistics
from collections.abc import Iterable, Iterator, Mapping, Sequence
from dataclasses import dataclass, replace
from typing import Any

from wb_tools.answers import HELD
from wb_tools.index.writing import COLUMNS, Place
from wb_tools.journal import Key, day_of


@dataclass(frozen=True, slots=True)
class Event:
    """What a line says of a package; the table `event` has the same columns."""

    id: int
    accepted: int
    at: int
    arch: str | None
    source: str | None
    command: str
    was: str | None
    state: str | None
    version: str
    build: str
    builder: str | None
    take: int | None
    by: str | None
    text: str


@dataclass(frozen=True, slots=True)
class Since:
    """Since when a package is in its state: since a time; or before a time, if the journal begins later, lacks a line,
    or does not name what a merge or a report moved; in seconds."""

    at: int
    is_exact: bool


@dataclass(frozen=True, slots=True)
class Build:
    """A hand-out, with what ended it if something did; the table `build` has the same columns."""

    id: int
    accepted: int
    arch: str
    source: str
    version: str
    build: str
    builder: str | None
    take: int | None
    started: int
    ended: int | None
    command: str | None
    result: str
    took: int | None
    text: str

    @property
    def key(self) -> Key:
        return self.arch, self.source

    @property
    def is_done(self) -> bool:
        return self.command in ("built", "uploaded")


@dataclass(frozen=True, slots=True)
class LastBuild:
    """The last hand-out of a package in a version, and how many of those in this version failed."""

    id: int
    builder: str | None
    failures: int


@dataclass(frozen=True, slots=True)
class Import:
    """A merge or a report, for an architecture; the table `import` has the same columns."""

    accepted: int
    at: int
    command: str
    arch: str
    by: str | None
    text: str


@dataclass(frozen=True, slots=True)
class Gap:
    """Two lines one after another whose counts are not: commands are missing between them, or the office went back to
    an older state. Before the first line there is none."""

    before: Place | None
    after: Place

    @property
    def missing(self) -> int:
        """How many commands are missing, or 0 if the office went back."""
        return max(0, self.after[0] - (self.before[0] if self.before else 0) - 1)


@dataclass(frozen=True, slots=True)
class Resting:
    """A package where the journal last saw it, with the event that led there."""

    key: Key
    event: Event
    since: Since


def where(columns: Mapping[str, object]) -> tuple[str, list[object]]:
    """The condition that these columns have these values, those without a value left out."""
    given = {name: value for name, value in columns.items() if value is not None}
    return " AND ".join(["1", *(f"{name} = ?" for name in given)]), list(given.values())


TIMES = ("at", "started")  # columns in the order of ids


def marks(values: Sequence[object]) -> str:
    """What stands for so many values in a statement."""
    return ", ".join("?" * len(values))


class Index:
    """An index to be asked."""

    def __init__(self, connection: sqlite3.Connection) -> None:
        self.connection = connection

    def rows(self, statement: str, values: Sequence[object] = ()) -> Iterator[Any]:
        return iter(self.connection.execute(statement, values))

    # ---- the journal

    def ends(self) -> tuple[Place | None, Place | None]:
        """The first entry and the last one, each as its count and its time."""
        found = next(self.rows("SELECT first_accepted, first_at, last_accepted, last_at FROM reading"))
        return (found[:2], found[2:]) if found[0] is not None else (None, None)

    def gaps(self) -> list[Gap]:
        rows = self.rows("SELECT * FROM gap ORDER BY rowid")
        return [Gap(row[:2] if row[0] is not None else None, row[2:]) for row in rows]

    def faults(self) -> list[tuple[str, bool]]:
        """The lines that could not be read, and whether each was cut off."""
        return [(place, bool(is_cut)) for place, is_cut in self.rows("SELECT place, is_cut FROM fault ORDER BY rowid")]

    # ---- events

    def events(self, condition: str, values: Sequence[object] = (), more: str = "") -> list[Event]:
        columns = ", ".join(COLUMNS)
        return [Event(*row) for row in self.rows(f"SELECT {columns} FROM event WHERE {condition} {more}", values)]

    def history(self, key: Key) -> list[Event]:
        """What the journal says of a package, in the order of its lines."""
        return self.events("source = ? AND arch = ?", (key[1], key[0]), "ORDER BY id")

    def latest(self, limit: int, condition: str, values: Sequence[object]) -> list[Event]:
        """So many events that meet a condition, the last first."""
        return self.events(condition, (*values, limit), "ORDER BY id DESC LIMIT ?")

    def places(
        self, table: str, order: tuple[str, bool], part: tuple[int, int], condition: str, values: Sequence[object]
    ) -> list[tuple[Any, int]]:
        """Where the rows of a table stand that meet a condition, sorted by a column, the greatest first if that is
        said, what has no value last: so many after so many others, each as its value and its id. The rows themselves
        are not sorted: they are wide."""
        column, is_down = order
        down = "DESC" if is_down else "ASC"
        by = f"id {down}" if column in TIMES else f"{column} IS NULL OR {column} = '', {column} {down}, id DESC"
        statement = f"SELECT {column}, id FROM {table} WHERE {condition} ORDER BY {by} LIMIT ? OFFSET ?"
        return list(self.rows(statement, (*values, *part)))

    def events_of(self, ids: Sequence[int]) -> dict[int, Event]:
        """The events of these ids."""
        return {event.id: event for event in self.events(f"id IN ({marks(ids)})", ids)}

    def builds_of(self, ids: Sequence[int]) -> dict[int, Build]:
        """The builds of these ids."""
        rows = self.rows(f"SELECT * FROM build WHERE id IN ({marks(ids)})", ids)
        return {row[0]: Build(*row) for row in rows}

    def count(self, table: str, condition: str, values: Sequence[object]) -> int:
        """How many rows of a table meet a condition."""
        return int(next(self.rows(f"SELECT count(*) FROM {table} WHERE {condition}", values))[0])

    def imports(self, arch: str) -> list[Import]:
        """The merges and reports of an architecture."""
        rows = self.rows("SELECT * FROM import WHERE arch = ? ORDER BY accepted", (arch,))
        return [Import(*row) for row in rows]

    def is_doubted(self, one: Import) -> bool:
        """Whether a merge or a report does not say what it moved."""
        condition = "accepted = ? AND arch = ?"
        return bool(list(self.rows(f"SELECT 1 FROM doubt WHERE {condition} LIMIT 1", (one.accepted, one.arch))))

    def may_have_moved(self, arch: str, accepted: int, *names: str) -> bool:
        """Whether a merge or a report of these names came after so many accepted commands and does not say what it
        moved. A merge may move any package, and end a hold; a report may move what waits."""
        last = self.unnamed.get(arch, {})
        return any(last.get(name, 0) > accepted for name in names)

    def is_unseen_since(self, accepted: int) -> bool:
        """Whether lines are missing after so many accepted commands: they may have moved any package."""
        return self.last_gap > accepted

    @functools.cached_property
    def last_gap(self) -> int:
        """The count at the last line before which lines are missing, or which tells of a hand-out that has none."""
        return int(next(self.rows("SELECT coalesce(max(accepted), 0) FROM doubt WHERE arch IS NULL"))[0])

    @functools.cached_property
    def unnamed(self) -> dict[str, dict[str, int]]:
        """The count at the last merge and the last report of each architecture that does not say what it moved."""
        found: dict[str, dict[str, int]] = {}
        statement = """SELECT import.arch, command, max(import.accepted) FROM import
          JOIN doubt ON doubt.accepted = import.accepted AND doubt.arch = import.arch GROUP BY 1, 2"""
        for arch, command, accepted in self.rows(statement):
            found.setdefault(arch, {})[command] = accepted
        return found

    def archs(self) -> list[str]:
        """The architectures that the journal names."""
        rows = self.rows("SELECT DISTINCT arch FROM package UNION SELECT DISTINCT arch FROM import ORDER BY arch")
        return [arch for (arch,) in rows]

    # ---- since when

    def since(self, key: Key, state: str, take: int | None = None) -> Since | None:
        """Since when a package is in the state that the office says, if the journal knows it: nothing if the journal
        has no line that may have led there."""
        if take is not None and state in HELD:
            found = self.events("take = ? AND state = ?", (take, state), "ORDER BY id DESC LIMIT 1")
            if found and (found[0].source is None or (found[0].arch, found[0].source) == key):
                return Since(found[0].at, True)
        condition = "arch = ? AND source = ?"
        rows = self.rows(f"SELECT accepted, at, is_exact, state FROM package WHERE {condition}", key)
        return since_of(next(rows, None), state, self.doubts(key[0], state))

    def doubts(self, arch: str, state: str) -> Place | None:
        """The last line by which a package may have come into a state without being named."""
        condition = "(arch IS NULL OR arch = ?) AND (state IS NULL OR state = ?)"
        rows = self.rows(f"SELECT accepted, at FROM doubt WHERE {condition} ORDER BY rowid DESC LIMIT 1", (arch, state))
        return next(rows, None)

    def since_each(self, arch: str, state: str, takes: Mapping[str, int | None]) -> dict[str, Since | None]:
        """The same for each of the packages that the office has in a state, by name, with their take numbers."""
        last = self.doubts(arch, state)
        unnamed = since_of(None, state, last)
        rows = self.rows("SELECT source, accepted, at, is_exact, state FROM package WHERE arch = ?", (arch,))
        known = {row[0]: since_of(row[1:], state, last) for row in rows if row[0] in takes}
        found = {name: known.get(name, unnamed) for name in takes}
        held = self.held_since(state)
        found |= {name: Since(held[take], True) for name, take in takes.items() if take in held}
        return found

    def times_each(self, arch: str, state: str, takes: Mapping[str, int | None]) -> dict[str, int | None]:
        """The times of the same alone, of the packages of which something is known, and perhaps of others; quicker, as
        a list is sorted by them."""
        if self.doubts(arch, state):
            return {name: one.at for name, one in self.since_each(arch, state, takes).items() if one}
        found = dict(self.rows("SELECT source, at FROM package WHERE arch = ? AND state = ?", (arch, state)))
        held = self.held_since(state)
        return found | {name: held[take] for name, take in takes.items() if take in held} if held else found

    def held_since(self, state: str) -> dict[int, int]:
        """Since when each hand-out is in a state, by its take number, if packages are held in it."""
        if state not in HELD:
            return {}
        statement = "SELECT take, max(id), at FROM event WHERE take IS NOT NULL AND state = ? GROUP BY take"
        return {take: at for take, _, at in self.rows(statement, (state,))}

    def resting(self, states: Sequence[str], arch: str | None = None) -> Iterator[Resting]:
        """What the journal last saw in these states."""
        columns = ", ".join(f"event.{name}" for name in COLUMNS)
        statement = f"SELECT package.accepted, package.at, is_exact, {columns} FROM package JOIN event ON id = event"
        condition = f"package.state IN ({marks(states)}) AND (? IS NULL OR package.arch = ?)"
        for row in self.rows(f"{statement} WHERE {condition} ORDER BY id", (*states, arch, arch)):
            event = self.as_led(Event(*row[3:]), row[0])
            yield Resting((event.arch or "", event.source or ""), event, Since(row[1], bool(row[2])))

    def as_led(self, event: Event, accepted: int) -> Event:
        """An event with what was said of its state by the line of this count, which led there: a merge that changes
        another field leaves the holder and the note as they are."""
        if event.accepted == accepted:
            return event
        values = (event.source, event.arch, accepted)
        led = self.events("source = ? AND arch = ? AND accepted = ?", values, "ORDER BY id DESC LIMIT 1")
        kept = {name: getattr(led[0], name) for name in ("builder", "take", "text")} if led else {}
        return replace(event, **kept)

    def oldest(self, arch: str, state: str) -> list[str]:
        """What the journal last saw in a state, the longest first."""
        rows = self.rows("SELECT source FROM package WHERE arch = ? AND state = ? ORDER BY at, source", (arch, state))
        return [source for (source,) in rows]

    def names_with(self, text: str) -> list[str]:
        """The names of packages that have a text in them and a record, as far as the journal knows."""
        condition = "instr(source, ?) AND state != ''"
        rows = self.rows(f"SELECT DISTINCT source FROM package WHERE {condition} ORDER BY source", (text,))
        return [source for (source,) in rows]

    # ---- builds

    def builds(self, more: str = "ORDER BY id", **columns: object) -> Iterator[Build]:
        """The hand-outs whose columns have these values, in their order."""
        condition, values = where(columns)
        for row in self.rows(f"SELECT * FROM build WHERE {condition} {more}", values):
            yield Build(*row)

    def last_builds(self, arch: str) -> dict[tuple[str, str], LastBuild]:
        """The last hand-out of each package of an architecture, by its name and the version of its binaries."""
        statement = """SELECT source, CASE build WHEN '' THEN version ELSE build END AS built, max(id), builder,
          sum(result = 'failed') FROM build WHERE arch = ? GROUP BY source, built"""
        return {(source, built): LastBuild(*last) for source, built, *last in self.rows(statement, (arch,))}

    def results_of(self, builder: str) -> dict[str, dict[str, list[int | None]]]:
        """How long each build of a builder took, by architecture and result."""
        found: dict[str, dict[str, list[int | None]]] = {}
        rows = self.rows("SELECT arch, result, took FROM build WHERE builder = ? ORDER BY arch", (builder,))
        for arch, result, took in rows:
            found.setdefault(arch, {}).setdefault(result, []).append(took)
        return found

    def last_heard(self) -> dict[str, int]:
        """When each builder last asked for a package or reported on one."""
        statement = """WITH RECURSIVE name(one) AS (SELECT min(builder) FROM event WHERE builder > '' UNION ALL
          SELECT (SELECT min(builder) FROM event WHERE builder > one) FROM name WHERE one IS NOT NULL)
          SELECT one, (SELECT at FROM event WHERE builder = one ORDER BY id DESC LIMIT 1) FROM name
          WHERE one IS NOT NULL"""
        return dict(self.rows(statement))

    def ends_by_day(self, since: int = 0) -> dict[str, dict[str, dict[str, int]]]:
        """How many builds ended well or failed on each day, by architecture and result."""
        found: dict[str, dict[str, dict[str, int]]] = {}
        statement = """SELECT ended / 86400, arch, result = 'failed', count(*) FROM build
          WHERE ended >= ? AND (result = 'failed' OR command IN ('built', 'uploaded')) GROUP BY 1, 2, 3"""
        for day, arch, is_failed, count in self.rows(statement, (since,)):
            counts = found.setdefault(day_of(day * 86400), {}).setdefault(arch, {})
            counts["failed" if is_failed else "built"] = count
        return found

    def built_by_day(self) -> dict[str, dict[str, int]]:
        """How many builds ended well on each day on which one did, by architecture."""
        found: dict[str, dict[str, int]] = {}
        for day, archs in self.ends_by_day().items():
            for arch in (arch for arch in archs if "built" in archs[arch]):
                found.setdefault(day, {})[arch] = archs[arch]["built"]
        return found

    def moves_by_day(self, arch: str | None, since: int = 0) -> dict[str, dict[str, int]]:
        """How many packages came into each state on each day on which one did."""
        found: dict[str, dict[str, int]] = {}
        statement = """SELECT at / 86400, state, count(*) FROM event
          WHERE at >= ? AND state != '' AND was IS NOT state AND (? IS NULL OR arch = ?) GROUP BY 1, 2 ORDER BY 1"""
        for day, state, count in self.rows(statement, (since, arch, arch)):
            found.setdefault(day_of(day * 86400), {})[state] = count
        return found


def since_of(known: Sequence[Any] | None, state: str, doubt: Place | None) -> Since | None:
    """Since when a package is in a state, by where the journal last saw it (the count, the time, whether this is exact,
    and the state) and by the last line that may have led there without naming it."""
    if known and doubt and doubt[0] <= known[0]:
        doubt = None
    if known and known[3] == state and not doubt:
        return Since(known[1], bool(known[2]))
    return Since(doubt[1] + 1, False) if doubt else None


def median_of(seconds: Iterable[int]) -> int | None:
    found = list(seconds)
    return int(statistics.median(found)) if found else None

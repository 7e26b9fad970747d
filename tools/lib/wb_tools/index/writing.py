"""Enters the lines of a journal into its index."""
import operator
import sqlite3
from typing import Any

from wb_tools.journal import (
    GREATEST, HAND_OUTS, IMPORTS, REMOVES_ALL, STATE_AFTER, STAYS, Change, Entry, Key, changes_in, parts_in, text_in,
)

# How a builder's report ends a build; all else that ends one is `other`.
ENDS = {"built": "built", "uploaded": "built", "attempted": "failed", "waits": "waited", "put-back": "put_back"}
# The states into which a merge and a report may lead.
LEADS = {"merge": ("Installed", "Needs-Build"), "report": ("Needs-Build", "BD-Uninstallable")}
COUNTS = ("added", "changed", "kept", "removed", "refused")  # what the answer to a merge or a report counts
Place = tuple[int, int]  # a count of accepted commands, and when the last of them was


FLUSH = 20000  # events that are kept until they are written together
Row = dict[str, Any]

COLUMNS = "id accepted at arch source command was state version build builder take by text".split()  # of an event
NO_COLUMNS: Row = dict.fromkeys(COLUMNS) | {"version": "", "build": ""}
GIVEN = ("arch", "source", "version", "build", "builder")  # what a report takes over from its hand-out
BUILD = ["id", "accepted", *GIVEN, "take", "started", "ended", "command", "result", "took", "text"]
Placed = tuple[str, str, int, int, int, bool, str]  # the columns of a package


def put(table: str, columns: int) -> str:
    return f"INSERT OR REPLACE INTO {table} VALUES ({', '.join('?' * columns)})"


def text_of(value: object) -> str:
    """A value of a line as a text that UTF-8 has."""
    text = value if isinstance(value, str) else str(value)
    return text if text.isascii() else text.encode(errors="backslashreplace").decode()


def number_of(value: object) -> int | None:
    return value if type(value) is int and 0 <= value < GREATEST else None


def name_of(value: object) -> str | None:
    return text_of(value) if isinstance(value, str) and value else None


class Writer:
    """Takes in entries one after another. What they say is written by `save`, and now and then before."""

    def __init__(self, connection: sqlite3.Connection) -> None:
        self.connection = connection
        columns = "first_accepted, first_at, last_accepted, last_at"
        found = connection.execute(f"SELECT {columns} FROM reading").fetchone()
        self.first: Place | None
        self.last: Place | None
        self.first, self.last = (found[:2], found[2:]) if found[0] is not None else (None, None)
        self.begin()

    def begin(self) -> None:
        """Begins with what is written."""
        self.events: list[Row] = []
        self.packages: dict[Key, Placed] = {}
        self.builds: dict[int, Row] = {}
        self.takes: dict[int, Row] = {}
        self.open: dict[Key, Row] = {}  # what builds
        self.last_id = self.connection.execute("SELECT coalesce(max(id), 0) FROM event").fetchone()[0]
        for values in self.connection.execute("SELECT * FROM build WHERE ended IS NULL ORDER BY id"):
            self.hold(dict(zip(BUILD, values)))

    def hold(self, build: Row) -> None:
        self.open[build["arch"], build["source"]] = self.takes[build["take"]] = build

    def flush(self) -> None:
        """Writes what was taken in."""
        for table, columns, rows in (("event", COLUMNS, self.events), ("build", BUILD, self.builds.values())):
            self.connection.executemany(put(table, len(columns)), map(operator.itemgetter(*columns), rows))
        self.connection.executemany(put("package", 7), self.packages.values())
        self.begin()

    def save(self) -> None:
        self.flush()
        if self.first and self.last:
            columns = "first_accepted = ?, first_at = ?, last_accepted = ?, last_at = ?"
            self.connection.execute(f"UPDATE reading SET {columns}", (*self.first, *self.last))

    def take_in(self, entry: Entry) -> None:
        if entry.answer.get("ok") == "again":
            return
        self.follow(entry)
        if entry.name in IMPORTS:
            self.add_import(entry)
        elif entry.name in STATE_AFTER:
            self.add_move(entry)
        elif entry.name in STAYS:
            self.add_named(entry, None)
        elif entry.name == REMOVES_ALL:
            self.add_removals(entry)

    # ---- gaps and doubts

    def follow(self, entry: Entry) -> None:
        """Sees whether the entry comes right after the one before."""
        before, here = self.last, (entry.accepted, entry.at)
        self.first, self.last = self.first or here, here
        if before and entry.accepted == before[0] + 1 or not before and entry.accepted <= 1:
            return
        if before and entry.accepted <= before[0]:
            self.go_back(entry.accepted)
        self.connection.execute("INSERT INTO gap VALUES (?, ?, ?, ?)", (*(before or (None, None)), *here))
        self.doubt(entry, None, None)

    def doubt(self, entry: Entry, arch: str | None, state: str | None) -> None:
        self.connection.execute("INSERT INTO doubt VALUES (?, ?, ?, ?)", (entry.accepted, entry.at, arch, state))

    def go_back(self, accepted: int) -> None:
        """Forgets what was from this count on: the office was restored from a copy, or began anew."""
        self.flush()
        for table in ("event", "import", "doubt"):
            self.connection.execute(f"DELETE FROM {table} WHERE accepted >= ?", (accepted,))
        for table in ("package", "build"):
            self.connection.execute(f"DELETE FROM {table}")
        self.begin()
        for at, values in enumerate(self.connection.execute("SELECT * FROM event ORDER BY id"), 1):
            self.derive(dict(zip(COLUMNS, values)))
            if at % FLUSH == 0:
                self.flush()

    # ---- events

    def add(self, entry: Entry, **columns: str | int | None) -> None:
        if len(self.events) >= FLUSH:
            self.flush()
        self.last_id += 1
        row = NO_COLUMNS | {
            "id": self.last_id, "accepted": entry.accepted, "at": entry.at, "command": entry.name,
            "by": name_of(entry.by), "text": text_of(text_in(entry)),
        } | columns
        self.events.append(row)
        self.derive(row)

    def add_move(self, entry: Entry) -> None:
        words, state = entry.words, STATE_AFTER[entry.name]
        if entry.name in HAND_OUTS:
            self.add_hand_out(entry)
        elif (take := number_of(words.get("take"))) is not None:
            self.add_report(entry, take, state)
        else:
            self.add_named(entry, state)

    def add_named(self, entry: Entry, state: str | None) -> None:
        """What a command made of the package that it names."""
        arch, source = name_of(entry.words.get("arch")), name_of(entry.words.get("source"))
        if arch and source:
            self.add(entry, arch=arch, source=source, state=state, version=text_of(entry.words.get("version") or ""))

    def add_removals(self, entry: Entry) -> None:
        """What the removal of an architecture made of its packages, as far as the journal knows them, each with the
        version of its last move."""
        self.flush()
        statement = """SELECT package.source, version FROM package JOIN event ON id = event
          WHERE package.arch = ? AND package.state != '' ORDER BY package.source"""
        arch = name_of(entry.words.get("name"))
        for source, version in self.connection.execute(statement, (arch,)).fetchall():
            self.add(entry, arch=arch, source=source, state="", version=version)

    def add_hand_out(self, entry: Entry) -> None:
        answer = entry.answer
        arch, source, take = name_of(answer.get("arch")), name_of(answer.get("source")), number_of(answer.get("take"))
        texts = {name: text_of(answer.get(name) or "") for name in ("version", "build")}
        given = {"builder": name_of(entry.words.get("builder")), "text": text_of(answer.get("message") or "")}
        if arch and source:
            self.add(entry, arch=arch, source=source, state=STATE_AFTER[entry.name], take=take, **texts, **given)

    def add_report(self, entry: Entry, take: int, state: str) -> None:
        """A report of a holder, which names its take number alone."""
        given = self.takes.get(take) or self.ended_build(take)
        if given is None:  # handed out before the journal began, or in a gap
            self.doubt(entry, None, state)
        self.add(entry, state=state, take=take, **{name: given[name] for name in GIVEN if given})

    def ended_build(self, take: int) -> Row | None:
        row = self.connection.execute("SELECT * FROM build WHERE take = ? ORDER BY id DESC LIMIT 1", (take,)).fetchone()
        return row and dict(zip(BUILD, row))

    # ---- merges and reports

    def add_import(self, entry: Entry) -> None:
        for arch, part in parts_in(entry).items():
            arch = text_of(arch)
            counts = ", ".join(f"{key} {text_of(part[key])}" for key in COUNTS if key in part)
            row = (entry.accepted, entry.at, entry.name, arch, name_of(entry.by), counts)
            self.connection.execute("INSERT INTO import VALUES (?, ?, ?, ?, ?, ?)", row)
            changes = changes_in(entry, arch)
            if changes is None:
                for state in LEADS[entry.name]:
                    self.doubt(entry, arch, state)
            for change in changes or []:
                self.add_change(entry, arch, change)

    def add_change(self, entry: Entry, arch: str, change: Change) -> None:
        source, was, state, version = map(text_of, change)
        self.add(entry, arch=arch, source=source, state=state, was=was, version=version, text="")

    # ---- what follows from an event

    def derive(self, row: Row) -> None:
        if row["source"] is None or row["state"] is None:
            return
        key, stays = (row["arch"], row["source"]), row["was"] == row["state"]
        if key in self.open and (not stays or row["state"] != "Building"):
            self.end_build(self.open.pop(key), row)
        if row["command"] in HAND_OUTS:
            build = {name: row[name] for name in ("id", "accepted", *GIVEN, "take")} | {"started": row["at"]}
            build |= {"ended": None, "command": None, "result": "building", "took": None, "text": ""}
            self.builds[row["id"]] = build
            self.hold(build)
        self.place(key, row, stays)

    def end_build(self, build: Row, row: Row) -> None:
        build |= {"ended": row["at"], "command": row["command"], "result": "other", "text": row["text"]}
        if build["take"] is not None and build["take"] == row["take"]:
            may_be_built = row["command"] == "uploaded" and self.has_gap(build["accepted"], row["accepted"])
            took = None if may_be_built else row["at"] - build["started"]
            build |= {"result": ENDS.get(row["command"], "other"), "took": took}
        self.builds[build["id"]] = build

    def has_gap(self, before: int, accepted: int) -> bool:
        """Whether lines are missing after one of these counts and up to the other."""
        statement = "SELECT 1 FROM gap WHERE accepted > ? AND accepted <= ? LIMIT 1"
        return self.connection.execute(statement, (before, accepted)).fetchone() is not None

    def place(self, key: Key, row: Row, stays: bool) -> None:
        """Sees where a package is now, and since when if it was elsewhere before. If it was there already, that is the
        time before, unless it may have been away since then: then it is there since a time before."""
        known = self.packages.get(key) or self.placed(key) if stays else None
        doubt = self.last_doubt(key[0], row, known[3] if known else -1) if stays else None
        if known and known[-1] == row["state"] and doubt is None:
            self.packages[key] = (*key, row["id"], *known[3:])
        else:
            at = row["at"] if doubt is None else min(row["at"], doubt + 1)
            self.packages[key] = (*key, row["id"], row["accepted"], at, not stays, row["state"])

    def last_doubt(self, arch: str, row: Row, after: int) -> int | None:
        """When the last line was, after a count and up to that of an event, by which a package may have come into the
        state of the event without being named."""
        statement = """SELECT at FROM doubt WHERE accepted > ? AND accepted <= ? AND (arch IS NULL OR arch = ?)
          AND (state IS NULL OR state = ?) ORDER BY accepted DESC LIMIT 1"""
        values = (after, row["accepted"], arch, row["state"])
        found = self.connection.execute(statement, values).fetchone()
        return found and int(found[0])

    def placed(self, key: Key) -> Placed | None:
        found: Placed | None = self.connection.execute(
            "SELECT * FROM package WHERE arch = ? AND source = ?", key
        ).fetchone()
        return found

"""Reads a journal into its index: a whole one, or on from where the index ends, also after it was moved away."""
import contextlib
import glob
import gzip
import re
import sqlite3
from collections.abc import Iterable, Iterator
from dataclasses import dataclass
from pathlib import Path
from typing import IO

from wb_tools.index import tables
from wb_tools.index.writing import Writer
from wb_tools.journal import Cut, Entry, compressed, read_line
from wb_tools.lists import Refused

MARK = 256  # bytes at the begin of a part and before the place to which it was read, by which it is known again
LINES, SIZE = 20000, 1 << 22  # lines and bytes that are committed together; a longer line is committed whole


@dataclass(slots=True)
class Place:
    """How far a part of a journal was read: how it begins, the bytes before the place, and how many bytes and lines
    stand before it."""

    head: bytes = b""
    tail: bytes = b""
    offset: int = 0
    line: int = 0

    def is_in(self, file: IO[bytes]) -> bool:
        """Whether a file has this place: other files differ, since each line has its time and its count."""
        if file.read(len(self.head)) != self.head:
            return False
        with contextlib.suppress(OSError, EOFError):
            file.seek(self.offset - len(self.tail))
            return file.read(len(self.tail)) == self.tail
        return False


@dataclass(slots=True)
class Room:
    """How many lines and bytes of a journal are read before what was read is committed. Until then all that it changes
    of the index is in memory, and the line of a merge has a megabyte for each 16,000 records that it changes."""

    lines: int
    size: int

    @property
    def is_full(self) -> bool:
        return self.lines <= 0 or self.size <= 0

    def take(self, line: bytes) -> None:
        self.lines -= 1
        self.size -= len(line)


def opened(part: Path) -> IO[bytes]:
    return gzip.open(part, "rb") if part.suffix == ".gz" else open(part, "rb")  # type: ignore[return-value]


def parts_of(journal: Path) -> list[Path]:
    """The parts of a journal, the oldest first: what logrotate moved away, by its numbers or its dates, and the file
    itself."""
    older: list[tuple[int, str, Path]] = []
    for path in journal.parent.glob(f"{glob.escape(journal.name)}[.-]*"):
        found = re.fullmatch(r"[.]([0-9]{1,6})([.]gz)?|-([0-9]{8,10})([.]gz)?", path.name.removeprefix(journal.name))
        if found:
            older.append((-int(found[1] or 0), found[3] or "", path))
    last = [journal] if journal.exists() or not older else []  # logrotate makes no new one; the next command does
    return [path for _, _, path in sorted(older)] + last


def parts_left(journal: Path, place: Place, is_begun: bool) -> tuple[list[Path], bool]:
    """The parts from that of the place on, and whether it was found; if it was not, the last part alone."""
    parts = parts_of(journal)
    if not place.offset:
        return parts[-1:] if is_begun else parts, True
    for at in reversed(range(len(parts))):
        with contextlib.suppress(FileNotFoundError, gzip.BadGzipFile), opened(parts[at]) as file:
            if place.is_in(file):
                return parts[at:], True
    return parts[-1:], False


# ---- a file beside the journal


def place_in(connection: sqlite3.Connection) -> Place:
    return Place(*connection.execute("SELECT head, tail, offset, line FROM reading").fetchone())


def read_on(connection: sqlite3.Connection, journal: Path) -> Iterator[Refused]:
    """Reads a journal on from where the index ends, and gives each line that could not be read. What is written at this
    moment, a last line without its end, is left for the next time."""
    is_more = True
    while is_more:
        connection.execute("BEGIN IMMEDIATE")
        try:
            faults, is_more = read_batch(connection, journal)
            check_journal(connection, faults)
            connection.executemany(
                "INSERT INTO fault VALUES (?, ?)", [(str(why), isinstance(why, Cut)) for why in faults]
            )
            connection.execute("COMMIT")
        except BaseException:
            connection.execute("ROLLBACK")
            raise
        yield from faults


def is_behind(connection: sqlite3.Connection, journal: Path) -> bool:
    """Whether a journal goes on after the place to which the index read it."""
    place = place_in(connection)
    parts, is_found = parts_left(journal, place, True)
    return not is_found or len(parts) > 1 or parts[0].exists() and parts[0].stat().st_size > place.offset


def read_batch(connection: sqlite3.Connection, journal: Path) -> tuple[list[Refused], bool]:
    """Reads as many lines as there is room for, and gives those that could not be read, and whether more may come."""
    writer, place, faults, room = Writer(connection), place_in(connection), [], Room(LINES, SIZE)
    parts, is_found = parts_left(journal, place, writer.last is not None)
    if not is_found:
        place = Place()
        why = "does not go on where the index ends, nor does a file that was moved away; what stood between is missing"
        faults.append(Refused(f"{journal} {why}"))
    for part in parts:
        with opened(part) as file:
            for found in read_part(part, file, place, part is not parts[-1], room):
                if isinstance(found, Entry):
                    writer.take_in(found)
                else:
                    faults.append(found)
        if room.is_full:
            break
        if part is not parts[-1]:
            place = Place()
    writer.save()
    values = (place.head, place.tail, place.offset, place.line)
    connection.execute("UPDATE reading SET head = ?, tail = ?, offset = ?, line = ?", values)
    return faults, room.is_full


def read_part(part: Path, file: IO[bytes], place: Place, is_whole: bool, room: Room) -> Iterator[Entry | Refused]:
    """What stands in a part from a place on, which moves along. A last line without its end is read only of a whole
    part, to which nothing is written any more."""
    file.seek(place.offset)
    for line in file:
        if not place.line and (why := compressed(str(part), line)):
            raise why
        if room.is_full or not (is_whole or line.endswith(b"\n")):
            break
        room.take(line)
        place.line += 1
        place.offset += len(line)
        place.head = place.head if len(place.head) == MARK else (place.head + line)[:MARK]
        place.tail = (place.tail + line)[-MARK:]
        yield from read_line(f"{part}, line {place.line}", line)


def check_journal(connection: sqlite3.Connection, faults: list[Refused]) -> None:
    """Refuses what is no journal, with the first reason: of all that was read, no line is one of a journal."""
    wrong = next((why for why in faults if not isinstance(why, Cut)), None)
    if wrong and connection.execute("SELECT first_accepted FROM reading").fetchone()[0] is None:
        raise Refused(f"{wrong}; no line of it is one of a journal")


# ---- in memory


def read_whole(found: Iterable[Entry | Refused]) -> tuple[sqlite3.Connection, list[Refused]]:
    """An index in memory of what was found in a journal, and what of it could not be read."""
    connection, faults = tables.in_memory(), []
    connection.execute("BEGIN")
    writer = Writer(connection)
    for one in found:
        if isinstance(one, Entry):
            writer.take_in(one)
        else:
            faults.append(one)
    writer.save()
    check_journal(connection, faults)
    connection.execute("COMMIT")
    connection.executescript(tables.INDEXES)
    return connection, faults

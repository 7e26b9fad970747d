"""The tables of an index, and how its file is opened."""
import contextlib
import sqlite3
from collections.abc import Iterator
from pathlib import Path

from wb_tools.lists import Refused

FORM = 3  # of the tables; an index of another form is made anew
BUSY = 30  # seconds for a program that writes the index at this moment

# Times are seconds since 1970 in UTC. `accepted` is the count of accepted commands with that of the row.
TABLES = """
CREATE TABLE reading(            -- one row: how far the journal was read
  id INTEGER PRIMARY KEY CHECK(id = 1),
  head BLOB NOT NULL,            -- how the part of it begins that was read last
  tail BLOB NOT NULL,            -- the last bytes that were read of that part
  offset INTEGER NOT NULL,       -- how many bytes of it were read
  line INTEGER NOT NULL,         -- how many lines of it
  first_accepted INTEGER, first_at INTEGER,    -- the first entry of all
  last_accepted INTEGER, last_at INTEGER       -- the last one
) STRICT;
CREATE TABLE event(              -- what a line says of a package, in the order of the lines
  id INTEGER PRIMARY KEY,
  accepted INTEGER NOT NULL,
  at INTEGER NOT NULL,
  arch TEXT, source TEXT,        -- null: a report on a hand-out that the journal does not have
  command TEXT NOT NULL,
  was TEXT,                      -- the state before, if the line says it, and empty for no record
  state TEXT,                    -- the state after, empty for no record, and null if the command leaves it as it is
  version TEXT NOT NULL,
  build TEXT NOT NULL,           -- the version of the binaries, if the line says it
  builder TEXT,
  take INTEGER,
  by TEXT,                       -- who gave the command, if the line says it
  text TEXT NOT NULL             -- the note, the reason, the relations, the message or the number of the command
) STRICT;
CREATE TABLE package(            -- where the journal last saw each package
  arch TEXT NOT NULL,
  source TEXT NOT NULL,
  event INTEGER NOT NULL,        -- the last move
  accepted INTEGER NOT NULL,     -- the command that led into the state
  at INTEGER NOT NULL,
  is_exact INTEGER NOT NULL,     -- 0 if the package was in the state before that time already
  state TEXT NOT NULL,
  PRIMARY KEY(arch, source)
) STRICT, WITHOUT ROWID;
CREATE TABLE build(              -- a hand-out, and the move that ended it
  id INTEGER PRIMARY KEY,        -- the event of the hand-out
  accepted INTEGER NOT NULL,
  arch TEXT NOT NULL, source TEXT NOT NULL, version TEXT NOT NULL, build TEXT NOT NULL,
  builder TEXT, take INTEGER,
  started INTEGER NOT NULL,
  ended INTEGER,                 -- null while it builds
  command TEXT,                  -- what ended it
  result TEXT NOT NULL,          -- building, built, failed, waited, put_back; other if its holder did not end it
  took INTEGER,                  -- seconds until the report of its holder, null if an earlier one may be missing
  text TEXT NOT NULL             -- that of the command that ended it
) STRICT;
CREATE TABLE import(             -- a merge or a report, for each architecture that it was carried out for
  accepted INTEGER NOT NULL, at INTEGER NOT NULL, command TEXT NOT NULL, arch TEXT NOT NULL, by TEXT,
  text TEXT NOT NULL             -- what the answer counts
) STRICT;
CREATE TABLE gap(                -- two lines one after another whose counts are not; of the journal's begin no first
  before_accepted INTEGER, before_at INTEGER, accepted INTEGER NOT NULL, at INTEGER NOT NULL
) STRICT;
CREATE TABLE doubt(              -- a line by which a package may have come into a state without an event
  accepted INTEGER NOT NULL, at INTEGER NOT NULL,
  arch TEXT, state TEXT          -- null: any
) STRICT;
CREATE TABLE fault(place TEXT NOT NULL, is_cut INTEGER NOT NULL) STRICT;   -- why a line could not be read, and where
INSERT INTO reading VALUES (1, x'', x'', 0, 0, NULL, NULL, NULL, NULL);
"""
INDEXES = """
CREATE INDEX event_package ON event(source, arch);
CREATE INDEX event_at ON event(at);
CREATE INDEX event_builder ON event(builder) WHERE builder IS NOT NULL;
CREATE INDEX event_by ON event(by) WHERE by IS NOT NULL;
CREATE INDEX event_take ON event(take, state) WHERE take IS NOT NULL;
CREATE INDEX package_state ON package(arch, state);
CREATE INDEX package_source ON package(source);
CREATE INDEX build_package ON build(source, arch);
CREATE INDEX build_builder ON build(builder, arch);
CREATE INDEX build_ended ON build(ended, result, arch, command);
CREATE INDEX build_take ON build(take);
CREATE INDEX import_arch ON import(arch, accepted);
CREATE INDEX doubt_accepted ON doubt(accepted);
"""


def in_memory() -> sqlite3.Connection:
    """An index that ends with the program; it needs its indexes once it is read."""
    connection = sqlite3.connect(":memory:", isolation_level=None)
    connection.executescript(TABLES)
    return connection


def form_of(connection: sqlite3.Connection) -> int:
    return int(connection.execute("PRAGMA user_version").fetchone()[0])


def open_to_write(file: Path) -> sqlite3.Connection:
    """The index in a file, which is made if it is not there, or if it has another form."""
    with refused_if_damaged(file):
        connection = sqlite3.connect(file, timeout=BUSY, isolation_level=None)
        connection.execute("PRAGMA cache_spill = OFF")  # so that readers wait for no more than the commit
        connection.execute("BEGIN IMMEDIATE")
        if form_of(connection) != FORM:
            drop_tables(connection, file)
            for statement in filter(str.strip, without_comments(TABLES + INDEXES).split(";")):
                connection.execute(statement)
            connection.execute(f"PRAGMA user_version = {FORM}")
        connection.execute("COMMIT")
        return connection


def drop_tables(connection: sqlite3.Connection, file: Path) -> None:
    names = [name for (name,) in connection.execute("SELECT name FROM sqlite_schema WHERE type = 'table'")]
    if names and "reading" not in names:
        raise Refused(f"{file} is a database, and no index of a journal")
    for name in names:
        connection.execute(f'DROP TABLE "{name}"')


def without_comments(text: str) -> str:
    return "\n".join(line.partition("--")[0] for line in text.splitlines())


def open_to_read(file: Path) -> sqlite3.Connection:
    """The index in a file, which is only read. An OSError says that the file is not there."""
    with open(file, "rb"):
        pass
    with refused_if_damaged(file):
        address = f"{file.absolute().as_uri()}?mode=ro"
        connection = sqlite3.connect(address, uri=True, timeout=BUSY, isolation_level=None)
        if form_of(connection) != FORM:
            raise Refused(f"{file} has another form than this program reads: make it anew by wb-history index")
        return connection


@contextlib.contextmanager
def refused_if_damaged(file: Path) -> Iterator[None]:
    try:
        yield
    except sqlite3.OperationalError as why:
        raise OSError(0, str(why), str(file)) from None
    except sqlite3.DatabaseError as why:
        raise Refused(f"{file} is no index of a journal: {why}; once it is removed, it is made anew") from None

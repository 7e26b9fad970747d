#!/usr/bin/env python3
"""Tests of `wb --store FILE run` on files that are damaged, that are not an office's, or whose rows are not those of an
office, each in a folder of its own: what becomes of them, and what a refused opening leaves.

    tools/tests/test_store_files.py [NAME..]     these tests, or all

From the environment: WB is the program, ./wb of this repository where it is not set; SEED is added to the number of
each random choice.
"""
import contextlib
import json
import os
import random
import shutil
import sqlite3
import subprocess
import sys
import time
from pathlib import Path

from harness import HERE, SEED, WAIT, WB, Failure, LeftOut, answers_of, expect, limit_files, main, program, run
from store_runs import (
    OFFICE_TABLES, TWO_ARCHS, Session, edit, filled, frames, opened, page_size, refusal_of, rows_of, script,
    script_with_sums,
)


# ---- files of a store


# The first bytes of a journal that a transaction left.
JOURNAL = bytes.fromhex("d9d505f920a163d7") + bytes(504)

# What tells an office from that of `filled` with other records; the first lines change nothing.
LOOKS = [f"take amd64 b1 s{at} 0" for at in range(40)] + [f"rebuild amd64 s{at} 1.{at} 1" for at in range(40)]
LOOKS += [f"next amd64 b1 --after {at}" for at in range(3)] + [
    "next arm64 b2 --after 0", "put-back 1", "built 2", "uploaded 4",
]
LOOKS += 40 * ["next amd64 b1"]


def meets_bad_file(folder, what):
    """A run over a file that may be damaged: the name of the fault if it is refused, with the file as it was, or all
    answers if it runs to its end. Where a read failed later on, the run stops with the refusal of that."""
    before = (folder / "store").read_bytes()
    status, said = run(folder, LOOKS)
    fault = refusal_of(said)
    if fault:
        expect(status == 3, f"{what}: status {status} with {said}")
        expect((folder / "store").read_bytes() == before, f"{what}: refused as {fault}, and the file was changed")
        return fault
    answers = said.splitlines()
    stopped = status == 3 and answers and b'"refused":"Store"' in answers[-1]
    expect(
        stopped or (status in (0, 1) and len(answers) == len(LOOKS)),
        f"{what}: status {status}, {len(answers)} answers, {said[:200]}",
    )
    return "stopped" if stopped else said


def meets_each(folder, variants):
    """Runs over each variant of a good store, a name and bytes. Each is refused, or answers as the good one: no other
    record is made up of it."""
    whole = folder / "whole"
    whole.mkdir()
    filled(whole)
    data = (whole / "store").read_bytes()
    expect(data[20] == 8, "the pages have no sums")
    good, refused, failed = None, 0, []
    for number, (what, changed) in enumerate([("unchanged", data), *variants(data)]):
        copy = Path(shutil.copytree(whole, folder / str(number)))
        (copy / "store").write_bytes(changed)
        try:
            met = meets_bad_file(copy, what)
        except Failure as why:
            failed.append(str(why))
            continue
        good = good or met
        refused += isinstance(met, str)
        if isinstance(met, bytes) and met != good:
            failed.append(f"{what}: runs with other answers")
        shutil.rmtree(copy)
    expect(isinstance(good, bytes), f"the unchanged file is refused: {good}")
    expect(not failed, f"{len(failed)} of {number}: {'; '.join(failed[:8])}")
    return f"of {number} {refused} refused, {number - refused} with the same answers"


# ---- the tests, each in an empty folder


def refuses_text(folder):
    """A file that is no database is refused and left."""
    for text in (
        b"x", b"No database.\n", b"S" + 5000 * b"x", b"SQLite format 3\0", bytes(4096),
        random.Random(SEED).randbytes(20000),
    ):
        (folder / "store").write_bytes(text)
        met = meets_bad_file(folder, f"{text[:20]}")
        expect(isinstance(met, str), f"{text[:20]} of {len(text)} bytes runs as an office")
        for name in os.listdir(folder):
            (folder / name).unlink()


def empty_file_is_a_new_office(folder):
    """A file of no bytes is a database without a table, and so a new office."""
    (folder / "store").write_bytes(b"")
    expect(answers_of(folder, TWO_ARCHS[:1])[0]["accepted"] == 1, "no new office")
    expect(answers_of(folder, TWO_ARCHS[1:2])[0]["accepted"] == 2, "it was not kept")


def refuses_paths(folder):
    """What is no file that can be opened is refused, and the message says why. A line fault is answered where no file
    is named."""
    (folder / "here").mkdir()
    os.mkfifo(folder / "pipe")
    filled(folder)
    os.link(folder / "store", folder / "second")
    (folder / "kept").write_bytes((folder / "store").read_bytes())
    (folder / "kept-journal").write_bytes(JOURNAL)
    why = {
        "here": "here cannot be opened: it or its log is no regular file, or has a second name",
        "pipe": "pipe cannot be opened: it or its log is no regular file, or has a second name",
        "second": "second cannot be opened: it or its log is no regular file, or has a second name",
        "kept": "kept cannot be opened: the database has a rollback journal",
        "not-there/store": "not-there/store.lock cannot be locked: No such file or directory (os error 2)",
        ":memory:": ":memory: cannot be opened: SQLite takes the name for no file",
        "file:store": "file:store cannot be opened: SQLite takes the name for no file",
    }
    for path, message in why.items():
        words = [WB, "--store", path, "run"]
        done = subprocess.run(
            words, cwd=folder, stdin=subprocess.DEVNULL, capture_output=True, timeout=WAIT, check=False
        )
        expect(done.returncode == 3 and refusal_of(done.stdout) == "Device", f"{path}: {done}")
        expect(done.stderr.decode().startswith(f"wb: {message}"), f"{path}: {done.stderr} in place of {message}")
    with contextlib.closing(sqlite3.connect(folder / "kept")) as other:
        (folder / "kept-journal").unlink()
        other.execute("BEGIN")
        other.execute("SELECT count(*) FROM arch").fetchall()
        done = subprocess.run(
            [WB, "--store", "kept", "run"], cwd=folder, stdin=subprocess.DEVNULL, capture_output=True, timeout=WAIT,
            check=False,
        )
        expect(done.stderr == b"wb: kept cannot be opened: another program has it open\n", f"{done}")
    done = subprocess.run([WB, "--store"], cwd=folder, capture_output=True, timeout=WAIT, check=False)
    expect((done.returncode, done.stdout) == (2, b'{"fault":"line"}\n'), f"no file: {done}")


def cut_files(folder):
    """A file that lost its end is refused."""

    def variants(data):
        size = page_size(data)
        for at in [100, size - 1, size + size // 2, len(data) - 1, *range(size, len(data), size)]:
            yield f"cut to {at} of {len(data)} bytes", data[:at]

    return meets_each(folder, variants)


def pages_of_zeroes(folder):
    """A file of which a page reads as zeroes is refused, or the page was not used."""

    def variants(data):
        size = page_size(data)
        for at in range(0, len(data), size):
            yield f"page {at // size + 1} of zeroes", data[:at] + bytes(size) + data[at + size :]

    return meets_each(folder, variants)


def changed_bits(folder):
    """A file with one bit changed is refused, or runs with the same answers."""

    def variants(data):
        for number in range(500):
            at = random.Random(SEED + number).randrange(8 * len(data))
            changed = bytearray(data)
            changed[at // 8] ^= 1 << at % 8
            yield f"seed {SEED + number}, bit {at % 8} of byte {at // 8}", bytes(changed)

    return meets_each(folder, variants)


def changed_bits_in_the_log(folder):
    """With one bit of the log changed a run is refused or goes on with an office that was, since a torn end of the log
    is what a crash leaves."""
    whole = folder / "whole"
    whole.mkdir()
    session = Session(whole)
    for line in TWO_ARCHS + [f"enter amd64 s{at} 1.{at} optional devel" for at in range(20)]:
        session.ask(line)
    session.kill()
    data = (whole / "store-wal").read_bytes()
    expect(len(data) > 4096, "the log is empty after a kill")
    for number in range(30):
        at = random.Random(SEED + number).randrange(8 * len(data))
        changed = bytearray(data)
        changed[at // 8] ^= 1 << at % 8
        copy = Path(shutil.copytree(whole, folder / str(number)))
        (copy / "store-wal").write_bytes(changed)
        meets_bad_file(copy, f"seed {SEED + number}, byte {at // 8} of the log")


# What is changed in an office by sqlite3, and the faults that may be answered.
OTHER_ROWS = {
    "a newer format": ("UPDATE office SET format = 3", {"NewerSchema"}),
    "an older format": ("UPDATE office SET format = 1", {"NotOffice"}),
    "format 0": ("UPDATE office SET format = 0", {"NotOffice"}),
    "no row of the office": ("DELETE FROM office", {"NotOffice"}),
    "a newer format without a table": ("UPDATE office SET format = 3; DROP TABLE source_record", {"NewerSchema"}),
    "a newer format without an index": ("UPDATE office SET format = 3; DROP INDEX record_take", {"NewerSchema"}),
    "a newer format with a further index": (
        "UPDATE office SET format = 3; CREATE INDEX other ON arch(os)", {"NewerSchema"},
    ),
    "a newer format with a further column": (
        "UPDATE office SET format = 3; ALTER TABLE arch ADD COLUMN more TEXT", {"NewerSchema"},
    ),
    "a newer format with a further column of the office": (
        "UPDATE office SET format = 3; ALTER TABLE office ADD COLUMN more TEXT", {"NewerSchema"},
    ),
    "a newer format with a bad row": (
        "UPDATE office SET format = 3; UPDATE source_record SET state = 99 WHERE source = 's9'", {"NewerSchema"},
    ),
    "a further column of the office": ("ALTER TABLE office ADD COLUMN more TEXT", {"NotOffice"}),
    "an older format without a table": ("UPDATE office SET format = 1; DROP TABLE scratch_binary", {"NotOffice"}),
    "a view in the place of the office": ("DROP TABLE office; CREATE VIEW office AS SELECT 3 AS format", {"NotOffice"}),
    "a count below 0": ("UPDATE office SET accepted = -1", {"Damaged"}),
    "a count above its limit": ("UPDATE office SET handed = 1000000000001", {"Damaged"}),
    "a take number that another has": ("UPDATE source_record SET take = 1 WHERE take = 2", {"Damaged"}),
    "a take number that was not handed out": ("UPDATE source_record SET take = 5 WHERE take = 2", {"Damaged"}),
    "a take number of 0": ("UPDATE source_record SET take = 0 WHERE take = 2", {"Damaged"}),
    "a holder that is no builder": ("UPDATE source_record SET holder = 'b3' WHERE take = 2", {"Damaged"}),
    "a holder on another architecture": ("UPDATE source_record SET holder = 'b2' WHERE take = 2", {"Damaged"}),
    "no holder": ("UPDATE source_record SET holder = NULL WHERE take = 2", {"Damaged"}),
    "no take number": ("UPDATE source_record SET take = NULL WHERE take = 2", {"Damaged"}),
    "a state that there is not": ("UPDATE source_record SET state = 99 WHERE source = 's9'", {"Damaged"}),
    "another rank": ("UPDATE source_record SET rank = rank + 1 WHERE source = 's9'", {"Damaged"}),
    "a malformed version": ("UPDATE source_record SET version = 'a b' WHERE source = 's9'", {"Damaged"}),
    "a malformed name": ("UPDATE source_record SET source = 'S9' WHERE source = 's9'", {"Damaged"}),
    "malformed relations": ("UPDATE source_record SET waits = 'a b c' WHERE source = 's31'", {"Damaged"}),
    "waits of what waits for nothing": ("UPDATE source_record SET waits = 'liba' WHERE source = 's9'", {"Damaged"}),
    "a note that is too long": (
        "UPDATE source_record SET note = printf('%.*c', 1001, 'x') WHERE source = 's30'", {"Damaged"},
    ),
    "a malformed architecture": ("INSERT INTO arch VALUES ('any', 'linux', 'amd64')", {"Damaged"}),
    "a malformed builder": ("INSERT INTO builder VALUES ('-b', 'amd64')", {"Damaged"}),
    "a row of a merge": ("INSERT INTO scratch_binary VALUES (1, 'aa', '1.0', 'aa', '1.0', 0, 1)", {"Damaged"}),
    "no table of records": ("DROP TABLE source_record", {"NotOffice"}),
    "no column of ranks": ("DROP INDEX record_order; ALTER TABLE source_record DROP COLUMN rank", {"NotOffice"}),
    "no index by take number": ("DROP INDEX record_take", {"NotOffice"}),
    "a further index": ("CREATE INDEX other ON arch(os)", {"NotOffice"}),
    "no table for a merge": ("DROP TABLE scratch_binary", {"NotOffice"}),
    "a further column": ("ALTER TABLE arch ADD COLUMN more TEXT", {"NotOffice"}),
    "a trigger": ("CREATE TRIGGER t AFTER INSERT ON arch BEGIN DELETE FROM builder;END", {"NotOffice"}),
    "a table that refers to one of the office": ("CREATE TABLE t(of TEXT REFERENCES arch(name))", {"NotOffice"}),
    "a view in the place of a table": (
        "DROP TABLE scratch_binary; CREATE VIEW scratch_binary AS SELECT 1 AS seq", {"NotOffice"},
    ),
    "a table that refers to one of the office, and acts": (
        "CREATE TABLE t(of TEXT REFERENCES arch(name) ON DELETE CASCADE)", {"NotOffice"},
    ),
    "a foreign key that acts between further tables": (
        "CREATE TABLE t(id INTEGER PRIMARY KEY); CREATE TABLE u(t INTEGER REFERENCES t(id) ON DELETE CASCADE)", {None},
    ),
    "a further table": ("CREATE TABLE t(id INTEGER PRIMARY KEY, name TEXT)", {None}),
    "further tables, one of which refers to the other": (
        "CREATE TABLE t(id INTEGER PRIMARY KEY); CREATE TABLE u(t INTEGER REFERENCES t(id))", {None},
    ),
    "a view": ("CREATE VIEW v AS SELECT name FROM arch", {None}),
    "tables before indexes": ("VACUUM", {None}),
}


def refuses_other_rows(folder):
    """A database whose rows or tables are no office's is refused and left, with the fault that says why; one that
    sqlite3 only wrote is not, nor is one with tables of others beside the office's."""
    whole = folder / "whole"
    whole.mkdir()
    filled(whole)
    failed = []
    for number, (what, (text, wanted)) in enumerate(
        {"nothing": ("UPDATE office SET accepted = accepted", {None}), **OTHER_ROWS}.items()
    ):
        copy = Path(shutil.copytree(whole, folder / str(number)))
        edit(copy / "store", *text.split("; "))
        met = meets_bad_file(copy, what)
        met = None if isinstance(met, bytes) else met
        if met not in wanted:
            failed.append(f"{what}: {met} in place of {sorted(map(str, wanted))}")
    expect(not failed, "; ".join(failed))


# The row that standard error names after a change: its table, and its number in the order of keys, counted from 1. The
# take numbers 1 to 4 are those of s0, s1 and s10 on amd64, the first three in the order of names, and of s0 on arm64.
BAD_ROWS = [
    ("UPDATE office SET accepted = 1000000000001", "office", 1),
    ("UPDATE office SET handed = -1", "office", 1),
    ("UPDATE office SET handed = 2", "source_record", 3),
    ("UPDATE arch SET os = 'Linux' WHERE name = 'arm64'", "arch", 2),
    ("INSERT INTO builder VALUES ('b 3', 'amd64')", "builder", 1),
    ("DELETE FROM builder WHERE name = 'b2'", "source_record", 41),
    ("UPDATE source_record SET take = 2 WHERE take = 3", "source_record", 41),
    ("UPDATE source_record SET take = 0 WHERE source = 's1'", "source_record", 2),
    ("UPDATE source_record SET holder = 'b3' WHERE source = 's10'", "source_record", 3),
    ("UPDATE source_record SET rank = 0 WHERE source = 's11'", "source_record", 4),
    ("UPDATE source_record SET source = 'Zlib' WHERE source = 's9'", "source_record", 1),
    ("UPDATE source_record SET state = 5, waits = 'gcc [i386]' WHERE source = 's9'", "source_record", 40),
    ("UPDATE source_record SET state = 5, waits = 'gcc (' WHERE source = 's9'", "source_record", 40),
    ("INSERT INTO scratch_source VALUES (7, 'aa', '1.0', 'any', 0, '', '', '', '')", "scratch_source", 1),
    ("INSERT INTO scratch_binary VALUES (7, 'aa', '1.0', 'aa', '1.0', 0, 1)", "scratch_binary", 1),
]


def names_the_bad_row(folder):
    """Standard error names the table and the row of the first row that no office keeps."""
    whole = folder / "whole"
    whole.mkdir()
    filled(whole)
    failed = []
    for number, (text, table, row) in enumerate(BAD_ROWS):
        copy = Path(shutil.copytree(whole, folder / str(number)))
        edit(copy / "store", text)
        done = subprocess.run(
            [WB, "--store", "store", "run"], cwd=copy, input=b"", capture_output=True, timeout=WAIT, check=False
        )
        wanted = f"wb: store cannot be opened: {table} is damaged in row {row}\n"
        if done.returncode != 3 or wanted not in done.stderr.decode():
            failed.append(f"{text}: status {done.returncode}, {done.stderr.decode().strip()} in place of {wanted}")
    expect(not failed, "; ".join(failed))


# Tables of others with their rows, and a view of theirs on one of the office's tables.
TABLES_OF_OTHERS = [
    "CREATE TABLE note(id INTEGER PRIMARY KEY, source TEXT NOT NULL, text TEXT)",
    "CREATE INDEX note_source ON note(source)",
]
TABLES_OF_OTHERS += [
    "CREATE TABLE log(note INTEGER REFERENCES note(id) ON DELETE CASCADE ON UPDATE SET NULL, at REAL DEFAULT 1.5)"
]
TABLES_OF_OTHERS += [f"INSERT INTO note(source, text) VALUES ('s{at}', '{100 * 'x'}')" for at in range(50)] + [
    "INSERT INTO log(note) SELECT id FROM note"
]
VIEW_OF_OTHERS = "CREATE VIEW building AS SELECT arch, source, holder FROM source_record WHERE state = 1"

# Lines of each kind of command, with merges of the lists `sources` and `packages`.
BESIDE = [
    "add-arch armhf linux arm", "add-builder b3 armhf", "enter armhf zz 1.0 extra libs", "next armhf b3",
    "attempted 5 nothing compiles",
]
BESIDE += [
    "built 2", "uploaded 2", "next amd64 b1", "put-back 6", "take amd64 b1 s7 1.7", "waits 7 libx (>= 2)",
    "give-back amd64 s7 1.7",
]
BESIDE += [
    "fail amd64 s8 1.8 broken", "dep-wait amd64 s9 1.9 liby", "not-for-us amd64 s10 1.10 no",
    "build-priority amd64 s12 1.12 -- -7",
]
BESIDE += ["rebuild amd64 s1 1.1 1", "merge sources amd64=packages armhf=packages", "merge sources amd64=packages"]
BESIDE += LOOKS


def puts_others_first(path):
    """The same database, made by sqlite3 anew with the tables of others before those of the office."""
    made = path.with_name("made")
    with contextlib.closing(sqlite3.connect(path)) as old, contextlib.closing(
        sqlite3.connect(made, isolation_level=None)
    ) as new:
        for statement in [*TABLES_OF_OTHERS, *list(old.iterdump())[1:-1], VIEW_OF_OTHERS]:
            new.execute(statement)
    made.replace(path)


def rows_of_office(folder):
    return {name: rows_of(folder, f"SELECT * FROM {name} ORDER BY 1, 2") for name in OFFICE_TABLES}


def rows_of_others(folder):
    return rows_of(folder, "SELECT * FROM note"), rows_of(folder, "SELECT * FROM log")


def works_beside_others(folder):
    """An office answers the same and keeps the same rows beside tables of others, which keep theirs, whether they were
    made before or after its own."""
    whole = folder / "whole"
    whole.mkdir()
    filled(whole)
    (whole / "sources").write_text(
        "".join(f"Package: s{at}\nVersion: 2.{at}\nArchitecture: any\n\n" for at in range(0, 60, 2))
    )
    (whole / "packages").write_text(
        "".join(f"Package: s{at}\nVersion: 2.{at}\nArchitecture: any\n\n" for at in range(0, 60, 4))
    )
    folders = {name: Path(shutil.copytree(whole, folder / name)) for name in ("alone", "after", "before", "vacuumed")}
    edit(folders["after"] / "store", *TABLES_OF_OTHERS, VIEW_OF_OTHERS)
    puts_others_first(folders["before"] / "store")
    edit(folders["vacuumed"] / "store", *TABLES_OF_OTHERS, VIEW_OF_OTHERS, "VACUUM")
    kept = {name: rows_of_others(at) for name, at in folders.items() if name != "alone"}
    said = {name: [run(at, BESIDE), run(at, LOOKS)] for name, at in folders.items()}
    expect(
        all(status in (0, 1) for runs in said.values() for status, _ in runs),
        f"{[[status for status, _ in runs] for runs in said.values()]}",
    )
    expect(said["alone"][0][1].count(b'"accepted"') > 20, f"few lines are accepted: {said['alone'][0][1][:400]}")
    for name, at in folders.items():
        expect(said[name] == said["alone"], f"{name}: other answers")
        expect(rows_of_office(at) == rows_of_office(folders["alone"]), f"{name}: other rows")
        expect(rows_of(at, "PRAGMA integrity_check") == [("ok",)], f"{name}: integrity_check")
        if name != "alone":
            expect(rows_of_others(at) == kept[name], f"{name}: the rows of others changed")
            expect(len(rows_of(at, "SELECT * FROM building")) > 0, f"{name}: the view shows nothing")


def without_office(folder, *statements):
    """A file with the checksums of wb, in which only these statements were made by sqlite3."""
    folder.mkdir()
    run(folder, [])
    edit(folder / "store", *(f"DROP TABLE {name}" for name in OFFICE_TABLES), *statements)


def makes_an_office_beside_others(folder):
    """Where a database has tables of others alone, an empty office is made that answers as a new one does, and the rows
    of others stay."""
    counts = [
        "CREATE TABLE counted(id INTEGER PRIMARY KEY AUTOINCREMENT, text TEXT)",
        "INSERT INTO counted(text) VALUES ('a'), ('b')",
    ]
    notes = "CREATE VIEW notes AS SELECT source, text FROM note"
    lines = [*TWO_ARCHS, "enter amd64 s1 1.1 optional devel", "next amd64 b1", "built 1"]
    new, beside = folder / "new", folder / "beside"
    new.mkdir()
    without_office(beside, *TABLES_OF_OTHERS, notes, *counts)
    kept = rows_of_others(beside)
    opened = subprocess.run(
        [WB, "--store", "store", "run"], cwd=beside, input=b"", capture_output=True, timeout=WAIT, check=False
    )
    expect(opened.stderr == b"wb: store had no office: a new one begins in it, beside what it holds\n", f"{opened}")
    said = {at.name: [run(at, lines), run(at, LOOKS), run(at, ["uploaded 1"])] for at in (new, beside)}
    expect(said["new"] == said["beside"], f"other answers: {said}")
    expect(said["new"][2][0] == 0, f"{said['new'][2]}")
    expect(rows_of_office(new) == rows_of_office(beside), "other rows")
    expect(rows_of_others(beside) == kept, "the rows of others changed")
    expect(rows_of(beside, "SELECT * FROM counted") == [(1, "a"), (2, "b")], "the counted rows changed")
    expect(rows_of(beside, "SELECT seq FROM sqlite_sequence WHERE name = 'counted'") == [(2,)], "their count changed")
    expect(rows_of(beside, "PRAGMA integrity_check") == [("ok",)], "integrity_check")
    expect(rows_of(beside, "PRAGMA foreign_key_check") == [], "foreign_key_check")


# What stands in the way of an empty office beside the tables of others.
IN_THE_WAY = {
    "a table with a table's name in other letters": "CREATE TABLE Arch(name TEXT)",
    "a table with the name of an index": "CREATE TABLE record_take(name TEXT)",
    "a view": "CREATE VIEW binary_name AS SELECT 1 AS seq",
    "an index": "CREATE INDEX source_name ON note(text)",
    "a trigger": "CREATE TRIGGER office AFTER INSERT ON note BEGIN DELETE FROM log;END",
    "a table that refers to such a name": "CREATE TABLE t(of TEXT REFERENCES builder(name))",
}


def makes_no_office_over_its_names(folder):
    """Where a database has something of the office's names, or refers to one, no office is made, and the file is
    left."""
    failed = []
    for number, (what, text) in enumerate(IN_THE_WAY.items()):
        without_office(folder / str(number), *TABLES_OF_OTHERS, text)
        met = meets_bad_file(folder / str(number), what)
        if met != "NotOffice":
            failed.append(f"{what}: {met}")
    expect(not failed, "; ".join(failed))


# The table of the office without its check, so that it can have more rows than one.
FREE_OFFICE = (
    "CREATE TABLE office(id INTEGER PRIMARY KEY, format INTEGER NOT NULL, handed INTEGER NOT NULL, accepted INTEGER "
    "NOT NULL) STRICT"
)

# A table `office` without the office's other tables, and the fault.
OFFICES_ALONE = {
    "format 3": ("INSERT INTO office VALUES (1, 3, 0, 0)", FREE_OFFICE, "NewerSchema"),
    "format 99": ("INSERT INTO office VALUES (7, 99, -1, -1)", FREE_OFFICE, "NewerSchema"),
    "format 2": ("INSERT INTO office VALUES (1, 2, 0, 0)", FREE_OFFICE, "NotOffice"),
    "format 1": ("INSERT INTO office VALUES (1, 1, 0, 0)", FREE_OFFICE, "NotOffice"),
    "format 0": ("INSERT INTO office VALUES (1, 0, 0, 0)", FREE_OFFICE, "NotOffice"),
    "format -3": ("INSERT INTO office VALUES (1, -3, 0, 0)", FREE_OFFICE, "NotOffice"),
    "no row": ("DELETE FROM office", FREE_OFFICE, "NotOffice"),
    "two rows of format 3": ("INSERT INTO office VALUES (1, 3, 0, 0), (2, 3, 0, 0)", FREE_OFFICE, "NotOffice"),
    "format 3 among other columns": (
        "INSERT INTO office VALUES ('of debian', 3)", "CREATE TABLE office(title TEXT, format INTEGER)", "NewerSchema",
    ),
    "format 3 as the key": (
        "INSERT INTO office VALUES (3, 'of debian')", "CREATE TABLE office(format INTEGER PRIMARY KEY, title TEXT)",
        "NewerSchema",
    ),
    "a format that is a text": ("INSERT INTO office VALUES ('3')", "CREATE TABLE office(format TEXT)", "NotOffice"),
    "a format that is not there": (
        "INSERT INTO office VALUES (NULL)", "CREATE TABLE office(format INTEGER)", "NotOffice",
    ),
    "a column of another name": ("INSERT INTO office VALUES (3)", "CREATE TABLE office(version INTEGER)", "NotOffice"),
    "a column in other letters": ("INSERT INTO office VALUES (3)", "CREATE TABLE office(Format INTEGER)", "NotOffice"),
    "a table in other letters": ("INSERT INTO office VALUES (3)", "CREATE TABLE Office(format INTEGER)", "NotOffice"),
}


def looks_at_the_format_first(folder):
    """A database whose table `office` shows a newer format is called newer, whatever else it has or lacks; one that
    shows none is no office. Each is left."""
    failed = []
    for number, (what, (row, table, wanted)) in enumerate(OFFICES_ALONE.items()):
        for others in ([], TABLES_OF_OTHERS):
            copy = folder / f"{number} {len(others)}"
            without_office(copy, *others, table, row)
            met = meets_bad_file(copy, what)
            if met != wanted:
                failed.append(f"{what}, beside {len(others)} statements of others: {met} in place of {wanted}")
    expect(not failed, "; ".join(failed))


def refuses_another_programs_database(folder):
    """A database without the checksums, as other programs make it, is refused and left."""
    for mode in ("delete", "wal"):
        table = ["CREATE TABLE t(id INTEGER PRIMARY KEY, name TEXT)", "INSERT INTO t(name) VALUES ('a')"]
        edit(folder / "store", f"PRAGMA journal_mode = {mode}", *table)
        met = meets_bad_file(folder, f"a database of mode {mode}")
        expect(met == "NotOffice", f"mode {mode}: {met}")
        expect(rows_of(folder, "SELECT * FROM t") == [(1, "a")], f"mode {mode}: the rows changed")
        for name in os.listdir(folder):
            (folder / name).unlink()


def refuses_a_log_without_its_file(folder):
    """A file that is lost or emptied while its log holds commits is refused, and the log stays; put back, the file is
    opened."""
    session = Session(folder)
    for line in TWO_ARCHS:
        session.ask(line)
    session.kill()
    store, log = folder / "store", folder / "store-wal"
    kept = store.read_bytes(), log.read_bytes()
    for empty in (False, True):
        store.unlink()
        if empty:
            store.touch()
        status, said = run(folder, ["next amd64 b1"])
        expect((status, refusal_of(said)) == (3, "NotOffice"), f"empty {empty}: {status}, {said}")
        expect(log.read_bytes() == kept[1], f"empty {empty}: the log was changed")
        store.write_bytes(kept[0])
    expect(answers_of(folder, ["next amd64 b1"])[0].get("refused") == "QueueEmpty", "the office is not found again")


def opens_what_a_link_leads_to(folder):
    """A link stands for the file to which it leads, with the log and the lock beside that; one that leads to no file,
    or to one that was emptied while its log holds commits, is refused."""
    (folder / "records").mkdir()
    (folder / "link").symlink_to("records/store")
    words = [WB, "--store", "link", "run"]
    done = subprocess.run(words, cwd=folder, stdin=subprocess.DEVNULL, capture_output=True, timeout=WAIT, check=False)
    expect((done.returncode, refusal_of(done.stdout)) == (3, "Device"), f"a link to no file: {done}")
    expect(
        done.stderr.startswith(b"wb: link cannot be opened: it is a link, and where it leads: "),
        f"a link to no file: {done}",
    )
    expect(not os.listdir(folder / "records"), "a file was made where the link leads")
    session = Session(folder / "records")
    for line in TWO_ARCHS:
        session.ask(line)
    session.kill()
    store = folder / "records" / "store"
    kept = store.read_bytes()
    store.write_bytes(b"")
    status, said = run(folder, ["next amd64 b1"], "link")
    expect((status, refusal_of(said)) == (3, "NotOffice"), f"an emptied file: {status}, {said}")
    store.write_bytes(kept)
    expect(answers_of(folder, ["next amd64 b1"], "link")[0].get("refused") == "QueueEmpty", "the office is not found")
    expect(sorted(os.listdir(folder)) == ["link", "records"], f"files beside the link: {os.listdir(folder)}")
    expect(os.stat(f"{store}.lock").st_mode & 0o777 == 0o600, "others may open the lock")


# ---- what becomes of a file


FORMATS = {number: (HERE / "stores" / f"format-{number}.sql").read_text() for number in (1, 2)}

# What stands at the file's name: how it is made in an empty folder.
FILES = {
    "no file": lambda folder: None,
    "an empty file": lambda folder: (folder / "store").touch(),
    "a text": lambda folder: (folder / "store").write_text("root:x:0:0:root:/root:/bin/bash\n" * 30),
    "one letter": lambda folder: (folder / "store").write_text("x"),
    "a byte 0": lambda folder: (folder / "store").write_bytes(b"\0"),
    "tables of others": lambda folder: edit(folder / "store", *TABLES_OF_OTHERS),
    "tables of others with checksums": lambda folder: script_with_sums(folder, ";".join(TABLES_OF_OTHERS)),
    "an office": opened,
    "an office without checksums": lambda folder: script(folder, FORMATS[2]),
    "format 1": lambda folder: script_with_sums(folder, FORMATS[1]),
    "format 1 without checksums": lambda folder: script(folder, FORMATS[1]),
    "a table Arch": lambda folder: script_with_sums(folder, "CREATE TABLE Arch(name TEXT)"),
    "a table Arch without checksums": lambda folder: script(folder, "CREATE TABLE Arch(name TEXT)"),
}

# What stands at its log's name, where the file did not bring its own.
LOGS = {
    "no log": lambda folder: None,
    "an empty log": lambda folder: b"",
    "a log without frames": lambda folder: frames(folder)[:41],
    "a log with frames": frames,
}

BEGINS = "store was empty or not there: a new office begins in it\n"
BEGINS_BESIDE = "store had no office: a new one begins in it, beside what it holds\n"
LOST = "store cannot be opened: it is empty or not there, and its log store-wal holds commits\n"
NO_DATABASE = "store cannot be opened: it is not the database of an office\n"
OF_OTHERS = "store cannot be opened: it is a database of another program, whose pages have no checksums\n"
OF_FIRST = "store is of format 1: opening it takes seconds for 10,000 records, and minutes for 35,000\n"
UPGRADED = "store was brought over from format 1 into format 2\n"
UNSUMMED = (
    "another program made store: its pages have no checksums and get none, so a byte that a disk changes may stay "
    "unseen\n"
)

# The table of docs/operations/FILE.md: the file, its log, the fault, and what is said. A database has its own log.
BECOMES = [
    *((file, log, None, [BEGINS]) for file in ("no file", "an empty file") for log in list(LOGS)[:3]),
    *((file, "a log with frames", "NotOffice", [LOST]) for file in ("no file", "an empty file")),
    *((file, log, "NotOffice", [NO_DATABASE]) for file in ("a text", "one letter") for log in list(LOGS)[:3]),
    ("a byte 0", "no log", None, [BEGINS_BESIDE]),
    ("tables of others", "no log", "NotOffice", [OF_OTHERS]),
    ("tables of others with checksums", "no log", None, [BEGINS_BESIDE]),
    ("an office", "no log", None, []),
    ("an office without checksums", "no log", None, []),
    ("format 1", "no log", None, [OF_FIRST, UPGRADED]),
    ("format 1 without checksums", "no log", None, [OF_FIRST, UPGRADED, UNSUMMED]),
    ("a table Arch", "no log", "NotOffice", [NO_DATABASE]),
    ("a table Arch without checksums", "no log", "NotOffice", [NO_DATABASE]),
]


def contents(folder):
    """Each file of a folder with its bytes; what is no file has none."""
    return {path.name: path.read_bytes() if path.is_file() else None for path in folder.iterdir()}


def becomes_what_the_table_says(folder):
    """Each file becomes what the table says, by a run, a command and a query, and one that is refused is left alone
    with what stands beside it. A query changes no file that has an office."""
    failed = []
    for number, (file, log, fault, messages) in enumerate(BECOMES):
        for words in ((), ("summary", "amd64"), ("add-arch", "arm64", "linux", "arm64")):
            place = folder / f"{number} {len(words)}"
            place.mkdir()
            FILES[file](place)
            beside = LOGS[log](place)
            if beside is not None:
                (place / "store-wal").write_bytes(beside)
            (place / "store.lock").unlink(missing_ok=True)
            before = contents(place)
            status, said, errors = opened(place, *words)
            is_query = words[:1] == ("summary",)
            wanted = [text for text in messages if not (is_query and text in (UPGRADED, UNSUMMED))]
            if errors != "".join(f"wb: {text}" for text in wanted):
                failed.append(f"{file}, {log}, {words}: {errors!r} in place of {wanted}")
            if fault is None and status not in (0, 1):
                failed.append(f"{file}, {log}, {words}: {status}, {said}")
            if fault is not None and (status, refusal_of(said)) != (3, fault):
                failed.append(f"{file}, {log}, {words}: {status}, {said} in place of {fault}")
            if fault is not None and contents(place) != before:
                failed.append(f"{file}, {log}, {words}: it leaves {sorted(contents(place))} of {sorted(before)}")
            has_office = file.startswith(("an office", "format 1"))
            if is_query and has_office and contents(place)["store"] != before["store"]:
                failed.append(f"{file}, {log}: a query changed the file")
    expect(not failed, "; ".join(failed))
    return f"{3 * len(BECOMES)} starts"


def refused_places(folder):
    """What is refused for its place, or for what stands beside it: the name, in a folder, of each."""
    (folder / "here").mkdir()
    os.mkfifo(folder / "pipe")
    filled(folder)
    (folder / "store.lock").unlink()
    os.link(folder / "store", folder / "second")
    (folder / "kept").write_bytes((folder / "store").read_bytes())
    (folder / "kept-journal").write_bytes(JOURNAL)
    (folder / "damaged").write_bytes((folder / "store").read_bytes()[:-4096])
    (folder / "newer").write_bytes((folder / "kept").read_bytes())
    edit(folder / "newer", "UPDATE office SET format = 3")
    (folder / "link").symlink_to("nowhere")
    return ["here", "pipe", "second", "kept", "damaged", "newer", "link", "not-there/store", ":memory:", "file:store"]


def leaves_nothing_after_a_refusal(folder):
    """A refused opening makes no file and changes none, whatever it is refused for. What was there before stays."""
    for name in refused_places(folder):
        before = contents(folder)
        for words in (["run"], ["summary", "amd64"], ["add-arch", "arm64", "linux", "arm64"]):
            done = subprocess.run(
                [WB, "--store", name, *words], cwd=folder, stdin=subprocess.DEVNULL, capture_output=True, timeout=WAIT,
                check=False,
            )
            expect(done.returncode == 3 and refusal_of(done.stdout), f"{name}, {words}: {done}")
            left = contents(folder)
            expect(left == before, f"{name}, {words}: it leaves {sorted(set(left) - set(before))}, or changed a file")
    for kept in ("text", "text-wal", "text.lock"):
        (folder / kept).write_bytes(b"" if kept != "text" else b"this is a text\n")
        before = contents(folder)
        done = subprocess.run(
            [WB, "--store", "text", "run"], cwd=folder, stdin=subprocess.DEVNULL, capture_output=True, timeout=WAIT,
            check=False,
        )
        expect(refusal_of(done.stdout) == "NotOffice" and contents(folder) == before, f"{kept} was there: {done}")


def leaves_nothing_of_a_new_office(folder):
    """An office for which there is no room on the disk leaves nothing, wherever its making ended: neither its file nor
    the log, which would be taken for that of a lost file. Once there is room, it begins."""
    refused = 0
    for size in (0, 1, 40, 41, 4095, 4096, 4200, 20_000, 66_000, 262_000, 270_000, 300_000):
        status, said = run(folder, [], prepare=limit_files(size))
        if refusal_of(said):
            refused += 1
            expect(status == 3 and not list(folder.iterdir()), f"{size} bytes: it leaves {sorted(contents(folder))}")
            continue
        expect(status == 0, f"{size} bytes: {status}, {said}")
        expect(answers_of(folder, TWO_ARCHS[:1])[0]["accepted"] == 1, f"{size} bytes: it is no office")
        for path in folder.iterdir():
            path.unlink()
    expect(refused > 6, f"of 12 sizes {refused} are too small")
    expect(answers_of(folder, TWO_ARCHS[:1])[0]["accepted"] == 1, "no office begins afterwards")


def keeps_what_a_refused_upgrade_wrote(folder):
    """An office of format 1 for whose upgrade there is no room stays with its log, and is brought over once there is
    some."""
    script(folder, FORMATS[1])
    sizes = [page_size((folder / "store").read_bytes()) * count for count in range(1, 60, 4)]
    refused = 0
    for size in sizes:
        status, said = run(folder, [], prepare=limit_files(size))
        refused += bool(refusal_of(said))
        expect(status in (0, 3), f"{size} bytes: {status}, {said}")
    expect(refused > 1, f"of {len(sizes)} sizes {refused} are too small")
    held = answers_of(folder, ["mine b1"])[0]["records"]
    expect([record["source"] for record in held] == ["hello"], f"the builder holds {held}")


def leaves_the_lock_of_another(folder):
    """What is refused since another program has the file removes nothing."""
    session = Session(folder)
    session.ask(TWO_ARCHS[0])
    before = contents(folder)
    status, said, _ = opened(folder)
    expect((status, refusal_of(said)) == (3, "InUse") and contents(folder) == before, f"{status}, {said}")
    expect(session.end() == 0 and (folder / "store.lock").exists(), "the lock is gone")


def passes_over_a_lock_that_lost_its_name(folder):
    """A lock that another program removed before it was taken counts for nothing: who has it does not open the file
    beside the one that has the new lock."""
    if not shutil.which("strace"):
        raise LeftOut("there is no strace, which holds the program between the opening of the lock and its taking")
    answers_of(folder, TWO_ARCHS[:1])
    words = ["strace", "-qq", "-o", "calls", "-e", "trace=flock", "-e", "inject=flock:delay_enter=3000000"]
    held = subprocess.Popen(
        [*words, program(), "--store", "store", "run"], cwd=folder, stdin=subprocess.DEVNULL, stdout=subprocess.PIPE,
        stderr=subprocess.PIPE,
    )
    time.sleep(1)  # it has opened the lock, and waits for two seconds more before it takes it
    (folder / "store.lock").unlink()
    session = Session(folder)
    session.ask(TWO_ARCHS[2])
    said, errors = held.communicate(timeout=WAIT)
    if b"ptrace" in errors or b"strace:" in errors:
        raise LeftOut(f"strace cannot hold the program: {errors.decode().strip()}")
    expect(refusal_of(said) == "InUse" and b"another program has it\n" in errors, f"{said}, {errors}")
    expect(json.loads(session.ask(TWO_ARCHS[1]))["accepted"] == 3 and session.end() == 0, "the other program")


TESTS = [
    refuses_text, empty_file_is_a_new_office, opens_what_a_link_leads_to, refuses_a_log_without_its_file, refuses_paths,
    refuses_another_programs_database, refuses_other_rows,
]
TESTS += [
    looks_at_the_format_first, names_the_bad_row, works_beside_others, makes_an_office_beside_others,
    makes_no_office_over_its_names,
]
TESTS += [
    becomes_what_the_table_says, leaves_nothing_after_a_refusal, leaves_nothing_of_a_new_office,
    keeps_what_a_refused_upgrade_wrote, leaves_the_lock_of_another, passes_over_a_lock_that_lost_its_name,
]
TESTS += [cut_files, pages_of_zeroes, changed_bits, changed_bits_in_the_log]
if __name__ == "__main__":
    sys.exit(main(TESTS))

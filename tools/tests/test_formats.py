#!/usr/bin/env python3
"""Tests of `wb --store FILE` on files of each format, which lie in tools/tests/stores as SQL text and are made by
sqlite3: what an opening that may write makes of one of format 1, what a query leaves, what is refused, and what kills
leave.

    tools/tests/test_formats.py [NAME..]     these tests, or all

From the environment: WB is the program, ./wb of this repository where it is not set; SEED is added to the number of
each random choice.
"""
import contextlib
import json
import random
import sqlite3
import subprocess
import sys
import time

from harness import HERE, SEED, WAIT, WB, answers_of, expect, main, run
from store_runs import edit, refusal_of, rows_of

STORES = HERE / "stores"
FIRST, SECOND = ((STORES / f"format-{number}.sql").read_text() for number in (1, 2))
RAISED = 348000  # what a rank of format 2 has more: 1,000 build priorities come before that of 0
ALL_OLD = (
    "SELECT arch, source, state, version, priority, section, earlier, number, holder, take, waits, depends, note, "
    "message, rank FROM source_state"
)
ALL_NEW = ALL_OLD.replace("source_state", "source_record").replace("rank", f"rank - {RAISED}")
KILLS, RECORDS = 100, 1000
# A source package that a merge listed with build dependencies that cannot be read, and that an operator failed.
UNREAD = "INSERT INTO source_state VALUES('amd64', 'gcc', 7, '12-1', 'optional', 'devel', 0, 0, NULL, NULL, '', NULL, "
UNREAD += "'no space', '', 263)"


def made(folder, *statements, text=FIRST):
    """Makes the store of format 1, with these statements after its own, by sqlite3, which leaves no log."""
    with contextlib.closing(sqlite3.connect(folder / "store")) as database:
        database.executescript(text + ";".join(statements))
    return (folder / "store").read_bytes()


def many(count):
    """A statement that enters so many source packages more, which wait."""
    after = f"WITH RECURSIVE n(i) AS (SELECT 1 UNION ALL SELECT i + 1 FROM n WHERE i < {count})"
    return (
        f"INSERT INTO source_state {after} SELECT 'amd64', printf('p%05d', i), 0, '1.0-1', 'optional', 'devel', 0, 0, "
        "NULL, NULL, '', '', '', '', 263 FROM n"
    )


def records_of(folder):
    """The format of the store, its records as format 1 has them, and how many rows the table of that format has."""
    [(form,)] = rows_of(folder, "SELECT format FROM office")
    [(old,)] = rows_of(folder, "SELECT count(*) FROM source_state")
    return form, rows_of(folder, f"{ALL_OLD if form == 1 else ALL_NEW} ORDER BY 1, 2"), old


def held(folder):
    """What the builder holds, as `mine` tells it."""
    done = subprocess.run(
        [WB, "--store", "store", "mine", "b1"], cwd=folder, capture_output=True, timeout=WAIT, check=False
    )
    expect(done.returncode == 0, f"mine: {done}")
    return [
        (record["source"], record["take"], record["build_priority"]) for record in json.loads(done.stdout)["records"]
    ]


# ---- the tests, each in an empty folder


def brings_over_the_first_format(folder):
    """The first run that may write brings the store over: a record that was entered has its hold, its take number, the
    empty text for its build dependencies and a rank that is raised, one whose build dependencies cannot be read has
    none, the counts go on, and the table of format 1 stays without a row. SQLite finds nothing amiss, and the next
    commands are answered."""
    made(folder, UNREAD)
    before = records_of(folder)
    answers = answers_of(
        folder, ["mine b1", "next amd64 b1", "built 1", "enter amd64 zlib 1.0 optional libs", "next amd64 b1"]
    )
    expect([answer.get("accepted") for answer in answers[2:]] == [5, 6, 7], f"answers: {answers}")
    expect(answers[1].get("refused") == "QueueEmpty" and answers[4]["take"] == 2, f"answers: {answers}")
    unread = ("amd64", "gcc", 7, "12-1", "optional", "devel", 0, 0, None, None, "", None, "no space", "", 263)
    entered = ("amd64", "hello", 1, "1.0", "optional", "devel", 0, 0, "b1", 1, "", "", "", "", 263)
    expect(before == (1, [unread, entered], 2), f"the store as it was: {before}")
    expect(rows_of(folder, "SELECT format, handed, accepted FROM office") == [(2, 2, 7)], "the row of the office")
    wanted = "SELECT source, state, take, depends, build_priority, rank FROM source_record ORDER BY source"
    found = rows_of(folder, wanted)
    expect(found[:2] == [("gcc", 7, None, None, 0, 348263), ("hello", 2, 1, "", 0, 348263)], f"the records: {found}")
    expect(found[2:] == [("zlib", 1, 2, "", 0, 348261)], f"the records: {found}")
    expect(rows_of(folder, "SELECT count(*) FROM source_state") == [(0,)], "a row is left in source_state")
    expect(rows_of(folder, "PRAGMA integrity_check") == [("ok",)], "SQLite finds the file damaged")


def says_what_is_done(folder):
    """Standard error says that a file of format 1 is opened, that it was brought over, and that it has no checksums; of
    a query the first alone, and of later starts nothing."""
    made(folder)
    first, second = b"wb: store is of format 1: ", b"wb: store was brought over from format 1 into format 2"
    third = b"wb: another program made store: its pages have no checksums"
    for words, wanted in (
        (["mine", "b1"], [first]), (["run"], [first, second, third]), (["run"], []), (["mine", "b1"], []),
    ):
        done = subprocess.run(
            [WB, "--store", "store", *words], cwd=folder, stdin=subprocess.DEVNULL, capture_output=True, timeout=WAIT,
            check=False,
        )
        said = done.stderr.splitlines()
        expect(done.returncode == 0 and len(said) == len(wanted), f"{words}: {done}")
        expect(all(line.startswith(begin) for line, begin in zip(said, wanted)), f"{words}: {done}")


def opens_each_format(folder):
    """A query by the program alone answers the same of each format, and leaves the file as it is; a store of format 2
    is used on as it is."""
    for text in (FIRST, SECOND):
        (folder / "store").unlink(missing_ok=True)
        kept = made(folder, text=text)
        expect(held(folder) == [("hello", 1, 0)], f"mine b1 lists {held(folder)}")
        expect((folder / "store").read_bytes() == kept, "a query changed the file")
    expect(answers_of(folder, ["built 1"])[0].get("accepted") == 5, "the store of format 2 is not used on")
    expect(
        rows_of(folder, "SELECT name FROM sqlite_master WHERE name = 'source_state'") == [],
        "format 2 has the table of format 1",
    )


def refuses_what_the_first_format_has_not(folder):
    """A row that no office of format 1 keeps is Damaged, with its table, and a format above 2 is NewerSchema; nothing
    is written then."""
    cases = {
        "a state of format 2": (
            "UPDATE source_state SET state = 9, holder = NULL, take = NULL", "Damaged", b"source_state",
        ),
        "a rank of format 2": ("UPDATE source_state SET rank = 348263", "Damaged", b"source_state"),
        "a hold without a builder": ("UPDATE source_state SET holder = 'b2'", "Damaged", b"source_state"),
        "a take number above the count": ("UPDATE office SET handed = 0", "Damaged", b"source_state"),
        "a scratch row": (
            "INSERT INTO scratch_binary VALUES(1, 'a', '1', 'a', '1', 0, 1)", "Damaged", b"scratch_binary",
        ),
        "format 3": ("UPDATE office SET format = 3", "NewerSchema", b""),
        "format 2": ("UPDATE office SET format = 2", "NotOffice", b""),
        "format 0": ("UPDATE office SET format = 0", "NotOffice", b""),
        "an index more": ("CREATE INDEX other ON source_state(state)", "NotOffice", b""),
        "a table of format 2": ("CREATE TABLE source_record(name TEXT)", "NotOffice", b""),
    }
    for what, (statement, fault, named) in cases.items():
        place = folder / what
        place.mkdir()
        kept = made(place, statement)
        words = [WB, "--store", "store", "run"]
        done = subprocess.run(
            words, cwd=place, input=b"next amd64 b1\n", capture_output=True, timeout=WAIT, check=False
        )
        expect((done.returncode, refusal_of(done.stdout)) == (3, fault), f"{what}: {done}")
        expect(named in done.stderr, f"{what}: the message is {done.stderr}")
        expect((place / "store").read_bytes() == kept, f"{what}: refused, and the file was changed")


def refuses_rows_left_in_the_old_table(folder):
    """Once a store was brought over, a row in the table of format 1 is Damaged."""
    made(folder)
    answers_of(folder, ["add-builder b2 amd64"])
    edit(
        folder / "store",
        "INSERT INTO source_state VALUES('amd64', 'a', 0, '1', 'optional', 'devel', 0, 0, NULL, NULL, '', NULL, '', "
        "'', 263)",
    )
    status, said = run(folder, ["next amd64 b1"])
    expect((status, refusal_of(said)) == (3, "Damaged"), f"a row in source_state: {status}, {said}")


def keeps_tables_of_others(folder):
    """Tables of others, made before and after those of the office, keep their rows."""
    made(
        folder, "CREATE TABLE note(id INTEGER PRIMARY KEY, text TEXT)", "INSERT INTO note VALUES(1, 'a'), (7, NULL)",
        "CREATE INDEX by_text ON note(text)",
    )
    answers_of(folder, ["add-builder b2 amd64"])
    expect(rows_of(folder, "SELECT * FROM note ORDER BY id") == [(1, "a"), (7, None)], "the rows of a table of others")
    expect(records_of(folder)[0] == 2, "the format")


def stands_at_each_kill(folder):
    """A run is killed at any time while it brings 1,000 records over: the store is then of one of the two formats, with
    every record, and the next run goes on from it."""
    kept = made(folder, many(RECORDS))
    _, records, _ = records_of(folder)
    choice, found, longest = random.Random(SEED), {1: 0, 2: 0}, 0.0
    began = time.monotonic()
    answers_of(folder, ["add-builder b2 amd64"])
    longest = time.monotonic() - began
    for _ in range(KILLS):
        for name in ("store", "store-wal"):
            (folder / name).write_bytes(kept if name == "store" else b"")
        process = subprocess.Popen(
            [WB, "--store", "store", "run"], cwd=folder, stdin=subprocess.PIPE, stdout=subprocess.DEVNULL,
            stderr=subprocess.DEVNULL,
        )
        time.sleep(choice.uniform(0, 1.1 * longest))
        process.kill()
        process.wait()
        process.stdin.close()
        form, seen, old = records_of(folder)
        expect(seen == records, f"format {form}: {len(seen)} records, which are not those of before")
        expect(form == 1 or old == 0, f"{old} rows are left in source_state")
        expect(rows_of(folder, "PRAGMA integrity_check") == [("ok",)], "SQLite finds the file damaged")
        found[form] += 1
        expect(answers_of(folder, ["next amd64 b1"])[0].get("source") == "p00001", "the store is not used on")
        expect(records_of(folder)[0] == 2, "the next run did not bring it over")
    return f"format 1 after {found[1]} kills, format 2 after {found[2]}"


TESTS = [
    brings_over_the_first_format, says_what_is_done, opens_each_format, refuses_what_the_first_format_has_not,
    refuses_rows_left_in_the_old_table,
]
TESTS += [keeps_tables_of_others, stands_at_each_kill]
if __name__ == "__main__":
    sys.exit(main(TESTS))

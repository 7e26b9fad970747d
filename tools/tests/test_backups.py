#!/usr/bin/env python3
"""Tests of copies of an office that are taken while it is served: of what tools/bin/office copies under load, opened by
sqlite3 and by the program, and compared with what was answered before and after; and of the copying itself, over
databases that sqlite3 writes.

    tools/tests/test_backups.py [NAME..]     these tests, or all

From the environment: WB is the program, ./wb of this repository where it is not set.
"""
import contextlib
import itertools
import json
import shutil
import sqlite3
import subprocess
import sys
import tempfile
import threading
import time
from pathlib import Path

from harness import WAIT, WB, Failure, call, expect, main
from package_runs import OFFICE, Trial
from wanna_build_runs import ask
from wb_tools.office import copies
from wb_tools.office.files import DATABASE, LOG, Files, read_sums, sum_of, write_sums
from wb_tools.office.settings import Refusal

CLIENTS = 20
# Writes in a process of its own: each transaction adds one to both rows of a table and grows a second table. It rests
# between them, as a copy on a busy machine may take longer than it takes to fill the log.
WRITER = """
import sqlite3, sys, time
database = sqlite3.connect(sys.argv[1], isolation_level=None)
database.execute("PRAGMA locking_mode=EXCLUSIVE")
database.execute("PRAGMA journal_mode=WAL")
database.execute("PRAGMA synchronous=OFF")
database.execute(f"PRAGMA wal_autocheckpoint={sys.argv[2]}")
database.execute("CREATE TABLE counted (id INTEGER PRIMARY KEY, n INTEGER)")
database.execute("CREATE TABLE grown (n INTEGER, text TEXT)")
database.execute("INSERT INTO counted VALUES (1, 0), (2, 0)")
for n in range(1, 10**9):
    database.execute("BEGIN")
    database.execute("UPDATE counted SET n = n + 1 WHERE id = 1")
    database.execute("INSERT INTO grown VALUES (?, ?)", (n, "x" * (n * 37 % 5000)))
    database.execute("DELETE FROM grown WHERE n < ?", (n - 400,))
    database.execute("UPDATE counted SET n = n + 1 WHERE id = 2")
    database.execute("COMMIT")
    print(n, flush=True)
    time.sleep(0.001)
"""


class Writer:
    """A process that writes a database, and the last transaction of which it said that it is committed."""

    def __init__(self, folder, frames):
        self.files = Files(folder / "store", folder / "store-wal")
        words = [sys.executable, "-c", WRITER, self.files.database, str(frames)]
        self.process = subprocess.Popen(words, stdout=subprocess.PIPE, text=True)
        self.said = 0
        threading.Thread(target=self.listen, daemon=True).start()
        end = time.monotonic() + WAIT
        while self.said < 10:
            expect(time.monotonic() < end, "nothing is written")
            time.sleep(0.01)

    def listen(self):
        with contextlib.suppress(ValueError):  # it was closed after a kill
            for line in self.process.stdout:
                self.said = int(line)

    def __enter__(self):
        return self

    def __exit__(self, *_):
        self.process.kill()
        self.process.communicate()


@contextlib.contextmanager
def opened(folder):
    """A copy, opened by sqlite3 in a place of its own, which finds it whole."""
    with tempfile.TemporaryDirectory() as place:
        for name in (DATABASE, LOG):
            if (folder / name).exists():
                shutil.copy(folder / name, place)
        with contextlib.closing(sqlite3.connect(Path(place) / DATABASE)) as database:
            met = database.execute("PRAGMA integrity_check").fetchall()
            expect(met == [("ok",)], f"PRAGMA integrity_check finds {met[:3]}")
            yield database


def counted_in(folder):
    """The transaction after which a copy of what a Writer writes was taken; it has all of that one and nothing more."""
    with opened(folder) as database:
        rows = database.execute("SELECT n FROM counted ORDER BY id").fetchall()
        last = database.execute("SELECT max(n), min(n), count(*) FROM grown").fetchone()
    expect(len(rows) == 2 and rows[0] == rows[1], f"half of a transaction: {rows}")
    count = rows[0][0]
    expect(last == (count, max(1, count - 400), min(count, 401)), f"{last} after {count} transactions")
    return count


# ---- the copying, over databases of sqlite3


def copies_what_is_written(folder):
    """While a process writes and its log is copied into the database again and again, each copy is whole, and is of a
    moment between its begin and its end."""
    again, found = [], []
    with Writer(folder, frames=60) as writer:
        end = time.monotonic() + 6
        for number in itertools.count():
            place = folder / str(number)
            place.mkdir()
            before = writer.said
            try:
                sums = copies.copy_written(writer.files, place, again.append)
            except Refusal:  # each of its copies was slower than the writer
                shutil.rmtree(place)
                expect(time.monotonic() < end + WAIT, f"the log was begun anew {len(again)} times")
                continue
            time.sleep(0.05)  # for what it said to be heard
            after = writer.said
            write_sums(place, sums)
            expect(read_sums(place) == sums == {name: sum_of(place / name) for name in (DATABASE, LOG)}, "the sums")
            count = counted_in(place)
            expect(before <= count <= after + 1, f"{count} is not from {before} to {after}")
            found.append(count)
            shutil.rmtree(place)
            if time.monotonic() > end and len(again) > 3:
                break
            expect(time.monotonic() < end + WAIT, f"the log was begun anew {len(again)} times")
    expect(found == sorted(found) and len(set(found)) > 5, f"{found}")
    return f"{len(found)} copies of {found[-1]} transactions; {len(again)} times more, since the log was begun anew"


def stepped(folder):
    """A database with a log that is copied into it only if it is told to, and what writes one row of it."""
    database = sqlite3.connect(folder / "store", isolation_level=None)
    for pragma in ("locking_mode=EXCLUSIVE", "journal_mode=WAL", "wal_autocheckpoint=0"):
        database.execute(f"PRAGMA {pragma}")
    database.execute("CREATE TABLE row (n INTEGER PRIMARY KEY, text TEXT)")

    def write(n):
        database.execute("INSERT INTO row VALUES (?, ?)", (n, f"{n}" * 3000))

    return database, write


def rows_in(folder):
    """The rows of a copy of what `stepped` writes, or none if it is not whole."""
    try:
        with opened(folder) as copy:
            return [n for n, in copy.execute("SELECT n FROM row ORDER BY n")]
    except (Failure, sqlite3.Error):
        return None


def copied_again_if_the_log_is_begun_anew(folder):
    """Between the copy of the database and that of the log, the log is copied into the database and begun anew: such a
    pair is not whole, which is seen, and it is copied again. If that comes each time, it is given up."""
    database, write = stepped(folder)
    files, said, steps = Files(folder / "store", folder / "store-wal"), [], []
    kept = copies.copy_bytes

    def copy_bytes(source, target):
        kept(source, target)
        if source == files.database and len(steps) < limit:
            steps.append(source)
            database.execute("PRAGMA wal_checkpoint(RESTART)")
            write(100 + len(steps))

    try:
        copies.copy_bytes = copy_bytes
        for limit, wanted in ((0, 0), (2, 2)):
            for n in range(10):
                write(20 * limit + n)
            place = folder / f"copy-{limit}"
            place.mkdir()
            copies.copy_written(files, place, said.append)
            whole = [n for n, in database.execute("SELECT n FROM row ORDER BY n")]
            expect(rows_in(place) == whole and len(said) == wanted, f"{rows_in(place)} of {whole}; {said}")
        limit, place = 10**6, folder / "never"
        place.mkdir()
        copies.TRIES = 3
        with contextlib.suppress(Refusal):
            copies.copy_written(files, place, said.append)
            expect(False, "it copied what never stood still")
        expect(len(said) == 5, f"{said}")
        # a database, and a log that was begun anew after it was copied, lack what was written between
        limit, place = 0, folder / "torn"
        place.mkdir()
        kept(files.database, place / DATABASE)
        write(1000)
        database.execute("PRAGMA wal_checkpoint(RESTART)")
        write(1001)
        kept(files.log, place / LOG)
        whole = [n for n, in database.execute("SELECT n FROM row ORDER BY n")]
        expect(1000 in whole and rows_in(place) != whole, "a pair that does not fit together is whole")
    finally:
        copies.copy_bytes, copies.TRIES = kept, 50
        database.close()


def copies_a_database_while_its_log_is_copied_into_it(folder):
    """The log is copied into the database while the database is copied, and not begun anew: what the copy of the
    database has of it does not count."""
    database, write = stepped(folder)
    for n in range(40):
        write(n)
    database.execute("PRAGMA wal_checkpoint(RESTART)")
    for n in range(40, 80):
        write(n)
        database.execute("UPDATE row SET text = ? WHERE n = ?", ("new" * 900, n - 40))
    before = (folder / "store").read_bytes()
    whole = database.execute("SELECT n, text FROM row ORDER BY n").fetchall()
    database.execute("PRAGMA wal_checkpoint(PASSIVE)")
    after = (folder / "store").read_bytes()
    expect(before != after and len(before) < len(after), "nothing was copied into the database")
    log = (folder / "store-wal").read_bytes()
    for at in (4096, 3 * 4096, 5 * 4096 + 77, len(before) // 2, len(before)):
        for name, data in (("front", after[:at] + before[at:]), ("end", before[:at] + after[at:])):
            place = folder / f"{name}-{at}"
            place.mkdir()
            (place / DATABASE).write_bytes(data)
            (place / LOG).write_bytes(log)
            with opened(place) as copy:
                met = copy.execute("SELECT n, text FROM row ORDER BY n").fetchall()
            expect(met == whole, f"{name} of the new database up to {at}: {len(met)} rows of {len(whole)}")
    database.close()


def drops_what_is_under_way(folder):
    """Of a copy whose log ends within a commit, or has a front of it and old bytes behind, all commits before count."""
    database, write = stepped(folder)
    sizes = [(folder / "store-wal").stat().st_size]
    for n in range(6):
        write(n)
        sizes.append((folder / "store-wal").stat().st_size)
    data, log = (folder / "store").read_bytes(), (folder / "store-wal").read_bytes()
    database.close()
    cuts = [at + more for at in sizes[:-1] for more in (0, 1, 24, 25, 4000)]
    for number, cut in enumerate(cuts):
        for kind, behind in enumerate((b"", bytes(len(log) - cut), log[32 : 32 + len(log) - cut])):
            place = folder / f"{number}-{kind}"
            place.mkdir()
            (place / DATABASE).write_bytes(data)
            (place / LOG).write_bytes(log[:cut] + behind)
            wanted = list(range(sum(at <= cut for at in sizes[1:])))
            expect(rows_in(place) == wanted, f"cut at {cut}: {rows_in(place)} in place of {wanted}")
    return f"{3 * len(cuts)} logs"


# ---- the program


REPORTED = [f"r{at}" for at in range(3000)]  # packages that each report moves, all of them at once


class Load:
    """Clients that write to an office, one of them reports that move many records, and what was answered to the others:
    the names that were entered."""

    def __init__(self, port):
        self.port, self.ends, self.lock = port, threading.Event(), threading.Lock()
        self.entered, self.faults = set(), []
        works = [self.report, *[self.enter] * (CLIENTS - 1)]
        self.threads = [threading.Thread(target=self.work, args=one) for one in enumerate(works)]

    def __enter__(self):
        for thread in self.threads:
            thread.start()
        return self

    def __exit__(self, *_):
        self.ends.set()
        for thread in self.threads:
            thread.join()

    def work(self, number, step):
        try:
            for at in itertools.count():
                if self.ends.is_set():
                    return
                step(number, at)
        except Exception as why:  # noqa: BLE001
            self.faults.append(f"{type(why).__name__}: {why}")

    def enter(self, number, at):
        name = f"p{number}-{at}"
        named = {"arch": "amd64", "source": name, "version": "1.0"}
        self.post("enter", **named, priority="optional", section="devel")
        with self.lock:
            self.entered.add(name)
        self.post("fail", **named, note="x" * 900)
        self.post("give-back", **named)

    def report(self, _number, at):
        said = "installable" if at % 2 else f"uninstallable {'x' * 900}"
        self.post("report", arch="amd64", text="".join(f"{name} 1.0 {said}\n" for name in REPORTED))

    def post(self, name, **body):
        said = ask(self.port, "POST", f"/v1/{name}", body)
        expect("ok" in said, f"{name} {body}: {said}")


def accepted_by(office):
    return ask(office.port, "GET", "/v1/summary/amd64")["accepted"]


def backs_up_under_load(folder):
    """20 clients write while backups are made, and the log is copied into the database meanwhile: nothing is stopped,
    each backup has all that was answered before it began, and nothing that came after it ended, and of a report all or
    nothing."""
    with Trial(folder) as office:
        office.fill()
        office.do("run", stdin=office.lines([f"enter amd64 {name} 1.0 optional devel" for name in REPORTED]))
        office.do("start")
        process, again, begun, spent = office.server(), 0, [], []
        with Load(office.port) as load:
            end = time.monotonic() + 8
            while time.monotonic() < end or not any(begun):
                expect(time.monotonic() < end + WAIT, "the log was never begun anew beside a backup")
                time.sleep(0.2)
                with load.lock:
                    entered = set(load.entered)
                before, header, start = accepted_by(office), copies.header_of(office.log), time.monotonic()
                said, steps = office.do("backup")
                spent.append(time.monotonic() - start)
                after = accepted_by(office)
                again += steps.count("both files are copied once more")
                begun.append(copies.header_of(office.log) != header)
                expect("stop the service" not in steps and "while it is served" in steps, steps)
                saved = Path(said.strip())
                with opened(saved) as copy:
                    accepted = copy.execute("SELECT accepted FROM office").fetchone()[0]
                    names = {name for name, in copy.execute("SELECT source FROM source_record")}
                    of_reports = "SELECT count(*) FROM source_record WHERE source GLOB 'r[0-9]*' GROUP BY state"
                    moved = copy.execute(of_reports).fetchall()
                expect(moved == [(len(REPORTED),)], f"a part of a report is there: {moved}")
                expect(before <= accepted <= after, f"{accepted} is not from {before} to {after}")
                expect(entered <= names, f"answered, and not there: {sorted(entered - names)[:5]}")
                expect_opens(saved, accepted, len(names))
            expect(not load.faults, f"{load.faults[:3]}")
        expect(office.server() == process, "another process serves")
    return (
        f"{len(spent)} backups of {accepted} commands, {max(spent):.1f} s at most; the log was begun anew beside "
        f"{sum(begun)}, and {again} were copied again"
    )


def expect_opens(saved, accepted, records):
    """That the program opens a backup, with this count and so many records."""
    with tempfile.TemporaryDirectory() as place:
        for name in read_sums(saved):
            shutil.copy(saved / name, place)
        said, _ = call([WB, "--store", Path(place) / DATABASE, "summary", "amd64"])
    found = json.loads(said)
    met = found["accepted"], sum(found["counts"].values())
    expect(met == (accepted, records), f"the program finds {met} in place of {(accepted, records)}")


def restores_what_was_copied(folder):
    """A backup of an office that is served is put in as any other."""
    with Trial(folder) as office:
        office.fill()
        office.do("start")
        said, steps = office.do("backup")
        saved = Path(said.strip())
        office.do("run", stdin=office.lines(["enter amd64 later 1.0 optional devel"]))
        office.do("stop")
        expect(office.has("later"), "the office does not have what was entered")
        office.do("restore", "--force", saved)
        expect(office.has("hello") and not office.has("later"), "the office is not that of the backup")
        _, said = office.do("--dry-run", "backup")
        expect("while it is served" not in said, said)
    expect(OFFICE.exists() and "while it is served" in steps, steps)


TESTS = [
    copies_what_is_written, copied_again_if_the_log_is_begun_anew, copies_a_database_while_its_log_is_copied_into_it,
    drops_what_is_under_way, backs_up_under_load, restores_what_was_copied,
]

if __name__ == "__main__":
    sys.exit(main(TESTS))

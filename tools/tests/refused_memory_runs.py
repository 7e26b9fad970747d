"""Programs under the library of refuse_memory.c, and the files of an office as SQLite reads them, for
tools/tests/test_refused_memory.py.
"""
import json
import mmap
import os
import shutil
import sqlite3
import subprocess
import tempfile
import time
from contextlib import closing
from pathlib import Path

from harness import HERE, WAIT, expect, program

LIBRARY, STORES = HERE / "refuse_memory.c", HERE / "stores"
TABLES = {
    "office": "id",
    "arch": "name",
    "builder": "name, arch",
    "source_record": "arch, source",
    "scratch_source": "seq",
    "scratch_binary": "seq",
}
TABLES_OF_1 = {"source_state": "arch, source"}
FOLDER = "/dev/shm" if os.access("/dev/shm", os.W_OK) else None


# ---- the programs and the library


class Tools:
    """The program, and the library."""

    def __init__(self, folder):
        expect(shutil.which("cc"), "there is no cc to build the library that refuses memory")
        self.library = str(Path(folder) / "refuse_memory.so")
        subprocess.run(["cc", "-O2", "-shared", "-fPIC", "-o", self.library, str(LIBRARY)], check=True)
        self.wb = str(program())


class Run:
    """A program under the library. Its parts are those of refuse_memory.c."""

    def __init__(self, tools, folder, words, chosen=0):
        with open(folder / "numbers", "wb") as made:
            made.write(bytes(40))
        with open(folder / "numbers", "r+b") as opened:
            self.map = mmap.mmap(opened.fileno(), 40)
        self.numbers = memoryview(self.map).cast("Q")
        self.numbers[0] = chosen
        self.parts = 1
        self.errors = open(folder / "stderr", "w+b")
        environment = os.environ | {"LD_PRELOAD": tools.library, "REFUSE_FILE": str(folder / "numbers")}
        pipe = subprocess.PIPE
        self.process = subprocess.Popen(words, cwd=folder, stdin=pipe, stdout=pipe, stderr=self.errors, env=environment)

    def __enter__(self):
        return self

    def __exit__(self, *_):
        if self.process.poll() is None:
            self.process.kill()
        self.process.wait()
        for stream in (self.process.stdin, self.process.stdout, self.errors):
            try:
                stream.close()
            except BrokenPipeError:
                pass
        self.numbers.release()
        self.map.close()

    def wait_for_part(self):
        """Waits until so many parts have ended; whether the program still runs."""
        end = time.monotonic() + WAIT
        while self.numbers[3] < self.parts or self.numbers[4]:
            if self.numbers[4] or self.process.poll() is not None:
                return False
            expect(time.monotonic() < end, "the program waits for nothing and does not end")
            time.sleep(0.00005)
        return True

    def ask(self, line, chosen=0):
        """The answer to a line of which this request for memory is refused; without its line feed, and empty if the run
        ended."""
        if not self.wait_for_part():
            return ""
        self.numbers[0] = chosen
        self.parts += 1
        try:
            self.process.stdin.write(f"{line}\n".encode())
            self.process.stdin.flush()
        except BrokenPipeError:
            return ""
        answer = self.process.stdout.readline().decode()
        self.wait_for_part()
        return answer.removesuffix("\n")

    def counted(self):
        """How many requests the part had, and whether one was refused."""
        return self.numbers[1], bool(self.numbers[2])

    def end(self, chosen=0):
        """Ends the input; the status, and what is left of the output."""
        if self.wait_for_part():
            self.numbers[0] = chosen
            try:
                self.process.stdin.close()
            except BrokenPipeError:
                pass
        said = self.process.stdout.read().decode()
        return self.process.wait(WAIT), said

    def said(self):
        """What standard error has."""
        self.errors.seek(0)
        return self.errors.read().decode()


# ---- the file of an office


def rows_in(folder, tables=TABLES, name="store"):
    """The rows that SQLite finds in a copy of the file and its log; none if it has no such tables."""
    with tempfile.TemporaryDirectory(dir=FOLDER) as copy:
        for end in ("", "-wal"):
            if (folder / f"{name}{end}").exists():
                shutil.copyfile(folder / f"{name}{end}", f"{copy}/store{end}")
        with closing(sqlite3.connect(f"{copy}/store")) as database:
            there = {row[0] for row in database.execute("select name from sqlite_schema where type = 'table'")}
            found = []
            for table, key in tables.items():
                if table in there:
                    found += [(table, *row) for row in database.execute(f"select * from {table} order by {key}")]
            return found


def lines_in(journal):
    """The lines of a journal, of which there may be none."""
    lines = journal.read_text(encoding="utf-8").splitlines() if journal.exists() else []
    return [json.loads(line) for line in lines]


def make_database(path, sql):
    """Makes the database of this SQL text, which is a store of a format."""
    with closing(sqlite3.connect(path)) as database:
        database.executescript((STORES / sql).read_text(encoding="utf-8"))


class Kept:
    """The files with which each trial of a case begins."""

    def __init__(self, tools, files, before=(), sql=None):
        self.files = {name: text.encode() for name, text in files.items()}
        with tempfile.TemporaryDirectory(dir=FOLDER) as name:
            folder = Path(name)
            self.lay_out(folder)
            if sql is not None:
                make_database(folder / "store", sql)
            if before:
                run_all(tools, folder, before)
            self.rows = rows_in(folder, TABLES | TABLES_OF_1) if sql or before else []
            for end in ("store", "store-wal"):
                if (folder / end).exists():
                    self.files[end] = (folder / end).read_bytes()

    def lay_out(self, folder):
        for name, data in self.files.items():
            (folder / name).write_bytes(data)


def run_all(tools, folder, lines, words=("--store", "store", "run")):
    """The answers of a run with ample memory, and its status."""
    text = "".join(f"{line}\n" for line in lines)
    done = subprocess.run(
        [tools.wb, *words], cwd=folder, input=text.encode(), capture_output=True, timeout=WAIT, check=False
    )
    return done.stdout.decode().splitlines(), done.returncode


def fresh():
    """A folder for one program."""
    return tempfile.TemporaryDirectory(dir=FOLDER)


def bytes_in(folder):
    """What the file of the office and its log hold."""
    return [(folder / name).read_bytes() if (folder / name).exists() else b"" for name in ("store", "store-wal")]

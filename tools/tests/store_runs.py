"""Runs of the program with its records in a file, `wb --store FILE run`, and that file as sqlite3 reads and changes it,
for tools/tests/test_run.py, tools/tests/test_store.py, tools/tests/test_store_files.py and tools/tests/test_serve.py.
"""
import contextlib
import json
import queue
import shutil
import sqlite3
import struct
import subprocess
import tempfile
import threading
from pathlib import Path

from harness import WAIT, WB, Failure, answers_of, expect

FAULTS = {"NotOffice", "NewerSchema", "Damaged", "Memory", "Device", "InUse"}
OFFICE_TABLES = ["builder", "source_record", "arch", "office", "scratch_source", "scratch_binary"]
TWO_ARCHS = ["add-arch amd64 linux amd64", "add-arch arm64 linux arm64", "add-builder b1 amd64", "add-builder b2 arm64"]


def refusal_of(said):
    """The fault of a store that was not opened, or None if this is no answer of such a run."""
    if said.count(b"\n") != 1 or not said.startswith(b'{"fault":"store",'):
        return None
    fault = json.loads(said)
    expect(fault["store"] in FAULTS, f"no such fault: {said}")
    return fault["store"]


@contextlib.contextmanager
def copied_database(folder):
    """A copy of the file `store` and its log, opened by sqlite3."""
    with tempfile.TemporaryDirectory() as copy:
        for name in ("store", "store-wal"):
            if (folder / name).exists():
                shutil.copy(folder / name, copy)
        with contextlib.closing(sqlite3.connect(Path(copy) / "store")) as database:
            yield database


def rows_of(folder, query):
    """The rows that sqlite3 finds in a copy of the store."""
    with copied_database(folder) as database:
        return database.execute(query).fetchall()


def page_size(data):
    size = int.from_bytes(data[16:18], "big")
    return 65536 if size == 1 else size


def seal(path):
    """Gives each page the sum of SQLite's extension cksumvfs, if the file has sums; without the extension sqlite3
    leaves the old ones."""
    data = bytearray(path.read_bytes())
    size = page_size(data)
    for start in range(0, len(data) if data[20] == 8 else 0, size):
        words = struct.unpack_from(f"<{(size - 8) // 4}I", data, start)
        first = second = 0
        for one, other in zip(words[::2], words[1::2]):
            first = (first + one + second) & 0xFFFFFFFF
            second = (second + other + first) & 0xFFFFFFFF
        struct.pack_into("<2I", data, start + size - 8, first, second)
    path.write_bytes(data)


def edit(path, *statements):
    """Changes a database by sqlite3, which copies the log into the file as it closes it."""
    with contextlib.closing(sqlite3.connect(path, isolation_level=None)) as database:
        for statement in statements:
            database.execute(statement)
    seal(path)


class Session:
    """A run over the file `store` whose input is kept open."""

    def __init__(self, folder):
        words = [WB, "--store", "store", "run"]
        pipe = subprocess.PIPE
        self.process = subprocess.Popen(words, cwd=folder, stdin=pipe, stdout=pipe, stderr=subprocess.DEVNULL)
        self.said = queue.Queue()
        threading.Thread(target=self.listen, daemon=True).start()

    def listen(self):
        for answer in self.process.stdout:
            self.said.put(answer)
        self.said.put(None)

    def send(self, lines):
        with contextlib.suppress(BrokenPipeError, ValueError):  # ValueError: closed after a kill
            self.process.stdin.write("".join(f"{line}\n" for line in lines).encode())
            self.process.stdin.flush()

    def answer(self):
        try:
            answer = self.said.get(timeout=WAIT)
        except queue.Empty:
            raise Failure(f"no answer in {WAIT} seconds") from None
        expect(answer is not None, "the run ended before it answered")
        return answer

    def ask(self, line):
        self.send([line])
        return self.answer()

    def rest(self):
        """The whole answers that are left, once the run has ended."""
        answers = iter(lambda: self.said.get(timeout=WAIT), None)
        return [answer for answer in answers if answer.endswith(b"\n")]

    def kill(self):
        self.process.kill()
        self.process.wait()
        rest = self.rest()
        with contextlib.suppress(BrokenPipeError):
            self.process.stdin.close()
        return rest

    def end(self):
        self.process.stdin.close()
        return self.process.wait(timeout=WAIT)


def filled(folder):
    """Makes an office with records in many states and texts of more than a page, by a run that ends well. Gives the
    count of records."""
    lines = (
        TWO_ARCHS
        + [f"enter amd64 s{at} 1.{at} optional devel" for at in range(40)]
        + ["enter arm64 s0 1.0 optional libs"]
    )
    lines += ["next amd64 b1", "next amd64 b1", "next arm64 b2", "built 1", "next amd64 b1"]
    lines += [
        f"fail amd64 s30 1.30 {'note' * 240}",
        "dep-wait amd64 s31 1.31 " + ", ".join(f"lib-{at} (>= {at})" for at in range(600)),
    ]
    lines += [f"not-for-us amd64 s{at} 1.{at} {'why' * 300}" for at in range(32, 37)]
    answers = answers_of(folder, lines)
    expect(all("accepted" in answer for answer in answers), f"some line was refused: {answers}")
    return 41


def opened(folder, *words):
    """The status, the answer and the messages of the program over the file `store`, with these words or with a run that
    reads no line."""
    done = subprocess.run(
        [WB, "--store", "store", *(words or ["run"])], cwd=folder, stdin=subprocess.DEVNULL, capture_output=True,
        timeout=WAIT, check=False,
    )
    return done.returncode, done.stdout, done.stderr.decode()


def script(folder, text):
    """A database of these statements, made by sqlite3, whose pages have no checksums."""
    with contextlib.closing(sqlite3.connect(folder / "store")) as database:
        database.executescript(text)


def script_with_sums(folder, text):
    """The same in a file whose pages have checksums."""
    opened(folder)
    edit(folder / "store", *(f"DROP TABLE {name}" for name in OFFICE_TABLES))
    script(folder, text)
    seal(folder / "store")


def frames(folder):
    """The log of an office that was killed, with its frames, made in a folder beside this one."""
    place = folder.with_name(f"{folder.name} log")
    place.mkdir()
    session = Session(place)
    session.ask(TWO_ARCHS[0])
    session.kill()
    return (place / "store-wal").read_bytes()

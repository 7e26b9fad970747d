"""Calls of the tools around the program, and offices with a service, for tools/tests/test_package.py,
tools/tests/test_office.py and tools/tests/test_merge_archive.py; and the program that is tried, for
tools/tests/test_wanna_build.py too.

From the environment: WB is the program, crates/wb/out/wb of this repository where it is not set.
"""
import shutil
import subprocess
import time
from pathlib import Path

from harness import BIN, call, expect, free_port, program

OFFICE = BIN / "office"
WAIT = 30
OPENING = [
    "add-arch amd64 linux amd64", "add-builder b1 amd64", "enter amd64 hello 1.0 optional devel",
    "enter amd64 tar 1.30 required admin",
]


class Trial:
    """An office with a process that a file names, and the command of its operator. Its program is the proved one, if no
    other is given."""

    def __init__(self, folder, wb=None, **more):
        self.wb = wb or program()
        self.folder = folder / "an office"
        (self.folder / "backups").mkdir(parents=True)
        self.store, self.backups = self.folder / "office.db", self.folder / "backups"
        self.log = self.folder / "office.db-wal"
        self.port = free_port()
        self.conf = folder / "office.conf"
        self.command = [OFFICE]
        self.program = folder / "the program"
        self.faults = folder / "faults"
        self.faults.mkdir()
        # the program, with the faults that a test asks for by making a file
        self.program.write_text(
            f"""#!/bin/bash
word=${{*: -1}}
[[ $word != run || ! -e '{self.faults}/kill' || "$2" == *trial* ]] || kill -9 $$
[[ $word != run || ! -e '{self.faults}/sleep' || "$2" == *trial* ]] || {{ echo $$ >'{self.faults}/sleep'; sleep 20; }}
[[ $word != run || ! -e '{self.faults}/speak' ]] || echo 'wb: a new office begins in it' >&2
[[ $word != run || ! -e '{self.faults}/bad-trial' || "$2" != *trial* ]] || exit 3
[[ $word != run || ! -e '{self.faults}/lose' ]] || exec '{self.wb}' "$@" < <(grep -v arm64=)
[[ " $* " != *" serve "* || ! -e '{self.faults}/serve' ]] || exit 3
exec '{self.wb}' "$@"
"""
        )
        self.program.chmod(0o755)
        self.settings = {
            "PROGRAM": self.program, "STORE": self.store, "BACKUPS": self.backups, "PORT": self.port, "SERVICE": (
                "pidfile"
            ),
            "PID_FILE": self.folder / "wb.pid", "LOG": self.folder / "messages", "WAIT": 10, **more,
        }  # fmt: skip
        self.write_settings()

    def write_settings(self):
        self.conf.write_text("".join(f'{key}="{value}"\n' for key, value in self.settings.items()))

    def __enter__(self):
        return self

    def __exit__(self, *_):
        for name in self.faults.iterdir():
            name.unlink()
        subprocess.run([*self.command, "--settings", self.conf, "stop"], capture_output=True, timeout=60, check=False)

    def do(self, *words, wanted=0, **options):
        return call([*self.command, "--settings", self.conf, *words], wanted, **options)

    def fill(self):
        self.do("create")
        self.do("run", stdin=self.lines(OPENING))

    def lines(self, lines):
        file = self.conf.with_name("lines")
        file.write_text("".join(f"{line}\n" for line in lines))
        return open(file, encoding="utf-8")

    def fault(self, name):
        (self.faults / name).write_text("")

    def runs(self):
        return (
            subprocess.run(
                [*self.command, "--settings", self.conf, "status"], capture_output=True, timeout=60, check=False
            ).returncode
            == 0
        )

    def tree(self):
        """All files of the office and of its backups, with their bytes, but for the file of the lock and the
        messages."""
        passed_over = ("office.db.lock", "messages")
        files = (file for file in self.folder.rglob("*") if file.is_file() and file.name not in passed_over)
        return {str(file.relative_to(self.folder)): file.read_bytes() for file in files}

    def saved(self):
        return sorted(self.backups.iterdir())

    def has(self, source):
        """Whether a source package has a record: to enter it again is refused then. Tried on a copy."""
        copy = self.folder / "a look"
        copy.mkdir()
        for file in (self.store, self.log):
            if file.exists():
                shutil.copy(file, copy)
        words = [self.wb, "--store", copy / "office.db", "run"]
        line = f"enter amd64 {source} 1.0 optional devel\n".encode()
        said = subprocess.run(words, input=line, capture_output=True, timeout=WAIT, check=False).stdout
        shutil.rmtree(copy)
        return b"AlreadyThere" in said

    def keeper(self):
        return int((self.folder / "wb.pid").read_text().split()[0])

    def server(self):
        """The process of the program that serves."""
        said = subprocess.run(
            ["pgrep", "-P", str(self.keeper())], capture_output=True, text=True, check=False
        ).stdout.split()
        return int(said[0]) if said else None


def wait_until(holds, why):
    end = time.monotonic() + WAIT
    while not holds():
        expect(time.monotonic() < end, why)
        time.sleep(0.05)


def lives(process):
    """Whether a process runs; one that ended may still be listed until its parent has asked for its status."""
    try:
        return (
            Path(f"/proc/{process}/stat").read_text(encoding="ascii", errors="replace").rpartition(")")[2].split()[0]
            not in "ZX"
        )
    except OSError:
        return False

"""The service of an office, for tools/bin/office: one that systemd keeps, or a process that a file names."""
from __future__ import annotations

import contextlib
import http.client
import json
import os
import signal
import socket
import subprocess
import sys
import time
from pathlib import Path

from wb_tools import BIN
from wb_tools.office.settings import NOT_RUNNING, Owner, Refusal, Settings

RUNS_SYSTEMD = Path("/run/systemd/system")  # the folder that is there if the first process is systemd
ASK_AGAIN = 0.1  # seconds between two looks at what is waited for


class Systemd:
    """A service that systemd keeps."""

    def __init__(self, settings: Settings, owner: Owner) -> None:
        self.settings, self.owner = settings, owner
        self.starting = f"start the service: systemctl start {settings.unit}"
        self.stopping = f"stop the service: systemctl stop {settings.unit}"

    def call(self, *words: str) -> str:
        hint = f"without systemd say SERVICE=pidfile in {self.settings.file}"
        booted = RUNS_SYSTEMD.is_dir()
        with self.owner.caller():
            try:
                done = subprocess.run(
                    ["systemctl", *words], stdin=subprocess.DEVNULL, stdout=subprocess.PIPE,
                    stderr=None if booted else subprocess.DEVNULL, check=False,
                )
            except OSError as error:
                raise Refusal(f"systemctl cannot be started: {error.strerror}; {hint}") from None
        if done.returncode != 0:
            more = f"journalctl -u {self.settings.unit} says more" if booted else f"systemd does not run here: {hint}"
            raise Refusal(f"systemctl {' '.join(words)} ended with {done.returncode}; {more}")
        return done.stdout.decode(errors="replace").strip()

    def state(self) -> str:
        return self.call("show", "--property=ActiveState", "--value", self.settings.unit)

    def runs(self) -> bool:
        return self.state() not in ("inactive", "failed", "")

    def start(self) -> None:
        try:
            self.call("start", self.settings.unit)
        except Refusal as refusal:
            raise Refusal(str(refusal), NOT_RUNNING) from None

    def stop(self) -> None:
        self.call("stop", self.settings.unit)

    def describe(self) -> str:
        return f"{self.settings.unit} is {self.state()}"

    def where(self) -> str:
        return f"journalctl -u {self.settings.unit}"


class PidFile:
    """A service whose process a file names: its number and, in a second line, when it began, since numbers are used
    again."""

    def __init__(self, settings: Settings, owner: Owner) -> None:
        assert settings.pid_file and settings.log
        self.settings, self.owner = settings, owner
        self.file, self.log = settings.pid_file, settings.log
        self.starting = f"start the service, with its process in {self.file} and its messages in {self.log}"
        self.stopping = f"stop the service: SIGTERM to the process in {self.file}"

    @staticmethod
    def began(process: int) -> str | None:
        """When a process began, in ticks; none if it does not run."""
        try:
            fields = (
                Path(f"/proc/{process}/stat").read_text(encoding="utf-8", errors="replace").rpartition(")")[2].split()
            )
        except OSError:
            return None
        return fields[19] if fields[0] not in "ZX" else None

    def process(self) -> int | None:
        """The process that the file names, if it is still the same and runs."""
        try:
            words = self.file.read_text(encoding="ascii").split()
        except FileNotFoundError:
            return None
        except (OSError, UnicodeDecodeError) as error:
            raise Refusal(f"{self.file} cannot be read: {error}") from None
        if len(words) != 2 or not all(map(str.isdigit, words)):
            raise Refusal(f"{self.file} does not name a process and when it began; this command did not write it")
        process = int(words[0])
        return process if self.began(process) == words[1] and self.is_ours(process) else None

    @staticmethod
    def is_ours(process: int) -> bool:
        """Whether the process is the owner's: the owner may write the file, and nobody else's process is ended for
        it."""
        try:
            return Path(f"/proc/{process}").stat().st_uid == os.geteuid()
        except OSError:
            return False

    def runs(self) -> bool:
        return self.process() is not None

    def start(self) -> None:
        """Starts a keeper. The file that names it is opened before, so that none runs that no file names."""
        self.make_folder()
        words = [sys.executable, BIN / "office", "--settings", self.settings.file, "keep"]
        written = self.file.with_name(self.file.name + ".new")
        with open(self.log, "ab") as log, open(written, "w", encoding="ascii") as names:
            keeper = self.owner.start(
                words, stdin=subprocess.DEVNULL, stdout=log, stderr=log, start_new_session=True, cwd="/"
            )
            try:
                names.write(f"{keeper.pid}\n{self.began(keeper.pid) or 0}\n")
                names.flush()
            except OSError:
                keeper.terminate()
                raise
        os.replace(written, self.file)

    def make_folder(self) -> None:
        """Makes the folder of the file for the owner if it is not there, as /run has lost it after a boot."""
        folder = self.file.parent
        if folder.is_dir():
            return
        try:
            folder.mkdir(mode=0o750)
        except PermissionError:
            with self.owner.caller():
                folder.mkdir(mode=0o750)
                self.owner.give(folder)

    def stop(self) -> None:
        process = self.process()
        if process is None:
            return
        with contextlib.suppress(ProcessLookupError):
            os.kill(process, signal.SIGTERM)
        end = time.monotonic() + self.settings.wait
        while self.runs():
            if time.monotonic() > end:
                raise Refusal(f"process {process} did not end within {self.settings.wait} s of SIGTERM")
            time.sleep(ASK_AGAIN)
        self.file.unlink(missing_ok=True)

    def describe(self) -> str:
        process = self.process()
        if process is not None:
            return f"{self.file} names process {process}, which runs"
        if self.file.exists():
            return f"{self.file} names a process that is gone; {self.log} says why"
        return f"{self.file} is not there"

    def where(self) -> str:
        return str(self.log)


def listens(port: int) -> bool:
    """Whether some program has the port."""
    try:
        socket.create_connection(("127.0.0.1", port), timeout=1).close()
    except OSError:
        return False
    return True


def answers(port: int, seconds: float) -> bool:
    """Whether the office answers a request; this takes one of its connections."""
    connection = http.client.HTTPConnection("127.0.0.1", port, timeout=seconds)
    try:
        connection.request("GET", "/v1/mine/office")
        return isinstance(json.loads(connection.getresponse().read()), dict)
    except (OSError, http.client.HTTPException, ValueError):
        return False
    finally:
        connection.close()

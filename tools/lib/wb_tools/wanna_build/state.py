"""What tools/bin/wanna-build keeps in one file: the take numbers of what builders hold, and the reports that it owes
the office.

The file is replaced as a whole, and synced before and after, so a stop leaves the one before or the one after. A lock
beside it lets one call at a time change it. Nobody but their owner can open them.
"""
from __future__ import annotations

import contextlib
import dataclasses
import fcntl
import json
import os
import time
from collections.abc import Iterator
from dataclasses import dataclass, field
from pathlib import Path
from typing import Any

from wb_tools.wanna_build.settings import NOT_SENT, Fault, open_private

FORMAT = 1
MOST_ENDED = 1000  # entries of holds that ended, which are kept against late reports
ASK_AGAIN = 0.1

# How far a build is, as its builder said. ENDED: the office answered that the hold had ended.
BUILDING, BUILT, ATTEMPTED, ENDED = "building", "built", "attempted", "ended"


@dataclass
class Take:
    """What a builder took, under which take number, and what became of it."""

    suite: str
    arch: str
    builder: str
    source: str
    version: str
    build: str
    take: int
    stage: str

    def is_of(self, version: str) -> bool:
        return version in (self.version, self.build)

    def is_held_as(self, version: str) -> bool:
        return self.is_of(version) and self.stage in (BUILDING, BUILT)


@dataclass
class Debt:
    """A report that the office has still to be given. Its take number is none if it is not known, or if the package is
    to be taken for it."""

    suite: str
    arch: str
    builder: str
    source: str
    version: str
    word: str
    take: int | None
    text: str = ""
    anew: bool = False  # whether the package may be given back and taken for it
    retaken: bool = False  # whether it was
    sent: bool = False  # whether it was sent before, perhaps without an answer

    def __str__(self) -> str:
        return f"{self.word} {self.source}_{self.version} ({self.suite}, {self.arch}, {self.builder}" + (
            f", take {self.take})" if self.take else ")"
        )


@dataclass
class Kept:
    """What the file has."""

    takes: list[Take] = field(default_factory=list)
    owed: list[Debt] = field(default_factory=list)

    def find(self, suite: str, arch: str, builder: str, source: str) -> Take | None:
        same = (
            take
            for take in self.takes
            if (take.suite, take.arch, take.builder, take.source) == (suite, arch, builder, source)
        )
        return next(same, None)

    def put(self, take: Take) -> None:
        self.drop(take.suite, take.arch, take.builder, take.source)
        self.takes.append(take)

    def drop(self, suite: str, arch: str, builder: str, source: str) -> None:
        found = self.find(suite, arch, builder, source)
        if found:
            self.takes.remove(found)

    def prune(self) -> None:
        ended = [take for take in self.takes if take.stage in (ATTEMPTED, ENDED)]
        for take in ended[: max(0, len(ended) - MOST_ENDED)]:
            self.takes.remove(take)


class Damaged(Fault):
    """The file is not as this command wrote it."""


class StateFile:
    """The file, and its lock."""

    def __init__(self, path: Path) -> None:
        self.path = path
        self.kept = Kept()

    def read(self) -> Kept:
        """What the file has; nothing if there is none."""
        try:
            text = self.path.read_bytes()
        except FileNotFoundError:
            self.kept = Kept()
            return self.kept
        except OSError as error:
            raise Fault(f"{self.path} cannot be read: {error.strerror}", NOT_SENT) from None
        try:
            said: dict[str, Any] = json.loads(text)
            if said["format"] != FORMAT:
                raise ValueError(f"its format is {said['format']}")
            self.kept = Kept([Take(**row) for row in said["takes"]], [Debt(**row) for row in said["owed"]])
        except (ValueError, KeyError, TypeError) as error:
            raise Damaged(
                f"{self.path} is not as this command wrote it: {error}; look at it, and move it away", NOT_SENT
            ) from None
        return self.kept

    def look(self, is_builders: bool = False) -> Kept:
        """The same for a call that can do without it: also nothing if it cannot be read, as that of somebody else. A
        builder has to know that it is damaged, since it may owe something then."""
        try:
            return self.read()
        except Fault as fault:
            if is_builders and isinstance(fault, Damaged):
                raise
        self.kept = Kept()
        return self.kept

    def write(self) -> None:
        """Puts what is kept into the file, and waits until the disk has it."""
        self.kept.prune()
        rows = {name: [dataclasses.asdict(row) for row in getattr(self.kept, name)] for name in ("takes", "owed")}
        written = self.path.with_name(f".{self.path.name}.new")
        try:
            with open_private(written, "w") as file:
                json.dump({"format": FORMAT, **rows}, file, indent=1)
                file.write("\n")
                file.flush()
                os.fsync(file.fileno())
            os.replace(written, self.path)
            folder = os.open(self.path.parent, os.O_RDONLY | os.O_DIRECTORY)
            try:
                os.fsync(folder)
            finally:
                os.close(folder)
        except OSError as error:
            raise Fault(f"{self.path} cannot be written: {error.strerror}", NOT_SENT) from None

    @contextlib.contextmanager
    def locked(self, seconds: float) -> Iterator[Kept]:
        """What the file has, which no other call changes meanwhile."""
        end = time.monotonic() + seconds
        try:
            lock = open_private(self.path.with_name(f".{self.path.name}.lock"), "a")
        except OSError as error:
            raise Fault(f"no lock can be had beside {self.path}: {error.strerror}", NOT_SENT) from None
        with lock:
            while not self.has(lock.fileno()):
                if time.monotonic() > end:
                    raise Fault(f"another call has held the lock of {self.path} for {seconds:.0f} s", NOT_SENT)
                time.sleep(ASK_AGAIN)
            yield self.read()

    @staticmethod
    def has(lock: int) -> bool:
        try:
            fcntl.flock(lock, fcntl.LOCK_EX | fcntl.LOCK_NB)
        except BlockingIOError:
            return False
        return True

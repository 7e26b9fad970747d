"""The files of an office and of its backups, for tools/bin/office: copies, their sums, and the lists of a merge."""
from __future__ import annotations

import contextlib
import fcntl
import hashlib
import os
import pwd
import re
import shutil
import tempfile
from collections.abc import Iterator
from dataclasses import dataclass
from pathlib import Path
from typing import BinaryIO

from wb_tools.office.settings import WRONG_WORDS, Refusal, tell

DATABASE, LOG, SUMS = "office.db", "office.db-wal", "SHA256SUMS"
MAGIC = b"SQLite format 3\0"


@dataclass(frozen=True)
class Files:
    """The two files of an office."""

    database: Path
    log: Path

    def sizes(self) -> tuple[int, int]:
        return size_of(self.database), size_of(self.log)


def size_of(file: Path) -> int:
    """The size of a file, 0 if it is not there."""
    try:
        return file.stat().st_size
    except FileNotFoundError:
        return 0


def sync_folder(folder: Path) -> None:
    handle = os.open(folder, os.O_RDONLY | os.O_DIRECTORY)
    try:
        os.fsync(handle)
    finally:
        os.close(handle)


def copy_file(source: Path, target: Path) -> str:
    """Copies a file onto the disk, under a name that is not there yet, and answers the sum of its bytes."""
    digest = hashlib.sha256()
    with open(source, "rb") as reader, open(target, "xb") as writer:
        while part := reader.read(1 << 20):
            digest.update(part)
            writer.write(part)
        writer.flush()
        os.fsync(writer.fileno())
    return digest.hexdigest()


def sum_of(file: Path) -> str:
    """The sum of the bytes of a file."""
    digest = hashlib.sha256()
    with open(file, "rb") as reader:
        while part := reader.read(1 << 20):
            digest.update(part)
    return digest.hexdigest()


def sync_file(file: Path) -> None:
    with open(file, "rb") as handle:
        os.fsync(handle.fileno())


def write_sums(folder: Path, sums: dict[str, str]) -> None:
    with open(folder / SUMS, "x", encoding="ascii") as writer:
        writer.writelines(f"{digest}  {name}\n" for name, digest in sums.items())
        writer.flush()
        os.fsync(writer.fileno())


def read_sums(folder: Path) -> dict[str, str]:
    """The sums that a backup was made with."""
    try:
        lines = (folder / SUMS).read_text(encoding="ascii").splitlines()
    except (OSError, UnicodeDecodeError) as error:
        why = error.strerror if isinstance(error, OSError) else "it is no text"
        raise Refusal(f"{folder} is no backup: {SUMS} cannot be read: {why}") from None
    sums = {name: digest for digest, _, name in (line.partition("  ") for line in lines)}
    if DATABASE not in sums or not set(sums) <= {DATABASE, LOG}:
        raise Refusal(f"{folder} is no backup: {SUMS} names {', '.join(sums) or 'nothing'}")
    if LOG not in sums and (folder / LOG).exists():
        raise Refusal(f"{folder} has a log that its {SUMS} does not name")
    return sums


def is_locked(handle: BinaryIO) -> bool:
    """Whether another program has the lock, by either of the two kinds, or has removed its file since it was opened; if
    none has, it is taken, until the file is closed."""
    try:
        fcntl.flock(handle, fcntl.LOCK_EX | fcntl.LOCK_NB)
        fcntl.lockf(handle, fcntl.LOCK_EX | fcntl.LOCK_NB)
    except OSError:
        return True
    return os.fstat(handle.fileno()).st_nlink == 0


def beside(file: Path, ending: str) -> Path:
    """The file whose name has this ending after it."""
    return file.with_name(file.name + ending)


@contextlib.contextmanager
def removed_on_failure(folder: Path) -> Iterator[None]:
    try:
        yield
    except BaseException:
        shutil.rmtree(folder, ignore_errors=True)
        raise


@contextlib.contextmanager
def removed_after(folder: Path) -> Iterator[None]:
    try:
        yield
    finally:
        shutil.rmtree(folder, ignore_errors=True)


@contextlib.contextmanager
def links_to_lists(dry: bool) -> Iterator[Path | None]:
    """A folder for links to lists whose names no line can hold."""
    if dry:
        yield None
        return
    folder = Path(tempfile.mkdtemp(prefix="office-", dir="/tmp"))  # no blank in its name
    with removed_after(folder):
        yield folder


def word_for(links: Path | None, name: str, at: int) -> str:
    """A word that names a list in a line, which has no quotes: its path, or that of a link to it."""
    path = os.path.abspath(name)
    try:
        with open(path, "rb"):
            pass
    except OSError as error:
        user = f" by the user {pwd.getpwuid(os.geteuid()).pw_name}" if isinstance(error, PermissionError) else ""
        raise Refusal(f"{name} cannot be read{user}: {error.strerror}", WRONG_WORDS) from None
    if re.fullmatch("[!-~]+", path) or links is None:
        return path
    link = links / f"list-{at}"
    link.symlink_to(path)
    tell(f"{link} stands for {path!r}")
    return str(link)

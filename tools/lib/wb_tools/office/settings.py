"""What the settings of an office say, for tools/bin/office, and the user who owns its files."""
from __future__ import annotations

import contextlib
import os
import pwd
import re
import shlex
import subprocess
import sys
from collections.abc import Iterator, Sequence
from dataclasses import dataclass
from pathlib import Path
from typing import Any

from wb_tools.keys import KeyFile

DONE, FAILED, WRONG_WORDS, NOT_RUNNING = 0, 1, 2, 3


class Refusal(Exception):
    """A step that is not taken or that failed, and with which status the command ends."""

    def __init__(self, reason: str, status: int = FAILED) -> None:
        super().__init__(reason)
        self.status = status


def tell(text: str) -> None:
    print(f"office: {text}", file=sys.stderr, flush=True)


@dataclass(frozen=True)
class Settings:
    """What the operator's settings file says."""

    file: Path
    store: Path
    backups: Path
    program: Path = Path("/usr/bin/wb")
    port: int = 8080
    requests: int = 1000000
    journal: Path | None = None
    lists: Path | None = None  # the folder of lists that the serving office may merge
    keys: Path | None = None  # the file of the keys, by which the office lets requests through
    key_file: Path | None = None  # the file with the key that is shown to it
    service: str = "systemd"
    unit: str = "wb.service"
    pid_file: Path | None = None
    log: Path | None = None
    owner: str = ""
    wait: int = 60
    keep_backups: int | None = None
    keep_days: int | None = None
    merge: str = ""  # words that timers give to merge-archive and to wb-status
    page: str = ""
    snapshot_make: Sequence[str] = ()
    snapshot_drop: Sequence[str] = ()
    snapshot_folder: Path | None = None

    def journal_words(self) -> list[str]:
        """The words of the program that have it keep the journal, if one is kept."""
        return ["--journal", str(self.journal)] if self.journal else []

    def lists_words(self) -> list[str]:
        """The words of the program that have it merge by requests, if there is a folder for that."""
        return ["--lists", str(self.lists)] if self.lists else []

    def keys_words(self) -> list[str]:
        """The words of the program that have it let requests through by keys, if there are some."""
        return ["--keys", str(self.keys)] if self.keys else []

    @property
    def key(self) -> KeyFile:
        """What is shown to the serving office: nothing, if an upgrade gave the settings a key that was not made yet."""
        return KeyFile(self.key_file, f"KEY_FILE of {self.file}", may_be_missing=True)


PATHS = {"STORE", "BACKUPS", "PROGRAM", "JOURNAL", "LISTS", "KEYS", "KEY_FILE", "PID_FILE", "LOG", "SNAPSHOT_FOLDER"}
NUMBERS = {"PORT": 65535, "REQUESTS": 1000000, "WAIT": 86400, "KEEP_BACKUPS": 1000000, "KEEP_DAYS": 36500}
COMMANDS = {"SNAPSHOT_MAKE", "SNAPSHOT_DROP"}
TEXTS = {"SERVICE", "UNIT", "OWNER", "MERGE", "PAGE"}


def unquoted(text: str) -> str | None:
    """The value of a settings line, or none if systemd and this command might read it differently."""
    for quote in "\"'":
        if text.startswith(quote):
            inner = text[1:-1]
            return (
                inner if len(text) > 1 and text.endswith(quote) and quote not in inner and "\\" not in inner else None
            )
    return text if not set(text) & set("\"'\\") else None


def value_of(key: str, text: str) -> Any:
    """The value that a text gives to a setting; a ValueError says what it has to be."""
    if key in PATHS:
        if not text.startswith("/"):
            raise ValueError("has to be a path that begins with /")
        return Path(text)
    if key in NUMBERS:
        if not re.fullmatch("[0-9]{1,9}", text) or not 1 <= int(text) <= NUMBERS[key]:
            raise ValueError(f"has to be a number from 1 to {NUMBERS[key]}")
        return int(text)
    if key in COMMANDS:
        return tuple(shlex.split(text))
    if key in TEXTS:
        return text
    raise ValueError("is no setting")


def read_settings(file: Path) -> Settings:
    found: dict[str, Any] = {}
    try:
        lines = file.read_text(encoding="utf-8").splitlines()
    except (OSError, UnicodeDecodeError) as error:
        why = error.strerror if isinstance(error, OSError) else "they are no text in UTF-8"
        raise Refusal(f"the settings cannot be read: {file}: {why}", WRONG_WORDS) from None
    for number, line in enumerate(map(str.strip, lines), 1):
        if not line or line[0] in "#;":
            continue
        key, equals, text = line.partition("=")
        value = unquoted(text.strip())
        try:
            if not equals or value is None:
                raise ValueError(
                    "has to be KEY=VALUE, with one pair of quotes around the whole value, or none, and no backslash"
                )
            if key.lower() in found:
                raise ValueError("is set twice")
            if value or key in TEXTS:
                found[key.lower()] = value_of(key, value)
        except ValueError as error:
            raise Refusal(f"{file}:{number}: {key} {error}", WRONG_WORDS) from None
    return checked_settings(file, found)


def checked_settings(file: Path, found: dict[str, Any]) -> Settings:
    """The settings, if those that belong together are there."""
    service = found.get("service", "systemd")
    if service not in ("systemd", "pidfile"):
        raise Refusal(f"{file}: SERVICE has to be systemd or pidfile, and is {service}", WRONG_WORDS)
    wanted = ["store", "backups"] + (["pid_file", "log"] if service == "pidfile" else [])
    if any(found.get(key) for key in ("snapshot_make", "snapshot_drop", "snapshot_folder")):
        wanted += ["snapshot_make", "snapshot_drop", "snapshot_folder"]
    for key in wanted:
        if not found.get(key):
            raise Refusal(f"{file}: {key.upper()} is missing", WRONG_WORDS)
    if service == "systemd" and os.geteuid() == 0 and not found.get("owner"):
        raise Refusal(f"{file}: OWNER is missing: the user of the unit, who owns the files", WRONG_WORDS)
    return Settings(file=file, **found)


class Owner:
    """The user who owns the files. If root calls, files are made and programs run as this user, and only the service
    and snapshots are spoken to as root: what the user put in its folders gets no rights of root by this."""

    def __init__(self, name: str) -> None:
        self.entry: pwd.struct_passwd | None = None
        if not name:
            return
        try:
            entry = pwd.getpwnam(name)
        except KeyError:
            raise Refusal(f"OWNER is {name}, and there is no such user", WRONG_WORDS) from None
        if os.geteuid() == 0 and entry.pw_uid != 0:
            self.entry = entry
        elif os.geteuid() != entry.pw_uid:
            raise Refusal(f"only root and OWNER, which is {name}, may do this", WRONG_WORDS)

    def become(self) -> None:
        if self.entry:
            os.setgroups(os.getgrouplist(self.entry.pw_name, self.entry.pw_gid))
            os.setegid(self.entry.pw_gid)
            os.seteuid(self.entry.pw_uid)

    @contextlib.contextmanager
    def caller(self) -> Iterator[None]:
        """What is done within is done as the user who called."""
        if self.entry:
            os.seteuid(0)
        try:
            yield
        finally:
            if self.entry:
                os.seteuid(self.entry.pw_uid)

    def give(self, path: Path) -> None:
        """Makes the owner that of a file that the caller made; a link is not followed."""
        if self.entry:
            os.chown(path, self.entry.pw_uid, self.entry.pw_gid, follow_symlinks=False)

    def start(self, words: Sequence[str | Path], **options: Any) -> subprocess.Popen[bytes]:
        """Starts a program as the owner, without a way back to the caller's rights."""
        with self.caller():
            if self.entry:
                groups = os.getgrouplist(self.entry.pw_name, self.entry.pw_gid)
                options.update(user=self.entry.pw_uid, group=self.entry.pw_gid, extra_groups=groups)
            try:
                return subprocess.Popen(words, **options)
            except OSError as error:
                raise Refusal(f"{words[0]} cannot be started: {error.strerror}") from None

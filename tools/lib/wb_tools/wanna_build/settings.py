"""What the settings of tools/bin/wanna-build say, and what its modules share: statuses, faults and the log."""
from __future__ import annotations

import contextlib
import os
import pwd
import re
import stat
import time
from dataclasses import dataclass, field
from pathlib import Path
from typing import IO

from wb_tools.keys import KeyFile, Keys, home, keys_of
from wb_tools.office.settings import unquoted
from wb_tools.suites import port_of_suite, suites_in

DONE, REFUSED, WRONG_WORDS, NOT_SENT = 0, 1, 2, 3
FILE = Path("/etc/wb/wanna-build.conf")
NUMBERS = {"TRY": 86400, "ANSWER": 3600}
PATHS = {"STATE", "LOG"}
FORMS = {
    "ARCH": re.compile(r"[a-z0-9][a-z0-9-]{0,39}"),
    "ALL": re.compile(r"[a-z0-9][a-z0-9-]{0,39}"),
    "RETAKE": re.compile("yes|no"),
    "SUITES": re.compile(r"[A-Za-z0-9][\w.+-]*=[0-9]{1,5}( +[A-Za-z0-9][\w.+-]*=[0-9]{1,5})*"),
}


class Fault(Exception):
    """Why a call is not carried out, and with which status it ends."""

    def __init__(self, reason: str, status: int = REFUSED) -> None:
        super().__init__(reason)
        self.status = status


def caller() -> str:
    return pwd.getpwuid(os.geteuid()).pw_name


def open_private(path: Path, mode: str) -> IO[str]:
    """Opens a file that nobody but its owner can open, in a folder that is made so if it is missing. What root makes in
    the folder of somebody else is theirs. An OSError says what cannot be done."""
    for folder in reversed([folder for folder in path.parents if not folder.exists()]):
        folder.mkdir(mode=0o700, exist_ok=True)
    file = open(
        path, mode, encoding="utf-8", errors="replace", opener=lambda name, flags: os.open(name, flags, 0o600)
    )
    try:
        found, folder_of = os.fstat(file.fileno()), path.parent.stat()
        if stat.S_ISREG(found.st_mode) and found.st_uid == os.geteuid():
            if found.st_mode & 0o077:
                os.fchmod(file.fileno(), 0o600)
            if found.st_uid == 0 != folder_of.st_uid:
                os.fchown(file.fileno(), folder_of.st_uid, folder_of.st_gid)
    except OSError:
        file.close()
        raise
    return file


@dataclass
class Settings:
    """What the settings file says. Times are in seconds."""

    suites: dict[str, int] = field(default_factory=dict)  # the port of the office of each suite
    arch: str = ""
    all_arch: str = "indep"  # the architecture that stands for builds of `all`
    state: Path = Path()
    log: Path = Path()
    try_for: int = 300
    answer: int = 40  # more than an office takes at most for one connection
    retake: bool = True
    keys: Keys = field(default_factory=Keys)  # what is shown to the office of each suite
    folder: Path = FILE.parent  # where the settings of the offices of other suites may lie

    def port_of(self, suite: str) -> int | None:
        return self.suites.get(suite) or port_of_suite(suite, self.folder)

    def suites_of(self, word: str) -> list[str]:
        """The suites that the word of --dist names, with commas between them: `all` names each that has an office here,
        and no word the only one that SUITES has; if it has several, none."""
        if word == "all":
            beside = (suite for suite in suites_in(self.folder) if suite not in self.suites)
            ports = set(self.suites.values())
            return [*self.suites, *(suite for suite in beside if self.port_of(suite) not in ports)]
        named = dict.fromkeys(suite for suite in word.split(",") if suite)
        return list(named) or (list(self.suites) if len(self.suites) == 1 else [])

    def arch_of(self, arch: str) -> str:
        """The office's name of an architecture that buildd names."""
        return self.all_arch if arch == "all" else arch or self.arch

    def note(self, text: str) -> None:
        """Appends to the log what no answer to buildd can say; a log that cannot be written stops nothing."""
        line = f"{time.strftime('%Y-%m-%dT%H:%M:%SZ', time.gmtime())} {text}\n"
        with contextlib.suppress(OSError), open_private(self.log, "a") as log:
            log.write(line)


def checked_value(key: str, text: str) -> None:
    """A ValueError says what the value of a setting has to be."""
    if key in NUMBERS:
        if not re.fullmatch("[0-9]{1,9}", text) or not 1 <= int(text) <= NUMBERS[key]:
            raise ValueError(f"has to be a number from 1 to {NUMBERS[key]}")
    elif key == "KEY_FILE":
        keys_of(text, key)
    elif key in PATHS:
        if not text.startswith(("/", "~/")):
            raise ValueError("has to be a path that begins with / or ~/")
    elif key not in FORMS:
        raise ValueError("is no setting")
    elif not FORMS[key].fullmatch(text):
        raise ValueError(
            "has to be yes or no"
            if key == "RETAKE"
            else 'has to be as in SUITES="sid=8080 experimental=8081", ARCH=amd64'
        )


def read_settings(file: Path) -> Settings:
    found: dict[str, str] = {}
    try:
        lines = file.read_text(encoding="utf-8").splitlines()
    except (OSError, UnicodeDecodeError) as error:
        raise Fault(f"the settings cannot be read: {file}: {error}", WRONG_WORDS) from None
    for number, line in enumerate(map(str.strip, lines), 1):
        if not line or line[0] in "#;":
            continue
        key, equals, text = line.partition("=")
        value = unquoted(text.strip())
        try:
            if not equals or value is None:
                raise ValueError(
                    "has to be KEY=VALUE, with one pair of quotes around the whole value, or none, and no backslash"
                )
            if key in found:
                raise ValueError("is set twice")
            checked_value(key, value)
            found[key] = value
        except ValueError as error:
            raise Fault(f"{file}:{number}: {key} {error}", WRONG_WORDS) from None
    return settings_of(file, found)


def settings_of(file: Path, found: dict[str, str]) -> Settings:
    suites = {suite: int(port) for suite, _, port in (word.partition("=") for word in found.get("SUITES", "").split())}
    if not suites:
        raise Fault(f'{file}: SUITES is missing, as in SUITES="sid=8080"', WRONG_WORDS)
    for suite, port in suites.items():
        if not 1 <= port <= 65535:
            raise Fault(f"{file}: the port of {suite} in SUITES has to be from 1 to 65535", WRONG_WORDS)

    def path(key: str, name: str) -> Path:
        text = found.get(key, f"~/{name}")
        return home() / text[2:] if text.startswith("~/") else Path(text)

    return Settings(
        suites=suites,
        folder=file.parent,
        arch=found.get("ARCH", ""),
        all_arch=found.get("ALL", "indep"),
        state=path("STATE", "wanna-build.state"),
        log=path("LOG", "wanna-build.log"),
        try_for=int(found.get("TRY", "300")),
        answer=int(found.get("ANSWER", "40")),
        retake=found.get("RETAKE", "yes") == "yes",
        keys=keys_in(file, found.get("KEY_FILE", "")),
    )


def keys_in(file: Path, text: str) -> Keys:
    """The files of the keys that are shown: those of KEY_FILE, or else one in the home of the caller if it is there."""
    named_by = f"KEY_FILE of {file}"
    return keys_of(text, named_by) if text else Keys({"": KeyFile(home() / "wanna-build.key", named_by, True)})

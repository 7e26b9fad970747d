"""Files .changes (Debian Policy 5.5), for `wanna-build --may-upload`: of which source package and for what they are.

Who gives one may mean harm. So no more than MOST bytes are read, of a regular file or of standard input, and the time
that this takes grows with their number alone.
"""
from __future__ import annotations

import os
import re
import stat
import sys
from dataclasses import dataclass
from pathlib import Path

from wb_tools.lists import is_version
from wb_tools.wanna_build.settings import NOT_SENT, WRONG_WORDS, Fault, Settings
from wb_tools.wanna_build.words import NAME, Call

MOST = 16_000_000  # bytes of a file
MOST_OF_FIELD = 4096  # bytes of one of these fields
FIELDS = ("Source", "Version", "Architecture", "Distribution")
SUITE = re.compile("[A-Za-z0-9][A-Za-z0-9_.+-]{0,99}")


@dataclass(frozen=True)
class Changes:
    """What is uploaded: its source package, the version of its binaries, their architectures, and the suite."""

    source: str
    version: str
    archs: list[str]
    suite: str


def read_changes(word: str) -> Changes:
    """What the file that a word names says, or standard input for `-`. A Fault says why it cannot be read, or is no
    .changes file."""
    shown = "standard input" if word == "-" else word
    data = sys.stdin.buffer.read(MOST + 1) if word == "-" else bytes_of(Path(word))
    if len(data) > MOST:
        raise Fault(f"{shown} has more than {MOST} bytes: it is no .changes file", WRONG_WORDS)
    data = b"\n" + data
    fields = {name: field_of(data, name, shown) for name in FIELDS}
    source, suite = (fields[name].split(" ")[0] for name in ("Source", "Distribution"))
    version = fields["Version"]
    if not NAME.fullmatch(source) or not is_version(version) or not SUITE.fullmatch(suite):
        raise Fault(f"{shown} has no Source, no Version or no Distribution: it is no .changes file", WRONG_WORDS)
    return Changes(source, version, sorted(set(fields["Architecture"].split()) - {"source"}), suite)


def bytes_of(path: Path) -> bytes:
    """The bytes of a regular file, or one more than MOST. A pipe is not waited for, and no device is read."""
    try:
        number = os.open(path, os.O_RDONLY | os.O_NONBLOCK | os.O_NOCTTY)
    except (OSError, ValueError) as error:
        raise Fault(f"{path} cannot be read: {getattr(error, 'strerror', error)}", NOT_SENT) from None
    try:
        if not stat.S_ISREG(os.fstat(number).st_mode):
            raise Fault(f"{path} is no regular file", WRONG_WORDS)
        with open(number, "rb", closefd=False) as file:
            return file.read(MOST + 1)
    finally:
        os.close(number)


def field_of(data: bytes, name: str, shown: str) -> str:
    """The value of a field, without the blanks around it; empty if it is not there."""
    begin = f"\n{name}:".encode()
    at = data.find(begin)
    if at < 0:
        return ""
    value = data[at + len(begin) :].partition(b"\n")[0]
    is_twice = data.find(begin, at + 1) > at
    if is_twice or len(value) > MOST_OF_FIELD:
        why = "twice" if is_twice else f"with more than {MOST_OF_FIELD} bytes"
        raise Fault(f"{shown} has {name} {why}: it is no .changes file", WRONG_WORDS)
    return value.decode(errors="replace").strip()


# ---- for which suite and architecture it is asked


def suite_of(call: Call, settings: Settings, changes: Changes) -> str:
    """The suite that the call says, or, if it says several or none, that of the file."""
    suites = settings.suites_of(call.said["dist"]) if call.said.get("dist") else [changes.suite]
    suite = suites[0] if len(suites) == 1 else changes.suite
    if suite not in suites:
        raise Fault(f"it is for {suite}, and not for {' or '.join(suites)}", WRONG_WORDS)
    if settings.port_of(suite) is None:
        raise Fault(f"the settings have no suite {suite}", WRONG_WORDS)
    return suite


def arch_of(call: Call, settings: Settings, changes: Changes) -> str:
    """The architecture of the file that the call says, or may say, as the office names it; `all` if there is no
    other."""
    of_file = sorted(changes.archs, key=lambda arch: arch == "all")
    may = [call.arch] if call.arch else call.may.get("arch", of_file)
    found = [arch for arch in map(settings.arch_of, of_file) if arch in map(settings.arch_of, may)]
    if not found:
        meant = " and ".join(of_file) or "no architecture"
        raise Fault(f"it is for {meant}, and not for {' or '.join(may)}", WRONG_WORDS)
    return found[0]

"""The folder of the lists that a serving office merges, for tools/bin/office: that of `serve --lists`, and LISTS of the
settings. A request names a list by its name there, so one that lies elsewhere is put there while it is merged."""
from __future__ import annotations

import contextlib
import json
import os
import re
import secrets
import stat
from collections.abc import Iterator
from pathlib import Path
from typing import Any

from wb_tools.office.lines import Fault
from wb_tools.office.settings import Refusal

MOST_NAME = 255  # bytes
LEFT = re.compile(r"\.?office-([0-9]+)-.*", re.DOTALL)  # what a call that was broken off leaves, with its process


@contextlib.contextmanager
def named_in(folder: Path, merge: dict[str, Any]) -> Iterator[bytes]:
    """The body of the request for a merge, whose files are named by paths. Those that do not lie in the folder are put
    there before, and removed afterwards. A file that cannot be read is a fault."""
    remove_left(folder)
    files = [merge["sources"], *(part["packages"] for part in merge["parts"])]
    made: list[Path] = []
    try:
        sources, *names = [name_of(folder, file) or put_in(folder, file, made) for file in files]
        parts = [{"arch": part["arch"], "packages": name} for part, name in zip(merge["parts"], names)]
        yield json.dumps({"parts": parts, "sources": sources}, ensure_ascii=False, separators=(",", ":")).encode()
    finally:
        for path in made:
            path.unlink(missing_ok=True)


def name_of(folder: Path, file: str) -> str | None:
    """The name by which the office opens a file that lies in the folder; none if it lies elsewhere, or if the office
    would not open it by its name."""
    path = Path(file)
    try:
        is_there = path.parent.samefile(folder) and stat.S_ISREG(path.lstat().st_mode)
    except OSError:
        return None
    return path.name if is_there and path.name[0] != "." and is_utf8(path.name) else None


def is_utf8(name: str) -> bool:
    return not any("\ud800" <= character <= "\udfff" for character in name)


def put_in(folder: Path, file: str, made: list[Path]) -> str:
    """Puts a file into the folder, by a link or else by a copy, and answers its name there, which nobody can guess: any
    program of the machine may have the office merge what it can name."""
    tail = re.sub("[^!-~]", "_", os.path.basename(file))
    target = folder / f"office-{os.getpid()}-{secrets.token_hex(8)}-{tail}"[:MOST_NAME - 1]
    part = target.with_name(f".{target.name}")  # by this name no request can have it merged
    made += [part, target]
    try:
        if os.path.isfile(file):
            with contextlib.suppress(OSError):  # of another file system, or of another user
                os.link(os.path.realpath(file), target)
                return target.name
        copy_into(file, part)
        os.rename(part, target)
    except OSError as error:
        raise Refusal(f"{file} cannot be put into {folder}: {error.strerror}") from None
    return target.name


def copy_into(file: str, part: Path) -> None:
    try:
        reader = open(file, "rb")
    except (OSError, ValueError) as error:
        why = error.strerror if isinstance(error, OSError) else error
        raise Fault("file", f"{file} cannot be read: {why}") from None
    with reader, open(part, "xb") as writer:
        while data := reader.read(1 << 20):
            writer.write(data)


def remove_left(folder: Path) -> None:
    """Removes what calls that no longer run left in the folder when they were broken off."""
    for path in folder.iterdir():
        left = LEFT.fullmatch(path.name)
        if left and not Path(f"/proc/{left[1]}").exists():
            path.unlink(missing_ok=True)

"""A copy of the two files of an office that is written meanwhile, for tools/bin/office: one that SQLite finds whole.

The database is written only when its log is copied into it. That takes pages from the log alone, and until they are on
the disk nothing is written over a frame of the log; only then the log gets another header, under which it begins anew.
So the database is copied first, and the log after it. If the log has the same header before and after both, then each
page that was written into the database meanwhile stands in the copy of the log too, and counts there, whatever the copy
of the database has of it. A commit is appended to the log, and the copy reads from the front to the end: of one that is
under way it has a front, which an opening drops, as after a power cut. All that was committed before the copy began is
in it.
"""
# The kit's `sqlite` holds SQLite's lock on the database, so that no other SQLite can read it, and no command of the
# office makes a copy. Such a command would hold up all clients for as long as a disk takes, and a lock against the
# copying of the log would stay if a backup hangs.
from __future__ import annotations

import time
from collections.abc import Callable
from pathlib import Path

from wb_tools.office.files import DATABASE, LOG, Files, sum_of, sync_file
from wb_tools.office.settings import Refusal

HEADER = 32  # bytes of the header of a log, which has a number and salts that are others each time
TRIES = 50
PAUSE = 0.02  # seconds: more than most disks take to begin a log anew


def copy_written(files: Files, folder: Path, tell: Callable[[str], None]) -> dict[str, str]:
    """Copies both files into a folder that is there, while a program may write them, and answers the sums of the
    copies. It begins anew if the log was begun anew meanwhile."""
    for _ in range(TRIES):
        header = header_of(files.log)
        copy_bytes(files.database, folder / DATABASE)
        copy_bytes(files.log, folder / LOG)
        if header[:1] != b"\0" and header_of(files.log) == header:  # whose first byte is 0 while it is written
            break
        tell("the log was begun anew meanwhile: both files are copied once more")
        time.sleep(PAUSE)
    else:
        raise Refusal(f"the log was begun anew during each of {TRIES} copies: say --stop, or --snapshot")
    copied = [name for name in (DATABASE, LOG) if (folder / name).exists()]
    for name in copied:
        sync_file(folder / name)
    return {name: sum_of(folder / name) for name in copied}


def header_of(log: Path) -> bytes:
    """The header of a log, as much of it as there is."""
    try:
        with open(log, "rb", buffering=0) as file:
            return file.read(HEADER) or b""
    except FileNotFoundError:
        return b""


def copy_bytes(source: Path, target: Path) -> None:
    """Copies a file from its first byte to its last as they are read; what is not there has no copy."""
    target.unlink(missing_ok=True)
    try:
        reader = open(source, "rb", buffering=0)
    except FileNotFoundError:
        return
    with reader, open(target, "xb", buffering=0) as writer:
        while part := reader.read(1 << 20):
            left = memoryview(part)
            while left:
                left = left[writer.write(left) or 0 :]

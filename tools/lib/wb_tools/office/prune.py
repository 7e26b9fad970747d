"""Which backups tools/bin/office keeps, and the removal of the others."""
from __future__ import annotations

import os
import re
import shutil
import time
from calendar import timegm
from collections.abc import Callable, Sequence
from pathlib import Path

from wb_tools.office.files import SUMS
from wb_tools.office.settings import WRONG_WORDS, Refusal, Settings, tell

NAME = re.compile(r"([0-9]{4}-[0-9]{2}-[0-9]{2}T[0-9]{6}Z)(?:-([0-9]{1,3}))?")
LEFT = re.compile(r"\..*\.([0-9]+)(?:\.new|\.old)?")  # what a call that was broken off leaves, with its process
DAY = 86400


def made_at(folder: Path) -> tuple[int, int] | None:
    """When a backup was made, as its name says, in seconds, and its number among those of that second; none of another
    folder, such as one of what a restore kept."""
    found = NAME.fullmatch(folder.name)
    try:
        return (timegm(time.strptime(found[1], "%Y-%m-%dT%H%M%SZ")), int(found[2] or 1)) if found else None
    except ValueError:
        return None


def backups_in(folder: Path) -> list[Path]:
    """The backups, the oldest first."""
    found = {one: made_at(one) for one in folder.iterdir() if (one / SUMS).exists()}
    return sorted((one for one in found if found[one]), key=lambda one: found[one] or (0, 0))


def bytes_of(folder: Path) -> int:
    return sum(file.lstat().st_size for file in folder.rglob("*") if file.is_file())


def too_many(backups: Sequence[Path], count: int | None, days: int | None, now: float) -> list[Path]:
    """Those of the backups, the oldest first, that are neither among the newest so many nor younger than so many days.
    The newest is kept always."""
    newest = backups[-max(count or 1, 1) :]
    young = [one for one in backups if days and now - (made_at(one) or (0, 0))[0] < days * DAY]
    return [one for one in backups if one not in newest and one not in young]


def left_over(folder: Path) -> list[Path]:
    """What calls that no longer run left when they were broken off: halves of copies, and trials."""
    found = [(one, LEFT.fullmatch(one.name)) for one in sorted(folder.iterdir()) if one.is_dir()]
    return [one for one, left in found if left and not Path(f"/proc/{left[1]}").exists()]


def prune(settings: Settings, step: Callable[[str], bool]) -> None:
    """Removes backups that the settings do not keep, and what calls that were broken off left. Each loses its name
    first, so that no half of a backup looks like a whole one."""
    if settings.keep_backups is None and settings.keep_days is None:
        raise Refusal(
            f"{settings.file} has no KEEP_BACKUPS and no KEEP_DAYS, so nothing says which backups are kept", WRONG_WORDS
        )
    found = backups_in(settings.backups)
    old = too_many(found, settings.keep_backups, settings.keep_days, time.time())
    freed = 0
    for folder in [*old, *left_over(settings.backups)]:
        size = bytes_of(folder)
        if step(f"remove {folder}, {size} bytes"):
            gone = folder
            if folder in old:
                gone = folder.with_name(f".{folder.name}.{os.getpid()}.old")
                os.rename(folder, gone)
            shutil.rmtree(gone)
            freed += size
    tell(f"{len(found) - len(old)} of {len(found)} backups are kept; {freed} bytes were freed")

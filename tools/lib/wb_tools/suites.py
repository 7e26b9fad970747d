"""The settings of the offices of several suites on one machine: each has a file SUITE.conf, beside office.conf."""
import os
import re
from pathlib import Path

from wb_tools.office.settings import Refusal, read_settings

NAME = re.compile(r"[A-Za-z0-9][A-Za-z0-9_.+-]*")


def default_settings() -> Path:
    """The settings of the one office of a machine."""
    return Path(os.environ.get("OFFICE_SETTINGS", "/etc/wb/office.conf"))


def settings_of_suite(suite: str, folder: Path) -> Path:
    """The settings of the office of a suite. A ValueError says that it is no name of a suite."""
    if not NAME.fullmatch(suite):
        raise ValueError(f"{suite!r} is no name of a suite")
    return folder / f"{suite}.conf"


def port_of_suite(suite: str, folder: Path) -> int | None:
    """The port on which the office of a suite serves, if this folder has its settings."""
    try:
        return read_settings(settings_of_suite(suite, folder)).port
    except (Refusal, ValueError):
        return None


def suites_in(folder: Path) -> list[str]:
    """The suites whose offices have their settings in this folder."""
    names = sorted(path.stem for path in folder.glob("*.conf") if path.name != "office.conf")
    return [name for name in names if port_of_suite(name, folder)]

"""What the settings of the site say: the offices of its suites, the indexes of their journals, and links elsewhere."""
import re
import string
import urllib.parse
from collections.abc import Callable
from dataclasses import dataclass
from pathlib import Path
from typing import Any

from wb_tools.keys import NONE, KeyFile, Keys, keys_of
from wb_tools.lists import Refused, is_arch_name
from wb_tools.office.settings import unquoted
from wb_tools.suites import NAME


@dataclass(frozen=True)
class Suite:
    """An office: its suite, its address, the architectures and builders that are shown, all if none is named, the index
    of its journal, if there is one, and the key that is shown to it."""

    name: str
    url: str
    archs: tuple[str, ...] = ()
    builders: tuple[str, ...] = ()
    index: Path | None = None
    key: KeyFile = NONE


@dataclass(frozen=True)
class Settings:
    suites: tuple[Suite, ...]
    port: int = 8090
    title: str = "Autobuilding"
    wait: int = 10  # seconds for all that the offices are asked for one page
    silent: int = 24  # hours without a word after which a builder is called silent
    forms: str = ""  # the address at which browsers reach the site, if porters may act on its pages
    forget: int = 14400  # seconds without use after which a key that was given there is forgotten
    log: str = ""  # addresses with {source} {version} {build} {arch} {package} in them
    tracker: str = ""
    bugs: str = ""
    binary: str = ""


LINKS = {
    "log": ("source", "version", "build", "arch", "builder"), "tracker": ("source",), "bugs": ("source",),
    "binary": ("package",),
}
NUMBERS = {"port": 65535, "wait": 600, "silent": 8760, "forget": 86400}
# An address as browsers name it in Origin (RFC 6454, section 6.1). A key passes no network without TLS.
ORIGIN = re.compile(r"https://[a-z0-9.-]+(:[0-9]{1,5})?|http://(127\.0\.0\.1|localhost|\[::1\])(:[0-9]{1,5})?")


def pairs_of(text: str) -> dict[str, str]:
    """`sid=8080 experimental=8081` as what each suite has."""
    found = {}
    for word in text.split():
        name, equals, value = word.partition("=")
        if not (equals and value and NAME.fullmatch(name)) or name in found:
            raise ValueError(f"has to be SUITE=.. for each suite, once, and has {word[:100]!r}")
        found[name] = value
    return found


def origin_of(text: str) -> str:
    """The address at which browsers reach a site whose pages have forms."""
    if text and (not ORIGIN.fullmatch(text) or text.endswith((":443", ":80"))):
        said = "has to be an address such as https://builds.example.org, without a path and in small letters; one that"
        raise ValueError(f"{said} begins with http:// only of this machine, such as http://127.0.0.1:8090")
    return text


def number_in(most: int) -> Callable[[str], int]:
    def read(text: str) -> int:
        if not (text.isascii() and text.isdigit()) or not 1 <= int(text) <= most:
            raise ValueError(f"has to be a number from 1 to {most}")
        return int(text)

    return read


def link_with(names: tuple[str, ...]) -> Callable[[str], str]:
    """Reads an address in which these names stand for what it leads to."""

    def read(text: str) -> str:
        try:
            parts = [part[1:] for part in string.Formatter().parse(text) if part[1] is not None]
            used = {name if (form, kind) == ("", None) else "" for name, form, kind in parts}
            scheme = urllib.parse.urlsplit(text).scheme
        except ValueError:
            used, scheme = {""}, ""
        if text and (scheme not in ("http", "https") or not used <= set(names)):
            raise ValueError(f"has to be an address that begins with https://, with no names but {', '.join(names)}")
        return text

    return read


def lines_of(file: Path) -> dict[str, str]:
    """The values of a file of lines KEY=VALUE."""
    found: dict[str, str] = {}
    try:
        lines = file.read_text(encoding="utf-8").splitlines()
    except (OSError, UnicodeDecodeError) as why:
        raise Refused(f"the settings cannot be read: {file}: {why}") from None
    for number, line in enumerate(map(str.strip, lines), 1):
        if line and line[0] not in "#;":
            key, equals, text = line.partition("=")
            value = unquoted(text.strip())
            if not equals or value is None or key.lower() in found:
                raise Refused(f"{file}:{number}: {key[:100]} has to be KEY=VALUE, once, in one pair of quotes or none")
            found[key.lower()] = value
    return found


READERS: dict[str, Callable[[str], Any]] = {
    "title": str, **{name: number_in(most) for name, most in NUMBERS.items()},
    **{name: link_with(names) for name, names in LINKS.items()},
    "suites": pairs_of, "archs": pairs_of, "builders": pairs_of, "indexes": pairs_of,
    "key_file": lambda text: keys_of(text, "KEY_FILE"), "forms": origin_of,
}


def read_settings(file: Path) -> Settings:
    """The settings of a file, all of which are read."""
    found: dict[str, Any] = {}
    for key, text in lines_of(file).items():
        if key not in READERS:
            raise Refused(f"{file}: {key.upper()} is no setting of the site")
        try:
            found[key] = READERS[key](text)
        except ValueError as why:
            raise Refused(f"{file}: {key.upper()} {why}") from None
    several = {key: found.pop(key, {}) for key in ("suites", "archs", "builders", "indexes")}
    if not several["suites"]:
        raise Refused(f"{file}: SUITES is missing, such as SUITES=\"sid=8080\"")
    keys: Keys = found.pop("key_file", Keys())
    several["key_file"] = {name: "" for name in keys.files if name}
    return Settings(tuple(suite_of(file, name, several, keys.of(name)) for name in several["suites"]), **found)


def suite_of(file: Path, name: str, several: dict[str, dict[str, str]], key: KeyFile) -> Suite:
    """A suite, of what the settings have for each, and the key of its office."""
    unknown = {one for pairs in several.values() for one in pairs} - set(several["suites"])
    if unknown:
        raise Refused(f"{file}: SUITES does not name {sorted(unknown)[0]}")
    archs = tuple(filter(None, several["archs"].get(name, "").split(",")))
    if not all(map(is_arch_name, archs)) or (name in several["archs"] and not archs):
        raise Refused(f"{file}: ARCHS has no architectures of {name}, such as ARCHS=\"{name}=amd64,arm64\"")
    try:
        port = number_in(65535)(several["suites"][name])
    except ValueError as why:
        raise Refused(f"{file}: the port of {name} in SUITES {why}") from None
    builders = tuple(filter(None, several["builders"].get(name, "").split(",")))
    index = several["indexes"].get(name)
    return Suite(name, f"http://127.0.0.1:{port}", archs, builders, Path(index) if index else None, key)

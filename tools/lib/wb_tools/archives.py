"""Archives, and what is fetched of each, for tools/bin/fetch-lists and tools/bin/merge-archive: the options that both
have, and lines as apt's sources.list has them, for lists that come from several archives."""
import argparse
import re
from collections import Counter
from dataclasses import dataclass

from wb_tools.lists import a_form, arch_word, is_arch_name

NAME = r"[A-Za-z0-9][A-Za-z0-9._/-]*"  # of a suite or a component
ADDRESS = r"[a-z][a-z0-9+.-]*:[!-~]+"
KEYRING = r"/[^\s\"'\]]*"
LINE = re.compile(rf"(deb|deb-src)(?: \[ ?([^\]]*?) ?\])? ({ADDRESS}) ({NAME})((?: {NAME})+)")
SENSITIVE = "\\|{}[]<>\"^~_=!@#$%^&*"  # what apt writes as %xx in the names of its files


@dataclass(frozen=True, slots=True)
class Archive:
    """An archive, and what is fetched of it: packages (deb), sources (deb-src), or both. Without an address it is
    Debian's mirror of the machine's own apt, and without architectures the packages are those of all that are asked
    for."""

    types: tuple[str, ...]
    mirror: str
    suites: tuple[str, ...]
    components: tuple[str, ...]
    archs: tuple[str, ...] = ()
    keyring: str = ""

    def stanza(self, archs: list[str], udebs: bool) -> str:
        """It as a paragraph of a file of apt's sources.list.d."""
        targets = ["Packages"] if "deb" in self.types else []
        targets += ["Sources"] if "deb-src" in self.types else []
        targets += ["Udebs"] if udebs and "deb" in self.types else []
        lines = [
            f"Types: {' '.join(self.types)}", f"URIs: {self.mirror}", f"Suites: {' '.join(self.suites)}",
            f"Components: {' '.join(self.components)}", f"Architectures: {' '.join(self.archs or archs)}",
            f"Targets: {' '.join(targets)}", *([f"Signed-By: {self.keyring}"] if self.keyring else []),
        ]
        return "".join(f"{line}\n" for line in lines)

    def places(self, archs: list[str]) -> list[str]:
        """The lists that it has to have, below the folder of each component."""
        found = ["source/Sources"] if "deb-src" in self.types else []
        return found + ([f"binary-{arch}/Packages" for arch in self.archs or archs] if "deb" in self.types else [])

    def release_name(self, suite: str) -> str:
        """How the names of the files begin that apt keeps of this suite."""
        place = re.sub("^[a-z0-9+.-]+:(//)?", "", self.mirror).rstrip("/")
        quoted = "".join(f"%{ord(one):02x}" if one in SENSITIVE else one for one in f"{place}/dists/{suite}/")
        return quoted.replace("/", "_")


def archive_of_line(line: str) -> Archive:
    """What a line as apt's sources.list has them means; a ValueError says what is wrong."""
    found = LINE.fullmatch(" ".join(line.split()))
    if found is None:
        raise ValueError("is no line of sources.list: deb or deb-src, [options], ADDRESS, SUITE and COMPONENT..")
    options = dict(word.partition("=")[::2] for word in (found[2] or "").split())
    if not set(options) <= {"arch", "signed-by"}:
        raise ValueError("has an option that is neither arch nor signed-by")
    archs = tuple(options["arch"].split(",")) if "arch" in options else ()
    if not all(arch == "all" or is_arch_name(arch) for arch in archs):
        raise ValueError("has no architecture after arch=")
    if not re.fullmatch(KEYRING, options.get("signed-by", "/")):
        raise ValueError("has no absolute path without blanks after signed-by=")
    return Archive((found[1],), found[3], (found[4],), tuple(found[5].split()), archs, options.get("signed-by", ""))


def line_word(word: str) -> str:
    try:
        archive_of_line(word)
    except ValueError as why:
        raise argparse.ArgumentTypeError(f"{word[:200]!r} {why}") from None
    return word


suite_word = a_form(lambda word: re.fullmatch(NAME, word) is not None, "name of a suite")
component_word = a_form(lambda word: re.fullmatch(NAME, word) is not None, "name of a component")
mirror_word = a_form(lambda word: re.fullmatch(ADDRESS, word) is not None, "address of an archive")
keyring_word = a_form(lambda word: re.fullmatch(KEYRING, word) is not None, "absolute path without blanks")


def add_archive_options(parser: argparse.ArgumentParser) -> None:
    """The options that say what is fetched from which archive."""
    parser.add_argument(
        "--suite", metavar="SUITE", type=suite_word, action="append", default=[],
        help="a suite; may be given several times",
    )
    parser.add_argument(
        "--component", metavar="NAME", type=component_word, action="append", default=[],
        help="a component, else main; may be given several times",
    )
    parser.add_argument(
        "--from", dest="lines", metavar="LINE", type=line_word, action="append", default=[],
        help="in place of --suite, --component and --mirror: what is fetched from where, as a line of sources.list, "
        "deb for packages and deb-src for sources, with the options arch= and signed-by=; may be given several times",
    )
    parser.add_argument(
        "--arch", metavar="ARCH", type=arch_word, action="append", required=True,
        help="an architecture; may be given several times",
    )
    parser.add_argument("--udebs", action="store_true", help="join the lists of udebs too")
    parser.add_argument(
        "--mirror", metavar="ADDRESS", type=mirror_word,
        help="the archive; else Debian's mirror of the machine's own apt",
    )
    parser.add_argument(
        "--keyring", metavar="FILE", type=keyring_word,
        help="the keys that sign the archive; else those that the machine's own apt has",
    )
    parser.add_argument(
        "--expired", action="store_true", help="take a suite whose Valid-Until is over, as of a snapshot"
    )


def check_archive_options(parser: argparse.ArgumentParser, words: argparse.Namespace, fetches: bool = True) -> None:
    """Refuses a word that is given twice, asks for a suite or lines if the script fetches, and puts in the component if
    none is given."""
    if words.lines and (words.suite or words.component or words.mirror):
        parser.error("--from stands in place of --suite, --component and --mirror")
    types = {line.split()[0] for line in words.lines}
    if words.lines and len(types) < 2:
        parser.error("give --from for the sources (deb-src) and for the packages (deb)")
    if fetches and not (words.suite or words.lines):
        parser.error("give --suite, or --from")
    words.component = words.component or ([] if words.lines else ["main"])
    for name in ("suite", "component", "arch"):
        twice = [word for word, count in Counter(getattr(words, name)).items() if count > 1]
        if twice:
            parser.error(f"--{name} {twice[0]} is given twice")


def archive_options_of(words: argparse.Namespace) -> list[str]:
    """The options of an archive once more, for another script that has them."""
    given = [(f"--{name}", word) for name in ("suite", "component", "arch") for word in getattr(words, name)]
    given += [("--from", line) for line in words.lines]
    given += [(f"--{name}", getattr(words, name)) for name in ("mirror", "keyring") if getattr(words, name)]
    flags = [f"--{name}" for name in ("udebs", "expired") if getattr(words, name)]
    return [text for pair in given for text in pair] + flags


def archives_of(words: argparse.Namespace) -> list[Archive]:
    """What is fetched from where. A line without keys of its own has those of --keyring."""
    if not words.lines:
        types = ("deb", "deb-src")
        return [Archive(types, words.mirror or "", tuple(words.suite), tuple(words.component), (), words.keyring or "")]
    found = [archive_of_line(line) for line in words.lines]
    return [
        Archive(one.types, one.mirror, one.suites, one.components, one.archs, one.keyring or words.keyring or "")
        for one in found
    ]

"""Makes command lines for the rebuilds of a transition from what `ben monitor` found; `--help` says how."""
import argparse
import json
import re
from collections.abc import Iterable, Iterator
from dataclasses import dataclass, field
from pathlib import Path

from wb_tools import outlive_readers
from wb_tools.lists import (
    REBUILD,
    Architectures,
    Binary,
    Paragraph,
    Refused,
    add_tables_option,
    binary_of,
    holds_without_profiles,
    is_arch_name,
    is_extra,
    is_package_name,
    is_version,
    paragraphs,
    parser_of,
    read_architectures,
    run,
    say,
    version_key,
    write_lines,
)

PROGRAM = "rebuild-from-ben"
DESCRIPTION = """Reads what `ben monitor -f json` (ben 0.10) found of a transition, and gives a line

  rebuild ARCH SOURCE VERSION NUMBER MESSAGE

for each source package that is bad on an architecture, with the number after that of the archive's rebuild, and after
it

  dep-wait ARCH SOURCE VERSION RELATIONS

if its build dependencies name packages of a lower level that have to be built before it. Levels go up, and names within
a level. The first alternative of each build dependency counts, no build profile is active, and a rebuild changes no
package of `all`.

A source package of which the archive has not yet the build of its listed version gets no line: its first build does
what a rebuild would. For each that gets no line or no wait, a message says why; unknown and good ones have no message.

ben's answer is refused if it was cut off or is not of its form, or if it has an architecture without a list of
--packages."""
EXAMPLE = """\
  ln -s Packages-amd64 lists/Packages_amd64
  ben monitor --no-benrc -z Plain --cache-dir lists -f json -o found icu.ben
  tools/bin/rebuild-from-ben --sources lists/Sources --packages amd64=lists/Packages-amd64 \\
      --message 'against libicu76' found"""
STATES = ("good", "bad", "partial", "unknown")
NUMBER_LIMIT = 999
ALTERNATIVE = re.compile(
    r"\s*([a-z0-9][a-z0-9+.-]+)(?::[a-z0-9-]+)?\s*(?:\([^()]*\)\s*)?(?:\[([^\[\]]*)\]\s*)?((?:<[^<>]*>\s*)*)"
)


@dataclass(slots=True)
class Built:
    """What the archive has of a source package on an architecture: the greatest version and rebuild that is built
    there, if any is, and the packages by name, those of `all` too."""

    version: str = ""
    number: int = 0
    packages: dict[str, Binary] = field(default_factory=dict)


@dataclass(slots=True)
class Planned:
    """A source package to be rebuilt on an architecture."""

    source: str
    arch: str
    level: int
    listed: Paragraph | None = None
    built: Built = field(default_factory=Built)

    @property
    def version(self) -> str:
        return self.listed.value("Version") if self.listed else ""

    @property
    def number(self) -> int:
        return self.built.number + 1

    def why_not(self) -> str:
        """Why it gets no line; empty if it does."""
        if self.listed is None:
            return "the Sources list does not have it for the architecture"
        if not self.built.version or version_key(self.built.version) < version_key(self.version):
            return f"{self.version} is still to be built"
        if version_key(self.built.version) > version_key(self.version):
            return f"{self.built.version} is built, which is later than the listed {self.version}"
        return "" if self.number <= NUMBER_LIMIT else f"it was rebuilt {NUMBER_LIMIT} times"

    def wait_for(self, name: str) -> str | None:
        """What a wait for its package of this name has to say, if that can be told."""
        binary = self.built.packages.get(name)
        if binary is None or binary.arch == "all":
            return None
        before = REBUILD.sub("", binary.version) if binary.number else binary.version
        if not self.why_not():
            return f"{name} (>= {before}+b{self.number})"
        is_behind = self.listed is not None and version_key(binary.source_version) < version_key(self.version)
        return f"{name} (>= {self.version})" if is_behind and before == binary.source_version else None


# ---- what is read


def unique(pairs: list[tuple[str, object]]) -> dict[str, object]:
    found = dict(pairs)
    if len(found) < len(pairs):
        raise ValueError("a name stands twice in an object")
    return found


def read_answer(path: Path, states: set[str]) -> list[Planned]:
    """The source packages in these states, in the order of levels and names."""
    try:
        levels = json.loads(path.read_bytes(), object_pairs_hook=unique)
    except ValueError as why:
        raise Refused(f"{path}: it is no JSON, or was cut off: {why}") from None
    found: dict[tuple[str, str], Planned] = {}
    for level, source, arch, state in rows(levels, path):
        if (
            not re.fullmatch("[0-9]{1,9}", level)
            or not is_package_name(source)
            or not is_arch_name(arch)
            or state not in STATES
        ):
            raise Refused(
                f"{path}: it is not of ben's form at level {level[:20]!r}: {source[:100]!r}, {arch[:40]!r}, "
                f"{state[:20]!r}"
            )
        if (source, arch) in found:
            raise Refused(f"{path}: {source} stands twice for {arch}")
        found[source, arch] = Planned(source, arch, int(level) if state in states else -1)
    return sorted((one for one in found.values() if one.level >= 0), key=lambda one: (one.level, one.source, one.arch))


def rows(levels: object, path: Path) -> Iterator[tuple[str, str, str, str]]:
    """Level, source package, architecture and state of each entry."""
    for level, sources in names_of(levels, path):
        for source, archs in names_of(sources, path):
            for arch, state in names_of(archs, path):
                yield level, source, arch, str(state)


def names_of(node: object, path: Path) -> Iterable[tuple[str, object]]:
    if not isinstance(node, dict):
        raise Refused(f"{path}: it is not of ben's form: {str(node)[:100]!r} is no object")
    return node.items()


def add_listed(planned: dict[tuple[str, str], Planned], sources: Path, architectures: Architectures) -> None:
    """Finds the listed paragraph of each: of those for the architecture the first of the greatest version."""
    by_source: dict[str, list[Planned]] = {}
    for one in planned.values():
        by_source.setdefault(one.source, []).append(one)
    for paragraph in paragraphs(sources):
        name, version = paragraph.checked("Package", is_package_name), paragraph.checked("Version", is_version)
        for one in by_source.get(name, []):
            is_later = one.listed is None or version_key(one.version) < version_key(version)
            words = paragraph.value("Architecture").split()
            if is_later and not is_extra(paragraph) and any(architectures.matches(one.arch, word) for word in words):
                one.listed = paragraph


def add_built(planned: dict[tuple[str, str], Planned], arch: str, packages: Path) -> None:
    """Finds what is built of each on the architecture."""
    for paragraph in paragraphs(packages):
        binary = binary_of(paragraph)
        one = planned.get((binary.source, arch))
        if one is None or binary.arch not in (arch, "all"):
            continue
        built = one.built
        if binary.arch == arch and (
            not built.version or place(binary.source_version, binary.number) > place(built.version, built.number)
        ):
            built.version, built.number = binary.source_version, binary.number
        before = built.packages.get(binary.name)
        if before is None or version_key(before.version) < version_key(binary.version):
            built.packages[binary.name] = binary


def place(version: str, number: int) -> tuple[object, int]:
    """Orders builds: by version, then by rebuild."""
    return version_key(version), number


# ---- what waits for what


def first_alternatives(paragraph: Paragraph, arch: str, architectures: Architectures) -> list[str]:
    """The names of packages that the build needs on the architecture: of each build dependency the first alternative
    that holds there."""
    names = []
    for group in f"{paragraph.value('Build-Depends')},{paragraph.value('Build-Depends-Arch')}".split(","):
        for text in group.split("|"):
            match = ALTERNATIVE.fullmatch(text)
            if match and holds(match[2], match[3], arch, architectures):
                names.append(match[1])
                break
    return list(dict.fromkeys(names))


def holds(archs: str | None, profiles: str, arch: str, architectures: Architectures) -> bool:
    words = (archs or "").split()
    is_here = any(architectures.matches(arch, word.lstrip("!")) for word in words)
    if words and is_here == words[0].startswith("!"):
        return False
    lists = [",".join(terms.split()) for terms in re.findall("<([^<>]*)>", profiles)]
    return not lists or holds_without_profiles("+".join(lists))


def waits(one: Planned, by_package: dict[tuple[str, str], Planned], architectures: Architectures) -> list[str]:
    """The relations that have to hold before it is built."""
    found = []
    for name in first_alternatives(one.listed, one.arch, architectures) if one.listed else []:
        other = by_package.get((one.arch, name))
        if other is None or other.level >= one.level:
            continue
        relation = other.wait_for(name)
        if relation is None:
            say(
                PROGRAM,
                f"{one.arch} {one.source}: no wait for {name}, of which {other.source} builds no later version that "
                "can be told",
            )
        else:
            found.append(relation)
    return found


def lines(planned: dict[tuple[str, str], Planned], message: str, architectures: Architectures) -> Iterator[str]:
    by_package = {(one.arch, name): one for one in planned.values() for name in one.built.packages}
    mark = "-- " if re.search(r"(^| )-.", message) else ""  # what begins with a hyphen is an option otherwise
    for one in planned.values():
        why_not = one.why_not()
        if why_not:
            say(PROGRAM, f"{one.arch} {one.source}: no rebuild: {why_not}")
            continue
        yield f"rebuild {one.arch} {one.source} {one.version} {one.number} {mark}{message}".rstrip()
        relations = waits(one, by_package, architectures)
        if relations:
            yield f"dep-wait {one.arch} {one.source} {one.version} {', '.join(relations)}"


def rebuild(words: argparse.Namespace) -> None:
    architectures = read_architectures(words.tables)
    found = read_answer(words.answer, {"bad", "partial"} if words.partial else {"bad"})
    planned = {(one.source, one.arch): one for one in found}
    without = sorted({one.arch for one in found} - set(words.packages))
    if without:
        raise Refused(f"{words.answer}: it has {without[0]}, for which --packages gives no list")
    add_listed(planned, words.sources, architectures)
    for arch, path in words.packages.items():
        add_built(planned, arch, path)
    write_lines(words.to, list(lines(planned, words.message, architectures)))


class AddList(argparse.Action):
    """For argparse: ARCH=FILE, each architecture once."""

    def __call__(
        self, parser: argparse.ArgumentParser, words: argparse.Namespace, value: object, option: str | None = None
    ) -> None:
        arch, equals, path = str(value).partition("=")
        if not (is_arch_name(arch) and equals and path) or arch in words.packages:
            parser.error(f"{option} {value}: it is not ARCH=FILE, or the architecture is given twice")
        words.packages[arch] = Path(path)


def message_word(word: str) -> str:
    if not word.isprintable() or len(word.encode()) > 1000:
        raise argparse.ArgumentTypeError("a message is one line of at most 1000 bytes")
    return " ".join(word.split())


def read_words() -> argparse.Namespace:
    parser = parser_of(DESCRIPTION, EXAMPLE)
    parser.add_argument("answer", metavar="ANSWER", type=Path, help="what ben wrote")
    parser.add_argument("--sources", metavar="FILE", type=Path, required=True, help="the Sources list")
    parser.add_argument(
        "--packages", metavar="ARCH=FILE", action=AddList, default={},
        help="an architecture's Packages list; several may be given",
    )
    parser.add_argument("--message", metavar="TEXT", type=message_word, required=True, help="why it is rebuilt")
    parser.add_argument("--partial", action="store_true", help="rebuild what ben calls partial too")
    add_tables_option(parser)
    parser.add_argument(
        "--to", metavar="FILE", type=Path, help="put the lines in place as FILE, else they go to standard output"
    )
    return parser.parse_args()


def main() -> int:
    outlive_readers()
    words = read_words()
    return run(PROGRAM, lambda: rebuild(words))

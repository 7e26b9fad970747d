"""Prepares the lists of an archive for a merge; `--help` says how."""
import argparse
from collections.abc import Iterable
from dataclasses import dataclass
from pathlib import Path
from typing import IO

from wb_tools import outlive_readers
from wb_tools.lists import (
    Architectures,
    Paragraph,
    Refused,
    add_tables_option,
    arch_word,
    binary_of,
    holds_without_profiles,
    is_label,
    is_package_name,
    is_version,
    paragraphs,
    parser_of,
    put_in_place,
    read_architectures,
    run,
)

PROGRAM = "prepare-lists"
DESCRIPTION = """Prepares a Sources list for merges, one for each architecture: FOLDER/Sources-ARCH. In each paragraph

- Priority and Section are those of the binary packages that ARCH builds, from Package-List: the most important
  priority (required, important, standard, optional, extra), and the section of the first package that has it. Packages
  of a build profile that has to be active are not counted, and udebs only if ARCH builds nothing else. A line without
  arch= counts for each architecture. If no line counts, the fields stay as they are;
- each word of Architecture that the office does not read, and by which dpkg means ARCH, is replaced by ARCH:
  linux-amd64, say, or any-linux-amd64. dpkg's tables are read, as dpkg-architecture reads them, and no other program
  is started;
- all else stays byte for byte.

With --indep NAME also lists of an architecture for builds of `all`: FOLDER/Sources-NAME has the sources that build
`all`, with Architecture: NAME, and their Priority and Section are those of their packages of `all`.
FOLDER/Packages-NAME has the packages of `all` of all lists of --packages, each version once, with Architecture: NAME;
and with --available ARCH those of ARCH as packages of `all`, so that waits for them can end.

The lists are uncompressed, and an empty line ends each. A list that is malformed is refused with the number of its
first bad paragraph, counted from 1. Then none is put in place.

For each list a line on standard output has its name, its paragraphs, and how many of them were changed."""
EXAMPLE = """\
  tools/bin/prepare-lists --sources lists/Sources --arch amd64 --arch riscv64 ready
  tools/bin/prepare-lists --sources lists/Sources --packages lists/Packages-amd64 \\
      --indep indep --available amd64 ready"""
PRIORITIES = ("required", "important", "standard", "optional", "extra")


@dataclass(frozen=True, slots=True)
class Entry:
    """A line of Package-List."""

    section: str
    priority: str
    archs: tuple[str, ...] | None  # words, none if the line does not say
    is_built: bool  # without an active build profile
    is_udeb: bool


def entries(paragraph: Paragraph) -> list[Entry]:
    """The lines of Package-List that have one of Policy's priorities."""
    found = []
    for line in paragraph.value("Package-List").split("\n"):
        words = line.split()
        if not words:
            continue
        if len(words) < 4 or not (is_label(words[2]) and is_label(words[3])):
            raise paragraph.refused(
                f"a line of its Package-List is no package, type, section and priority: {line.strip()[:100]!r}"
            )
        columns = dict(word.split("=", 1) for word in words[4:] if "=" in word)
        archs = tuple(columns["arch"].split(",")) if "arch" in columns else None
        if words[3] in PRIORITIES:
            is_built = "profile" not in columns or holds_without_profiles(columns["profile"])
            found.append(Entry(words[2], words[3], archs, is_built, words[1] == "udeb"))
    return found


class Preparer:
    """Prepares the paragraphs of a Sources list for one architecture. Words that were judged once are kept."""

    def __init__(self, arch: str, architectures: Architectures) -> None:
        if arch not in architectures.parts:
            raise Refused(f"dpkg's tables have no architecture {arch}")
        self.arch = arch
        self.architectures = architectures
        self.judged: dict[str, bool] = {}

    def matches(self, word: str) -> bool:
        if word not in self.judged:
            self.judged[word] = self.architectures.matches(self.arch, word)
        return self.judged[word]

    def prepared(self, paragraph: Paragraph) -> bytes:
        changes = keys(
            entry for entry in entries(paragraph) if entry.archs is None or any(map(self.matches, entry.archs))
        )
        words = paragraph.value("Architecture").split()
        read = [
            self.arch if self.matches(word) and not self.architectures.read_by_office(self.arch, word) else word
            for word in words
        ]
        if read != words:
            changes["Architecture"] = " ".join(dict.fromkeys(read))
        return paragraph.text(changes)


def keys(counted: Iterable[Entry]) -> dict[str, str]:
    """The priority and the section that these entries give, if there are any."""
    built = (entry for entry in counted if entry.is_built)
    first = min(built, key=lambda entry: (entry.is_udeb, PRIORITIES.index(entry.priority)), default=None)
    return {} if first is None else {"Priority": first.priority, "Section": first.section}


def prepared_for_indep(paragraph: Paragraph, name: str) -> bytes | None:
    """The paragraph for the architecture that builds `all`, if the source does."""
    if "all" not in paragraph.value("Architecture").split():
        return None
    changes = keys(entry for entry in entries(paragraph) if entry.archs is None or "all" in entry.archs)
    return paragraph.text(changes | {"Architecture": name})


@dataclass(slots=True)
class Count:
    paragraphs: int = 0
    changed: int = 0

    def add(self, paragraph: Paragraph, text: bytes) -> bytes:
        """The text with the empty line after it, counted."""
        self.paragraphs += 1
        self.changed += text != b"".join(paragraph.lines)
        return text + b"\n"


def check_source(paragraph: Paragraph) -> None:
    paragraph.checked("Package", is_package_name)
    paragraph.checked("Version", is_version)
    paragraph.checked("Architecture", bool)


def prepare(words: argparse.Namespace) -> None:
    architectures = read_architectures(words.tables)
    preparers = [Preparer(arch, architectures) for arch in words.arch]
    names = [f"Sources-{arch}" for arch in words.arch] + (
        [f"Sources-{words.indep}", f"Packages-{words.indep}"] if words.indep else []
    )
    counts = [Count() for _ in names]
    words.folder.mkdir(parents=True, exist_ok=True)
    with put_in_place([words.folder / name for name in names]) as files:
        prepare_sources(words, preparers, files, counts)
        if words.indep:
            prepare_packages(words, files[-1], counts[-1])
    for name, count in zip(names, counts):
        print(f"{name} {count.paragraphs} {count.changed}")


def prepare_sources(
    words: argparse.Namespace, preparers: list[Preparer], files: list[IO[bytes]], counts: list[Count]
) -> None:
    """Writes the Sources list of each architecture, in one pass over the list."""
    seen = False
    for paragraph in paragraphs(words.sources):
        seen = True
        check_source(paragraph)
        for preparer, file, count in zip(preparers, files, counts):
            file.write(count.add(paragraph, preparer.prepared(paragraph)))
        if words.indep and (text := prepared_for_indep(paragraph, words.indep)) is not None:
            files[len(preparers)].write(counts[len(preparers)].add(paragraph, text))
    if not seen:
        raise Refused(f"{words.sources}: it has no paragraph, and a merge of an empty list removes every record")


def prepare_packages(words: argparse.Namespace, file: IO[bytes], count: Count) -> None:
    """Writes the packages of `all` as packages of the architecture that builds them, and those of --available as
    packages of `all`."""
    written: set[tuple[str, str, str]] = set()
    for path in words.packages:
        for paragraph in paragraphs(path):
            binary = binary_of(paragraph)
            arch = {"all": words.indep, words.available: "all"}.get(binary.arch)
            if arch is not None and (binary.name, binary.version, arch) not in written:
                written.add((binary.name, binary.version, arch))
                file.write(count.add(paragraph, paragraph.text({"Architecture": arch})))


def read_words() -> argparse.Namespace:
    parser = parser_of(DESCRIPTION, EXAMPLE)
    parser.add_argument(
        "folder", metavar="FOLDER", type=Path, help="where the lists are put; it is made if it is not there"
    )
    parser.add_argument("--sources", metavar="FILE", type=Path, required=True, help="the Sources list")
    parser.add_argument(
        "--arch", metavar="ARCH", type=arch_word, action="append", default=[],
        help="an architecture; may be given several times",
    )
    parser.add_argument(
        "--indep", metavar="NAME", type=arch_word, help="what the architecture for builds of `all` is called"
    )
    parser.add_argument(
        "--packages", metavar="FILE", type=Path, action="append", default=[],
        help="a list of packages, for --indep; may be repeated",
    )
    parser.add_argument(
        "--available", metavar="ARCH", type=arch_word, help="the architecture on which `all` is built, for --indep"
    )
    add_tables_option(parser)
    words = parser.parse_args()
    names = [*words.arch, *([words.indep] if words.indep else [])]
    if not names:
        parser.error("give --arch or --indep")
    if len(set(names)) < len(names):
        parser.error("an architecture is given twice")
    if bool(words.indep) != bool(words.packages) or (words.available and not words.indep):
        parser.error("--indep and --packages go together, and --available with them")
    if words.indep and words.available == words.indep:
        parser.error("--available is an architecture of the archive, not the one of --indep")
    return words


def main() -> int:
    outlive_readers()
    words = read_words()
    return run(PROGRAM, lambda: prepare(words))

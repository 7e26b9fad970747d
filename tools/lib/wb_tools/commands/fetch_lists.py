"""Fetches the Sources and Packages lists of an archive by apt, for `tools/bin/prepare-lists`; `--help` says how."""
import argparse
import os
import re
import shutil
from dataclasses import dataclass, replace
from pathlib import Path
from typing import IO

from wb_tools import outlive_readers
from wb_tools.archives import Archive, add_archive_options, archives_of, check_archive_options
from wb_tools.lists import (
    DONE,
    ProgramFailed,
    Refused,
    call_program,
    parser_of,
    put_in_place,
    run,
)

PROGRAM = "fetch-lists"
DESCRIPTION = """Fetches Sources and Packages lists of an archive and puts them, uncompressed and joined, into a folder:
FOLDER/Sources has the sources of all suites and components, and FOLDER/Packages-ARCH the packages of an architecture
and, if the archive has them apart, those of `all`. apt does it (2.2 or later) in a root of its own, FOLDER/apt, and
verifies what it fetches; nothing of the machine's own apt is changed. FOLDER/apt may be kept: the next call then
fetches only what is new. If a list cannot be fetched whole, none is put in place.

With --from the lists come from several archives and suites, each by a line as apt's sources.list has it: deb for its
packages, deb-src for its sources. So a port whose archive has no sources takes them from Debian's. [arch=all] fetches
the packages of `all` alone, and [signed-by=FILE] names the keys of that archive.

For each list a line on standard output has its name, its paragraphs and its bytes."""
EXAMPLE = """\
  tools/bin/fetch-lists --suite sid --component main --component contrib --arch amd64 --arch riscv64 --udebs lists
  ports=http://ftp.ports.debian.org/debian-ports
  keys=/usr/share/keyrings/debian-ports-archive-keyring.gpg
  tools/bin/fetch-lists --from 'deb-src http://deb.debian.org/debian sid main' \\
      --from 'deb [arch=all] http://deb.debian.org/debian sid main' \\
      --from "deb [signed-by=$keys] $ports sid main" --from "deb [signed-by=$keys] $ports unreleased main" \\
      --from "deb-src [signed-by=$keys] $ports unreleased main" --arch m68k --arch sh4 lists"""

# The index target for lists of udebs, which apt does not have by itself. It is optional, since not every suite has
# them.
UDEBS = """Acquire::IndexTargets::deb::Udebs {
  MetaKey "$(COMPONENT)/debian-installer/binary-$(ARCHITECTURE)/Packages";
  ShortDescription "Udebs";
  Description "$(RELEASE)/$(COMPONENT) $(ARCHITECTURE) udebs";
  Optional "true";
  DefaultEnabled "false";
};
"""
# Of the machine's own configuration: how its network is reached, and how patient apt is.
KEPT_SETTINGS = re.compile(r'Acquire::(?:http|https|ftp|tor|Retries|ForceIPv4|ForceIPv6)(?:::[^ ]*)? "[^"]*";')
KINDS = ("Sources", "Packages", "Udebs")
TARGET_FIELDS = ("REPO_URI", "CREATED_BY", "RELEASE", "COMPONENT", "ARCHITECTURE", "FILENAME")


@dataclass(frozen=True, slots=True)
class Target:
    """A list that apt has fetched: where it comes from, its kind (Sources, Packages or Udebs), where it belongs, and
    its file."""

    mirror: str
    kind: str
    suite: str
    component: str
    arch: str
    file: Path

    @property
    def place(self) -> str:
        """Its path below the folder of the component."""
        places = {"Sources": "source/Sources", "Packages": f"binary-{self.arch}/Packages"}
        return places.get(self.kind, f"debian-installer/binary-{self.arch}/Packages")


def apt(words: list[str], config: Path | None = None, shown: bool = False) -> str:
    """What a program of apt writes on standard output; with `shown` this goes to standard error, for a person."""
    environment = {**os.environ, "LC_ALL": "C.UTF-8"} | ({"APT_CONFIG": str(config)} if config else {})
    status, said = call_program(words, shown, environment)
    if status != DONE:
        raise ProgramFailed(f"{' '.join(words)} ended with status {status}; no list was put in place")
    return said.decode()


def machine_mirror() -> tuple[str, str]:
    """The mirror of the machine's own apt, and its keyring, if one is named: the first mirror that says that it is
    Debian's, else the first."""
    rows = apt(
        ["apt-get", "indextargets", "--format", "$(LABEL)|$(REPO_URI)|$(SIGNED_BY)", "Created-By: Packages"]
    ).splitlines()
    found = [row.split("|") for row in rows if row.count("|") == 2]
    if not found:
        raise Refused("the machine's own apt names no mirror, or has fetched nothing from it yet; give one by --mirror")
    _, mirror, keyring = min(found, key=lambda row: row[0] != "Debian")
    return mirror, "" if "$(" in keyring else keyring


def machine_settings() -> str:
    """Lines of the machine's own configuration that are taken over: how the network is reached, and whose keys are
    trusted."""
    lines = [line for line in apt(["apt-config", "dump"]).splitlines() if KEPT_SETTINGS.fullmatch(line)]
    trusted = apt(["apt-config", "shell", "trusted", "Dir::Etc::trusted/f", "trustedparts", "Dir::Etc::trustedparts/d"])
    lines += [
        f'Dir::Etc::{name} "{path}";'
        for name, path in re.findall(r"^(trusted|trustedparts)='([^'\"]*)'$", trusted, re.MULTILINE)
    ]
    return "".join(f"{line}\n" for line in lines)


def whole_archives(words: argparse.Namespace) -> list[Archive]:
    """What is fetched from where, with the mirror of the machine's own apt where none is named."""
    found = archives_of(words)
    if found[0].mirror:
        return found
    mirror, keyring = machine_mirror()
    return [replace(found[0], mirror=mirror, keyring=found[0].keyring or keyring)]


def configuration_of(words: argparse.Namespace, root: Path) -> str:
    """The configuration of an apt with this root. Nothing else of the machine's own is read, and none of its hooks is
    run."""
    archs = " ".join(f'"{arch}";' for arch in words.arch)
    return (
        f'Dir "{root}";\nDir::Etc "etc/apt";\nDir::State "state";\nDir::State::status "state/status";\n'
        'Dir::Cache "cache";\n'
        + machine_settings()
        + f'APT::Architecture "{words.arch[0]}";\nAPT::Architectures {{ {archs} }};\nAPT::Sandbox::User "";\n'
        + 'APT::Update::Error-Mode "any";\nAcquire::Languages "none";\nAcquire::GzipIndexes "false";\n'
        + 'Acquire::AllowInsecureRepositories "false";\nAcquire::AllowDowngradeToInsecureRepositories "false";\n'
        + ('Acquire::Check-Valid-Until "false";\n' if words.expired else "")
        + (UDEBS if words.udebs else "")
    )


def make_root(root: Path, words: argparse.Namespace, archives: list[Archive]) -> Path:
    """Makes or renews the root folder of an apt of its own, and gives its configuration file."""
    for name in (
        "etc/apt/sources.list.d", "etc/apt/apt.conf.d", "etc/apt/preferences.d", "state/lists/partial",
        "cache/archives/partial",
    ):
        (root / name).mkdir(parents=True, exist_ok=True)
    (root / "state/status").write_text("")
    stanzas = "\n".join(archive.stanza(words.arch, words.udebs) for archive in archives)
    (root / "etc/apt/sources.list.d/lists.sources").write_text(stanzas)
    config = root / "apt.conf"
    config.write_text(configuration_of(words, root))
    return config


def targets(config: Path) -> list[Target]:
    """The lists that apt has, in its order."""
    form = "|".join(f"$({name})" for name in TARGET_FIELDS)
    rows = [row.split("|", 5) for row in apt(["apt-get", "indextargets", "--format", form], config).splitlines()]
    return [
        Target(mirror.rstrip("/"), kind, suite, component, arch, Path(file))
        for mirror, kind, suite, component, arch, file in rows
    ]


def empty_lists(lists: Path, archive: Archive, suite: str) -> set[str]:
    """The lists that the suite's Release file says are empty; apt does not fetch these. apt has verified that file."""
    found: set[str] = set()
    for name in ("InRelease", "Release"):
        path = lists / f"{archive.release_name(suite)}{name}"
        if path.exists():
            found.update(re.findall(r"^ [0-9a-f]{64} +0 (\S+)$", path.read_text(), re.MULTILINE))
    return found


def missing(
    found: list[Target], archives: list[Archive], words: argparse.Namespace, lists: Path
) -> list[str]:
    """What was asked for and apt does not have. Lists of `all`, and of udebs in some suites, are only there if the
    archive has them, unless a line asks for those of `all`."""
    have = {(one.mirror, one.suite, f"{one.component}/{one.place}") for one in found}
    lacks = []
    for archive in archives:
        where = f", {archive.mirror}" if len({one.mirror for one in archives}) > 1 else ""
        names = [f"{component}/{place}" for component in archive.components for place in archive.places(words.arch)]
        for suite in archive.suites:
            empty = empty_lists(lists, archive, suite)
            lacks += [
                f"{name} of {suite}{where}"
                for name in names
                if (archive.mirror.rstrip("/"), suite, name) not in have and name not in empty
            ]
    if words.udebs:
        with_udebs = {one.arch for one in found if one.kind == "Udebs"}
        lacks += [f"udebs of {arch}" for arch in words.arch if arch not in with_udebs]
    return lacks


def join(target: IO[bytes], files: list[Path]) -> tuple[int, int]:
    """Writes the files one after another, each ended by an empty line, and gives the paragraphs and the bytes."""
    count, size = 0, 0
    for path in files:
        last = b"\n"
        with path.open("rb") as file:
            for line in file:
                target.write(line)
                size += len(line)
                count += line.startswith(b"Package:")
                last = line
        ending = b"" if last == b"\n" else b"\n" if last.endswith(b"\n") else b"\n\n"
        target.write(ending)
        size += len(ending)
    return count, size


def fetch(words: argparse.Namespace) -> None:
    folder: Path = words.folder.absolute()
    if not re.fullmatch(r"[^\s\"']+", str(folder)):
        raise Refused(
            f"{folder}: the path of the folder has a blank or a quotation mark, which apt's configuration cannot have"
        )
    folder.mkdir(parents=True, exist_ok=True)
    archives = whole_archives(words)
    config = make_root(folder / "apt", words, archives)
    apt(["apt-get", "update", "-q"], config, shown=True)
    found = [one for one in targets(config) if one.kind in KINDS[: 3 if words.udebs else 2]]
    lacks = missing(found, archives, words, folder / "apt/state/lists")
    if lacks:
        raise ProgramFailed(f"apt has not fetched these: {', '.join(lacks)}; no list was put in place")
    lists = {"Sources": [one.file for one in found if one.kind == "Sources"]}
    for arch in words.arch:
        lists[f"Packages-{arch}"] = [one.file for one in found if one.kind != "Sources" and one.arch in (arch, "all")]
    with put_in_place([folder / name for name in lists]) as files:
        figures = [(name, *join(file, paths)) for file, (name, paths) in zip(files, lists.items())]
    for name, count, size in figures:
        print(f"{name} {count} {size}")
    if not words.keep:
        shutil.rmtree(folder / "apt")


def read_words() -> argparse.Namespace:
    parser = parser_of(DESCRIPTION, EXAMPLE)
    parser.add_argument(
        "folder", metavar="FOLDER", type=Path, help="where the lists are put; it is made if it is not there"
    )
    add_archive_options(parser)
    parser.add_argument("--drop", dest="keep", action="store_false", help="remove FOLDER/apt at the end")
    words = parser.parse_args()
    check_archive_options(parser, words)
    return words


def main() -> int:
    outlive_readers()
    words = read_words()
    return run(PROGRAM, lambda: fetch(words))

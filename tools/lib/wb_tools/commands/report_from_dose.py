"""Asks dose-builddebcheck which of the source packages that wait can be built; `--help` says how."""
import argparse
import mmap
import re
import sys
import tempfile
from collections.abc import Iterator
from dataclasses import dataclass
from pathlib import Path

from wb_tools import outlive_readers
from wb_tools.lists import (
    Paragraph,
    ProgramFailed,
    Refused,
    add_tables_option,
    arch_word,
    call_program,
    check_end,
    is_extra,
    is_package_name,
    is_version,
    paragraphs,
    parser_of,
    read_architectures,
    run,
    say,
    version_key,
    write_lines,
)

PROGRAM = "report-from-dose"
DESCRIPTION = """Asks dose-builddebcheck (dose3 7.0) whether the build dependencies of the source packages that wait on
an architecture can be installed, and gives the lines of a report, in the order of WAITING:

  SOURCE VERSION installable
  SOURCE VERSION uninstallable REASON

WAITING has a line `SOURCE VERSION` for each package to ask about, those in BD-Uninstallable too; `-` is standard input.
dose is given these packages alone, and dpkg's tables of architectures. One that the Sources list does not have in that
version, or not for the architecture, gets no line, and a message says so. No build profile is active.

An answer is refused if it was cut off, if it is not of dose's form, if it is about other packages than were asked
about, if it does not count all of them, or if dose's status does not fit it. Then there is no report.

With --native ARCH the report is for an architecture that builds `all` (prepare-lists --indep): the packages are built
on ARCH, whose Packages list is given, and Build-Depends-Indep counts instead of Build-Depends-Arch."""
EXAMPLE = """\
  tools/bin/report-from-dose amd64 --sources ready/Sources-amd64 --packages lists/Packages-amd64 --to report waiting
  tools/bin/report-from-dose indep --native amd64 --sources ready/Sources-indep \\
      --packages lists/Packages-amd64 waiting"""
REASON_LIMIT = 1000  # bytes

# An answer in the form of YAML that dose writes: a text, names with what they stand for, or a list.
Node = str | dict[str, "Node"] | list["Node"]
COUNTS = ("binary-packages", "source-packages", "broken-packages")


@dataclass(frozen=True, slots=True)
class Waiting:
    """A source package that waits, in this version."""

    source: str
    version: str


def waiting_packages(path: str) -> list[Waiting]:
    name = "standard input" if path == "-" else path
    try:
        lines = (sys.stdin.buffer.read() if path == "-" else Path(path).read_bytes()).decode().split("\n")
    except UnicodeDecodeError:
        raise Refused(f"{name}: it is not UTF-8") from None
    found: dict[str, Waiting] = {}
    for number, line in enumerate(lines, 1):
        words = line.strip(" \t").split()
        if not words:
            continue
        if len(words) != 2 or not is_package_name(words[0]) or not is_version(words[1]) or line.endswith("\r"):
            raise Refused(f"{name}, line {number}: it is no name and version of a source package: {line[:100]!r}")
        if words[0] in found:
            raise Refused(f"{name}, line {number}: {words[0]} is named twice")
        found[words[0]] = Waiting(*words)
    return list(found.values())


# ---- the question


def pick(words: argparse.Namespace, waiting: list[Waiting], target: Path) -> list[Waiting]:
    """Writes the paragraphs of what waits, with an `Architecture` that dose takes for the one that is built, and gives
    what was found, in the order of what waits."""
    native = words.native or words.arch
    architectures = read_architectures(words.tables)
    if native not in architectures.parts:
        raise Refused(f"dpkg's tables have no architecture {native}; give the one that builds by --native")
    wanted = {one.source: one for one in waiting}
    found: set[Waiting] = set()
    with target.open("wb") as file:
        for paragraph in paragraphs(words.sources):
            one = wanted.get(paragraph.checked("Package", is_package_name))
            if one is None or one in found or not is_that(paragraph, one):
                continue
            archs = paragraph.value("Architecture").split()
            if words.native and (words.arch in archs or "all" in archs):
                file.write(paragraph.text({"Architecture": "all"}) + b"\n")
            elif not words.native and any(architectures.matches(native, word) for word in archs):
                file.write(paragraph.text({"Architecture": native}) + b"\n")
            else:
                continue
            found.add(one)
    for one in waiting:
        if one not in found:
            say(
                PROGRAM,
                f"{one.source} {one.version}: {words.sources} does not have it for {words.arch}, so the report does "
                "not name it",
            )
    return [one for one in waiting if one in found]


def is_that(paragraph: Paragraph, one: Waiting) -> bool:
    version = paragraph.checked("Version", is_version)
    return version_key(version) == version_key(one.version) and not is_extra(paragraph)


def check_packages(path: Path, arch: str) -> None:
    """Refuses a Packages list that is no whole text, or that has packages of another architecture: by it nothing could
    be built, and the report would take all that waits out of the queue."""
    check_end(path)
    if path.stat().st_size == 0:
        return
    foreign = re.compile(rb"^Architecture:(?![ \t]*(?:all|%b)[ \t]*$)[ \t]*(.*)$" % arch.encode(), re.M | re.I)
    with path.open("rb") as file, mmap.mmap(file.fileno(), 0, access=mmap.ACCESS_READ) as text:
        found = foreign.search(text)
        named = found[1].decode(errors="replace")[:100] if found else ""
    if found:
        raise Refused(
            f"{path}: it has a package of the Architecture {named!r}, which is neither {arch} nor all; give the "
            f"Packages list of {arch}"
        )


def ask_dose(words: argparse.Namespace, picked: Path) -> tuple[int, str]:
    """The status and the answer of dose about these source packages."""
    command = ["dose-builddebcheck", "--explain", "--failures", f"--deb-native-arch={words.native or words.arch}"]
    command += ["--deb-drop-b-d-arch" if words.native else "--deb-drop-b-d-indep"]
    command += [f"--deb-tupletable={words.tables / 'tupletable'}", f"--deb-cputable={words.tables / 'cputable'}"]
    command += ["--deb-emulate-sbuild"] if words.first_alternatives else []
    status, said = call_program([*command, str(words.packages), str(picked)])
    if status not in (0, 1):
        raise ProgramFailed(f"dose-builddebcheck ended with status {status}; there is no report")
    try:
        return status, said.decode()
    except UnicodeDecodeError:
        raise refused("it is not UTF-8") from None


# ---- the answer


def refused(why: str) -> Refused:
    return Refused(f"the answer of dose-builddebcheck: {why}; there is no report")


class Answer:
    """The lines of dose's answer, read from the first on. A line is `NAME:`, `NAME: TEXT` or `-`, one blank further in
    than what it belongs to."""

    def __init__(self, text: str) -> None:
        if not text.endswith("\n"):
            raise refused("it was cut off, since its last line has no end")
        self.lines = [(number, line) for number, line in enumerate(text[:-1].split("\n"), 1) if line.strip(" ")]
        self.at = 0

    def next_depth(self) -> int:
        """How far in the next line stands, -1 after the last."""
        if self.at == len(self.lines):
            return -1
        line = self.lines[self.at][1]
        return len(line) - len(line.lstrip(" "))

    def node(self, depth: int) -> Node:
        """What stands at this depth from the next line on."""
        if self.next_depth() < depth:
            return ""
        is_list = self.lines[self.at][1].strip(" ") == "-"
        return self.items(depth) if is_list else self.names(depth)

    def items(self, depth: int) -> list[Node]:
        found: list[Node] = []
        while self.next_depth() == depth and self.lines[self.at][1].strip(" ") == "-":
            self.at += 1
            found.append(self.node(depth + 1))
        return found

    def names(self, depth: int) -> dict[str, Node]:
        found: dict[str, Node] = {}
        while self.next_depth() == depth:
            number, line = self.lines[self.at]
            match = re.fullmatch(r" *([a-z][a-z0-9-]*):(?: (.+))?", line)
            if match is None or match[1] in found:
                raise refused(f"its line {number} is not of dose's form: {line[:100]!r}")
            self.at += 1
            found[match[1]] = match[2] or self.node(depth + 1)
        return found

    def read(self) -> dict[str, Node]:
        found = self.names(0)
        if self.at < len(self.lines):
            number, line = self.lines[self.at]
            raise refused(f"its line {number} is not of dose's form: {line[:100]!r}")
        return found


def child(node: Node, *names: str) -> Node:
    """What stands below these names, one in the other."""
    for name in names:
        if not isinstance(node, dict) or name not in node:
            raise refused(f"{name} is missing; it was cut off, or is not of dose's form")
        node = node[name]
    return node


def text_at(node: Node, *names: str) -> str:
    found = child(node, *names)
    if not isinstance(found, str) or not found:
        raise refused(f"{names[-1]} is not a text")
    return found


def list_at(node: Node, *names: str) -> list[Node]:
    found = child(node, *names) or []
    if not isinstance(found, list):
        raise refused(f"{names[-1]} is not a list")
    return found


def reasons_of(text: str, status: int, asked: list[Waiting], native: str) -> dict[str, str]:
    """Why source packages cannot be built, by name, if the answer fits what was asked."""
    answer = Answer(text).read()
    for name in COUNTS:
        if not re.fullmatch("[0-9]+", text_at(answer, name)):
            raise refused(f"{name} is not a number")
    if text_at(answer, "native-architecture") != native:
        raise refused(f"it is about {text_at(answer, 'native-architecture')} in place of {native}")
    if int(text_at(answer, "source-packages")) != len(asked):
        raise refused(f"it counts {text_at(answer, 'source-packages')} source packages in place of {len(asked)}")
    entries = list_at(answer, "report")
    if int(text_at(answer, "broken-packages")) != len(entries):
        raise refused(f"it counts {text_at(answer, 'broken-packages')} broken packages and names {len(entries)}")
    if status != (1 if entries else 0):
        raise refused(f"it names {len(entries)} broken packages, and the status was {status}")
    by_name = {one.source: one for one in asked}
    found: dict[str, str] = {}
    for entry in entries:
        name = text_at(entry, "package").removeprefix("src:")
        if name not in by_name or version_key_or_none(text_at(entry, "version")) != version_key(by_name[name].version):
            raise refused(f"it names {name} {text_at(entry, 'version')}, which was not asked about")
        if name in found or text_at(entry, "status") != "broken":
            raise refused(f"it names {name} twice, or not as broken")
        found[name] = one_line([reason(node, native) for node in list_at(entry, "reasons")])
    return found


def version_key_or_none(text: str) -> tuple[object, ...] | None:
    return version_key(text) if is_version(text) else None


def reason(node: Node, native: str) -> str:
    """One reason in words; names of packages lose the native architecture."""
    if isinstance(node, dict) and "conflict" in node:
        first, second = text_at(node, "conflict", "pkg1", "package"), text_at(node, "conflict", "pkg2", "package")
        return f"{first} conflicts with {second}"
    wanting, wanted = text_at(node, "missing", "pkg", "package"), text_at(node, "missing", "pkg", "unsat-dependency")
    package = child(node, "missing", "pkg")
    is_source = isinstance(package, dict) and package.get("type") == "src"
    name = re.sub(rf":{re.escape(native)}(?![a-z0-9-])", "", wanted)
    return f"{name} is missing" if is_source else f"{name} is missing, on which {wanting} depends"


def one_line(reasons: list[str]) -> str:
    """The reasons, each once, within the limit of a report."""
    if not reasons:
        raise refused("a broken package has no reason")
    whole = "; ".join(dict.fromkeys(reasons))
    data = whole.encode()
    return whole if len(data) <= REASON_LIMIT else data[: REASON_LIMIT - 3].decode(errors="ignore") + "..."


def report_lines(asked: list[Waiting], reasons: dict[str, str]) -> Iterator[str]:
    for one in asked:
        found = reasons.get(one.source)
        yield f"{one.source} {one.version} " + ("installable" if found is None else f"uninstallable {found}")


def report(words: argparse.Namespace) -> None:
    waiting = waiting_packages(words.waiting)
    check_packages(words.packages, words.native or words.arch)
    with tempfile.TemporaryDirectory(prefix=f"{PROGRAM}.") as folder:
        picked = Path(folder) / "Sources"
        asked = pick(words, waiting, picked)
        status, text = ask_dose(words, picked) if asked else (0, "")
    reasons = reasons_of(text, status, asked, words.native or words.arch) if asked else {}
    write_lines(words.to, list(report_lines(asked, reasons)))
    say(PROGRAM, f"{len(waiting)} wait, {len(asked) - len(reasons)} are installable, {len(reasons)} are not")


def read_words() -> argparse.Namespace:
    parser = parser_of(DESCRIPTION, EXAMPLE)
    parser.add_argument("arch", metavar="ARCH", type=arch_word, help="the architecture that the report is for")
    parser.add_argument("waiting", metavar="WAITING", help="the source packages to ask about")
    parser.add_argument("--sources", metavar="FILE", type=Path, required=True, help="the Sources list that was merged")
    parser.add_argument(
        "--packages", metavar="FILE", type=Path, required=True, help="the Packages list of the architecture that builds"
    )
    parser.add_argument("--native", metavar="ARCH", type=arch_word, help="the architecture on which `all` is built")
    parser.add_argument(
        "--first-alternatives", action="store_true", help="count the first of alternatives alone, as sbuild does"
    )
    add_tables_option(parser)
    parser.add_argument(
        "--to", metavar="FILE", type=Path, help="put the report in place as FILE, else it goes to standard output"
    )
    return parser.parse_args()


def main() -> int:
    outlive_readers()
    words = read_words()
    return run(PROGRAM, lambda: report(words))

"""Sources and Packages lists of an archive, for tools/bin/merge-archive, tools/bin/fetch-lists,
tools/bin/prepare-lists, tools/bin/report-from-dose and tools/bin/rebuild-from-ben: paragraphs of control data (Debian
Policy 5.1) read one after another, names and versions, architecture words as dpkg reads them, files that are put in
place only once they are whole, other programs, and what the command lines of several scripts have.

The form of control data is the one that `wb` reads, so that what passes here is no fault of a list there; but a list
has to end with an empty line, which shows that its last paragraph was not cut off.
"""
import argparse
import codecs
import contextlib
import os
import re
import subprocess
import sys
import tempfile
from collections.abc import Callable, Container, Iterator, Mapping, Sequence
from dataclasses import dataclass
from io import BufferedReader
from pathlib import Path
from typing import IO

PARAGRAPH_LIMIT = 4194304  # bytes, as of `wb`
TABLES = Path("/usr/share/dpkg")  # where dpkg keeps its tables of architectures
COMPRESSED = {
    b"\x1f\x8b": "gzip", b"\xfd7zXZ\0": "xz", b"\x28\xb5\x2f\xfd": "zstd", b"BZh": "bzip2",
}  # by how such a file begins
RETURN = "it ends with a carriage return; take the carriage returns out"
CUT = "no empty line ends it, so the list was cut off there; fetch it again"

DONE, REFUSED, WORDS, FAILED = 0, 1, 2, 3
STATUSES = """Status: 0 if all was done; 1 if what was read is refused, and 2 if the words of the command line are; 3 if
a file cannot be read or written, or another program failed. Messages are on standard error. After 1 and 2 no file was
put in place, and after 3 none unless a rename or standard output failed."""

FIELD = re.compile(rb"([!-\"$-,.-9;-~][!-9;-~]*):")
PACKAGE_NAME = re.compile(r"[a-z0-9][a-z0-9+.-]{1,199}")
ARCH_NAME = re.compile(r"(?!(?:all|any|source)\Z)[a-z0-9][a-z0-9-]{0,39}")
VERSION = re.compile(r"(?:([0-9]+):(?=.))?([A-Za-z0-9.+~:-]+?)(?:-([A-Za-z0-9+.~]+))?")
EPOCH, UPSTREAM, REVISION = re.compile("[0-9]+"), re.compile("[A-Za-z0-9.+~:-]+"), re.compile("[A-Za-z0-9.+~]+")
RUNS = re.compile("([^0-9]*)([0-9]*)")
LABEL = re.compile(r"[!-~]{1,64}")
SOURCE = re.compile(r"([^ ]+)(?: \(([^ ()]+)\))?")
REBUILD = re.compile(r"\+b([0-9]{1,3})\Z")


class Refused(Exception):
    """What was read is not what it has to be: the message names the file, the place, and what is wrong."""


class ProgramFailed(Exception):
    """Another program could not be started, or failed: the message names it. The status is the one with which the
    script ends."""

    def __init__(self, why: str, status: int = FAILED) -> None:
        super().__init__(why)
        self.status = status


# ---- names and versions


def is_package_name(text: str) -> bool:
    return PACKAGE_NAME.fullmatch(text) is not None


def is_arch_name(text: str) -> bool:
    return ARCH_NAME.fullmatch(text) is not None


def is_label(text: str) -> bool:
    """Whether it has the form of a priority or a section."""
    return LABEL.fullmatch(text) is not None


def parts_of_version(text: str) -> tuple[int, str, str] | None:
    """Epoch, upstream version and revision, if it has the form of a version (Debian Policy 5.6.12)."""
    if len(text) > 1000:
        return None
    epoch, colon, rest = text.partition(":")
    if not colon:
        epoch, rest = "0", text
    upstream, hyphen, revision = rest.rpartition("-")
    if not hyphen:
        upstream, revision = rest, "0"
    if not (EPOCH.fullmatch(epoch) and UPSTREAM.fullmatch(upstream) and REVISION.fullmatch(revision)):
        return None
    return (int(epoch), upstream, revision) if int(epoch) <= 2147483647 else None


def is_version(text: str) -> bool:
    return parts_of_version(text) is not None


def version_key(text: str) -> tuple[object, ...]:
    """Orders versions (Debian Policy 5.6.12); the keys of two are equal if neither is later than the other. The text is
    a version."""
    parts = parts_of_version(text)
    if parts is None:
        raise ValueError(text)
    return parts[0], part_key(parts[1]), part_key(parts[2])


def part_key(part: str) -> tuple[tuple[tuple[int, ...], int], ...]:
    """What is not digits and the number after it, in turn. No digits count as 0, a tilde comes before the end, and
    letters before all else. An empty text has a first number too, so that `0~1` comes before it and before `0`."""
    runs = [(other, int(digits or "0")) for other, digits in RUNS.findall(part) if other or digits] or [("", 0)]
    return (*(((*map(weight, other), 0), number) for other, number in runs), ((0,), 0))


def weight(character: str) -> int:
    return -1 if character == "~" else ord(character) if character.isalpha() else ord(character) + 256


# ---- paragraphs


@dataclass(frozen=True, slots=True)
class Paragraph:
    """A paragraph as it was read: its lines with their ends, and for each field, by its name in small letters, its
    first line and the one after its last."""

    where: str
    lines: list[bytes]
    fields: dict[str, tuple[int, int]]

    def refused(self, why: str) -> Refused:
        return Refused(f"{self.where}: {why}")

    def value(self, name: str) -> str:
        """The value of a field with blanks around it taken off; empty if the field is not there."""
        place = self.fields.get(name.lower())
        if place is None:
            return ""
        text = b"".join(self.lines[place[0] : place[1]]).decode()
        return text.partition(":")[2].strip(" \t\n")

    def checked(self, name: str, is_right: Callable[[str], bool]) -> str:
        """The value of a field that has to be there, and of this form."""
        value = self.value(name)
        if name.lower() not in self.fields:
            raise self.refused(f"it has no {name}")
        if not is_right(value):
            raise self.refused(f"its {name} is malformed: {value[:100]!r}")
        return value

    def text(self, changes: Mapping[str, str]) -> bytes:
        """All its lines, with these values of fields: a field that has its value already stays as it is, and one that
        is not there is put after the others."""
        lines: list[bytes] = list(self.lines)
        if not lines[-1].endswith(b"\n"):
            lines[-1] += b"\n"
        added = []
        for name, value in changes.items():
            place = self.fields.get(name.lower())
            if place is None:
                added.append(f"{name}: {value}\n".encode())
            elif self.value(name) != value:
                written = lines[place[0]].partition(b":")[0]
                lines[place[0]] = written + f": {value}\n".encode()
                lines[place[0] + 1 : place[1]] = [b""] * (place[1] - place[0] - 1)
        return b"".join(lines + added)


def paragraphs(path: Path, is_ended: bool = True) -> Iterator[Paragraph]:
    """The paragraphs of a list. Refuses the first that is no control data, a list that is compressed, and, if the list
    has to be ended, a last one that no empty line ends."""
    with path.open("rb") as file:
        check_text(path, file)
        number, line_number, size = 1, 0, 0
        lines: list[bytes] = []
        while line := file.readline(PARAGRAPH_LIMIT + 1):
            line_number += 1
            if line.strip(b" \t\n"):
                lines.append(line)
                size += len(line)
                if size > PARAGRAPH_LIMIT:
                    raise Refused(
                        f"{path}: paragraph {number} has more than {PARAGRAPH_LIMIT} bytes; a list is uncompressed text"
                    )
            elif lines:
                yield read_paragraph(path, number, line_number - len(lines), lines)
                number, size, lines = number + 1, 0, []
        if lines and not is_ended:
            yield read_paragraph(path, number, line_number - len(lines) + 1, lines)
        elif lines:
            try:
                read_paragraph(path, number, line_number - len(lines) + 1, lines)
            except Refused as why:
                raise Refused(f"{why}; {CUT}") from None
            raise Refused(f"{path}: paragraph {number}, the last: {CUT}")


def compressor_of(start: bytes) -> str:
    """The program by which a file is compressed that begins so; empty for a text."""
    return next((program for magic, program in COMPRESSED.items() if start.startswith(magic)), "")


def check_text(path: Path, file: BufferedReader) -> None:
    """Refuses a list that is compressed, or that has the marks of a text of another system, as its first bytes show;
    they are not taken out of the file, which may be a pipe."""
    start = file.peek(max(map(len, COMPRESSED)))
    if program := compressor_of(start):
        raise Refused(f"{path}: it is compressed by {program}; uncompress it, since a list is text")
    if start.startswith(codecs.BOM_UTF8):
        raise Refused(f"{path}: paragraph 1, line 1: it begins with a byte order mark; take it out")
    if start.partition(b"\n")[0].endswith(b"\r"):
        raise Refused(f"{path}: paragraph 1, line 1: {RETURN}")


def check_end(path: Path) -> None:
    """Refuses a list that is no text, or, if it has a paragraph, that no empty line ends; for one that another program
    reads."""
    with path.open("rb") as file:
        check_text(path, file)
        size = file.seek(0, os.SEEK_END)
        file.seek(max(0, size - 2))
        if size and file.read() != b"\n\n":
            raise Refused(f"{path}: no empty line ends it, so the list was cut off; fetch it again")


def read_paragraph(path: Path, number: int, first_line: int, lines: list[bytes]) -> Paragraph:
    where = f"{path}: paragraph {number}"
    fields: dict[str, tuple[int, int]] = {}
    name = ""
    for at, line in enumerate(lines):
        if line[0] in b" \t":
            if not name:
                raise Refused(f"{where}, line {first_line + at}: it continues no field")
            fields[name] = (fields[name][0], at + 1)
            continue
        found = FIELD.match(line)
        if line.endswith(b"\r\n"):
            raise Refused(f"{where}, line {first_line + at}: {RETURN}")
        if found is None:
            raise Refused(f"{where}, line {first_line + at}: it is no field, which has a name and a colon")
        name = found[1].decode().lower()
        if name in fields:
            raise Refused(f"{where}, line {first_line + at}: a second field {name}; is an empty line missing?")
        fields[name] = (at, at + 1)
    try:
        b"".join(lines).decode()
    except UnicodeDecodeError:
        raise Refused(f"{where}: it is not UTF-8; fetch the list again, or convert it") from None
    return Paragraph(where, lines, fields)


def is_extra(paragraph: Paragraph) -> bool:
    """Whether the archive keeps the source package only for others, so that it is not listed."""
    return paragraph.value("Extra-Source-Only") == "yes"


@dataclass(frozen=True, slots=True)
class Binary:
    """What a paragraph of a Packages list says of where its package comes from."""

    name: str
    version: str
    arch: str
    source: str
    source_version: str
    number: int  # that of the binary-only rebuild, 0 for none


def binary_of(paragraph: Paragraph) -> Binary:
    """Reads it as a merge does: the number of a rebuild counts only if `Source` gives the version of the source
    package."""
    name = paragraph.checked("Package", is_package_name)
    version = paragraph.checked("Version", is_version)
    arch = paragraph.checked("Architecture", bool)
    given = paragraph.value("Source")
    found = SOURCE.fullmatch(given or name)
    if found is None or not is_package_name(found[1]) or (found[2] and not is_version(found[2])):
        raise paragraph.refused(f"its Source is malformed: {given[:100]!r}")
    rebuild = REBUILD.search(version) if found[2] else None
    return Binary(name, version, arch, found[1], found[2] or version, int(rebuild[1]) if rebuild else 0)


# ---- build profiles and architectures


def holds_without_profiles(formula: str) -> bool:
    """Whether a restriction such as `!nocheck,!cross+stage1` holds if no build profile is active: one of its lists has
    negated words only."""
    return any(all(word.startswith("!") for word in terms.split(",")) for terms in formula.split("+"))


@dataclass(frozen=True, slots=True)
class Architectures:
    """The architectures that dpkg knows: by name, the four parts ABI, C library, operating system and processor."""

    parts: dict[str, tuple[str, ...]]

    def matches(self, arch: str, word: str) -> bool:
        """Whether a word of an `Architecture` field matches the architecture, as `dpkg-architecture -a ARCH -i WORD`
        says."""
        if word in (arch, "any"):
            return True
        own, asked = self.parts.get(arch), self.parts_of_word(word)
        return own is not None and asked is not None and all(part in ("any", one) for one, part in zip(own, asked))

    def parts_of_word(self, word: str) -> tuple[str, ...] | None:
        parts = word.split("-", 3)
        if "any" in parts:
            return tuple(["any"] * (4 - len(parts)) + parts)
        name = parts[1] if parts[0] == "linux" and len(parts) > 1 else word
        return self.parts.get(name)

    def read_by_office(self, arch: str, word: str) -> bool:
        """Whether `wb` takes the word as one that matches the architecture, if this was added with dpkg's words of its
        system and processor."""
        _, _, system, processor = self.parts[arch]
        return word in (arch, "any", "any-any", f"{system}-any", f"any-{processor}")


def read_architectures(folder: Path) -> Architectures:
    """Reads dpkg's tables of processors and of tuples."""
    processors = [row[0] for row in rows_of(folder / "cputable", 1)]
    parts: dict[str, tuple[str, ...]] = {}
    for tuple_text, name in rows_of(folder / "tupletable", 2):
        if tuple_text.count("-") < 3:
            raise Refused(f"{folder / 'tupletable'}: {tuple_text!r} has fewer than four parts")
        for processor in processors if "<cpu>" in tuple_text else [""]:
            parts.setdefault(
                name.replace("<cpu>", processor), tuple(tuple_text.replace("<cpu>", processor).split("-", 3))
            )
    return Architectures(parts)


def rows_of(path: Path, columns: int) -> Iterator[list[str]]:
    """The first columns of each row of a table of dpkg."""
    for number, line in enumerate(path.read_text().splitlines(), 1):
        words = line.split()
        if words and not words[0].startswith("#"):
            if len(words) < columns:
                raise Refused(f"{path}, line {number}: it has fewer than {columns} columns")
            yield words[:columns]


# ---- files that are put in place


@contextlib.contextmanager
def put_in_place(paths: list[Path], dropped: Container[Path] = ()) -> Iterator[list[IO[bytes]]]:
    """Files to write, each beside the path that it gets by a rename. All are renamed after all were written to the
    disk, but those whose paths were dropped meanwhile; after an exception none is renamed, and none is left."""
    with contextlib.ExitStack() as stack:
        files: list[IO[bytes]] = []
        for path in paths:
            try:
                made = stack.enter_context(
                    tempfile.NamedTemporaryFile("wb", prefix=f".{path.name}.", dir=path.parent, delete=False)
                )
            except OSError as why:  # of the file beside the path, whose name nobody gave
                raise OSError(why.errno, why.strerror, str(path.parent)) from None
            stack.callback(Path(made.name).unlink, missing_ok=True)
            files.append(made)
        yield files
        mask = os.umask(0)
        os.umask(mask)
        for file in files:
            file.flush()
            os.fchmod(file.fileno(), 0o666 & ~mask)
            os.fsync(file.fileno())
        for file, path in zip(files, paths):
            if path not in dropped:
                os.replace(file.name, path)


def write_lines(path: Path | None, lines: list[str]) -> None:
    """Puts a file of these lines in place, or writes them on standard output."""
    data = "".join(f"{line}\n" for line in lines).encode()
    if path is None:
        sys.stdout.buffer.write(data)
        sys.stdout.buffer.flush()
        return
    with put_in_place([path]) as [file]:
        file.write(data)


# ---- other programs


def call_program(
    words: Sequence[str], shown: bool = False, environment: Mapping[str, str] | None = None
) -> tuple[int, bytes]:
    """The status of another program and what it writes on standard output; with `shown` this goes to standard error,
    for a person."""
    output = sys.stderr if shown else subprocess.PIPE
    try:
        done = subprocess.run(words, env=environment, stdout=output, stdin=subprocess.DEVNULL, check=False)
    except OSError as why:
        raise ProgramFailed(f"{words[0]} cannot be started: {why.strerror}") from None
    return done.returncode, done.stdout or b""


# ---- command lines


def a_form(is_right: Callable[[str], bool], what: str) -> Callable[[str], str]:
    """For argparse: a word of this form."""

    def read(word: str) -> str:
        if not is_right(word):
            raise argparse.ArgumentTypeError(f"{word[:100]!r} is no {what}")
        return word

    return read


arch_word = a_form(
    is_arch_name, "name of an architecture (1 to 40 small letters, digits and '-'; not all, any or source)"
)


def parser_of(description: str, example: str, statuses: str = STATUSES) -> argparse.ArgumentParser:
    return argparse.ArgumentParser(
        description=description, epilog=f"example:\n{example}\n\n{statuses}",
        formatter_class=argparse.RawDescriptionHelpFormatter,
    )


def add_tables_option(parser: argparse.ArgumentParser) -> None:
    parser.add_argument(
        "--tables", metavar="FOLDER", type=Path, default=TABLES, help="where dpkg's tables are, else %(default)s"
    )


def say(program: str, text: str) -> None:
    """A message for a person."""
    print(f"{program}: {text}", file=sys.stderr, flush=True)


def run(program: str, work: Callable[[], None]) -> int:
    """Does the work, and gives the status after saying what went wrong."""
    try:
        work()
    except Refused as why:
        say(program, str(why))
        return REFUSED
    except OSError as why:
        say(program, f"{why.filename}: {why.strerror}" if why.filename else str(why))
        return FAILED
    except ProgramFailed as why:
        say(program, str(why))
        return why.status
    return DONE

"""Brings an office up to its archive; `--help` says how."""
import argparse
import contextlib
import fcntl
import json
import os
import re
import shutil
import signal
import sys
from collections.abc import Iterator, Sequence
from dataclasses import dataclass
from pathlib import Path
from typing import IO, Any

from wb_tools import BIN, outlive_readers
from wb_tools.archives import add_archive_options, archive_options_of, check_archive_options
from wb_tools.lists import (
    DONE,
    FAILED,
    Paragraph,
    ProgramFailed,
    Refused,
    a_form,
    add_tables_option,
    arch_word,
    call_program,
    paragraphs,
    parser_of,
    put_in_place,
    read_architectures,
    run,
    say,
    write_lines,
)
from wb_tools.office.settings import Refusal, read_settings
from wb_tools.suites import default_settings
from wb_tools.waits import send_report, waiting_after, waiting_now

PROGRAM = "merge-archive"
DESCRIPTION = """Brings an office up to its archive. It fetches the lists (by fetch-lists), looks at them, prepares them
(by prepare-lists), copies the office, and merges the lists of all architectures (by office merge, which checks the copy
after that). An office that is served with the folder LISTS of its settings goes on meanwhile; without LISTS, and with
--stop, it is stopped once for all of this, and started again if it ran before. FOLDER has the lists as they were
fetched, and FOLDER/ready the prepared ones. Once they are merged, the lists of an architecture are put into
FOLDER/merged, and how many paragraphs they have into FOLDER/merged/counts.

With --indep the builds of `all` are merged too. With --dose it asks dose-builddebcheck (by report-from-dose), before
the merge, which of the packages that it may make wait can be built; the report is given right after the merges. A
builder that asks between the two may be handed a new package that cannot be built; with --stop nobody is. With
--only-report nothing is merged: dose is asked about what waits now, by the lists in FOLDER/merged, and the serving
office is given the reports, by the key of KEY_FILE of its settings; a line for each has how many records it changed.

A list is refused, before anything is done to the office, if

- it is compressed, empty, malformed or not UTF-8, or was cut off: no empty line ends it, or its last paragraph lacks a
  field that the paragraphs of an archive's list have, and that all others have;
- a paragraph of Sources is one of a Packages list, or the other way round;
- a paragraph of Packages-ARCH is neither of ARCH nor of all, or none is of ARCH;
- it has far fewer paragraphs than the list that was merged last: fewer than --least-share of 100.

With --force each of these is said, and the lists are merged all the same. What prepare-lists or the office refuses
stays refused.

On standard output come the paragraphs of each list, with those of the last merge, and what each merge added, changed,
kept and removed."""
EXAMPLE = """\
  tools/bin/merge-archive --suite sid --arch amd64 --indep indep --dose lists
  tools/bin/merge-archive --suite sid --component main --component contrib --arch amd64 --arch riscv64 --udebs lists
  tools/bin/merge-archive --dry-run --suite sid --arch amd64 lists   all but the merge
  tools/bin/merge-archive --no-fetch --force --arch amd64 lists   the lists that lie there, after a look at them"""
STATUSES = """Status: 0 if all was merged; 1 if a list or a step was refused, and 2 if the words of the command line or
the settings of the office are; 3 if a file cannot be read or written, if another program failed, or if the office ran
before and could not be started again. Messages are on standard error. After 1, 2 and 3 FOLDER/merged has the lists of
the merges that were done, and no others."""
COUNTS = "counts"  # the file of the paragraphs of the lists that were merged last
COLUMNS = ("added", "changed", "kept", "removed")

# Fields, in small letters, by which a paragraph shows its kind, since those of the other kind never have them; and
# fields of both kinds.
SOURCE_FIELDS = {"binary", "checksums-sha256", "directory", "files", "format", "package-list"}
PACKAGE_FIELDS = {"description", "filename", "installed-size", "sha256", "size"}
COMMON_FIELDS = {"architecture", "maintainer", "package", "priority", "section", "version"}


# ---- looking at a list


@dataclass(slots=True)
class Look:
    """What is found in one pass over a list."""

    path: Path
    arch: str  # of a Packages list; empty for Sources
    count: int = 0
    malformed: str = ""  # why the pass ended before the end of the list
    swapped: tuple[int, str] | None = None  # the first paragraph of the other kind, and a field of it
    foreign: tuple[int, str] | None = None  # the first paragraph of another architecture
    foreign_count: int = 0
    own_count: int = 0
    last: frozenset[str] = frozenset()
    shared: frozenset[str] | None = None  # fields that all paragraphs before the last have

    @property
    def name(self) -> str:
        return self.path.name

    @property
    def own_fields(self) -> set[str]:
        return PACKAGE_FIELDS if self.arch else SOURCE_FIELDS

    def add(self, paragraph: Paragraph) -> None:
        if self.count:
            self.shared = self.last if self.shared is None else self.shared & self.last
        self.count += 1
        self.last = frozenset(paragraph.fields)
        other = SOURCE_FIELDS if self.arch else PACKAGE_FIELDS
        if self.swapped is None and self.own_fields.isdisjoint(self.last) and not other.isdisjoint(self.last):
            self.swapped = self.count, next(name for name in paragraph.fields if name in other)
        if self.arch:
            self.add_arch(paragraph.value("Architecture"))

    def add_arch(self, arch: str) -> None:
        self.own_count += arch == self.arch
        if arch not in (self.arch, "all"):
            self.foreign = self.foreign or (self.count, arch)
            self.foreign_count += 1

    def faults(self, before: int, share: int) -> Iterator[str]:
        """What is wrong with the list, and what to do, if the list that was merged last had so many paragraphs."""
        if self.malformed:
            yield self.malformed
        if self.swapped:
            wanted, met = ("Packages", "Sources") if self.arch else ("Sources", "Packages")
            yield (
                f"{self.path}: paragraph {self.swapped[0]} is one of a {met} list, since it has the field "
                f"{self.swapped[1]}; "
                f"were Sources and Packages swapped? Put a {wanted} list there"
            )
        elif self.foreign:
            number, arch = self.foreign
            yield (
                f"{self.path}: {self.foreign_count} of {self.count} paragraphs are neither of {self.arch} nor of all, "
                f"the first is paragraph {number} with the Architecture {arch!r}; fetch the list of {self.arch}"
            )
        elif self.arch and self.count and not self.own_count:
            yield f"{self.path}: no paragraph of it is of {self.arch}; fetch the list of {self.arch}"
        if not self.malformed:
            yield from self.faults_of_whole(before, share)

    def faults_of_whole(self, before: int, share: int) -> Iterator[str]:
        """What is wrong with its end and with its size."""
        lacks = sorted((COMMON_FIELDS | self.own_fields) & (self.shared or set()) - self.last)
        if not self.count:
            yield f"{self.path}: it has no paragraph, and a merge takes what it lacks for lost; fetch it again"
        elif lacks:
            yield (
                f"{self.path}: paragraph {self.count}, the last, lacks what all others have ({', '.join(lacks)}), so "
                "the list was cut off there; "
                "fetch it again"
            )
        if self.count and self.count * 100 < before * share:
            yield (
                f"{self.path}: it has {self.count} paragraphs, fewer than {share} of 100 of the {before} that were "
                "merged last; "
                "fetch it again, or give a smaller --least-share if the archive has lost so many"
            )


def look_at(path: Path, arch: str) -> Look:
    look = Look(path, arch)
    try:
        for paragraph in paragraphs(path):
            look.add(paragraph)
    except Refused as why:
        look.malformed = str(why)
    return look


# Lists are refused here, and not by the merge: it takes its lists as they are, so that
# one definition says what it does, and which lists nobody wants to be merged depends on the archive and on the day.
# They are looked at as they were fetched, since prepare-lists keeps each paragraph. An archive loses far fewer than 5
# of 100 paragraphs from one day to the next. What was merged stands apart from what was fetched, so no list is compared
# with one that was refused.
def judge(looks: Sequence[Look], before: dict[str, int], words: argparse.Namespace) -> None:
    """Says what is wrong with the lists, and refuses them unless they are to be merged all the same."""
    found = [fault for look in looks for fault in look.faults(before.get(look.name, 0), words.least_share)]
    for fault in found:
        say(PROGRAM, fault)
    if found and not words.force:
        raise Refused("nothing was merged; if the lists are right all the same, give --no-fetch --force")


def read_counts(path: Path) -> dict[str, int]:
    """The paragraphs of the lists that were merged last, by the names of the lists."""
    try:
        lines = path.read_text(encoding="utf-8", errors="replace").splitlines()
    except FileNotFoundError:
        return {}
    found = {}
    for number, line in enumerate(lines, 1):
        row = re.fullmatch("([!-~]+) ([0-9]{1,12})", line)
        if row is None:
            raise Refused(f"{path}, line {number}: it is no name and number; look at the lists, and remove this file")
        found[row[1]] = int(row[2])
    return found


# ---- other scripts


def script(name: str, words: Sequence[str]) -> list[str]:
    """The call of a script beside this one."""
    return [sys.executable, str(BIN / name), *words]


def failed(name: str, status: int, then: str) -> ProgramFailed:
    """That a script failed, which said itself why, with its status, if no signal ended it."""
    return ProgramFailed(
        f"{name} ended with status {status}, for the reason above; {then}", status if status > 0 else FAILED
    )


def step(name: str, words: Sequence[str]) -> None:
    status, _ = call_program(script(name, words), shown=True)
    if status != DONE:
        raise failed(name, status, "nothing was merged")


def prepare(words: argparse.Namespace) -> None:
    given = [word for arch in words.arch for word in ("--arch", arch)]
    if words.indep:
        given += ["--indep", words.indep, "--available", words.available]
        given += [word for arch in words.arch for word in ("--packages", str(words.folder / f"Packages-{arch}"))]
    sources = ["--sources", str(words.folder / "Sources"), "--tables", str(words.tables)]
    step("prepare-lists", [*sources, *given, str(words.folder / "ready")])


def lists_of(words: argparse.Namespace) -> dict[str, tuple[Path, Path]]:
    """The lists that are merged, Sources and Packages, by their architectures."""
    ready: Path = words.folder / "ready"
    found = {arch: (ready / f"Sources-{arch}", words.folder / f"Packages-{arch}") for arch in words.arch}
    if words.indep:
        found[words.indep] = ready / f"Sources-{words.indep}", ready / f"Packages-{words.indep}"
    return found


def make_report(
    words: argparse.Namespace, arch: str, sources: Path, place: Path, waiting: Sequence[tuple[str, str]]
) -> Path:
    """Has report-from-dose make the report of what waits, by the Packages lists of this place."""
    asked = words.folder / "ready" / f"waiting-{arch}"
    write_lines(asked, [" ".join(one) for one in waiting])
    native = ["--native", words.available] if arch == words.indep else []
    builds_on = place / f"Packages-{words.available if native else arch}"
    report: Path = words.folder / "ready" / f"report-{arch}"
    options = [*native, "--sources", str(sources), "--packages", str(builds_on), "--tables", str(words.tables)]
    step("report-from-dose", [arch, *options, "--to", str(report), str(asked)])
    return report


def make_reports(words: argparse.Namespace) -> None:
    """Makes the reports of what the merge may make wait."""
    architectures = read_architectures(words.tables)
    for arch, (sources, packages) in lists_of(words).items():
        make_report(words, arch, sources, words.folder, waiting_after(sources, packages, arch, architectures))


def report_now(words: argparse.Namespace) -> None:
    """Makes the reports of what waits now, by the lists that were merged last, and gives them to the serving office."""
    try:
        settings = read_settings(Path(words.settings or default_settings()))
    except Refusal as why:
        raise ProgramFailed(str(why), why.status) from None
    url, key = f"http://127.0.0.1:{settings.port}", settings.key
    place = words.folder / "merged"
    for arch in lists_of(words):
        report = make_report(words, arch, place / f"Sources-{arch}", place, waiting_now(url, arch, key))
        changed = send_report(url, arch, report.read_text(encoding="utf-8"), key)
        print(f"report-{arch} {changed}", flush=True)


def office_words(words: argparse.Namespace) -> list[str]:
    """The words for `office` that merge all lists."""
    found = ["--settings", words.settings] if words.settings else []
    found += ["--dry-run"] if words.dry_run else []
    found += ["merge", "--no-look"] + (["--most-removed", words.most_removed] if words.most_removed else [])
    found += ["--stop"] if words.stop else []
    for arch in lists_of(words) if words.dose else []:
        found += ["--report", f"{arch}={words.folder / 'ready' / f'report-{arch}'}"]
    for arch, (sources, packages) in lists_of(words).items():
        found += [str(sources), f"{arch}={packages}"]
    return found


# ---- the merge


@contextlib.contextmanager
def signals_wait() -> Iterator[None]:
    """Lets a signal that would end this script wait for the end of what is done within: `office` gets those of a
    terminal itself, and starts the service again."""
    met: list[int] = []
    numbers = [
        number
        for number in (signal.SIGINT, signal.SIGTERM, signal.SIGHUP)
        if signal.getsignal(number) != signal.SIG_IGN
    ]
    before = {number: signal.signal(number, lambda given, _: met.append(given)) for number in numbers}
    try:
        yield
    finally:
        for number, handler in before.items():
            signal.signal(number, handler)
    if met:
        raise SystemExit(128 + met[0])


def merged_parts(answered: bytes) -> dict[str, dict[str, Any]]:
    """What accepted merges answer, in the lines of what `office` answers, by their architectures."""
    found = {}
    for line in answered.decode(errors="replace").splitlines():
        try:
            parts = json.loads(line)["parts"]
            found.update({part["arch"]: part for part in parts if all(isinstance(part[name], int) for name in COLUMNS)})
        except (ValueError, KeyError, TypeError):
            continue
    return found


def write_counts(file: IO[bytes], counts: dict[str, int]) -> None:
    """Writes the counts in the place of those that are there."""
    file.seek(0)
    file.truncate()
    file.write("".join(f"{name} {count}\n" for name, count in sorted(counts.items())).encode())


def merge_all(words: argparse.Namespace, looks: Sequence[Look], before: dict[str, int]) -> None:
    """Merges the lists of all architectures in one call of `office`, shows what each merge did, and puts the lists that
    were merged, with the counts, in place; these files are written before."""
    place: Path = words.folder / "merged"
    place.mkdir(exist_ok=True)
    lists = lists_of(words)
    targets = {arch: [place / f"Sources-{arch}", place / f"Packages-{arch}"] for arch in lists}
    dropped: set[Path] = set()
    with signals_wait():
        with put_in_place([*(path for pair in targets.values() for path in pair), place / COUNTS], dropped) as files:
            for source, file in zip((path for pair in lists.values() for path in pair), files):
                with source.open("rb") as read:
                    shutil.copyfileobj(read, file)
            write_counts(files[-1], counts_of(looks, before, list(lists)))
            status, answered = call_program(script("office", office_words(words)))
            parts = merged_parts(answered)
            lost = [arch for arch in lists if arch not in parts]
            dropped.update(path for arch in lost for path in targets[arch])
            write_counts(files[-1], counts_of(looks, before, list(parts)) if parts else before)
            if len(lost) == len(lists):
                sys.stderr.write(answered.decode(errors="replace"))
                raise failed("office", status, f"no answer says that the lists of {', '.join(lost)} were merged")
        print()
        show([["part", *COLUMNS], *([arch, *(str(part[name]) for name in COLUMNS)] for arch, part in parts.items())])
        if lost:
            sys.stderr.write(answered.decode(errors="replace"))
            raise failed("office", status, f"no answer says that the lists of {', '.join(lost)} were merged")
        if status != DONE:
            raise failed("office", status, f"the lists of {', '.join(parts)} were merged")


def counts_of(looks: Sequence[Look], before: dict[str, int], archs: Sequence[str]) -> dict[str, int]:
    """The counts once the lists of these architectures are merged."""
    merged = [look for look in looks if look.arch in ("", *archs) and not look.malformed]
    return before | {look.name: look.count for look in merged}


def show(table: Sequence[Sequence[str]]) -> None:
    """Prints rows with their first column to the left, and all others, which are numbers, to the right."""
    widths = [max(map(len, column)) for column in zip(*table)]
    for first, *others in table:
        print(
            "  ".join([first.ljust(widths[0]), *(text.rjust(width) for text, width in zip(others, widths[1:]))]),
            flush=True,
        )


@contextlib.contextmanager
def alone(folder: Path) -> Iterator[None]:
    """Refuses if another call works in the folder: it could replace a list after the look at it."""
    handle = os.open(folder, os.O_RDONLY | os.O_DIRECTORY)
    try:
        try:
            fcntl.flock(handle, fcntl.LOCK_EX | fcntl.LOCK_NB)
        except BlockingIOError:
            raise Refused(f"{folder}: another call of this command works there; wait for its end") from None
        yield
    finally:
        os.close(handle)


def merge_archive(words: argparse.Namespace) -> None:
    before = read_counts(words.folder / "merged" / COUNTS)
    if words.fetches:
        say(PROGRAM, f"fetch the lists into {words.folder}")
        step("fetch-lists", [*archive_options_of(words), str(words.folder)])
    say(PROGRAM, f"look at the lists in {words.folder}")
    looks = [
        look_at(words.folder / "Sources", ""),
        *(look_at(words.folder / f"Packages-{arch}", arch) for arch in words.arch),
    ]
    show(
        [
            ["list", "paragraphs", "last time"],
            *([look.name, str(look.count), str(before.get(look.name, "-"))] for look in looks),
        ]
    )
    judge(looks, before, words)
    say(PROGRAM, f"prepare the lists in {words.folder / 'ready'}")
    prepare(words)
    if words.dose:
        say(PROGRAM, "ask which packages can be built")
        make_reports(words)
    if words.dry_run:
        step("office", office_words(words))
    else:
        merge_all(words, looks, before)


def add_merge_options(parser: argparse.ArgumentParser) -> None:
    """The options that say how it is merged."""
    number = a_form(lambda word: re.fullmatch("[0-9]{1,9}", word) is not None, "whole number")
    share = a_form(lambda word: re.fullmatch("[0-9]{1,2}|100", word) is not None, "number from 0 to 100")
    parser.add_argument("--settings", metavar="FILE", help="the settings of the office; else those that office takes")
    parser.add_argument("--dry-run", action="store_true", help="do all but the merge, whose steps are said")
    parser.add_argument("--force", action="store_true", help="merge lists in which something was found all the same")
    parser.add_argument(
        "--least-share", metavar="N", type=share, default="95",
        help="how many of 100 paragraphs have to be left, else %(default)s",
    )
    parser.add_argument(
        "--most-removed", metavar="N", type=number,
        help="merge into a copy first, and go on if no more than N are removed",
    )
    parser.add_argument("--stop", action="store_true", help="stop the office for the merge, also if LISTS is set")


def add_more_options(parser: argparse.ArgumentParser) -> None:
    """The options that say what is done beside the merge of each architecture."""
    parser.add_argument(
        "--indep", metavar="NAME", type=arch_word, help="merge the builds of `all` too, as those of this architecture"
    )
    parser.add_argument(
        "--available", metavar="ARCH", type=arch_word,
        help="the architecture on which `all` is built, else the first --arch",
    )
    parser.add_argument(
        "--dose", action="store_true",
        help="ask dose-builddebcheck which packages can be built, and give its report after the merges",
    )
    parser.add_argument(
        "--only-report", action="store_true",
        help="no merge: ask dose about what waits now, by the lists that were merged last, while the office serves",
    )
    add_tables_option(parser)


def read_words() -> argparse.Namespace:
    parser = parser_of(DESCRIPTION, EXAMPLE, STATUSES)
    parser.add_argument(
        "folder", metavar="FOLDER", type=Path, help="where the lists are; it is made if it is not there"
    )
    add_archive_options(parser)
    parser.add_argument(
        "--no-fetch", dest="fetches", action="store_false",
        help="take FOLDER/Sources and FOLDER/Packages-ARCH as they lie there",
    )
    add_merge_options(parser)
    add_more_options(parser)
    words = parser.parse_args()
    words.fetches = words.fetches and not words.only_report
    check_archive_options(parser, words, words.fetches)
    if words.available and not words.indep:
        parser.error("--available goes with --indep")
    words.available = words.available or words.arch[0]
    if words.indep in words.arch or words.available not in words.arch:
        parser.error("--indep is none of --arch, and --available is one")
    words.least_share = int(words.least_share)
    return words


def work(words: argparse.Namespace) -> None:
    if words.fetches:
        words.folder.mkdir(parents=True, exist_ok=True)
    with alone(words.folder):
        if words.only_report:
            report_now(words)
        else:
            merge_archive(words)


def main() -> int:
    outlive_readers()
    words = read_words()
    return run(PROGRAM, lambda: work(words))

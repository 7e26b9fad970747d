"""Makes a page of HTML that shows where each architecture stands; `--help` says how."""

# The office of a suite knows nothing of the others, so each is asked. Their addresses and journals are told: settings
# of offices in a checkout may stand anywhere.

import argparse
import contextlib
import datetime
import os
import sys
from collections.abc import Iterator
from pathlib import Path

from wb_tools import outlive_readers
from wb_tools.answers import (
    DONE, FAILED, REFUSED, Answer, ByState, NoRoute, Queue, Summary, UnknownArch, add_wait_option, archs_of, ask,
    read_lines, suite_url,
)
from wb_tools.index.asking import Index
from wb_tools.index.reading import read_whole
from wb_tools.journal import Cut, Entry, read_journal
from wb_tools.keys import KeyFile, Keys, add_key_option
from wb_tools.lists import Refused, arch_word, parser_of, put_in_place, say
from wb_tools.page import LISTED, Arch, page

PROGRAM = "wb-status"
DESCRIPTION = """Makes one page of HTML that shows for each architecture how many packages are in each state, as a bar
and as numbers, the head of the queue, who builds what, what waits for what, what cannot be installed, and what failed,
with its note. The page loads nothing and can be read on a phone. Its one script says how old the page is, and says it
in red once it is older than --due MINUTES.

With --url a serving office on this machine is asked, also which architectures it has, unless --arch names some. With
several, each after its suite, one page shows the offices of all these suites; an architecture that one of them does not
have is left out there. Else the answers are read from
files, or from standard input if none is named or `-` is; --queries prints the lines to which they are the answers. The
last answer to a query counts. An architecture without a `summary` is not shown.

The queries are asked one after another, and the office may go on between them. The office keeps no times; with
--journal, the file that `wb serve --journal FILE` writes, the page also shows since when each package is built, or was
reported as built or uploaded, or before when, if the journal begins later, and how many were built on each day since
the first line. A line of the journal that cannot be read is reported on standard error and left out."""
EXAMPLE = """  tools/bin/wb-status --url http://127.0.0.1:8080 --to /var/www/html/status.html
  tools/bin/wb-status --url http://127.0.0.1:8080 --arch amd64 --journal journal --to status.html
  tools/bin/wb-status --url sid=http://127.0.0.1:8080 --url experimental=http://127.0.0.1:8081 \\
      --journal sid=office.journal --journal experimental=experimental/office.journal --to status.html
  tools/bin/wb-status --arch amd64 --queries | wb --store office.db run | tools/bin/wb-status --to status.html"""
STATUSES = """Status: 0 if the page was made; 1 if an answer is a refusal or a fault, or cannot be read, and 2 if the
words of the command line are wrong; 3 if a file cannot be read or written, or the office does not answer. Messages are
on standard error. After all but 0 no page was put in place."""


# ---- where answers come from


def asked(url: str, key: KeyFile, words: argparse.Namespace) -> Iterator[Answer]:
    """What a serving office answers; the packages in a state are asked for only if there are some. Of several offices
    one may lack an architecture."""
    for arch in words.arch or known_archs(url, words.wait, key):
        try:
            summary = ask(url, "summary", [arch], words.wait, key)
        except UnknownArch:
            if len(words.url) < 2:
                raise
            continue
        yield summary
        yield ask(url, "queue", [arch], words.wait, key)
        for state in LISTED:
            if isinstance(summary, Summary) and summary.counts.get(state):
                yield ask(url, "by-state", [arch, state], words.wait, key)


def known_archs(url: str, wait: float, key: KeyFile) -> list[str]:
    """The architectures of an office, of which it has to have one."""
    try:
        names = archs_of(url, wait, key)
    except NoRoute as why:
        raise Refused(f"{why}; for this one name each architecture by --arch") from None
    if not names:
        raise Refused(f"{url}: the office has no architecture")
    return names


def read(words: argparse.Namespace) -> Iterator[Answer]:
    for name in words.answers or ["-"]:
        with contextlib.nullcontext(sys.stdin.buffer) if name == "-" else open(name, "rb") as file:
            for answer in read_lines("standard input" if name == "-" else name, file):
                if isinstance(answer, Refused):
                    raise answer
                if answer is not None:
                    yield answer


def gathered(suite: str, answers: Iterator[Answer], words: argparse.Namespace) -> list[Arch]:
    """The architectures of an office in the order in which they are named, else in that of their first answers."""
    found = {name: Arch(name, suite) for name in words.arch}
    for answer in answers:
        if isinstance(answer, (Summary, Queue, ByState)):
            found.setdefault(answer.arch, Arch(answer.arch, suite)).take(answer)
    return [arch for arch in found.values() if arch.summary and arch.name in (words.arch or found)]


def all_gathered(words: argparse.Namespace) -> list[Arch]:
    """The architectures of all offices, each with what the journals of its office say."""
    names: dict[str, list[str]] = {}
    for suite, name in words.journal:
        names.setdefault(suite, []).append(name)
    indexes = {suite: read_index(found) for suite, found in names.items()}
    offices = [(suite, asked(url, words.keys.of(suite), words)) for suite, url in words.url] or [("", read(words))]
    archs = [arch for suite, answers in offices for arch in gathered(suite, answers, words)]
    without = [name for name in words.arch if name not in {arch.name for arch in archs}]
    if without or not archs:
        raise Refused(f"there is no answer to `{' '.join(['summary', *without[:1]])}`")
    for arch in archs:
        arch.index = indexes.get(arch.suite)
    return archs


def read_index(names: list[str]) -> Index:
    """What journals say, the earliest first in whatever order they are named; what of them cannot be read is
    reported."""
    journals: list[list[Entry]] = []
    for name in names:
        entries = []
        with contextlib.nullcontext(sys.stdin.buffer) if name == "-" else open(name, "rb") as file:
            for found in read_journal("standard input" if name == "-" else name, file):
                if isinstance(found, Entry):
                    entries.append(found)
                elif not isinstance(found, Cut):
                    say(PROGRAM, str(found))
        journals.append(entries)
    ordered = sorted(filter(None, journals), key=lambda entries: entries[0].at)
    return Index(read_whole(entry for entries in ordered for entry in entries)[0])


def make(words: argparse.Namespace) -> None:
    if words.queries:
        for arch in words.arch:
            print("\n".join([f"summary {arch}", f"queue {arch}", *(f"by-state {arch} {state}" for state in LISTED)]))
        return
    data = "".join(f"{line}\n" for line in page(all_gathered(words), words)).encode()
    if words.to is None:
        sys.stdout.buffer.write(data)
        sys.stdout.buffer.flush()
        return
    with put_in_place([words.to]) as [file]:
        file.write(data)


def least(bound: int, what: str):  # type: ignore[no-untyped-def]
    def read_number(word: str) -> int:
        if not (word.isascii() and word.isdigit()) or int(word) < bound:
            raise argparse.ArgumentTypeError(f"{word[:100]!r} is no {what}")
        return int(word)

    return read_number


def parser_of_words() -> argparse.ArgumentParser:
    parser = parser_of(DESCRIPTION, EXAMPLE, STATUSES)
    parser.add_argument("answers", metavar="FILE", nargs="*", help="files of answers, if --url is not given")
    parser.add_argument(
        "--url", metavar="[SUITE=]URL", type=suite_url, action="append", default=[],
        help="ask the office that serves there, such as http://127.0.0.1:8080; of several each after its suite",
    )
    add_wait_option(parser)
    add_key_option(parser)
    parser.add_argument(
        "--arch", metavar="ARCH", type=arch_word, action="append", default=[],
        help="an architecture; may be given several times; with --url, if none is given, all that the office has",
    )
    parser.add_argument(
        "--queries", action="store_true", help="print the queries to whose answers the page is made, and make none"
    )
    parser.add_argument(
        "--title", metavar="TEXT", default="Autobuilding", help="what stands above the page, else %(default)s"
    )
    parser.add_argument(
        "--first", metavar="N", type=least(1, "number above 0"), default=10,
        help="show N packages of each queue, else %(default)s",
    )
    parser.add_argument(
        "--rows", metavar="N", type=least(1, "number above 0"), default=100,
        help="show N rows of other tables, else %(default)s",
    )
    parser.add_argument(
        "--journal", metavar="[SUITE=]FILE", action="append", default=[],
        help="the journal of the office, for days and times, or - for standard input; may be given several times, for "
        "one that was moved away and the one after it; of several offices each after its suite",
    )
    parser.add_argument(
        "--due", metavar="MINUTES", type=least(1, "number above 0"), default=15,
        help="say in red that the page is old once it is older than this, else %(default)s",
    )
    parser.add_argument(
        "--to", metavar="FILE", type=Path, help="put the page in place as FILE, else it goes to standard output"
    )
    return parser


def with_suites(words: argparse.Namespace) -> str:
    """Gives each journal the suite of its office, empty if there is but one office. Says why the words of several do
    not fit together, if so."""
    suites = [suite for suite, _ in words.url]
    if len(suites) < 2:
        words.url = [("", url) for _, url in words.url]
        words.keys = Keys({"": words.keys.of(suites[0])}) if suites else words.keys
        words.journal = [("", name.removeprefix(f"{suites[0]}=") if any(suites) else name) for name in words.journal]
        return ""
    if "" in suites or len(set(suites)) < len(suites):
        return "of several --url each has to have its own suite, as in --url sid=http://127.0.0.1:8080"
    words.journal = [tuple(name.partition("=")[::2]) for name in words.journal]
    others = [suite for suite, _ in words.journal if suite not in suites]
    return f"--journal {others[0]}: it has to begin with the suite of its office, as {suites[0]}=FILE" if others else ""


def read_words() -> argparse.Namespace:
    """The words of a call, which fit together."""
    parser = parser_of_words()
    words = parser.parse_args()
    if words.queries and not words.arch:
        parser.error("give --arch")
    if words.url and words.answers:
        parser.error("give --url or files of answers")
    if why := with_suites(words):
        parser.error(why)
    answers = [] if words.url or words.queries else words.answers or ["-"]
    if [*answers, *(name for _, name in words.journal)].count("-") > 1:
        parser.error("standard input is read only once: name a file for the answers or for the journal")
    try:
        words.now = least(0, "number of seconds")(
            os.environ.get("SOURCE_DATE_EPOCH") or f"{datetime.datetime.now().timestamp():.0f}"
        )
    except argparse.ArgumentTypeError as why:
        parser.error(f"SOURCE_DATE_EPOCH: {why}")
    return words


def main() -> int:
    outlive_readers()
    words = read_words()
    try:
        make(words)
    except Refused as why:
        say(PROGRAM, str(why))
        return REFUSED
    except OSError as why:
        say(PROGRAM, f"{why.filename}: {why.strerror}" if why.filename else str(why))
        return FAILED
    return DONE

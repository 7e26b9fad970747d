"""Answers from the journal of an office, or from its index; `--help` says how."""
import argparse
import contextlib
import datetime
import json
import os
import shutil
import sys
from collections.abc import Callable, Iterable, Iterator
from pathlib import Path
from typing import Any

from wb_tools import outlive_readers
from wb_tools.answers import DONE, FAILED, REFUSED, STATES, add_url_options, counted, printable
from wb_tools.columns import NAME, REASON, WHOLE, Column, lines_of
from wb_tools.index import tables
from wb_tools.index.asking import Index
from wb_tools.index.reading import is_behind, read_on, read_whole
from wb_tools.journal import Cut, read_journal, time_of
from wb_tools.lists import Refused, arch_word, parser_of, say
from wb_tools.sheets import (
    Row, Sheet, ages_sheets, builders_sheet, builds_sheet, days_sheet, gaps_sheet, package_sheet, states_sheet,
    suspects_sheet,
)

PROGRAM = "wb-history"
DESCRIPTION = """Answers questions from the journal that `wb run` and `wb serve` write with --journal FILE: a line for
each accepted command, with the time.

The questions: `package` is what became of a package, by each command that names it, by each merge and report whose line
says what it moved, and by the removal of its architecture; `ages` how long what builds has been building, how long ago
what is Built or Uploaded was reported, and how long what waits has waited, or what is in any state; `builds` each build
with its result and how long it took; `builders` what each builder did and how long its builds took; `suspects` what
builds for much longer than it should; `days` how many packages were built on each day; `states` how many came into each
state on each day; `gaps` where commands are missing between two lines, which a kill may have cost, or where the office
went back to an older state.

`index` makes a database of sqlite3 of the journal, JOURNAL.index if --index names no other file, or reads the journal
on from where the index ends, also after logrotate has moved it away. If there is such a file, all questions read on in
the same way and then ask it, and do not read the whole journal; who may not write it asks it as it stands.

A build takes from the hand-out to the report of its holder: built, uploaded, waits, attempted or put-back. A merge or a
report whose line does not say which packages it changed may have moved any, and so may commands whose lines are
missing: the tables mark what was there before. With --url `ages` and `suspects` ask a serving office on this machine
what is there now, and the journal since when: `before` a time, if the package may have come into its state by a line
that does not name it or is missing, or before the journal began. All days and times are in UTC. With --json each row is
an object of JSON, on a line of its own, and times that something took are in seconds. In a terminal a table that is too
wide leaves columns out, and says which.

A journal whose last line was cut off, as a kill leaves it, is read up to that line."""
EXAMPLE = """  tools/bin/wb-history journal package amd64 hello
  tools/bin/wb-history journal ages --arch amd64 --url http://127.0.0.1:8080
  tools/bin/wb-history journal suspects --times 4
  tools/bin/wb-history journal days --days 30
  tools/bin/wb-history journal index"""
STATUSES = """Status: 0 if all was shown; 1 if a line of the journal is malformed or the office refuses: the message
says which, and the others are shown; 2 if the words of the command line are wrong; 3 if a file cannot be read, or the
office does not answer. Messages are on standard error. SOURCE_DATE_EPOCH, if it is set, is the seconds that are taken
for now."""


# ---- what is shown


def span(seconds: int) -> str:
    """How long something took, in its two greatest units."""
    for unit, name, part, part_name in ((86400, "d", 3600, "h"), (3600, "h", 60, "min"), (60, "min", 1, "s")):
        if seconds >= unit:
            return f"{seconds // unit} {name} {seconds % unit // part:2} {part_name}"
    return f"{seconds} s"


def cell(row: Row, key: str, kind: str) -> str:
    name, _, inner = key.partition("/")
    value = row.get(name)
    value = value.get(inner) if inner and value else value
    if kind == "since":
        kind, value = "time", value or ("before" in row and f"before {row['before']}")
    if value is None or value is False:
        return ""
    if kind == "span":
        return span(value)
    if kind == "time":
        return str(value).replace("T", " ").removesuffix("Z")
    if kind == "mark":
        return "yes"
    return f"{value:,}" if kind == "number" and isinstance(value, int) and key != "take" else printable(str(value))


def columns_of(sheet: Sheet, rows: list[Row]) -> list[Column]:
    """The columns of these rows of a sheet."""
    columns = []
    for head, key, kind in sheet.columns:
        cut = REASON if kind == "cut" else NAME if key in ("source", "version", "builder") else WHOLE
        spare = len(sheet.spare) - sheet.spare.index(key) if key in sheet.spare else 0
        texts = [cell(row, key, kind) for row in rows]
        columns.append(Column(head, texts, kind in ("number", "span"), cut, spare))
    return columns


def show(sheets: Iterable[Sheet], words: argparse.Namespace) -> None:
    for number, sheet in enumerate(sheets):
        rows = sheet.rows if words.first is None else sheet.rows[: words.first]
        if words.json:
            sys.stdout.writelines(
                json.dumps(row, ensure_ascii=False, separators=(",", ":"), sort_keys=True) + "\n" for row in rows
            )
            continue
        print("\n" * (number > 0) + sheet.title)
        sys.stdout.writelines(f"{line}\n" for line in (lines_of(columns_of(sheet, rows), words.limit) if rows else []))
        if len(sheet.rows) > len(rows):
            print(f"and {len(sheet.rows) - len(rows):,} more")
        sys.stdout.writelines(f"{note}\n" for note in sheet.notes)
    sys.stdout.flush()


QUESTIONS: dict[str, Callable[[Index, argparse.Namespace], Iterator[Sheet]]] = {
    "package": package_sheet,
    "ages": ages_sheets,
    "builds": builds_sheet,
    "builders": builders_sheet,
    "suspects": suspects_sheet,
    "days": days_sheet,
    "states": states_sheet,
    "gaps": gaps_sheet,
}


# ---- where answers come from


def whole_journal(name: str) -> tuple[Index, list[Refused]]:
    """What a journal without an index says, and why lines of it could not be read."""
    with contextlib.nullcontext(sys.stdin.buffer) if name == "-" else open(name, "rb") as file:
        connection, faults = read_whole(read_journal("standard input" if name == "-" else name, file))
    return Index(connection), faults


def updated(journal: Path, file: Path) -> tuple[Index, list[Refused]]:
    """The index after the journal was read on, and why lines that were read now could not be."""
    with tables.refused_if_damaged(file):
        connection = tables.open_to_write(file)
        return Index(connection), list(read_on(connection, journal))


def as_it_stands(journal: Path, file: Path) -> tuple[Index, list[Refused]]:
    """The index that the caller may not write."""
    connection = tables.open_to_read(file)
    if is_behind(connection, journal):
        say(PROGRAM, f"{file} ends before the journal does, and only who may write it reads on")
    return Index(connection), []


def index_of(words: argparse.Namespace) -> tuple[Index, list[Refused]]:
    """The index that is asked, and why lines that were read for it could not be."""
    file = words.index or Path(f"{words.journal}.index")
    if words.journal == "-" or words.question != "index" and not words.index and not file.exists():
        return whole_journal(words.journal)
    is_writable = all(os.access(path, os.W_OK) for path in (file.parent, *([file] if file.exists() else [])))
    return (updated if is_writable or words.question == "index" else as_it_stands)(Path(words.journal), file)


def answer(words: argparse.Namespace) -> int:
    index, faults = index_of(words)
    for fault in faults:
        say(PROGRAM, str(fault))
    if words.question == "index":
        _, last = index.ends()
        where = f"command {last[0]:,} at {time_of(last[1])}" if last else "no command"
        print(f"The index ends with {where}, and has {counted(len(index.gaps()), 'gap')}")
    else:
        show(QUESTIONS[words.question](index, words), words)
    return DONE if all(isinstance(fault, Cut) for fault in faults) else REFUSED


# ---- words


def at_least(bound: float, what: str, kind: Callable[[str], Any] = int) -> Callable[[str], Any]:
    def read(word: str) -> Any:
        with contextlib.suppress(ValueError):
            value = kind(word)
            if bound <= value < 1e9:
                return value
        raise argparse.ArgumentTypeError(f"{word[:100]!r} is no {what}")

    return read


def add_question(questions: Any, name: str, about: str, first: bool = True) -> argparse.ArgumentParser:
    one = questions.add_parser(name, help=about, description=about)
    one.add_argument("--index", metavar="FILE", type=Path, help="the index, else JOURNAL.index if it is there")
    if name == "index":
        return one  # type: ignore[no-any-return]
    one.add_argument("--json", action="store_true", help="print each row as an object of JSON")
    one.add_argument("--wide", action="store_true", help="leave out no column, and cut no text, in a terminal too")
    if first:
        one.add_argument("--first", metavar="N", type=at_least(0, "number"), help="show the first N rows of each table")
    return one  # type: ignore[no-any-return]


def read_words() -> argparse.Namespace:
    parser = parser_of(DESCRIPTION, EXAMPLE, STATUSES)
    parser.add_argument("journal", metavar="JOURNAL", help="the file of the journal, or - for standard input")
    questions = parser.add_subparsers(dest="question", metavar="QUESTION", required=True)
    package = add_question(questions, "package", "what became of a package")
    package.add_argument("arch", metavar="ARCH", type=arch_word)
    package.add_argument("source", metavar="SOURCE")
    package.add_argument("--merges", action="store_true", help="show the merges and reports of the architecture too")
    ages = add_question(questions, "ages", "how long each package has been building, built or uploaded, or waiting")
    ages.add_argument("--state", choices=STATES, metavar="STATE", help="what is in this state, whichever it is")
    builds = add_question(questions, "builds", "each build, with its result and how long it took")
    builds.add_argument("--builder", metavar="BUILDER", help="those of this builder alone")
    builds.add_argument("--source", metavar="SOURCE", help="those of this source package alone")
    builders = add_question(questions, "builders", "what each builder did, and how long its builds took")
    suspects = add_question(
        questions, "suspects", "what builds for longer than N times the median of the package, or of its builder"
    )
    suspects.add_argument(
        "--times", metavar="N", type=at_least(1, "number of at least 1", float), default=3,
        help="how many times, else %(default)s",
    )
    suspects.add_argument(
        "--least", metavar="MINUTES", type=at_least(0, "number"), default=60,
        help="suspect nothing younger, else %(default)s",
    )
    days = add_question(questions, "days", "how many packages were built on each day")
    states = add_question(questions, "states", "how many packages came into each state on each day")
    for question in (days, states):
        question.add_argument(
            "--days", metavar="N", type=at_least(0, "number"), default=14,
            help="the last N days, 0 for all, else %(default)s",
        )
    add_question(questions, "gaps", "where commands are missing between two lines")
    add_question(questions, "index", "make an index of the journal, or read on from where it ends")
    for question in (ages, builds, builders, suspects, days, states):
        question.add_argument("--arch", metavar="ARCH", type=arch_word, help="this architecture alone")
    add_url_options(ages)
    add_url_options(suspects)
    words = parser.parse_args()
    if words.question == "index" and words.journal == "-":
        parser.error("standard input is read only once, and has no index")
    is_wide = words.question == "index" or words.wide or not sys.stdout.isatty()
    words.limit = 0 if is_wide else shutil.get_terminal_size().columns
    now = os.environ.get("SOURCE_DATE_EPOCH") or f"{datetime.datetime.now().timestamp():.0f}"
    if not (now.isascii() and now.isdigit()):
        parser.error(f"SOURCE_DATE_EPOCH: {now[:100]!r} is no number of seconds")
    words.now = int(now)
    return words


def main() -> int:
    outlive_readers()
    words = read_words()
    sys.stdout.reconfigure(errors="backslashreplace")  # type: ignore[union-attr]
    try:
        return answer(words)
    except Refused as why:
        say(PROGRAM, str(why))
        return REFUSED
    except OSError as why:
        say(PROGRAM, f"{why.filename}: {why.strerror}" if why.filename else str(why))
        return FAILED

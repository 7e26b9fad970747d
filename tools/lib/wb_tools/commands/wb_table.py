"""Shows answers to queries as tables; `--help` says how."""
import argparse
import contextlib
import dataclasses
import shutil
import sys
from collections.abc import Iterable, Iterator, Sequence

from wb_tools import outlive_readers
from wb_tools.answers import (
    DONE, FAILED, QUERIES, REFUSED, STATES, Answer, Archs, Builders, ByState, Counts, Depends, KnownArch, KnownBuilder,
    Mine, Queue, Record, Summary, add_url_options, archs_of, ask, builders_of, counted, printable, read_lines,
)
from wb_tools.columns import GAP, MESSAGE, NAME, REASON, WHOLE, Column, beside, lines_of
from wb_tools.lists import Refused, parser_of, say

PROGRAM = "wb-table"
DESCRIPTION = """Shows answers of an office as aligned tables: to `queue`, `by-state`, `item`, `mine`, `depends`,
`summary`, `office`, `archs` and `builders`. They are read from files of answers, or from standard input if none is
named or `-` is; with --url the words are a query, which a serving office on this machine is asked. `summary` and
`queue` take several architectures then, and `mine` several builders; without any, all that the office has. Summaries in
a row are one table.

For scripts --plain prints some keys of each package, architecture or builder alone, as they are in the answers, with a
tab between two, or the text of --join: with `_` they are the packages of wanna-build. Columns that say nothing in any
row are left out. In a terminal a table that is too wide leaves out what orders the queue: section, priority, whether it
was built before; if that is not enough, long texts are cut, and end in `...` then, the reason after the others.
Elsewhere, and with --wide, all is whole. What is not printed is written as in JSON. Answers to commands are passed
over."""
EXAMPLE = """  wb --store office.db by-state amd64 Failed | tools/bin/wb-table
  tools/bin/wb-table --url http://127.0.0.1:8080 summary
  tools/bin/wb-table --url http://127.0.0.1:8080 summary amd64 arm64
  tools/bin/wb-table --url http://127.0.0.1:8080 --first 20 queue amd64
  wb --store office.db by-state amd64 Dep-Wait | tools/bin/wb-table --plain source,version
  tools/bin/wb-table --url http://127.0.0.1:8080 --plain source,version --join _ by-state amd64 Failed"""
STATUSES = """Status: 0 if all was shown; 1 if an answer is a refusal or a fault, or cannot be read: the message says
which, and the others are shown; 2 if the words of the command line are wrong; 3 if a file cannot be read, or the office
does not answer. Messages are on standard error."""

# ---- what each answer shows

HEADS = {"build_priority": "BUILD PRIORITY", "earlier": "BUILT BEFORE"}
KINDS = {"source": NAME, "build": NAME, "holder": NAME, "waits": REASON, "note": REASON, "message": MESSAGE}
SPARE = {"section": 5, "priority": 4, "earlier": 3, "build_priority": 2}  # what orders the queue, and no reason
KEYS = [
    "arch", "source", "build", "state", "holder", "take", "build_priority", "earlier", "priority", "section", "waits",
    "note", "message",
]


def said(record: Record, key: str) -> str:
    """What a record says under a key; empty if nothing."""
    value = getattr(record, key)
    if value is None or value is False or (key == "build_priority" and value == 0):
        return ""
    return "yes" if value is True else printable(str(value))


def record_columns(records: Sequence[Record], without: Sequence[str]) -> list[Column]:
    columns = []
    for key in KEYS:
        if key not in without:
            texts = [said(record, key) for record in records]
            is_number = key in ("take", "build_priority")
            kind, spare = KINDS.get(key, WHOLE), SPARE.get(key, 0)
            if kind == MESSAGE and any(record.waits or record.note for record in records):
                spare = 1  # why it is rebuilt gives way to the reason why it is not
            columns.append(Column(HEADS.get(key, key.upper()), texts, is_number, kind, spare))
    return columns


def table_of(title: str, total: int, columns: list[Column], words: argparse.Namespace) -> Iterator[str]:
    """A title, and the first rows of a table if it has any."""
    yield title
    if total:
        if words.first is not None:
            columns = [dataclasses.replace(one, texts=one.texts[: words.first]) for one in columns]
        yield from lines_of(columns, words.limit)
        if words.first is not None and total > words.first:
            yield f"and {total - words.first:,} more"


def queue_lines(answer: Queue, words: argparse.Namespace) -> Iterator[str]:
    places = Column("PLACE", [str(place + 1) for place in range(len(answer.queue))], is_number=True)
    names = [
        Column("SOURCE", [printable(one.source) for one in answer.queue], kind=NAME),
        Column("BUILD", [printable(one.build) for one in answer.queue], kind=NAME),
    ]
    title = f"{printable(answer.arch)}: the queue has {counted(len(answer.queue))}"
    yield from table_of(title, len(answer.queue), [places, *names], words)


def state_lines(answer: ByState, words: argparse.Namespace) -> Iterator[str]:
    title = f"{printable(answer.arch)}: {counted(len(answer.records))} in {printable(answer.state)}"
    yield from table_of(title, len(answer.records), record_columns(answer.records, ("arch", "state")), words)


def mine_lines(answer: Mine, words: argparse.Namespace) -> Iterator[str]:
    title = f"{printable(answer.builder)} holds {counted(len(answer.records))}"
    yield from table_of(
        title, len(answer.records),
        record_columns(answer.records, ("holder", "build_priority", "earlier", "priority", "section")), words,
    )


def item_lines(record: Record, words: argparse.Namespace) -> Iterator[str]:
    yield f"{printable(record.source)} on {printable(record.arch)}"
    keys = ["state", "version", "build", *KEYS[4:]]
    found = [(HEADS.get(key, key.upper()), said(record, key)) for key in keys if said(record, key)]
    width = max(len(head) for head, _ in found)
    for head, text in found:
        yield f"{head.ljust(width)}{GAP}{text}"


def depends_lines(answer: Depends, words: argparse.Namespace) -> Iterator[str]:
    name = f"{printable(answer.source)} on {printable(answer.arch)}"
    if not answer.depends:
        yield f"{name} needs nothing that is stated" if answer.depends == "" else f"what {name} needs cannot be read"
        return
    yield f"{name} needs"
    yield from (f"{GAP}{printable(group)}" for group in answer.depends.split(", "))


def summary_lines(answers: Sequence[Summary], words: argparse.Namespace) -> Iterator[str]:
    """The counts of each architecture in a column, the states in their order, and others that this script does not know
    after them; in several tables if one would be too wide."""
    states = STATES + sorted({state for answer in answers for state in answer.counts} - set(STATES))
    columns = []
    for answer in answers:
        counts = [*(answer.counts.get(state, 0) for state in states), sum(answer.counts.values())]
        columns.append(Column(printable(answer.arch), [f"{count:,}" for count in counts], is_number=True))
    for number, part in enumerate(beside(Column("STATE", [*map(printable, states), "all"]), columns, words.limit)):
        yield from [""] * (number > 0)
        yield from lines_of(part, 0)


def counts_lines(answer: Counts) -> Iterator[str]:
    yield "the office"
    yield f"COMMANDS ACCEPTED{GAP}{answer.accepted:,}"
    yield f"LAST TAKE NUMBER {GAP}{answer.handed:,}"


def archs_lines(answer: Archs, words: argparse.Namespace) -> Iterator[str]:
    columns = [
        Column(head, [printable(getattr(one, key)) for one in answer.archs], kind=kind)
        for head, key, kind in (("ARCH", "arch", NAME), ("OS", "os", WHOLE), ("CPU", "cpu", WHOLE))
    ]
    title = f"the office has {counted(len(answer.archs), 'architecture')}"
    yield from table_of(title, len(answer.archs), columns, words)


def builders_lines(answer: Builders, words: argparse.Namespace) -> Iterator[str]:
    """A row for each builder and each architecture for which it may build."""
    columns = [
        Column(head, [printable(getattr(one, key)) for one in answer.builders], kind=NAME)
        for head, key in (("BUILDER", "builder"), ("ARCH", "arch"))
    ]
    title = f"the office has {counted(len({one.builder for one in answer.builders}), 'builder')}"
    yield from table_of(title, len(answer.builders), columns, words)


def blocks_of(answers: Iterable[Answer], words: argparse.Namespace) -> Iterator[Iterator[str]]:
    """The lines of each table; summaries in a row are one."""
    summaries: list[Summary] = []
    for answer in answers:
        if isinstance(answer, Summary):
            summaries.append(answer)
            continue
        if summaries:
            yield summary_lines(summaries, words)
            summaries = []
        if isinstance(answer, Queue):
            yield queue_lines(answer, words)
        elif isinstance(answer, ByState):
            yield state_lines(answer, words)
        elif isinstance(answer, Mine):
            yield mine_lines(answer, words)
        elif isinstance(answer, Depends):
            yield depends_lines(answer, words)
        elif isinstance(answer, Counts):
            yield counts_lines(answer)
        elif isinstance(answer, Archs):
            yield archs_lines(answer, words)
        elif isinstance(answer, Builders):
            yield builders_lines(answer, words)
        else:
            yield item_lines(answer, words)
    if summaries:
        yield summary_lines(summaries, words)


# ---- where answers come from

# The queries of which one call asks several, and who has the names if the call has none.
OF_EACH = {"queue": archs_of, "summary": archs_of, "mine": builders_of}


class Answers:
    """The answers of files, or of a serving office, and the status that they leave."""

    def __init__(self, words: argparse.Namespace) -> None:
        self.words, self.status = words, DONE

    def __iter__(self) -> Iterator[Answer]:
        for found in self.asked() if self.words.url else self.read():
            if isinstance(found, Refused):
                self.fail(str(found), REFUSED)
            elif found is not None:
                yield found

    def fail(self, why: str, status: int) -> None:
        say(PROGRAM, why)
        self.status = max(self.status, status)

    def asked(self) -> Iterator[Answer | Refused | None]:
        query, *words = self.words.words
        url, wait, key = self.words.url, self.words.wait, self.words.keys.of("")
        try:
            if query in OF_EACH and not words:
                words = OF_EACH[query](url, wait, key)
            for one in [[word] for word in words] if query in OF_EACH else [words]:
                try:
                    yield ask(url, query, one, wait, key)
                except Refused as why:
                    yield why
        except Refused as why:
            yield why
        except OSError as why:
            self.fail(f"{why.filename}: {why.strerror}", FAILED)

    def read(self) -> Iterator[Answer | Refused | None]:
        for name in self.words.words or ["-"]:
            try:
                with contextlib.nullcontext(sys.stdin.buffer) if name == "-" else open(name, "rb") as file:
                    yield from read_lines("standard input" if name == "-" else name, file)
            except OSError as why:
                self.fail(f"{name}: {why.strerror}", FAILED)


LISTS = ("queue", "records", "archs", "builders")  # what answers list


def plain_lines(answer: Answer, keys: Sequence[str], between: str) -> Iterator[str]:
    """The values of these keys of each package of an answer, with a text between two. No text can end a line, nor a
    column of tabs, and null is no text."""
    packages = (
        [answer]
        if isinstance(answer, Record)
        else next((found for name in LISTS if (found := getattr(answer, name, None)) is not None), None)
    )
    if packages is None or not all(hasattr(package, key) for package in packages for key in keys):
        raise Refused(f"there is an answer whose packages do not have {','.join(keys)}")
    for package in packages:
        values = (getattr(package, key) for key in keys)
        yield between.join(
            "" if value is None else str(value).lower() if isinstance(value, bool) else printable(str(value))
            for value in values
        )


def show_plain(words: argparse.Namespace) -> int:
    answers = Answers(words)
    for answer in answers:
        try:
            sys.stdout.writelines(f"{line}\n" for line in plain_lines(answer, words.plain, words.join))
        except Refused as why:
            answers.fail(str(why), REFUSED)
    sys.stdout.flush()
    return answers.status


def show(words: argparse.Namespace) -> int:
    answers = Answers(words)
    for number, block in enumerate(blocks_of(answers, words)):
        for at, line in enumerate(block):
            sys.stdout.write(f"\n{line}\n" if number > 0 and at == 0 else f"{line}\n")
    sys.stdout.flush()
    return answers.status


def count_word(word: str) -> int:
    if not (word.isascii() and word.isdigit()):
        raise argparse.ArgumentTypeError(f"{word[:100]!r} is no number")
    return int(word)


def keys_word(word: str) -> list[str]:
    keys = word.split(",")
    known = {key for kind in (Record, KnownArch, KnownBuilder) for key in kind.__dataclass_fields__}
    unknown = [key for key in keys if key not in known]
    if unknown:
        raise argparse.ArgumentTypeError(
            f"{unknown[0]!r} is no key of a record, which has {', '.join(Record.__dataclass_fields__)}; architectures "
            "have arch, cpu and os, and builders arch and builder"
        )
    return keys


def read_words() -> argparse.Namespace:
    parser = parser_of(DESCRIPTION, EXAMPLE, STATUSES)
    parser.add_argument(
        "words", metavar="WORD", nargs="*", help="the files of answers, or with --url the query and its words"
    )
    add_url_options(parser)
    parser.add_argument("--first", metavar="N", type=count_word, help="show the first N rows of each table")
    parser.add_argument("--wide", action="store_true", help="leave out no column, and cut no text")
    parser.add_argument(
        "--plain", metavar="KEYS", type=keys_word, help="print these keys alone, such as source,version"
    )
    parser.add_argument(
        "--join", metavar="TEXT", default="\t", help="with --plain, what stands between two keys, else a tab"
    )
    words = parser.parse_args()
    words.limit = 0 if words.wide or not sys.stdout.isatty() else shutil.get_terminal_size().columns
    if words.url:
        if not words.words or words.words[0] not in QUERIES:
            parser.error(f"with --url the first word is a query: {', '.join(QUERIES)}")
        query, given = words.words[0], len(words.words) - 1
        names = QUERIES[query][0]
        if given != len(names) and query not in OF_EACH:
            parser.error(f"{query} takes {' '.join(names) or 'no words'}")
    return words


def main() -> int:
    outlive_readers()
    words = read_words()
    sys.stdout.reconfigure(errors="backslashreplace")  # type: ignore[union-attr]
    return show_plain(words) if words.plain else show(words)

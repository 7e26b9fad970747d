"""Sends the request lines of a release team to a serving office; `--help` says how."""

# A command of its own: wanna-build names one suite and one architecture in a call, and its answers have forms that
# buildd reads. All lines are read before the first is sent, since half of a transition is harder to mend than none. A
# rebuild without a number gets one number on all architectures of its line: packages that are `Multi-Arch: same` can be
# installed beside each other in one version alone.

import argparse
import collections
import contextlib
import shutil
import sys
import urllib.parse
from collections.abc import Iterator, Sequence
from functools import cache
from pathlib import Path

from wb_tools import outlive_readers
from wb_tools.answers import DONE, FAILED, REFUSED, START, WORDS, printable, seconds_word, suite_url
from wb_tools.columns import NAME, REASON, WHOLE, Column, lines_of
from wb_tools.keys import add_key_option
from wb_tools.lists import arch_word, parser_of, say
from wb_tools.requests.commands import Order
from wb_tools.requests.lines import Archs, Malformed, Request, read_requests
from wb_tools.requests.sending import ABSENT, ACCEPTED, NO_ANSWER, NOT_SENT, REFUSED as ORDER_REFUSED, Desk, Row
from wb_tools.wanna_build.office import NoAnswer, NotAdmitted, NotKnown, Office, Refusal

PROGRAM = "wb-requests"
ANSWER = 40  # seconds: more than an office takes at most for one connection
DESCRIPTION = """Reads lines as those by which Debian's release team asks for rebuilds and give-backs, and sends what
they ask for to the office that serves at --url, or prints it as lines of `wb run` if there is no --url. A line names
source packages, architectures and perhaps a suite, with a dot between them:

  nmu foo_1-1 bar_2-3 . ANY -i386 . unstable . -m "Rebuild against libfoo2"
  nmu 3 foo_1-1 . amd64 arm64 . -m "Rebuild against libfoo2"
  gb foo_1-1 . armhf
  dw foo_1-1 . ANY . -m "libbar-dev (>= 2)"
  bp 50 foo_1-1 . ANY . -d unstable
  fail foo_1-1 . amd64 . -m "needs a newer compiler"
  nfu foo_1-1 . s390x . -m "needs x86 hardware"

- `nmu` rebuilds, with a message; `gb` gives back; `dw` lets wait for relations; `bp` sets a build priority; `fail` and
  `nfu`, not for us, set aside, with a note.
- ANY stands for each --arch but that of builds of `all`, which `all` names; ALL for each --arch; -i386 leaves one out.
  Without --arch the office is asked which architectures it has. If ANY or ALL stands for an architecture without the
  package, that is no fault.
- A version may be left out: then it is that of the record. Without a number `nmu` takes the one after the greatest that
  the package has on the architectures of the line.
- A package that a builder holds is left to it, unless -o stands in the line.
- Quotes and backslashes are as in a shell; what stands after # is a comment; blank lines say nothing.

All lines are read first: if one is malformed nothing is sent. With --simulate nothing is sent, and the table shows what
would come of each line after those before it. Without --url no record is looked at: versions and the numbers of `nmu`
have to stand in the lines, and the commands that are printed end the holds of builders."""
EXAMPLE = """  tools/bin/wb-requests --url http://127.0.0.1:8080 --simulate requests
  tools/bin/wb-requests --url http://127.0.0.1:8080 --arch amd64 --arch arm64 requests
  echo 'gb hello_1.0-1 . armhf' | tools/bin/wb-requests --url http://127.0.0.1:8080
  tools/bin/wb-requests --url sid=http://127.0.0.1:8080 --url experimental=http://127.0.0.1:8081 requests
  tools/bin/wb-requests --arch amd64 requests | tools/bin/office run"""
STATUSES = """Status: 0 if all was accepted, or would be, or was printed; 1 if something was refused; 2 if the words of
the command line are wrong, or a line is malformed, which is said with its number; 3 if a file cannot be read, or an
office does not answer: nothing after that is sent. Messages are on standard error."""


# ---- the table

OUTCOME = "CHANGE OR REASON"
HEADS = ("LINE", "REQUEST", "SUITE", "ARCH", "PACKAGE", "ANSWER", OUTCOME)
KINDS = {"PACKAGE": NAME, OUTCOME: REASON}
SPARE = {"REQUEST": 1}  # what the number of the line says too


def table_of(rows: Sequence[Row], simulates: bool, limit: int) -> Iterator[str]:
    """A row for each order, and how many of each answer there are."""
    texts: dict[str, list[str]] = {head: [] for head in HEADS}
    for row in rows:
        request, number = row.order.request, row.order.number
        word = request.word if number is None else f"{request.word} {number}"
        cells = (str(request.line), word, request.suite, row.order.arch, str(row.order.package), row.answer, row.what)
        for found, cell in zip(texts.values(), cells):
            found.append(printable(cell))
    columns = [
        Column(head, found, head == "LINE", KINDS.get(head, WHOLE), SPARE.get(head, 0)) for head, found in texts.items()
    ]
    yield from lines_of(columns, limit)
    counts = collections.Counter(row.answer for row in rows)
    order = (ACCEPTED, ORDER_REFUSED, ABSENT, NO_ANSWER, NOT_SENT)
    said = ", ".join(f"{counts[answer]:,} {answer}" for answer in order if counts[answer] or answer == ACCEPTED)
    yield f"simulated, and nothing sent: {said}" if simulates else said


def status_of(rows: Sequence[Row], desk: Desk) -> int:
    if desk.fault:
        return FAILED
    return REFUSED if any(row.answer == ORDER_REFUSED for row in rows) else DONE


def send(requests: Sequence[Request], words: argparse.Namespace) -> int:
    """Sends what lines ask for, and shows what came of it; also of what was sent before it is interrupted."""
    desk, rows = Desk(PROGRAM, words.offices, words.wait, words.simulate), list[Row]()
    try:
        for row in desk.rows(requests):
            rows.append(row)
    except KeyboardInterrupt:
        desk.fault = "interrupted: what has no row was not sent, but perhaps the first of it"
    limit = 0 if words.wide or not sys.stdout.isatty() else shutil.get_terminal_size().columns
    for line in table_of(rows, words.simulate, limit) if rows else ():
        print(line)
    sys.stdout.flush()
    if desk.fault:
        say(PROGRAM, desk.fault)
    return status_of(rows, desk)


# ---- lines of a run


def run_lines(requests: Sequence[Request]) -> Iterator[str | tuple[int, Malformed]]:
    """The lines of a run, or the number of a line that cannot be one and why."""
    suites = {request.suite for request in requests if request.suite}
    for request in requests:
        fault = ""
        if len(suites) > 1 and request.suite:
            fault = f"{request.suite}: without --url all lines have to be for one suite"
        elif any(not package.version for package in request.packages):
            fault = "without --url each package needs its version, as in hello_1.0-1"
        elif request.word == "nmu" and request.number is None:
            fault = "without --url nmu needs its number, as in nmu 1 hello_1.0-1"
        if fault:
            yield request.line, Malformed(fault)
            continue
        for package in request.packages:
            yield from (Order(request, package, arch, request.number).line() for arch in request.archs)


# ---- words


def office_word(word: str) -> tuple[str, Office]:
    """For argparse: URL or SUITE=URL, with the office that serves there."""
    suite, url = suite_url(word)
    return suite, Office(urllib.parse.urlsplit(url).port or 80, ANSWER)


def read_words() -> argparse.Namespace:
    parser = parser_of(DESCRIPTION, EXAMPLE, STATUSES)
    parser.add_argument("file", metavar="FILE", nargs="?", default="-", help="the lines, else standard input")
    parser.add_argument(
        "--url", metavar="[SUITE=]URL", type=office_word, action="append", default=[],
        help="send them to the office that serves there, such as http://127.0.0.1:8080; with several, or if lines "
        "name suites, each after its suite",
    )
    parser.add_argument(
        "--arch", metavar="ARCH", type=arch_word, action="append", default=[],
        help="an architecture for which ANY and ALL stand, else with --url each of the office; several may be given",
    )
    parser.add_argument(
        "--all", metavar="ARCH", type=arch_word, default="indep",
        help="the architecture of builds of `all`, else %(default)s",
    )
    parser.add_argument("--simulate", action="store_true", help="send nothing, and show what would come of it")
    parser.add_argument("--wide", action="store_true", help="cut no text of the table")
    parser.add_argument(
        "--wait", metavar="SECONDS", type=seconds_word, default=START,
        help="how long to ask an office again that does not answer, as while it starts, else %(default)s",
    )
    add_key_option(parser)
    words = parser.parse_args()
    words.offices = dict(words.url)
    for suite, office in words.url:
        office.key = words.keys.of(suite)
    if len(words.offices) < len(words.url) or ("" in words.offices and len(words.url) > 1):
        parser.error("of several --url each has to have its suite, as in --url sid=http://127.0.0.1:8080")
    if len(words.url) == 1:
        words.offices[""] = words.url[0][1]
    if words.simulate and not words.url:
        parser.error("--simulate looks at the records, which --url has")
    return words


def with_office(found: Request | tuple[int, Malformed], words: argparse.Namespace) -> Request | tuple[int, Malformed]:
    """A request, if there is an office for it: that of its suite, or the only one if it names none."""
    if isinstance(found, tuple) or not words.offices or found.suite in words.offices:
        return found
    return found.line, without_office(found.suite)


def without_office(suite: str) -> Malformed:
    """What is wrong with a line whose suite has no office."""
    if suite:
        return Malformed(f"no --url names the office of {suite}, as --url {suite}=URL does")
    return Malformed("it names no suite, and there are several --url")


def archs_of(words: argparse.Namespace) -> Archs:
    """The architectures for which ANY and ALL stand; an office is asked for its own once, if a line needs them."""
    desk = Desk(PROGRAM, words.offices, words.wait)

    @cache
    def known(suite: str) -> tuple[str, ...] | NotKnown:
        def once() -> tuple[str, ...] | NotKnown:
            try:
                said = desk.offices[suite].archs()
            except NotKnown as why:
                return why
            if isinstance(said, Refusal):
                raise NotAdmitted(str(said))
            return tuple(one["arch"] for one in said)

        found: tuple[str, ...] | NotKnown = desk.in_time(once)
        return found

    def ask(suite: str) -> tuple[str, ...]:
        if not words.offices:
            return ()
        if suite not in words.offices:
            raise without_office(suite)
        found = known(suite)
        if isinstance(found, NotKnown):
            raise Malformed(f"name each architecture by --arch: {found}")
        return found

    return Archs(tuple(words.arch), words.all, ask)


def main() -> int:
    outlive_readers()
    words = read_words()
    sys.stdout.reconfigure(errors="backslashreplace")  # type: ignore[union-attr]
    name = "standard input" if words.file == "-" else words.file
    try:
        with contextlib.nullcontext(sys.stdin.buffer) if words.file == "-" else Path(words.file).open("rb") as file:
            found = [with_office(one, words) for one in read_requests(file, archs_of(words))]
    except OSError as why:
        say(PROGRAM, f"{name}: {why.strerror}")
        return FAILED
    except NoAnswer as why:
        say(PROGRAM, f"{why}; nothing was sent")
        return FAILED
    requests = [one for one in found if isinstance(one, Request)]
    faults = [one for one in found if isinstance(one, tuple)]
    lines = [] if words.offices else list(run_lines(requests))
    faults += [one for one in lines if isinstance(one, tuple)]
    for number, fault in sorted(faults, key=lambda fault: fault[0]):
        say(PROGRAM, f"{name}, line {number}: {fault}")
    if faults:
        say(PROGRAM, "nothing was sent" if words.offices else "nothing was printed")
        return WORDS
    if words.offices:
        return send(requests, words)
    sys.stdout.writelines(f"{line}\n" for line in lines)
    sys.stdout.flush()
    return DONE

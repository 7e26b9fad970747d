"""How a program that was refused memory may end, for tools/tests/test_refused_memory.py: for each kind of trial what is
seen of its end, and a judge, which gives the word for an end that is right, and fails at any other. A judge knows
nothing but what it is given; refused_memory_planted.py has wrong ends for each.
"""
import collections
import json
import signal
from dataclasses import dataclass

from harness import Failure, expect
from refused_memory_cases import CLOSED, FILE_FAULT, IN_DOUBT, LINE_FAULT, MEMORY, MEMORY_FAULT, MINE_OF_TAR
from refused_memory_cases import accepted, answered, changes

# How a trial ended, in a word.
AS_AMPLE, OUT_OF_MEMORY, CLOSED_BY_IT = "needless", "answered Memory", "answered Memory and closed"
NO_ANSWER, NOT_OPENED, NOT_CLOSED = "accepted without a reply", "not opened", "not closed"
WITHOUT_WORDS = "without room for the words"
LET_GO, CUT_OFF = "let go before its request was read", "answered by a front"
# What standard error says.
NO_REPLY = "out of memory for the reply to an accepted command"
NOT_ANSWERED = "a command was accepted, and not answered for want of memory"
NOT_READ = "a request was not read to its end, and nothing was done for it"
NOT_WRITTEN = "was not written to its end"
LOST, AGAIN = "cannot be written, and commands go on without it", "is written again, and lacks 1 entries"
NO_LINES, NO_ROUTES = "out of memory for the room that holds a line", "nothing can be served"
LEFT_OPEN = "was not closed: out of memory"


class Tally:
    """How the refusals of a case ended."""

    def __init__(self, asked=0):
        self.asked = asked
        self.ends = collections.Counter()

    def __str__(self):
        counts = ", ".join(f"{count} {end}" for end, count in sorted(self.ends.items()))
        return f"{sum(self.ends.values())} of {self.asked} requests refused" + f": {counts}" * bool(counts)

    def expect_ways(self, *wanted):
        """Each of these ends comes."""
        for end in wanted:
            expect(self.ends[end], f"no refused request ends so: {end}; {self}")


# ---- lines


@dataclass(frozen=True)
class LineEnd:
    """What came of a line of which a request was refused: its answer, that to a query after it, that to the same line
    then, which is not asked again where it is to be refused again, the rows, the status of a run that ended early, and
    what it said on standard error."""

    answer: str
    asked: str
    again: str | None
    rows: list
    status: int = 0
    said: str = ""


def line_end(case, rows, end):
    """How the line ended; `rows` are those before and after."""
    stood = (end.asked, end.again, end.rows) == (case.asked[1], case.second, rows[1])
    if end.answer == case.first and stood and end.status == 0:
        return AS_AMPLE
    is_as_before = end.asked == case.asked[0] and end.rows == rows[0]
    if end.answer == MEMORY and is_as_before and (end.again == case.first or end.again is None and end.status == 0):
        if end.status in (0, 3):
            return CLOSED_BY_IT if end.status else OUT_OF_MEMORY
    if end.answer == "" and end.status == 3 and case.is_command and stood and NO_REPLY in end.said:
        return NO_ANSWER
    raise Failure(f"it ends so: {end}")


def journal_end(case, word, end, entries):
    """Fails unless these are the answers in the journal of a line that ended with this word: one of a command that
    stands, also of that which was asked again in the same run, unless standard error says that the first is lost; and
    none of another."""
    stood = word in (AS_AMPLE, NO_ANSWER) and case.is_command
    wanted = [json.loads(case.first)] * stood
    if end.again is not None and end.status == 0 and case.is_command and '"accepted"' in end.again:
        wanted.append(json.loads(end.again))
    is_lost = LOST in end.said
    expect(
        entries == wanted or is_lost and stood and entries == wanted[1:],
        f"the journal has {entries} in place of {wanted}, and {end.said!r} is said",
    )
    if is_lost and len(wanted) > 1:
        expect(AGAIN in end.said, f"it is not said that an entry lacks: {end.said!r}")


def journal_changes(case, lines, is_refused):
    """Fails unless each line of a merge or a report says what it changed, which is nothing if it was asked again, and
    no other line does. Only the first may say nothing of it, if memory was refused."""
    for line in lines:
        command, is_first = line["command"], line["accepted"] == json.loads(case.first)["accepted"]
        is_told = command["command"] in ("merge", "report")
        wanted = changes(*case.rows) if is_told and is_first else {}
        for part in command.get("parts", [command]):
            met = part.get("changes")
            is_right = met == wanted.get(part["arch"], []) if is_told else met is None
            expect(is_right or met is None and is_first and is_refused, f"{met} in place of {wanted} in {line}")


@dataclass(frozen=True)
class MemoryEnd:
    """What came of a line over tables in memory: its answer, that to a query after it and that to the same line then,
    each empty if the run had ended, the status of the run, and what it said on standard error."""

    answer: str
    asked: str
    again: str
    status: int
    said: str = ""


def memory_end(case, end):
    """How the line ended. No rows can be seen."""
    told = (end.asked, end.again)
    if end.answer == MEMORY and told == (case.asked[0], case.first) and end.status in (0, 1):
        return OUT_OF_MEMORY
    if end.answer == case.first and told == (case.asked[1], case.second) and end.status in (0, 1):
        return AS_AMPLE
    if end.answer == "" and told == ("", "") and end.status == 3 and case.is_command and NO_REPLY in end.said:
        return NO_ANSWER
    if end.answer in (MEMORY, IN_DOUBT) and end.asked in ("", CLOSED) and end.again in ("", CLOSED) and end.status == 3:
        return CLOSED_BY_IT if end.answer == MEMORY else "answered Store and ended"
    raise Failure(f"it ends so: {end}")


# ---- requests over HTTP


@dataclass(frozen=True)
class RequestEnd:
    """What came of a request: all bytes of its answer, whether the program goes on, what is answered to the same
    request then, which is not sent again where it is to be refused again, by this program or else by one that is
    started over the same files, the rows after the first, and what was said on standard error until then."""

    answer: bytes
    goes_on: bool
    again: bytes | None
    rows: list
    said: str = ""


def request_end(case, rows, end):
    """How the request ended; `rows` are those before and after."""
    first, second = answered(*case.first), answered(*case.second)
    is_left = end.again is None and end.goes_on  # whether the same request is to be refused again
    stood = end.rows == rows[1] and (end.again == second or is_left and not case.is_command)
    if end.answer == first and stood and end.goes_on:
        return AS_AMPLE
    if end.answer == answered(503, MEMORY) and end.rows == rows[0] and (end.again == first or is_left):
        return OUT_OF_MEMORY if end.goes_on else CLOSED_BY_IT
    if end.answer == b"" and stood and case.is_command and NOT_ANSWERED in end.said:
        return NO_ANSWER
    if end.answer == b"" and end.rows == rows[0] and (end.again == first or is_left) and NOT_READ in end.said:
        expect(end.goes_on, f"it ends so: {end}")
        return LET_GO
    if end.answer != first and first.startswith(end.answer) and stood and end.goes_on and NOT_WRITTEN in end.said:
        return CUT_OFF
    raise Failure(f"it ends so: {end}")


# ---- single commands, starts and ends


@dataclass(frozen=True)
class WordsEnd:
    """What came of a single command: its output and status, what it said on standard error, the rows, and what a query
    and the same line are answered in a run after it."""

    output: str
    status: int
    said: str
    rows: list
    again: list


def status_of(answer):
    """The status of a line that is answered so."""
    if answer in (LINE_FAULT, FILE_FAULT):
        return 2 if answer == LINE_FAULT else 3
    return 1 if '"refused"' in answer and '"parts"' not in answer else 0


def words_end(case, rows, end):
    """How the single command ended; `rows` are those before and after."""
    stood = (end.rows, end.again) == (rows[1], [case.asked[1], case.second])
    if end.output == f"{case.first}\n" and end.status == status_of(case.first) and stood:
        return AS_AMPLE
    if (end.rows, end.again) == (rows[0], [case.asked[0], case.first]):
        for answer, statuses, word in [
            (MEMORY, (1, 3), OUT_OF_MEMORY), (MEMORY_FAULT, (3,), NOT_OPENED), (LINE_FAULT, (2,), WITHOUT_WORDS),
        ]:
            if end.output == f"{answer}\n" and end.status in statuses:
                return word
    if end.output == "" and end.status == 3 and case.is_command and stood and NO_REPLY in end.said:
        return NO_ANSWER
    raise Failure(f"it ends so: {end}")


@dataclass(frozen=True)
class StartEnd:
    """What came of a start: whether the program came to wait for a line or a connection, its output and status, what it
    said on standard error, the rows, and what the line `add-arch` is answered in the next run."""

    goes_on: bool
    output: str
    status: int
    said: str
    rows: list
    next: list


def start_end(before, after, end):
    """How the start ended, over a file with the rows before it; `after` are those of the file that is opened."""
    is_next = end.next == [accepted(after[0][4] + 1, "add-arch")]
    if end.goes_on and end.output == "" and end.status in (0, -signal.SIGTERM) and end.rows == after and is_next:
        return AS_AMPLE
    if not end.goes_on and end.rows in (before, after) and is_next:
        for output, status, why, word in [
            (f"{MEMORY_FAULT}\n", 3, "", NOT_OPENED), (f"{LINE_FAULT}\n", 2, "", WITHOUT_WORDS),
            ("", 3, NO_LINES, "without room for lines"), ("", 3, NO_ROUTES, "without room for routes"),
        ]:
            if (end.output, end.status) == (output, status) and why in end.said:
                return word
    raise Failure(f"it ends so: {end}")


@dataclass(frozen=True)
class CloseEnd:
    """What came of the end of a run: its output and status, what it said on standard error, the rows, and what the
    query `mine b1` is answered in the next run."""

    output: str
    status: int
    said: str
    rows: list
    next: list


def close_end(rows, end):
    """How the run ended after commands that leave these rows."""
    if (end.output, end.status, end.rows, end.next) != ("", 0, rows, [MINE_OF_TAR]):
        raise Failure(f"it ends so: {end}")
    return NOT_CLOSED if LEFT_OPEN in end.said else AS_AMPLE


# ---- sessions and lives


def judge_trial(case, asked, found):
    """How each refusal of a trial ended, by what the program shows: each way to say that memory ran out comes."""
    tally, shown = Tally(asked), [lines for _, lines in found]
    for number, lines in found:
        ways = [case.ample, *case.refused, *case.closed]
        expect(lines in ways, f"with request {number} refused it shows {lines}")
        tally.ends[AS_AMPLE if lines == case.ample else OUT_OF_MEMORY if lines in case.refused else NOT_CLOSED] += 1
    for at, way in enumerate(case.refused, 1):
        expect(way in shown, f"way {at} of {len(case.refused)} to say that memory ran out never comes: {way[:3]}")
    return tally

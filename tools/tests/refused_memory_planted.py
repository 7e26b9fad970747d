"""Wrong ends of a program that was refused memory, which the judges of refused_memory_judges.py have to find, and right
ones, in which they find no fault. Each wrong end differs from a right one in as little as it can; all are stated by
hand.
"""
import functools
import json
from collections.abc import Callable
from dataclasses import dataclass, replace

import refused_memory_judges as judges
import refused_trial_cases as trial_cases
from harness import Failure, expect
from refused_memory_cases import AFTER_MERGE, AGAIN, BEGUN, CLOSED, COMMANDS, EMPTY, HANDED, IN_DOUBT, LINE_FAULT
from refused_memory_cases import LINES, MEMORY, MEMORY_FAULT, MINE, MINE_OF_TAR, NEXT_HELLO, NEXT_TAR, NOT_HELD
from refused_memory_cases import OPENINGS, RECORDS, REQUESTS, TAKEN, TAR, UNKNOWN_SOURCE
from refused_memory_cases import accepted, answered, as_json, job, rows, shown
from refused_memory_judges import AS_AMPLE, LOST, NO_ANSWER, NO_LINES, NO_REPLY, NO_ROUTES, NOT_ANSWERED, NOT_READ
from refused_memory_judges import NOT_WRITTEN, OUT_OF_MEMORY, CloseEnd, LineEnd, MemoryEnd, RequestEnd, StartEnd
from refused_memory_judges import WordsEnd
from refused_trial_cases import DAY, DAY_DONE, FAULT, GONE, LIVES, as_line, day, lives


@dataclass(frozen=True)
class Planted:
    """What a judge, which is a function of an end, lets through, and what it has to find."""

    judge: Callable
    right: list
    wrong: list


# ---- lines: what is answered, what the query and the line are answered next, the rows, and the status

TAR_HELD = shown(*TAR, **TAKEN)
MERGE = COMMANDS["merge"]
WRONG_LINES = {
    "next": [
        # another refusal
        (IN_DOUBT, MINE, NEXT_TAR, BEGUN, 0),
        (NOT_HELD, MINE, NEXT_TAR, BEGUN, 0),
        # the command stands all the same
        (MEMORY, MINE_OF_TAR, NEXT_HELLO, HANDED, 0),
        (MEMORY, MINE, NEXT_TAR, HANDED, 0),
        (MEMORY, MINE, NEXT_HELLO, BEGUN, 0),
        # a count is lost
        (MEMORY, MINE, job(9, 2, "amd64", "tar", "1.30"), BEGUN, 0),
        (MEMORY, MINE, NEXT_TAR, rows(0, 8, *RECORDS), 0),
        (MEMORY, MINE, NEXT_TAR, rows(1, 7, *RECORDS), 0),
        (MEMORY, MINE, NEXT_TAR, BEGUN[:-1], 0),
        # memory is still out
        (MEMORY, MINE, MEMORY, BEGUN, 0),
        (MEMORY, MEMORY, NEXT_TAR, BEGUN, 0),
        # the command does not stand
        (NEXT_TAR, MINE, NEXT_TAR, BEGUN, 0),
        (NEXT_TAR, MINE_OF_TAR, MEMORY, HANDED, 0),
        (NEXT_TAR, MINE_OF_TAR, NEXT_HELLO, BEGUN, 0),
        # the run ended, and what was asked for does not stand, or nothing was said of it
        ("", MINE, NEXT_TAR, BEGUN, 3),
        ("", MINE_OF_TAR, NEXT_HELLO, HANDED, 0),
        ("", MINE_OF_TAR, NEXT_HELLO, HANDED, 1),
        (CLOSED, MINE, NEXT_TAR, BEGUN, 3),
        # the run ended, and nobody knows what the line is answered next
        (MEMORY, MINE, None, BEGUN, 3),
    ],
    "not-held": [
        (IN_DOUBT, TAR_HELD, NOT_HELD, HANDED, 0),
        (MEMORY, TAR_HELD, MEMORY, HANDED, 0),
        (MEMORY, shown(*TAR), NOT_HELD, HANDED, 0),
        ("", TAR_HELD, NOT_HELD, HANDED, 3),
    ],
    "merge": [
        (MEMORY, MERGE.asked[0], MERGE.first, AFTER_MERGE, 0),
        (MEMORY, MERGE.asked[0], MERGE.first, [*AFTER_MERGE[:6], *BEGUN[6:]], 0),
        (MEMORY, MERGE.asked[0], MERGE.first, [*BEGUN, ("scratch_source", 1)], 0),
    ],
    "item": [
        (IN_DOUBT, TAR_HELD, TAR_HELD, HANDED, 0),
        (UNKNOWN_SOURCE, TAR_HELD, TAR_HELD, HANDED, 0),
        (MEMORY, MEMORY, MEMORY, HANDED, 0),
    ],
}


def of_line(name):
    """The ends of a line."""
    case = LINES[name]
    before, after = case.rows or (HANDED, HANDED)
    full = LineEnd(MEMORY, case.asked[0], case.first, before)
    ample = LineEnd(case.first, case.asked[1], case.second, after)
    silent = replace(ample, answer="", status=3, said=NO_REPLY)
    right = [ample, full, replace(full, again=None), replace(full, status=3)] + [silent] * case.is_command
    wrong = [LineEnd(*end, NO_REPLY if end[0] == "" else "") for end in WRONG_LINES[name]]
    wrong += [replace(silent, said=""), replace(ample, status=3), replace(full, status=1)]
    return Planted(functools.partial(judges.line_end, case, (before, after)), right, wrong)


def of_journal():
    """The ends of `next` with the answers in its journal: a word, what came of the line, and the entries."""
    tar, hello = json.loads(NEXT_TAR), json.loads(NEXT_HELLO)
    ample = LineEnd(NEXT_TAR, MINE_OF_TAR, NEXT_HELLO, HANDED)
    lost = replace(ample, said=f"journal {LOST}, {judges.AGAIN}")
    silent = replace(ample, answer="", status=3, said=NO_REPLY)
    full = LineEnd(MEMORY, MINE, None, BEGUN)
    right = [
        (AS_AMPLE, ample, [tar, hello]), (AS_AMPLE, lost, [hello]), (NO_ANSWER, silent, [tar]),
        (NO_ANSWER, replace(silent, said=f"{NO_REPLY}, {LOST}"), []), (OUT_OF_MEMORY, full, []),
        (OUT_OF_MEMORY, replace(full, again=NEXT_TAR), [tar]),
    ]
    wrong = [
        # an entry is lost, and nothing is said of it, or not all
        (AS_AMPLE, ample, [hello]), (AS_AMPLE, ample, [tar]), (AS_AMPLE, ample, []), (NO_ANSWER, silent, []),
        (AS_AMPLE, lost, []), (AS_AMPLE, replace(lost, said=LOST), [hello]),
        # one is there twice, in another place, or of a command that does not stand
        (AS_AMPLE, ample, [tar, tar, hello]), (AS_AMPLE, ample, [hello, tar]), (NO_ANSWER, silent, [tar, tar]),
        (OUT_OF_MEMORY, full, [tar]), (OUT_OF_MEMORY, replace(full, again=NEXT_TAR), [tar, tar]),
        (OUT_OF_MEMORY, full, [json.loads(MEMORY)]),
    ]
    return Planted(lambda end: judges.journal_end(LINES["next"], *end), right, wrong)


def of_refused_journal():
    """The same of a line that is refused."""
    end = LineEnd(NOT_HELD, TAR_HELD, NOT_HELD, HANDED)
    wrong = [(AS_AMPLE, end, [json.loads(NOT_HELD)])]
    return Planted(lambda end: judges.journal_end(LINES["not-held"], *end), [(AS_AMPLE, end, [])], wrong)


def of_changes():
    """What the journal says of a merge and of the same merge asked again, and whether memory was refused."""
    hello, new = ["hello", "Needs-Build", "Needs-Build", "1.1"], ["new", None, "Needs-Build", "2.0"]
    amd64 = [hello, new, ["tar", "Needs-Build", "Installed", "1.30"]]
    arm64 = [hello, new, ["tar", None, "Needs-Build", "1.30"]]

    def line(count, **told):
        parts = [{"arch": arch} | ({"changes": told[arch]} if arch in told else {}) for arch in ("amd64", "arm64")]
        return {"accepted": count, "command": {"command": "merge", "parts": parts}}

    told, again, silent = line(8, amd64=amd64, arm64=arm64), line(9, amd64=[], arm64=[]), line(8)
    right = [([told, again], False), ([told, again], True), ([silent, again], True), ([again], True), ([], True)]
    wrong = [
        # nothing is said, and memory was not refused, or not to this merge
        ([silent, again], False), ([told, line(9)], True), ([line(8, amd64=amd64), again], False),
        # a record lacks, is there that was kept, or is that of another architecture
        ([line(8, amd64=amd64[:2], arm64=arm64), again], True), ([told, line(9, amd64=amd64, arm64=[])], False),
        ([line(8, amd64=arm64, arm64=amd64), again], True), ([line(8, amd64=amd64[::-1], arm64=arm64)], True),
        # a state or the version is another
        ([line(8, amd64=[*amd64[:2], ["tar", "Installed", "Needs-Build", "1.30"]], arm64=arm64)], True),
        ([line(8, amd64=[["hello", "Needs-Build", "Needs-Build", "1.0"], *amd64[1:]], arm64=arm64)], True),
        # another command has changes
        ([{"accepted": 8, "command": {"arch": "amd64", "changes": [], "command": "next"}}], True),
    ]
    return Planted(lambda end: judges.journal_changes(LINES["merge"], *end), right, wrong)


def of_memory():
    """The ends of `next` over tables in memory."""
    ample, full = MemoryEnd(NEXT_TAR, MINE_OF_TAR, NEXT_HELLO, 0), MemoryEnd(MEMORY, MINE, NEXT_TAR, 1)
    silent = MemoryEnd("", "", "", 3, NO_REPLY)
    right = [ample, full, silent, MemoryEnd(MEMORY, "", "", 3), MemoryEnd(IN_DOUBT, CLOSED, CLOSED, 3)]
    wrong = [
        replace(full, answer=IN_DOUBT), replace(full, answer=NOT_HELD), replace(full, asked=MINE_OF_TAR),
        replace(full, again=NEXT_HELLO), replace(full, again=MEMORY), replace(full, asked="", again=""),
        replace(ample, asked=MINE), replace(ample, again=NEXT_TAR), replace(ample, asked="", again="", status=3),
        replace(silent, said=""), replace(silent, status=0), replace(silent, asked=MINE, again=NEXT_TAR),
        MemoryEnd(MEMORY, "", "", 0), MemoryEnd(IN_DOUBT, CLOSED, NEXT_TAR, 3), MemoryEnd(MEMORY, MINE, CLOSED, 3),
        MemoryEnd(CLOSED, CLOSED, CLOSED, 3),
    ]
    return Planted(functools.partial(judges.memory_end, LINES["next"]), right, wrong)


# ---- requests over HTTP

POST_TAR, POST_HELLO, POST_AGAIN = (answered(200, body) for body in (NEXT_TAR, NEXT_HELLO, AGAIN))
NO_MEMORY, NO_STORE = answered(503, MEMORY), answered(503, IN_DOUBT)
BROKEN = NO_MEMORY.replace(b"503 Service Unavailable", b"500 Internal Server Error")


def of_request(name, wrong_of):
    """The ends of a request; those that are wrong are made of four that are right, of which the last is that without an
    answer."""
    case = REQUESTS[name]
    first, second = answered(*case.first), answered(*case.second)
    full, ample = RequestEnd(NO_MEMORY, True, first, case.rows[0]), RequestEnd(first, True, second, case.rows[1])
    ended, silent = replace(full, goes_on=False), replace(ample, answer=b"", said=NOT_ANSWERED)
    right = [ample, full, replace(full, again=None), ended]
    right += [silent, replace(silent, goes_on=False)] if case.is_command else [replace(ample, again=None)]
    unread, cut = replace(full, answer=b"", said=NOT_READ), replace(ample, answer=first[:9], said=NOT_WRITTEN)
    right += [unread, replace(unread, again=None), cut, replace(cut, answer=b"")]
    wrong = wrong_of(ample, full, ended, silent)
    # nothing is said of it, it is not the front of the answer, memory is still out, or the program has ended
    wrong += [replace(unread, said=""), replace(cut, said=""), replace(cut, answer=NO_MEMORY[:20])]
    wrong += [replace(unread, again=NO_MEMORY), replace(unread, goes_on=False), replace(cut, goes_on=False)]
    if case.rows[0] != case.rows[1]:
        # what was not read was carried out, or what was is lost
        wrong += [replace(unread, rows=case.rows[1]), replace(cut, rows=case.rows[0])]
    return Planted(functools.partial(judges.request_end, case, case.rows), right, wrong)


def wrong_post_next(ample, full, ended, silent):
    return [
        # another answer
        replace(full, answer=NO_STORE), replace(ended, answer=NO_STORE), replace(full, answer=BROKEN),
        replace(ample, answer=POST_TAR[:-1]), replace(ample, answer=POST_TAR * 2),
        # the command stands all the same
        replace(full, again=POST_HELLO), replace(ended, again=POST_HELLO), replace(full, rows=HANDED),
        # memory is still out
        replace(full, again=NO_MEMORY), replace(ended, again=NO_MEMORY), replace(ample, again=NO_MEMORY),
        # it does not stand
        replace(silent, again=POST_TAR), replace(silent, rows=BEGUN), replace(ample, again=POST_TAR),
        replace(ample, rows=BEGUN),
        # nothing is answered to what does not stand, or nothing is said of it
        RequestEnd(b"", True, POST_TAR, BEGUN), replace(silent, said=""),
        # the program ended, and nothing was refused; nobody knows what comes next
        replace(ample, goes_on=False), replace(ample, again=None), replace(silent, again=None),
        replace(ended, again=None),
    ]


def wrong_post_again(ample, full, _, silent):
    return [
        silent, replace(silent, again=None), replace(full, again=answered(200, job(9, 2, "amd64", "tar", "1.30"))),
        replace(full, again=POST_HELLO), replace(full, rows=BEGUN), replace(ample, rows=BEGUN),
    ]


def wrong_get_mine(ample, full, ended, silent):
    return [
        silent, replace(full, answer=NO_STORE), replace(full, again=NO_MEMORY), replace(ended, again=NO_MEMORY),
        replace(ample, answer=answered(200, MINE)), replace(ample, goes_on=False, again=None),
    ]


# ---- single commands, starts and ends


def of_asking_words():
    """The ends of a query as a single command."""
    case = LINES["item"]
    ample = WordsEnd(f"{TAR_HELD}\n", 0, "", HANDED, [TAR_HELD, TAR_HELD])
    full = replace(ample, output=f"{MEMORY}\n", status=1)
    wrong = [
        replace(ample, output="", status=3, said=NO_REPLY), replace(full, rows=BEGUN), replace(ample, rows=BEGUN),
        replace(full, output=f"{UNKNOWN_SOURCE}\n"), replace(ample, again=[TAR_HELD, MEMORY]),
    ]
    return Planted(functools.partial(judges.words_end, case, (HANDED, HANDED)), [ample, full], wrong)


def of_words():
    """The ends of `next` as a single command."""
    case = LINES["next"]
    ample = WordsEnd(f"{NEXT_TAR}\n", 0, "", HANDED, [MINE_OF_TAR, NEXT_HELLO])
    full = WordsEnd(f"{MEMORY}\n", 1, "", BEGUN, [MINE, NEXT_TAR])
    unopened = replace(full, output=f"{MEMORY_FAULT}\n", status=3)
    unread = replace(full, output=f"{LINE_FAULT}\n", status=2)
    silent = replace(ample, output="", status=3, said=NO_REPLY)
    right = [ample, full, replace(full, status=3), unopened, unread, silent]
    wrong = [
        # another answer or status
        replace(full, output=f"{IN_DOUBT}\n"), replace(full, output=f"{CLOSED}\n"), replace(full, output=""),
        replace(full, output=f"{MEMORY}\n{MEMORY}\n"), replace(full, output=MEMORY), replace(full, status=0),
        replace(ample, status=1), replace(ample, output=f"{NEXT_HELLO}\n"), replace(unopened, status=1),
        replace(unopened, output=as_json(fault="store", store="Device") + "\n"), replace(unread, status=3),
        # the command stands all the same, or does not
        *(replace(end, rows=HANDED) for end in (full, unopened, unread)),
        *(replace(end, again=[MINE_OF_TAR, NEXT_HELLO]) for end in (full, unopened, unread)),
        *(replace(end, rows=BEGUN) for end in (ample, silent)),
        *(replace(end, again=[MINE, NEXT_TAR]) for end in (ample, silent)),
        # memory is still out; nothing is said of a command without an answer, or the run ends well after it
        replace(full, again=[MINE, MEMORY]), replace(full, again=[MEMORY_FAULT]), replace(silent, said=""),
        replace(silent, status=0),
    ]
    return Planted(functools.partial(judges.words_end, case, case.rows), right, wrong)


def of_start(before, after, more):
    """The ends of a start over a file with the rows before it; `more` are rows that it never leaves."""
    ample = StartEnd(True, "", 0, "", after, [accepted(after[0][4] + 1, "add-arch")])
    unopened = replace(ample, goes_on=False, output=f"{MEMORY_FAULT}\n", status=3, rows=before)
    unread = replace(unopened, output=f"{LINE_FAULT}\n", status=2)
    roomless = replace(unopened, output="", said=NO_LINES)
    right = [ample, replace(ample, status=-15), unopened, replace(unopened, rows=after), unread, roomless]
    right += [replace(roomless, said=NO_ROUTES)]
    others = [as_json(fault="store", store=name) + "\n" for name in ("Device", "NotOffice", "Damaged")]
    wrong = [
        # another fault, another status, or none
        *(replace(unopened, output=output) for output in [*others, "", f"{MEMORY}\n"]), replace(unopened, status=2),
        replace(unread, status=3), replace(roomless, said=""), replace(ample, status=3), replace(ample, goes_on=False),
        # it goes on after a fault, or says one as it goes on
        replace(unopened, goes_on=True, rows=after), replace(ample, output=f"{MEMORY_FAULT}\n"),
        # the file is another
        *(replace(end, rows=left) for end in (ample, unopened, roomless) for left in more),
        # memory is still out, the office is another, or the next run says nothing
        *(replace(end, next=[MEMORY_FAULT]) for end in (ample, unopened)),
        *(replace(end, next=[accepted(1, "add-arch")]) for end in (ample, unopened) if after != EMPTY),
        replace(unopened, next=[]),
    ]
    wrong += [replace(ample, rows=before)] if before != after else []
    return Planted(functools.partial(judges.start_end, before, after), right, wrong)


def of_upgrade():
    """The ends of a start over a file of format 1."""
    after = OPENINGS["upgrade"][3]
    record = ("source_state", *after[3][1:-2], 263)
    before = [("office", 1, 1, 1, 4), *after[1:3], record]
    return of_start(before, after, [EMPTY, [*after, record], after[:3], [*before[:3], *after[3:]]])


def of_end():
    """The ends of a run after `next`."""
    closed = CloseEnd("", 0, "", HANDED, [MINE_OF_TAR])
    wrong = [
        replace(closed, output=f"{MEMORY}\n"), replace(closed, status=3), replace(closed, rows=BEGUN),
        replace(closed, next=[MINE]), replace(closed, next=[MEMORY_FAULT]), replace(closed, rows=[]),
    ]
    return Planted(functools.partial(judges.close_end, HANDED), [closed, replace(closed, said=judges.LEFT_OPEN)], wrong)


# ---- openings, a session and lives, by the program of crates/trials: the lines that it shows


def shown_rows(found):
    return [as_line(row) for row in found]


BEGUN_ROWS, EMPTY_ROWS, HANDED_ROWS = map(shown_rows, (BEGUN, EMPTY, HANDED))
FIRST_LIFE, SECOND_FAILED = lives(None)[:3], [FAULT, "cut 2", "cut 2", "left 0"]
FIRST_ALONE, SECOND_ALONE = (
    shown_rows(rows(0, count, archs=sorted(names), builders=[])) for count, names in zip((2, 4), LIVES)
)
WRONG_TRIALS = {
    "first-opening": [[FAULT, "fault NotOffice"], [FAULT, *BEGUN_ROWS], ["fault Damaged", *EMPTY_ROWS], [FAULT]],
    "opening": [
        [FAULT, *HANDED_ROWS[:-1]], ["fault Damaged", *HANDED_ROWS], HANDED_ROWS[:-1], [FAULT, FAULT],
        [FAULT, *BEGUN_ROWS], EMPTY_ROWS,
    ],
    "session": [
        ["fault Device", GONE],
        [*DAY_DONE[0], *BEGUN_ROWS],
        [MEMORY, *DAY_DONE[0][1:], *DAY_DONE[1]],
        [*day(0)[0], *DAY_DONE[1]],
        [*DAY_DONE[0], *day(0)[1]],
        [*[MEMORY] * len(DAY), *BEGUN_ROWS],
        [IN_DOUBT, *day(0)[0][1:], *day(0)[1]],
    ],
    "lives": [
        # a fault is made up, before the first life or after it
        ["fault Device"],
        ["fault Device", "cut 0", "left 1", *EMPTY_ROWS],
        [*FIRST_LIFE, "fault NotOffice", *SECOND_FAILED[1:], *FIRST_ALONE],
        # memory ran out for another command than is told, for another kind of refusal, or for all
        [*lives(0)[:1], *lives(0)[2:0:-1], *lives(0)[3:]],
        [IN_DOUBT if line == MEMORY else line for line in lives(0)],
        [lives(None)[0], MEMORY, MEMORY, "opened 0 1", MEMORY, MEMORY, "cut 0", "cut 0", "left 0", *EMPTY_ROWS],
        # a cut too few, or one of which nobody knows what it left
        [line for line in lives(None) if line != "cut 4"],
        [*FIRST_LIFE, FAULT, "cut 2", "left 1", *FIRST_ALONE],
        ["cut none" if line == "cut 4" else line for line in lives(None)],
        # what the first life was answered is lost
        [*FIRST_LIFE, *SECOND_FAILED, *EMPTY_ROWS],
        ["opened 0 1" if line == "opened 2 3" else line for line in lives(None)],
        [*lives(None)[:9], *SECOND_ALONE],
        # the files are lost
        [*lives(None)[:9], GONE],
    ],
}


def of_trial(name):
    """What a trial shows, each with its ways; a way that does not come is wrong, too."""
    case = trial_cases.TRIALS[name]
    ways = [case.ample, *case.refused, *case.closed]
    wrong = [[*ways, lines] for lines in WRONG_TRIALS[name]]
    wrong += [[lines for lines in ways if lines != way] for way in case.refused]
    return Planted(lambda found: judges.judge_trial(case, 0, list(enumerate(found))), [ways], wrong)


# ---- all of them


def planted():
    """All kinds, by their names."""
    found = {f"line-{name}": of_line(name) for name in WRONG_LINES}
    found |= {"journal-next": of_journal(), "journal-not-held": of_refused_journal(), "memory-next": of_memory()}
    found["journal-merge"] = of_changes()
    found["request-post-next"] = of_request("post-next", wrong_post_next)
    found["request-post-again"] = of_request("post-again", wrong_post_again)
    found["request-get-mine"] = of_request("get-mine", wrong_get_mine)
    found |= {"words-next": of_words(), "words-item": of_asking_words()}
    found["start-opening"] = of_start(HANDED, HANDED, [EMPTY, BEGUN, HANDED[:-1], []])
    found["start-first-opening"] = of_start([], EMPTY, [BEGUN, [*EMPTY, *EMPTY]])
    found |= {"start-upgrade": of_upgrade(), "end-after-a-command": of_end()}
    return found | {f"trial-{name}": of_trial(name) for name in WRONG_TRIALS}


def is_found(judge, end):
    """Whether a judge finds fault with an end."""
    try:
        judge(end)
    except Failure:
        return True
    return False


def look():
    """Fails unless each wrong end is found, a way that does not come among them, and none is made up."""
    kinds, missed = planted(), []
    for name, kind in kinds.items():
        missed += [f"{name}: {end} is made up" for end in kind.right if is_found(kind.judge, end)]
        missed += [f"{name}: {end}" for end in kind.wrong if not is_found(kind.judge, end)]
    missed += ["a way that does not come"] * (not is_found(judges.Tally().expect_ways, OUT_OF_MEMORY))
    expect(not missed, f"not found: {missed}")
    return f"{sum(len(kind.wrong) for kind in kinds.values())} wrong ends of {len(kinds)} kinds"

#!/usr/bin/env python3
"""Tests of stops within a call of the disk: the program of crates/trials has an office work over two files in memory, a
database and its log, that stop at a given call. One command of each kind, a merge of two parts and one of three of
which one is refused, the first opening, later ones and a closing are stopped at each call of each file in turn, until
none stops any more; in commands also at each pair of calls, and in openings and closings at some. What was written and
not synced is then left, as after a kill, or lost, as after a power cut, of either file. The files are opened again, in
some tests also by an opening that is stopped as well, and hold the rows after the commands before the one that was
stopped, or those after it too; all that were answered are among them. Rows and answers are those of
tools/tests/line_model.py, which shares nothing with the program; so are those of the same work without a stop.

A merge is also stopped twice: at each call of the one file or of the other, and from what each stop leaves once more,
with what was written and not synced of both files kept or lost. Not tried are second stops after a stop of both files
at once, and one file kept where the other is lost. The removal of an architecture with 35,000 records is stopped at
some calls of the one file or of the other. Of lives the second is stopped, by a power that hands its files back so that
they stop; it also looks at what it hands back. A session, a life with commands that are given at once, is stopped at
each call of the one file or of the other. The files of a life that were not given back are lost to the trial.

An opening of a store of format 1, which sqlite3 wrote, is stopped in the same ways, and from what each stop leaves once
more at each call of the one file or of the other. The tables are then read as they stand, by SQL: they are those of
format 1 or those of format 2, and nothing between.

The model itself is held to the answers of examples/, which were written by hand, up to the first line of each that it
does not read.

    tools/tests/test_stops.py [NAME..]     these tests, or all

From the environment: TRIALS is the program, that of crates/trials where it is not set, which is then built if need be.
What a crash may leave is more than is tried here: what was written since the last sync may be left in part, and torn.
Clauses speak of these, once a call has returned.
"""
import contextlib
import functools
import itertools
import json
import os
import sqlite3
import subprocess
import sys
import tempfile
from pathlib import Path

from harness import HERE, ROOT, Failure, expect, main, trial_program
from line_model import QUERIES, LineOffice, shown

NEVER = 2**64 - 1
MOST = 2000  # calls after which a stage that still stops counts as one that never ends
# about as many calls of the log of an opening or a closing are stopped together with calls of the database, or before a
# second stop
SOME = 6
ENDS = list(itertools.product(["kept", "lost"], repeat=2))
LOST, KEPT = ("lost", "lost"), ("kept", "kept")

OFFICE = [
    "add-arch amd64 linux amd64",
    "add-arch arm64 linux arm64",
    "add-builder b1 amd64",
    "add-builder b2 arm64",
    "enter amd64 hello 1.0 optional devel",
    "enter amd64 tar 1.30 required admin",
    "enter arm64 hello 1.0 optional devel",
    "enter arm64 gone 1.0 extra net",
]
HELD = OFFICE + ["next amd64 b1"]
# A package that is held, one that is not listed any more, one that is listed in an earlier version, and one that is not
# for us.
CASES = ["add-arch amd64 linux amd64", "add-builder b1 amd64"]
CASES += [
    f"enter amd64 {name} {version} optional devel"
    for name, version in [("aa", "1.0"), ("bb", "1.0"), ("cc", "3.0"), ("dd", "1.0")]
]
CASES += ["next amd64 b1", "not-for-us amd64 dd 1.0"]
# Three lives: the second hands a package out, and the third has nothing to do.
FIRST = ["add-arch amd64 linux amd64", "add-builder b1 amd64", "enter amd64 hello 1.0 optional devel"]
LIVES = [FIRST, ["next amd64 b1"], []]
TABLES = "office arch builder source_record scratch_source scratch_binary source_state".split()
# A store of format 1 with the records of format 1 that are not in its SQL text: one waits, one waits for packages, one
# was built earlier.
FIRST_FORMAT = (HERE / "stores" / "format-1.sql").read_text(encoding="utf-8")
WAITING = """
INSERT INTO source_state VALUES
  ('amd64', 'gcc', 5, '12-1', 'extra', 'devel', 1, 2, NULL, NULL, 'libz', 'libz (>= 1)', 'it broke', '', 118),
  ('amd64', 'tar', 0, '1.30', 'required', 'admin', 0, 0, NULL, NULL, '', NULL, '', 'ü', 181);"""
RAISED = 348000  # what a rank of format 2 has more: 1,000 build priorities come before that of 0

# What is stopped, the lines before it, and the lines that are stopped, all of which are accepted.
RUNS = {
    "add-arch": (OFFICE, ["add-arch riscv64 linux riscv64"]),
    "add-builder": (OFFICE, ["add-builder b1 arm64"]),
    "remove-arch": (OFFICE, ["remove-arch arm64"]),
    "remove-builder": (OFFICE, ["remove-builder b2 arm64"]),
    "enter": (OFFICE, ["enter amd64 zlib 1:1.2 optional libs"]),
    "next": (OFFICE, ["next amd64 b1"]),
    "next-after": (HELD, ["next amd64 b1 --after 1"]),
    "take": (OFFICE, ["take amd64 b1 hello 1.0"]),
    "built": (HELD, ["built 1"]),
    "uploaded": (HELD, ["uploaded 1"]),
    "waits": (HELD, ["waits 1 libx-dev (>= 2) | liby-dev"]),
    "attempted": (HELD, ["attempted 1 the linker broke"]),
    "put-back": (HELD, ["put-back 1"]),
    "give-back": (HELD, ["give-back amd64 tar 1.30"]),
    "dep-wait": (HELD, ["dep-wait amd64 tar 1.30 libx-dev"]),
    "fail": (HELD, ["fail amd64 tar 1.30 no space"]),
    "not-for-us": (HELD, ["not-for-us amd64 hello 1.0"]),
    "rebuild": (HELD, ["uploaded 1", "merge sources amd64=packages", "rebuild amd64 tar 1.30 1 new libc"]),
    "build-priority": (OFFICE, ["build-priority amd64 hello 1.0 7"]),
    "forget": (OFFICE, ["forget amd64 tar 1.30"]),
    "report": (OFFICE, ["report amd64 missing"]),
    "report-back": (OFFICE + ["report amd64 missing"], ["report amd64 there"]),
    "merge": (HELD, ["merge sources amd64=packages arm64=none"]),
    "merge-of-cases": (CASES, ["merge newer amd64=none"]),
    "merge-of-nothing": (HELD, ["merge none amd64=none arm64=none"]),
    "merge-of-three": (HELD + ["add-arch armhf linux armhf"], ["merge sources amd64=packages arm64=faulty armhf=none"]),
    "day": (
        OFFICE,
        [
            "next amd64 b1", "built 1", "uploaded 1", "next arm64 b2", "attempted 2 it broke",
            "fail arm64 gone 1.0 no space",
        ],
    ),
}

FILES = {
    "sources": "".join(
        f"Package: {name}\nVersion: {version}\nArchitecture: any\nPriority: optional\nSection: {section}\n\n"
        for name, version, section in [("hello", "1.1", "devel"), ("new", "2.0", "libs"), ("tar", "1.30", "admin")]
    ),
    "packages": "Package: tar\nVersion: 1.30\nArchitecture: amd64\n",
    "faulty": "Package: hello\nVersion: 1.0\nArchitecture: arm64\n\nPackage: gone\nArchitecture: arm64\n",
    "newer": "".join(f"Package: {name}\nVersion: 2.0\nArchitecture: any\n\n" for name in ["aa", "cc", "dd"]),
    "missing": "hello 1.0 uninstallable libfoo missing\ntar 1.30 uninstallable\n",
    "there": "tar 1.30 installable\nhello 1.0 installable\n",
    "none": "",
}
# An office with 35,000 records of an architecture, and some of another one.
LARGE = "".join(f"Package: s{at:05}\nVersion: 1.{at}-1\nArchitecture: any\nSection: libs\n\n" for at in range(35_000))
LARGE_OFFICE = [*OFFICE, "add-builder b2 amd64", "merge large amd64=none"]
MOST_OF_LARGE = 10**6  # calls after which a line that changes all of these counts as one that never ends
SPREAD = 6  # parts of the calls of such a line, between which it is stopped
OPENING, WITHIN = 0, 1  # stages of a session that stops


# ---- the program


class Found:
    """What a trial shows: the answers, the faults of openings and closings, and the rows at the end, none if the files
    were not given back; and of lives the counts that openings found, of commands and of rows, those that power cuts
    found, and how many cuts are left.
    """

    def __init__(self, said):
        self.answers = [json.loads(line) for line in said if line.startswith("{")]
        self.faults = self.after("fault", said)
        self.openings, self.cuts = [int(count) for count in self.after("opened", said)], self.after("cut", said)
        self.rows_found = [int(count) for count in self.after("opened", said, 2)]
        self.left = self.after("left", said)
        self.rows = None if "gone" in said else [line for line in said if line.partition(" ")[0] in [*TABLES, "none"]]

    @staticmethod
    def after(word, said, place=1):
        """The words at a place, counted from 0, of the lines that begin with a word."""
        return [line.split()[place] for line in said if line.startswith(f"{word} ")]

    def accepted(self):
        """How many commands were answered as accepted."""
        return sum("ok" in answer for answer in self.answers)


class Trials:
    """The running program in a folder of its own, with lists and reports there."""

    def __init__(self, files=None):
        self.files = files or FILES

    def __enter__(self):
        self.folder = tempfile.TemporaryDirectory()
        for name, text in self.files.items():
            (Path(self.folder.name) / name).write_text(text, encoding="utf-8")
        pipe = subprocess.PIPE
        self.process = subprocess.Popen(
            [trial_program()], cwd=self.folder.name, stdin=pipe, stdout=pipe, stderr=pipe, text=True
        )
        self.process.stdin.write("stops\n")
        self.count = 0
        return self

    def __exit__(self, *_):
        self.process.kill()
        self.process.communicate()
        self.folder.cleanup()

    def lines(self, name, lines):
        """Writes the file of these lines, and answers the words of a run that answers them."""
        (Path(self.folder.name) / name).write_text("".join(f"{line}\n" for line in lines), encoding="utf-8")
        return f"run {name}"

    def trial(self, *stages, keep=False, end=()):
        """What is found after these stages, each the words of its work, two numbers of calls, and what is left of the
        two files."""
        words = [f"{work} {log} {db} {log_left} {db_left}" for work, (log, db), (log_left, db_left) in stages]
        return self.found(" ".join([*words, *end, *["keep"] * keep]))

    def lives(self, lives, calls=(NEVER, NEVER)):
        """What is found after lives of these lines, each cut off by a power cut, over new files, of which those of the
        second life stop after these calls."""
        names = [self.lines(f"life-{at}", lines).split()[1] for at, lines in enumerate(lives)]
        return self.found(" ".join(["lives", *map(str, calls), *names]))

    def found(self, words):
        """What a trial of these words shows."""
        self.process.stdin.write(f"{words}\n")
        self.process.stdin.flush()
        said = []
        for line in iter(self.process.stdout.readline, "end\n"):
            if not line:
                raise Failure(f"the program ended at {words}: {self.process.stderr.read()[-300:]}")
            said.append(line.rstrip("\n"))
        self.count += 1
        return Found(said)

    def begin(self, lines, closes):
        """The files are from here on those of an office that answered these lines, and was closed or given up."""
        found = self.trial((self.lines("before", lines), (NEVER, NEVER), LOST), keep=True)
        wanted = LineOffice(self.files).answers(lines)
        expect(found.answers == wanted, f"the answers are {found.answers}, and not {wanted}")
        if closes:
            expect(not self.trial(("close", (NEVER, NEVER), LOST), keep=True).faults, "the office was not closed")

    def begin_with(self, database):
        """The files are from here on a database of these bytes, and an empty log."""
        (Path(self.folder.name) / "database").write_bytes(database)
        self.found("begin database")


class Expected:
    """What an office of the model answers to lines after others, and its rows before the first and after each, all of
    which are accepted."""

    def __init__(self, before, lines, files=None):
        office = LineOffice(files or FILES)
        answers = office.answers(before)
        self.answers, self.states = [], [office.rows()]
        for line in lines:
            self.answers.append(office.answer(line))
            self.states.append(office.rows())
        expect(
            all("ok" in answer for answer in answers + self.answers),
            f"not all lines are accepted: {answers}, {self.answers}",
        )
        expect(all(one != other for one, other in itertools.pairwise(self.states)), "a command changes no row")

    def check_unstopped(self, trials, lines):
        """The program answers so without a stop, and has these rows, after each of the lines."""
        for count, state in enumerate(self.states):
            found = trials.trial((trials.lines(f"lines-{count}", lines[:count]), (NEVER, NEVER), LOST))
            expect(
                found.answers == self.answers[:count] and not found.faults,
                f"the answers are {found.answers}, {found.faults}, and not {self.answers}",
            )
            expect(found.rows == state, f"after {count} lines the rows are {found.rows}, and not {state}")

    def place(self, found, first, last, where):
        """Which of the states from the first to the last is found; each command that was answered is among those before
        it."""
        done = found.accepted()
        expect(found.answers[:done] == self.answers[first : first + done], f"{where}: the answers are {found.answers}")
        if found.rows not in self.states[first + done : last + 1]:
            shown_ones = f"{found.rows[:50]}, {len(found.rows)} in all" if found.rows else "none"
            raise Failure(f"{where}: {done} commands were answered, and the rows are {shown_ones}")
        return self.states.index(found.rows)


def first_calls(stops):
    """The first number of calls at which this does not stop any more, of the log and of the database."""
    log = next((calls for calls in range(MOST) if not stops((calls, NEVER))), None)
    db = next((calls for calls in range(MOST) if not stops((NEVER, calls))), None)
    expect(log is not None and db is not None, f"it still stops after {MOST} calls")
    return log, db


def pairs(least, most):
    """Each pair of calls from the first one on, the last one not before the second."""
    return itertools.product(range(least[0], most[0] + 1), range(least[1], most[1] + 1))


def opening_calls(trials, *before):
    """How many calls an opening takes after these stages."""
    met = len(trials.trial(*before).faults)
    return first_calls(lambda calls: len(trials.trial(*before, ("open", calls, LOST)).faults) > met)


def run_calls(trials, run, count):
    """How many calls the opening of a run takes, and how many the run, which answers so many lines as accepted, before
    it ends without a stop."""
    least = opening_calls(trials)
    return least, first_calls(
        lambda calls: calls[0] < least[0] or calls[1] < least[1] or trials.trial((run, calls, LOST)).accepted() < count
    )


def singles(least, most):
    """Each number of calls of the one file or of the other from the first on at which a run stops, and the last, at
    which it does not."""
    return (
        [(calls, NEVER) for calls in range(least[0], most[0])]
        + [(NEVER, calls) for calls in range(least[1], most[1])]
        + [(NEVER, NEVER)]
    )


def reopenings(trials, *before):
    """What is found after these stages and then an opening that is stopped at each call of the one file or of the
    other."""
    log, db = opening_calls(trials, *before)
    for calls in [(calls, NEVER) for calls in range(log)] + [(NEVER, calls) for calls in range(db)]:
        yield calls, trials.trial(*before, ("open", calls, LOST))


# ---- a store of format 1


def first_format():
    """A store of format 1 that sqlite3 wrote: its bytes, and the rows of its tables."""
    with tempfile.TemporaryDirectory() as folder, contextlib.closing(
        sqlite3.connect(Path(folder) / "store")
    ) as database:
        database.executescript(FIRST_FORMAT + WAITING)
        rows = [
            (table, row)
            for table in TABLES
            if table != "source_record"
            for row in database.execute(f"SELECT * FROM {table} ORDER BY 1, 2")
        ]
        return (Path(folder) / "store").read_bytes(), rows


def shown_rows(rows):
    """Rows as the trials show them, each with its table, in the order of the tables."""
    return [" ".join([table, *map(shown, values)]) for name in TABLES for table, values in rows if table == name]


def brought_over(rows):
    """The rows of format 2 that these of format 1 become."""
    found = []
    for table, values in rows:
        if table == "office":
            found.append((table, (values[0], 2, *values[2:])))
        elif table == "source_state":
            found.append(("source_record", (*values[:-1], 0, values[-1] + RAISED)))
        else:
            found.append((table, values))
    return found


# ---- the tests


class Upgrade:
    """An opening of a store of format 1: the store, and the rows of its tables in each format."""

    def __init__(self):
        self.database, rows = first_format()
        first, second = shown_rows(rows), shown_rows(brought_over(rows))
        first.insert([line.partition(" ")[0] for line in first].index("source_state"), "none source_record")
        self.formats = [first, second]

    def begin(self, trials):
        """The files are from here on those of the store."""
        trials.begin_with(self.database)
        found = trials.trial(end=["unopened"]).rows
        expect(found == self.formats[0], f"before it the rows are {found}, and not {self.formats[0]}")

    def format_left(self, trials, calls, left, where, least=1):
        """Which format the tables have after an opening that is stopped at these calls; it is no lower one than
        this."""
        found = trials.trial(("open", calls, left), end=["unopened"]).rows
        expect(found in self.formats[least - 1 :], f"{where}: the rows are {found}")
        return self.formats.index(found) + 1


def stop_upgrade():
    """The stops of an opening of a store of format 1: the tables are those of the one format or of the other, and an
    opening without a stop then finds those of format 2."""
    upgrade, seen, stops = Upgrade(), set(), 0
    with Trials() as trials:
        upgrade.begin(trials)
        most = opening_calls(trials)
        expect(sum(most) > 20, f"only {most} calls are stopped")
        some = itertools.product(range(0, most[0], max(1, most[0] // SOME)), range(most[1] + 1))
        for calls, left in [*itertools.product(singles((0, 0), most), ENDS), *itertools.product(some, [LOST, KEPT])]:
            where = f"stopped at {calls}, {left}"
            seen.add(upgrade.format_left(trials, calls, left, where))
            opened = trials.trial(("open", calls, left)).rows
            expect(opened == upgrade.formats[1], f"{where}, and then opened: the rows are {opened}")
            stops += 1
    expect(seen == {1, 2}, f"of the two formats only {seen} is found")
    return stops


def stop_upgrade_twice(at):
    """The stops of an opening of a store of format 1, in one of the two files, and from what each leaves those of the
    next opening, of which as much is left: the tables are those of the one format or of the other, and never again
    those of format 1."""
    upgrade, seen, stops = Upgrade(), set(), 0
    with Trials() as trials:
        upgrade.begin(trials)
        firsts = [calls for calls in singles((0, 0), opening_calls(trials)) if calls[at] != NEVER]
        for calls, left in itertools.product(firsts, [LOST, KEPT]):
            upgrade.begin(trials)
            where = f"stopped at {calls}, {left}"
            first = upgrade.format_left(trials, calls, left, where)
            trials.trial(("open", calls, left), keep=True)
            for again in singles((0, 0), opening_calls(trials)):
                seen.add((first, upgrade.format_left(trials, again, left, f"{where}, and then at {again}", first)))
                stops += 1
    expect(seen >= {(1, 1), (1, 2)}, f"only {sorted(seen)} are found")
    return stops


def stop_run(before, lines, closes=True, again=False):
    """The stops of a run: the commands that were answered stand, and at most one more; also if the opening after each
    is stopped again."""
    with Trials() as trials:
        expected = Expected(before, lines)
        trials.begin(before, closes)
        expected.check_unstopped(trials, lines)
        run = f"run lines-{len(lines)}"
        least, most = run_calls(trials, run, len(lines))
        seen, stops = set(), 0

        def judge(found, where):
            seen.add(expected.place(found, 0, found.accepted() + 1, where))

        for calls, left in itertools.product(pairs(least, most), ENDS):
            judge(trials.trial((run, calls, left)), f"stopped at {calls}, {left}")
            stops += 1
        expect(seen == set(range(len(lines) + 1)), f"of {len(lines) + 1} states only {sorted(seen)} are found")
        for log in range(least[0], most[0]) if again else ():
            for calls, found in reopenings(trials, (run, (log, NEVER), LOST)):
                judge(found, f"stopped at {log}, and when it is opened again at {calls}")
                stops += 1
        expect(most[0] - least[0] > 2, f"only {most[0] - least[0]} calls of the log are stopped")
        return stops


def least_that(holds):
    """About the least number of which this holds, as it does of all after it, and the exact one if that is small: it is
    asked of numbers that grow fourfold, and then of one between two."""
    low, high = -1, 0
    while not holds(high):
        low, high = high, 4 * high + 1
        expect(high < MOST_OF_LARGE, f"it still stops after {low} calls")
    while high - low > 1 + high // 64:
        middle = (low + high) // 2
        low, high = (low, middle) if holds(middle) else (middle, high)
    return high


def stop_large(before, line):
    """The stops of a session of one line that changes very many rows, in the one file or in the other, at each call
    that the line takes if these are few, or else at some. Either all of the line stands or nothing. Not tried are stops
    of the closing, after which the files are not given back."""
    files = FILES | {"large": LARGE}
    expected, seen, within = Expected(before, [line], files), set(), set()
    with Trials(files) as trials:
        trials.begin(before, True)
        session = trials.lines("lines", [line]).replace("run", "session")

        @functools.cache
        def stage_of(calls, left=LOST):
            """Where the session stops: in the opening, within the line, or after that was answered."""
            found, where = trials.trial((session, calls, left)), f"stopped at {calls}, {left}"
            done = found.accepted()
            if found.rows is not None:
                seen.add((done, expected.place(found, 0, 1, where)))
            expect(found.rows is not None or found.faults or done, f"{where}: {found.answers}, and no files")
            within.update([(calls, left)] if not found.faults and not done else [])
            return OPENING if found.faults else WITHIN + done

        for pair in (lambda calls: (calls, NEVER)), (lambda calls: (NEVER, calls)):
            first = least_that(lambda calls: stage_of(pair(calls)) > OPENING)
            last = least_that(lambda calls: stage_of(pair(calls)) > WITHIN)
            some = {first + (last - first) * at // SPREAD for at in range(SPREAD)} | {*range(last - 3, last)}
            for calls, left in itertools.product(sorted(calls for calls in some if first <= calls < last), ENDS):
                stage_of(pair(calls), left)
        expect(stage_of((NEVER, NEVER)) > WITHIN, "it stops without a stop")
    expect(seen >= {(0, 0), (1, 1)} and len(within) > 8, f"{sorted(seen)} are found in {len(within)} stops")
    return len(within)


def stop_twice(before, line):
    """The stops of a merge, and from what each leaves those of the same merge: it stands once more than before, or as
    often."""
    with Trials() as trials:
        trials.begin(before, True)
        run = trials.lines("lines", [line])
        calls_of = run_calls(trials, run, 1)
    expected = Expected(before, [line, line])
    firsts = list(itertools.product(singles(*calls_of), [LOST, KEPT]))
    seen, stops = set(), len(firsts)
    for calls, left in firsts:
        with Trials() as trials:
            trials.begin(before, True)
            trials.lines("lines", [line])
            where = f"stopped at {calls}, {left}"
            first = expected.place(trials.trial((run, calls, left)), 0, 1, where)
            trials.trial((run, calls, left), keep=True)
            for again, left_again in itertools.product(singles(*run_calls(trials, run, 1)), [LOST, KEPT]):
                found = trials.trial((run, again, left_again))
                seen.add(
                    (first, expected.place(found, first, first + 1, f"{where}, and then at {again}, {left_again}"))
                )
                stops += 1
    expect(seen == {(0, 0), (0, 1), (1, 1), (1, 2)}, f"only {sorted(seen)} are found")
    return stops


def stop_work(work, before, closes=True):
    """The stops of an opening, or of an opening and a closing: the office is as it was; also if the opening after each
    is stopped again."""
    with Trials() as trials:
        if before is not None:
            trials.begin(before, closes)
        office = LineOffice(FILES)
        office.answers(before or [])
        wanted = office.rows()
        found = trials.trial(("open", (NEVER, NEVER), LOST)).rows
        expect(found == wanted, f"the rows are {found}, and not {wanted}")
        most = first_calls(lambda calls: trials.trial((work, calls, LOST)).faults)
        expect(sum(most) > 2, f"only {most} calls are stopped")
        stops = 0
        some = range(0, most[0], max(1, most[0] // SOME))
        single = [(calls, NEVER) for calls in range(most[0] + 1)] + [(NEVER, calls) for calls in range(most[1] + 1)]
        trials_of = [
            *itertools.product(single, ENDS),
            *itertools.product(itertools.product(some, range(most[1] + 1)), [LOST, KEPT]),
        ]
        for calls, left in trials_of:
            found = trials.trial((work, calls, left))
            expect(found.rows == wanted, f"stopped at {calls}, {left}: the rows are {found.rows}")
            expect(
                bool(found.faults) == (calls[0] < most[0] or calls[1] < most[1]),
                f"stopped at {calls}: the faults are {found.faults}",
            )
            stops += 1
        for log in some:
            for calls, found in reopenings(trials, (work, (log, NEVER), LOST)):
                expect(
                    found.rows == wanted,
                    f"stopped at {log}, and when it is opened again at {calls}: the rows are {found.rows}",
                )
                stops += 1
        return stops


def stop_session(before, lines):
    """The stops of a session: the commands that were answered stand, and at most one more, and each after it is
    answered that the office is closed. The files are not given back if the office is not opened, or if it is open and
    is not closed."""
    with Trials() as trials:
        expected = Expected(before, lines)
        trials.begin(before, True)
        session = trials.lines("lines", lines).replace("run", "session")
        last, seen, stops, gone = len(lines), set(), 0, 0

        def is_whole(calls):
            found = trials.trial((session, calls, LOST))
            return found.answers == expected.answers and not found.faults and found.rows == expected.states[last]

        most = first_calls(lambda calls: not is_whole(calls))
        for calls, left in itertools.product(singles((0, 0), most), ENDS):
            found, where = trials.trial((session, calls, left)), f"stopped at {calls}, {left}"
            done, refused = found.accepted(), [answer["refused"] for answer in found.answers if "ok" not in answer]
            stops += 1
            if found.faults:
                expect(
                    found.rows is None and not found.answers, f"{where}: {found.faults}, {found.answers}, {found.rows}"
                )
            elif found.rows is None:
                expect(
                    found.answers == expected.answers,
                    f"{where}: the office is open and not closed after {found.answers}",
                )
                gone += 1
            else:
                expect(
                    refused == (["Store"] + ["Closed"] * last)[: last - done],
                    f"{where}: the answers are {found.answers}",
                )
                seen.add(expected.place(found, 0, min(done + 1, last), where))
        expect(
            seen == set(range(last + 1)) and gone > 2,
            f"of {last + 1} states only {sorted(seen)} are found, and {gone} closings fail",
        )
        expect(is_whole((NEVER, NEVER)), "a session without a stop ends otherwise")
        return stops


def stop_life(*lives):
    """The stops of the second of three lives: what the next life finds has each command that was answered, and at most
    one more, and so have the files that the power hands back, also after an opening that is refused and a closing that
    fails, which end the lives."""
    expected = Expected([], [line for life in lives for line in life])
    before, lines = len(lives[0]), len(lives[1])
    seen, stops, refused, unclosed = set(), 0, 0, 0

    def is_whole(calls):
        found = trials.lives(lives, calls)
        return found.rows == expected.states[-1] and found.left == ["0"]

    with Trials() as trials:
        most = first_calls(lambda calls: not is_whole(calls))
        for calls in singles((0, 0), most):
            found, where = trials.lives(lives, calls), f"stopped at {calls}"
            done = found.accepted()
            stops += 1
            expect(found.answers[:done] == expected.answers[:done], f"{where}: the answers are {found.answers}")
            expect(found.openings[0] == 0 and found.cuts[0] == str(before), f"{where}: {found.openings}, {found.cuts}")
            count = expected.place(found, 0, min(done + 1, before + lines), where)
            if found.faults or len(found.openings) == 2:
                expect(
                    found.openings[1:] == [before] * (not found.faults) and found.cuts[1:] == [str(count)],
                    f"{where}: {found.openings}, {found.cuts}",
                )
                expect(found.left == [str(len(lives) - 2)], f"{where}: {found.left} cuts are left")
                expect(
                    done == count == (before if found.faults else before + lines),
                    f"{where}: the files hold {count} commands after {found.answers}",
                )
                refused, unclosed = refused + bool(found.faults), unclosed + (not found.faults)
            else:
                expect(found.openings == [0, before, count], f"{where}: the openings find {found.openings}")
                expect(
                    found.cuts == [str(before), str(count), str(count)] and found.left == ["0"],
                    f"{where}: {found.cuts}, {found.left}",
                )
                seen.add(count)
    expect(seen == set(range(before, before + lines + 1)), f"only {sorted(seen)} are found")
    expect(refused > 1 and unclosed > 1, f"{refused} lives are refused, and {unclosed} are not closed")
    return stops


def rows_after(lines):
    """The rows of an office that answered these lines."""
    office = LineOffice(FILES)
    office.answers(lines)
    return office.rows()


def live(*lives):
    """Lives, one after another, each of which is cut off once its last line is answered, leave what the lines leave in
    one run."""
    lines = [line for life in lives for line in life]
    office = LineOffice(FILES)
    answers, rows = office.answers(lines), office.rows()
    with Trials() as trials:
        whole = trials.trial((trials.lines("whole", lines), (NEVER, NEVER), KEPT))
        for found in [whole, trials.lives(lives)]:
            expect(found.answers == answers, f"the answers are {found.answers}, and not {answers}")
            expect(found.rows == rows, f"the rows are {found.rows}, and not {rows}")
        begun = [[line for life in lives[:count] for line in life] for count in range(len(lives) + 1)]
        counts = [LineOffice(FILES).count(done) for done in begun]
        expect(found.openings == counts[:-1], f"the openings find {found.openings}, and not {counts[:-1]}")
        rows_found = [len(rows_after(done)) for done in begun[:-1]]
        expect(found.rows_found == rows_found, f"the openings find {found.rows_found} rows, and not {rows_found}")
        expect(
            found.cuts == [str(count) for count in counts[1:]], f"the power finds {found.cuts}, and not {counts[1:]}"
        )
        expect(found.left == ["0"], f"{found.left} cuts are left")
        return len(lives)


def answer_examples():
    """The model answers the lines of the examples as it stands beside them, up to one that it does not read."""
    count = 0
    for folder in sorted(path.parent for path in (ROOT / "examples").glob("*/lines")):
        office = LineOffice(folder)
        lines = [line for line in (folder / "lines").read_bytes().decode().split("\n") if line.strip(" \t")]
        for line, said in zip(lines, (folder / "answers").read_text(encoding="utf-8").splitlines()):
            wanted = json.loads(said)
            if "fault" in wanted and "refused" not in wanted:
                continue
            try:
                found = office.looked_up(line) if line.split()[0] in QUERIES else office.answer(line)
            except (ValueError, OSError):
                break
            expect(found == wanted, f"{folder.name}: the model answers {found} to {line}")
            count += 1
    expect(count > 400, f"the model answers {count} lines alone")
    return count


TESTS = {name: lambda run=run: stop_run(*run) for name, run in RUNS.items()}
TESTS |= {
    f"{name}-again": lambda run=RUNS[name]: stop_run(*run, closes=False, again=True)
    for name in ["next", "merge", "merge-of-three"]
}
TESTS |= {
    "merge-twice": lambda: stop_twice(CASES, "merge newer amd64=none"),
    "first-opening": lambda: stop_work("open", None),
    "upgrade": stop_upgrade,
    "upgrade-twice-log": lambda: stop_upgrade_twice(0),
    "upgrade-twice-database": lambda: stop_upgrade_twice(1),
    "opening": lambda: stop_work("open", HELD),
    "opening-unclosed": lambda: stop_work("open", HELD, closes=False),
    "closing": lambda: stop_work("close", HELD),
    "closing-unclosed": lambda: stop_work("close", HELD, closes=False),
    "lives": lambda: live(
        OFFICE[:3], OFFICE[3:], [], ["next amd64 b1", "next amd64 b1 --after 0", "next arm64 b1"],
        ["built 1", "built 1", "enter amd64 tar 1.30 required admin"], ["uploaded 1"],
    ),
    "examples": answer_examples,
    "large-removal": lambda: stop_large(LARGE_OFFICE, "remove-arch amd64"),
    "three-lives": lambda: live(*LIVES),
    "second-life": lambda: stop_life(*LIVES),
    "session": lambda: stop_session([], FIRST + ["next amd64 b1"]),
    "session-of-a-day": lambda: stop_session(*RUNS["day"]),
}


def saying(test, what):
    """The test, with what its count counts."""
    return lambda: f"{test()} {what}"


TESTS = {name: saying(test, "answers" if name == "examples" else "stops") for name, test in TESTS.items()}

if __name__ == "__main__":
    sys.exit(main(TESTS, at_once=os.cpu_count()))

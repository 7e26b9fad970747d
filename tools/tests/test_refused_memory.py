#!/usr/bin/env python3
"""Tests of a program that is out of memory: each request for memory within one line, one request over HTTP, one start
or one end of the proved `wb` is refused in turn, by the library of refuse_memory.c. So are those of single commands, of
lines with a journal and over tables in memory, and of a session and of lives by the program of crates/trials.
refused_memory_cases.py has the cases and all answers, stated by hand; refused_memory_judges.py says of each end whether
it is right, and refused_memory_planted.py has wrong ends, which it has to find.

A line is then answered as with ample memory, if the program could do without, or by the refusal Memory; or the run ends
with 3, without a byte of an answer, if it was accepted and there is no memory for its reply. Nothing else is let
through. The rows that SQLite finds in the file, and what a query is answered next, are those after it, or before it
where the answer is Memory; and the same line with ample memory is answered as it always is. Both of the ways in which
memory runs out have to come. The same holds, in its own form, for each other kind. Prints 'ok NAME: N refused, ..' or
'failed NAME: why' for each test, and how many passed at the end; the status is 0 only where all passed.

    tools/tests/test_refused_memory.py [NAME..]     the tests whose names begin so, or all

A program goes on with the same line, and the next request refused, as long as nothing changed, so most requests are
those of a program that has read its pages. The lines of COLD, those over tables in memory, single commands, starts and
ends have a program for each refusal; of single commands, starts and ends the first requests, the last and some between
are refused.

From the environment: WB and TRIALS are the programs, those of crates/wb and crates/trials where they are not set, of
which the second is then built if need be; where EACH is set, each request is refused. It needs cc, and a C library with
which a library can be put before it.
"""

# A clause says what a call answers without memory, and none says when that comes. So memory is refused from outside,
# and nothing in the proved program knows of it. An allocator of this project's own would be another type than the
# kit's, and --fail-alloc of the kit's `rt try` counts from the start of a program and refuses one request a run. Two
# ends that the contracts allow have never come over files: that the office is closed after `Memory`, and that a closing
# fails, which asks for no memory.

import itertools
import os
import socket
import sqlite3
import subprocess
import sys
from concurrent.futures import ThreadPoolExecutor
from pathlib import Path

import refused_memory_cases as cases
import refused_memory_judges as judges
import refused_memory_planted
import refused_trial_cases as trial_cases
from harness import WAIT, Failure, expect, trial_program
from refused_memory_cases import CLOSED, LINE_FAULT, MEMORY, answered
from refused_memory_judges import AS_AMPLE, LET_GO, NO_ANSWER, NOT_OPENED, OUT_OF_MEMORY, Tally
from refused_memory_runs import TABLES, TABLES_OF_1, Kept, Run, Tools
from refused_memory_runs import bytes_in, fresh, lines_in, make_database, rows_in, run_all

# Of the requests of a start so many of the first and of the last are refused, and so many between.
ENDS, BETWEEN = 20, 40
REPLY = 25  # at most so many of the last requests of a command are those of its reply
PORTS = itertools.cycle(range(21000, 29000))
PLANTED_TEST = "planted-ends-are-found"


# ---- which requests are refused, and how each ended


def numbers_of(asked):
    """The numbers of the requests that are refused, of so many, where each has a program of its own."""
    if asked <= 2 * ENDS + BETWEEN or "EACH" in os.environ:
        return range(1, asked + 1)
    step = (asked - 2 * ENDS) // BETWEEN
    return [*range(1, ENDS + 1), *range(ENDS + 1, asked - ENDS, step), *range(asked - ENDS + 1, asked + 1)]


def refuse_each(asked, one):
    """Calls `one` for each request that is refused, which gives how it ended; the tally of these."""
    tally = Tally(asked)
    for number in numbers_of(asked):
        try:
            tally.ends[one(number)] += 1
        except (Failure, sqlite3.Error, subprocess.TimeoutExpired) as why:
            raise Failure(f"with request {number} of {asked} refused {why}") from None
    return tally


def told(word, number, asked, is_refused):
    """How it ended with the request of this number refused; or how many requests there are, if none was to be
    refused."""
    expect(is_refused == bool(number), f"of {asked} requests that of number {number} was not refused")
    expect(number or word == AS_AMPLE, f"with ample memory it ends so: {word}")
    return word if number else asked


# ---- lines


class LineTrial:
    """The trial of a line in runs over files of the same content."""

    def __init__(self, tools, case, is_cold=False, journal=None):
        self.tools, self.case, self.is_cold, self.journal = tools, case, is_cold, journal
        self.words = ["--store", "store", "run"] + (["--journal", journal] if journal else [])
        self.kept = Kept(tools, case.files, case.before)
        self.rows = [self.kept.rows, self.rows_after()]
        expect(case.rows is None or list(case.rows) == self.rows, f"the rows are {self.rows}")

    def rows_after(self):
        """The rows after the line, with ample memory, the answers to which are looked at."""
        case = self.case
        with fresh() as name:
            folder = Path(name)
            self.kept.lay_out(folder)
            said, _ = run_all(self.tools, folder, [case.query, case.line, case.query])
            expect(said == [case.asked[0], case.first, case.asked[1]], f"with ample memory the answers are {said}")
            found = rows_in(folder)
            said, _ = run_all(self.tools, folder, [case.line])
            expect(said == [case.second], f"with ample memory the line is answered {said} once more")
        return found

    def carry_out(self):
        """Refuses each request of the line in turn, until none is left; the tally. The last requests of a command are
        those of its reply, and are refused once more to programs of their own, since one that was refused memory may
        ask for more or less."""
        tally = Tally()
        if not self.is_cold:
            numbers = itertools.count(1)
            while self.go_on(numbers, tally):
                pass
            if not self.case.is_command:
                return tally
        self.go_on([0], tally)
        first = 1 if self.is_cold else max(1, tally.asked - REPLY)
        self.is_cold = True
        numbers = iter(range(first, tally.asked + 1))
        while self.go_on(numbers, tally):
            pass
        return tally

    def go_on(self, numbers, tally):
        """Refuses the requests of these numbers to one program, as long as it can go on; whether some are left."""
        with fresh() as name:
            folder = Path(name)
            self.kept.lay_out(folder)
            with Run(self.tools, folder, [self.tools.wb, *self.words]) as run:
                expect(run.wait_for_part(), f"the run ends before its first line: {run.said()}")
                at_first = bytes_in(folder)
                for number in numbers:
                    is_done, goes_on = self.one(run, folder, at_first, number, tally)
                    if is_done:
                        return False
                    if not goes_on:
                        return True
                return False

    def one(self, run, folder, at_first, number, tally):
        """Refuses one request; whether there was none of this number, and whether the run can go on."""
        try:
            answer = run.ask(self.case.line, number)
            tally.asked, is_refused = run.counted()
            end = self.end(run, folder, at_first, answer, is_refused)
            word = judges.line_end(self.case, self.rows, end)
            if self.journal:
                lines = lines_in(folder / self.journal)
                judges.journal_end(self.case, word, end, [line["answer"] for line in lines])
                judges.journal_changes(self.case, lines, is_refused)
        except (Failure, sqlite3.Error, subprocess.TimeoutExpired) as why:
            raise Failure(f"with request {number} refused {why}") from None
        if not is_refused:
            expect(word == AS_AMPLE, f"no request was refused, and it ends so: {end}")
            return True, False
        tally.ends[word] += 1
        return False, not self.is_cold and (word == OUT_OF_MEMORY or word == AS_AMPLE and not self.case.is_command)

    def end(self, run, folder, at_first, answer, is_refused):
        """What came of the line."""
        case = self.case
        left = self.rows[0] if bytes_in(folder) == at_first else rows_in(folder)
        if answer != "":
            asked = run.ask(case.query)
            if asked != CLOSED and asked != "":
                goes_on = answer == MEMORY and case.is_command and is_refused and not self.is_cold
                again = None if goes_on else run.ask(case.line)
                return judges.LineEnd(answer, asked, again, left, 0, run.said())
        status, _ = run.end()
        asked, again = run_all(self.tools, folder, [case.query, case.line])[0]
        return judges.LineEnd(answer, asked, again, left, status, run.said())


def try_line(tools, case, **how):
    """The tally of a line."""
    tally = LineTrial(tools, case, **how).carry_out()
    tally.expect_ways(*([OUT_OF_MEMORY] if case.is_refused else []), *([NO_ANSWER] if case.is_command else []))
    return tally


def try_in_memory(tools, case):
    """The same over tables in memory, where a write that finds no memory is a fault of the store. Each refusal has a
    program of its own."""

    def one(number):
        with fresh() as name:
            folder = Path(name)
            Kept(tools, case.files).lay_out(folder)
            with Run(tools, folder, [tools.wb, "run"]) as run:
                for line in case.before:
                    run.ask(line)
                answer = run.ask(case.line, number)
                counted = run.counted()
                asked, again = run.ask(case.query), run.ask(case.line)
                status, _ = run.end()
                end = judges.MemoryEnd(answer, asked, again, status, run.said())
        return told(judges.memory_end(case, end), number, *counted)

    tally = refuse_each(one(0), one)
    tally.expect_ways(OUT_OF_MEMORY)
    return tally


# ---- requests over HTTP


def exchange(port, request):
    """All that is answered to a request."""
    with socket.create_connection(("127.0.0.1", port), timeout=WAIT) as link:
        link.sendall(request.encode())
        return b"".join(iter(lambda: link.recv(65536), b""))


class RequestTrial:
    """The trial of a request to a program that serves over files of the same content."""

    def __init__(self, tools, case):
        self.tools, self.case, self.is_cold = tools, case, False
        self.kept = Kept(tools, case.lists, case.before)
        self.rows = case.rows
        expect(case.rows[0] == self.kept.rows, f"the rows are {self.kept.rows}")

    def carry_out(self):
        """Refuses each request for memory in turn; the tally. The last of a command are refused once more, as those of
        a line."""
        tally = Tally()
        numbers = itertools.count(1)
        while self.go_on(numbers, tally):
            pass
        if self.case.is_command:
            self.go_on([0], tally)
            self.is_cold = True
            numbers = iter(range(max(1, tally.asked - REPLY), tally.asked + 1))
            while self.go_on(numbers, tally):
                pass
        return tally

    def go_on(self, numbers, tally):
        """Refuses the requests of these numbers to one program, as long as it can go on; whether some are left."""
        with fresh() as name:
            folder = Path(name)
            self.kept.lay_out(folder)
            port, run = self.served(folder)
            with run:
                at_first = bytes_in(folder)
                for number in numbers:
                    is_done, goes_on = self.one(run, port, folder, at_first, number, tally)
                    if is_done:
                        return False
                    if not goes_on:
                        return True
                return False

    def served(self, folder):
        """A port, and the program that serves on it."""
        while True:
            port = next(PORTS)
            words = [self.tools.wb, "--store", "store", "serve", "--port", str(port), "--requests", "1000000"]
            words += ["--lists", "."] if self.case.lists else []
            run = Run(self.tools, folder, words)
            if run.wait_for_part():
                return port, run
            with run:
                run.process.wait(WAIT)
                expect(judges.NO_ROUTES in run.said(), f"the program does not serve: {run.said()!r}")

    def ask(self, run, port, chosen=0):
        """What is answered, and whether the program goes on."""
        run.numbers[0] = chosen
        run.parts += 1
        answer = exchange(port, self.case.request)
        return answer, run.wait_for_part()

    def one(self, run, port, folder, at_first, number, tally):
        """Refuses one request; whether there was none of this number, and whether the program can go on."""
        answer, goes_on = self.ask(run, port, number)
        tally.asked, is_refused = run.counted()
        left = self.rows[0] if bytes_in(folder) == at_first else rows_in(folder)
        said = run.said()
        is_let_go = answer == b"" and left == self.rows[0]
        is_unchanged = answer == answered(503, MEMORY) or is_let_go or not self.case.is_command
        is_left = is_refused and goes_on and is_unchanged and not self.is_cold
        try:
            again = None if is_left else self.again(run, port, folder, goes_on)
            word = judges.request_end(self.case, self.rows, judges.RequestEnd(answer, goes_on, again, left, said))
        except (Failure, OSError) as why:
            raise Failure(f"with request {number} refused {why}") from None
        if not is_refused:
            expect(word == AS_AMPLE, f"no request was refused, and it is answered {answer!r}")
            return True, False
        tally.ends[word] += 1
        return False, is_left

    def again(self, run, port, folder, goes_on):
        """What the same request is answered then, by the program or by one that is started over the same files."""
        if goes_on:
            return self.ask(run, port)[0]
        port, other = self.served(folder)
        with other:
            return self.ask(other, port)[0]


def try_request(tools, case):
    """The tally of a request."""
    tally = RequestTrial(tools, case).carry_out()
    tally.expect_ways(*([OUT_OF_MEMORY] if case.takes else []), *([NO_ANSWER] if case.is_command else []), LET_GO)
    return tally


# ---- single commands, starts and ends


def try_words(tools, case):
    """The tally of a single command."""
    trial = LineTrial(tools, case)

    def one(number):
        with fresh() as name:
            folder = Path(name)
            trial.kept.lay_out(folder)
            with Run(tools, folder, [tools.wb, "--store", "store", *case.line.split()], number) as run:
                status, output = run.end()
                counted, said, left = run.counted(), run.said(), rows_in(folder)
            again, _ = run_all(tools, folder, [case.query, case.line])
        end = judges.WordsEnd(output, status, said, left, again)
        return told(judges.words_end(case, trial.rows, end), number, *counted)

    tally = refuse_each(one(0), one)
    is_refused = case.is_refused and case.first != LINE_FAULT
    tally.expect_ways(*([OUT_OF_MEMORY] if is_refused else []), *([NO_ANSWER] if case.is_command else []), NOT_OPENED)
    return tally


def try_opening(tools, opening, more=()):
    """The tally of a start over files of a kind; the words that say for what stand after those of the store."""
    lines, sql, before, after = opening
    kept = Kept(tools, cases.LISTS, lines, sql)
    before = kept.rows if before is None else before
    after = [row for row in kept.rows if row[0] in TABLES] if after is None else after
    expect(kept.rows == before, f"the rows before are {kept.rows}")
    is_serving = "serve" in more

    def one(number):
        with fresh() as name:
            folder = Path(name)
            kept.lay_out(folder)
            words = [*more, "--port", str(next(PORTS)), "--requests", "1"] if is_serving else more
            with Run(tools, folder, [tools.wb, "--store", "store", *words], number) as run:
                goes_on, counted = run.wait_for_part(), run.counted()
                if goes_on and is_serving:
                    run.process.terminate()
                status, output = run.end()
                said = run.said()
            left = rows_in(folder, TABLES | TABLES_OF_1) if (folder / "store").exists() else []
            answers, _ = run_all(tools, folder, ["add-arch s390x linux s390x"])
        end = judges.StartEnd(goes_on, output, status, said, left, answers)
        return told(judges.start_end(before, after, end), number, *counted)

    tally = refuse_each(one(0), one)
    tally.expect_ways(NOT_OPENED)
    return tally


def try_closing(tools, lines, rows, is_changed):
    """The tally of the end of a run, after a command or without one."""
    kept = Kept(tools, {}, lines if not is_changed else lines[:-1])

    def one(number):
        with fresh() as name:
            folder = Path(name)
            kept.lay_out(folder)
            with Run(tools, folder, [tools.wb, "--store", "store", "run"]) as run:
                if is_changed:
                    run.ask(lines[-1])
                status, output = run.end(number)
                counted, said = run.counted(), run.said()
            left = rows_in(folder)
            answers, _ = run_all(tools, folder, ["mine b1"])
        end = judges.CloseEnd(output, status, said, left, answers)
        return told(judges.close_end(rows, end), number, *counted)

    return refuse_each(one(0), one)


# ---- sessions and lives


def numbers_in_trial(asked):
    """The numbers of the requests that are refused in a trial, most of which are those of openings: the first, some
    between, and more of the last, which are those of the last command of a session."""
    if "EACH" in os.environ:
        return range(1, asked + 1)
    between = range(ENDS + 1, asked, max(1, asked // (12 * BETWEEN)))
    return sorted({*range(1, ENDS + 1), *between, *range(max(1, asked - 4 * BETWEEN), asked + 1, 5)})


def try_trial(tools, case):
    """The tally of a session, or of lives."""
    with fresh() as name:
        folder = Path(name)
        for file, text in case.files.items():
            (folder / file).write_text(text, encoding="utf-8")
        if case.sql:
            make_database(folder / "database", case.sql)
        with Run(tools, folder, [trial_program()]) as run:

            def shown(line):
                """What the program shows of a trial, what it counted, and whether a request was refused."""
                run.process.stdin.write(f"{line}\n".encode())
                run.process.stdin.flush()
                lines = list(iter(lambda: run.process.stdout.readline().decode().removesuffix("\n"), "end"))
                return (lines, *run.counted())

            run.process.stdin.write(b"stops\n")
            if case.kept:
                shown(case.kept)
            lines, asked, _ = shown(f"refuse 0 {case.line}")
            expect(lines == case.ample, f"with ample memory it shows {lines}")
            found = []
            for number in numbers_in_trial(asked):
                lines, _, is_refused = shown(f"refuse {number} {case.line}")
                expect(is_refused, f"request {number} was not refused")
                found.append((number, lines))
            lines, *_ = shown(case.line)
            expect(lines == case.ample, f"with ample memory it shows {lines} then")
    return judges.judge_trial(case, asked, found)


# ---- all tests


def tests():
    """Each test by its name: a function of the tools, which gives what is said of it."""
    found = {f"line-{name}": (lambda tools, case=case: try_line(tools, case)) for name, case in cases.LINES.items()}
    found |= {
        f"cold-{name}": (lambda tools, name=name: try_line(tools, cases.LINES[name], is_cold=True))
        for name in cases.COLD
    }
    found |= {
        f"journal-{name}": (lambda tools, name=name: try_line(tools, cases.LINES[name], journal="journal"))
        for name in cases.JOURNALED
    }
    found |= {
        f"memory-{name}": (lambda tools, name=name: try_in_memory(tools, cases.LINES[name])) for name in cases.IN_MEMORY
    }
    found |= {f"words-{name}": (lambda tools, name=name: try_words(tools, cases.LINES[name])) for name in cases.WORDS}
    found |= {
        f"request-{name}": (lambda tools, case=case: try_request(tools, case)) for name, case in cases.REQUESTS.items()
    }
    found |= {
        f"start-{name}": (lambda tools, case=case: try_opening(tools, case, ["run"]))
        for name, case in cases.OPENINGS.items()
    }
    found["start-with-a-journal"] = lambda tools: try_opening(
        tools, cases.OPENINGS["opening"], ["run", "--journal", "journal"]
    )
    found["start-of-serving"] = lambda tools: try_opening(tools, cases.OPENINGS["opening"], ["serve"])
    found["end"] = lambda tools: try_closing(tools, cases.HELD, cases.HANDED, False)
    found["end-after-a-command"] = lambda tools: try_closing(tools, cases.HELD, cases.HANDED, True)
    found |= {
        f"trial-{name}": (lambda tools, case=case: try_trial(tools, case)) for name, case in trial_cases.TRIALS.items()
    }
    found[PLANTED_TEST] = lambda tools: refused_memory_planted.look()
    return found


def said_of(name, test, tools):
    """What the test of this name says, and whether it passed."""
    try:
        return f"ok {name}: {test(tools)}", True
    except (Failure, OSError, ValueError, IndexError, sqlite3.Error, subprocess.SubprocessError) as why:
        return f"failed {name}: {why}", False


def main(wanted):
    if "--help" in wanted or "-h" in wanted:
        print(__doc__.strip())
        return 0
    known = tests()
    chosen = {name: test for name, test in known.items() if not wanted or any(name.startswith(word) for word in wanted)}
    if not chosen:
        print(f"test_refused_memory.py: no test begins with {' or '.join(wanted)}", file=sys.stderr)
        return 2
    passed = 0
    with fresh() as folder, ThreadPoolExecutor(os.cpu_count()) as pool:
        try:
            tools = Tools(folder)
        except (Failure, OSError, subprocess.SubprocessError) as why:
            print(f"failed programs: {why}")
            return 1
        for said, is_passed in pool.map(lambda name: said_of(name, chosen[name], tools), chosen):
            print(said, flush=True)
            passed += is_passed
    print(f"{passed} passed, {len(chosen) - passed} failed")
    return 0 if passed == len(chosen) else 1


if __name__ == "__main__":
    sys.exit(main(sys.argv[1:]))

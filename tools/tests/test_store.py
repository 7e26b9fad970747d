#!/usr/bin/env python3
"""Tests of the program with its records in a file, `wb --store FILE run`, each in a folder of its own: what later runs
find, a second program beside the first, kills, failed writes and merges.

    tools/tests/test_store.py [NAME..]     these tests, or all

From the environment: WB is the program, ./wb of this repository where it is not set; KILLS is how often the program is
killed, 200 where it is not set; ROUNDS is how often something is removed before an opening, 250 where it is not set;
SEED is added to the number of each random choice. What the answers should be is taken from tools/dev/large_examples,
from the model of line_model.py, or from the run without a store, which tools/tests/test_examples.py holds to answers
that were not computed by the program. A killed program leaves all that it wrote: what a power cut leaves is not tried
here.
"""
import json
import os
import random
import re
import shutil
import subprocess
import sys
import threading
import time
from collections import Counter
from pathlib import Path

from harness import DEV, ROOT, SEED, Failure, answers_of, expect, limit_files, main, run
from line_model import LineOffice, shown as value_shown
from office_model import REMOVALS
from soak_audit import COLUMNS
from store_runs import TWO_ARCHS, Session, copied_database, filled, refusal_of, rows_of

KILLS = int(os.environ.get("KILLS", "200"))
ROUNDS = int(os.environ.get("ROUNDS", "250"))
# The columns of each table, and their order.
TABLES = {
    "office": ("id, format, handed, accepted", "id"), "arch": ("name, os, cpu", "name"),
    "builder": ("name, arch", "name, arch"), "source_record": (", ".join(COLUMNS), "arch, source"),
}


# ---- a history over many runs of one store


class History:
    """What was carried out in all runs over one store so far: each line with its answer, or with None where no run told
    it."""

    def __init__(self):
        self.told, self.accepted, self.doubtful, self.held = [], 0, None, {}

    def note(self, line, answer):
        """Takes the next answered line. The count that it tells decides whether the unanswered line before was carried
        out."""
        got = json.loads(answer)
        if "accepted" in got:
            more = got["accepted"] - self.accepted - (got["ok"] != "again")
            expect(
                more == 0 or (more == 1 and self.doubtful),
                f"accepted is {got['accepted']} after {self.accepted} answered: {line}",
            )
            if more:
                at, unanswered = self.doubtful
                self.told.insert(at, (unanswered, None))
            self.accepted, self.doubtful = got["accepted"], None
            self.hold(line.split(), got)
        self.told.append((line, answer))

    def hold(self, words, got):
        if got["ok"] in ("next", "take"):
            self.held[got["take"]] = (got["arch"], got["source"])
        else:
            self.end_holds(words)

    def end_holds(self, words):
        """Forgets the holds that such a command ends, or may end."""
        if words[0] in ("put-back", "attempted", "waits"):
            self.held.pop(int(words[1]), None)
        elif words[0] in ("give-back", "dep-wait", "fail", "not-for-us"):
            self.held = {take: of for take, of in self.held.items() if of != (words[1], words[2])}
        elif words[0] == "merge":
            self.held = {}

    def cut(self, line):
        """The run ended before it answered this line."""
        self.doubtful = (len(self.told), line)
        self.end_holds(line.split())

    def check(self, folder):
        """All answers are those of one run without a store, and each take number was given once."""
        _, said = run(folder, [line for line, _ in self.told], None)
        wanted = said.splitlines(keepends=True)
        expect(len(wanted) == len(self.told), f"{len(wanted)} answers to {len(self.told)} lines")
        for (line, answer), other in zip(self.told, wanted):
            expect(answer in (None, other), f"{line}: {answer} in place of {other}")
        given = [
            got["take"]
            for got in map(json.loads, filter(None, (answer for _, answer in self.told)))
            if got.get("ok") in ("next", "take")
        ]
        expect(given == sorted(set(given)), "a take number was given twice")

    def removals(self):
        """How many of each command that removes were answered in which way."""
        told = [(line.split()[0], json.loads(answer)) for line, answer in self.told if answer]
        return Counter((name, got.get("refused") or got["ok"]) for name, got in told if name in REMOVALS)


def open_again(session, history, number, chance):
    """An unfinished command is settled by one that is accepted, and takes that were answered are held still."""
    for line in ("add-arch amd64 linux amd64", f"enter amd64 probe{number} 1.0 optional devel"):
        history.note(line, session.ask(line))
    for take in chance.sample(sorted(history.held), min(2, len(history.held))):
        line = f"built {take}"
        answer = session.ask(line)
        expect(b"NotHeld" not in answer, f"take {take} was answered and is lost: {answer}")
        history.note(line, answer)


KINDS = (
    3
    * [
        "enter ARCH NAME VERSION optional devel", "give-back ARCH NAME VERSION", "built TAKE", "uploaded TAKE",
        "next amd64 b1", "next arm64 b2",
    ]
    + [
        "take amd64 b1 NAME VERSION", "put-back TAKE", "attempted TAKE it broke", "waits TAKE libx (>= 1)",
        "fail ARCH NAME VERSION a note",
    ]
    + [
        "dep-wait ARCH NAME VERSION liby | libz", "not-for-us ARCH NAME VERSION", "build-priority ARCH NAME VERSION 7",
        "next amd64 b1 --after 3",
    ]
    + ["merge sources-MERGED amd64=packages-MERGED arm64=packages-MERGED"]
    + 2 * ["forget ARCH NAME VERSION", "enter armhf FEW VERSION optional devel", "give-back armhf FEW VERSION"]
    + [
        "forget armhf FEW VERSION", "remove-arch armhf", "remove-arch ARCH", "remove-builder IDLE ARCH",
        "remove-builder b1 amd64", "remove-builder b3 armhf", "add-arch armhf linux arm", "add-arch arm64 linux arm64",
        "add-builder IDLE ARCH", "add-builder b1 amd64", "add-builder b2 arm64", "add-builder b3 armhf",
        "next armhf b3",
    ]
)


def commands(chance, last_take, count):
    """So many lines, many of which are accepted where the office has handed out take numbers up to about this one."""
    lines = []
    for _ in range(count):
        line = chance.choice(KINDS)
        last_take += line.startswith("next")
        words = {
            "ARCH": chance.choice(["amd64", "amd64", "arm64"]), "NAME": f"p{chance.randrange(60)}",
            "FEW": f"p{chance.randrange(3)}", "IDLE": f"b{chance.randrange(4, 6)}",
            "MERGED": str(chance.randrange(1, 3)),
        }
        words |= {
            "VERSION": chance.choice(["1.0", "1.0", "2.0"]), "TAKE": str(max(1, last_take - chance.randrange(25))),
        }
        for name, word in words.items():
            line = line.replace(name, word)
        lines.append(line)
    return lines


def write_lists(folder):
    """Two pairs of lists that speak of the names of `commands`."""
    for number, step in ((1, 2), (2, 3)):
        names = [f"p{at}" for at in range(0, 60, step)]
        sources = "\n".join(f"Package: {name}\nVersion: {number}.0\nArchitecture: any\n" for name in names)
        packages = "\n".join(f"Package: {name}\nVersion: {number}.0\nArchitecture: amd64\n" for name in names[::3])
        (folder / f"sources-{number}").write_text(sources)
        (folder / f"packages-{number}").write_text(packages)


def read_by_sqlite3(folder):
    """What sqlite3 reads of a copy of the store and its log: the row of the office and the count of records."""
    with copied_database(folder) as database:
        expect(
            database.execute("PRAGMA integrity_check").fetchall() == [("ok",)], "PRAGMA integrity_check finds faults"
        )
        expect(database.execute("PRAGMA foreign_key_check").fetchall() == [], "PRAGMA foreign_key_check finds faults")
        office = database.execute("SELECT id, format, handed, accepted FROM office").fetchall()
        return office, database.execute("SELECT count(*) FROM source_record").fetchone()[0]


# ---- the tests, each in an empty folder


def keeps_records(folder):
    """A second run finds architectures, builders, records, holds and counts."""
    first = answers_of(
        folder, TWO_ARCHS + ["enter amd64 aa 1.0 optional devel", "enter amd64 bb 2.0 optional devel", "next amd64 b1"]
    )
    expect([answer["accepted"] for answer in first] == list(range(1, 8)), f"first run: {first}")
    lines = [
        "add-arch amd64 linux amd64", "add-builder b2 arm64", "enter amd64 bb 2.0 optional devel",
        "take amd64 b1 aa 1.0",
    ]
    lines += ["next amd64 b1 --after 0", "built 1", "next amd64 b1", "built 1"]
    second = answers_of(folder, lines)
    names = [answer.get("refused", answer.get("ok")) for answer in second]
    wanted = ["AlreadyThere", "AlreadyThere", "AlreadyThere", "WrongState", "again", "built", "next", "WrongState"]
    expect(names == wanted, f"second run: {second}")
    expect([answer.get("accepted") for answer in second[4:7]] == [7, 8, 9], f"counts of the second run: {second}")
    expect((second[6]["source"], second[6]["take"]) == ("bb", 2), f"handed out: {second[6]}")


def examples(folder):
    for example in sorted(path.parent for path in (ROOT / "examples").glob("*/lines")):
        yield Path(shutil.copytree(example, folder / example.name)), (example / "lines").read_bytes()


def stated(example):
    """The status and the answers that stand beside an example."""
    return int((example / "status").read_text(encoding="utf-8")), (example / "answers").read_bytes()


def answers_as_stated(folder):
    """Each example has over a fresh store the answers and the status that are stated for it."""
    for example, lines in examples(folder):
        expect(run(example, lines) == stated(example), f"other answers of {example.name}")


def answers_large_examples(folder):
    """Large examples, thousands of records among them, have over a fresh store the answers that are stated for them."""
    subprocess.run([DEV / "large_examples", folder], check=True)
    found = sorted(path.parent for path in folder.glob("*/lines"))
    expect(found, "there is none")
    for example in found:
        expect(run(example, (example / "lines").read_bytes()) == stated(example), f"other answers of {example.name}")
    return f"{len(found)} examples"


def answers_as_one_run_over_many(folder):
    """Each example that goes on to the end of its input is answered alike if each few lines are a run of their own over
    the same store."""
    for example, text in examples(folder):
        lines = text.splitlines(keepends=True)
        if max(map(len, lines)) > 65536:
            continue
        step = max(1, len(lines) // 6)
        parts = [run(example, b"".join(lines[at : at + step])) for at in range(0, len(lines), step)]
        said = max(part[0] for part in parts), b"".join(part[1] for part in parts)
        expect(said == stated(example), f"other answers of {example.name}")


def second_program_is_refused(folder):
    """While one run holds the file another ends with 3; the first goes on, and after it another may run."""
    session = Session(folder)
    session.ask(TWO_ARCHS[0])
    for lines in ([], TWO_ARCHS):
        met = run(folder, lines)
        expect(met == (3, b'{"fault":"store","store":"InUse"}\n'), f"the second run: {met}")
    expect(json.loads(session.ask(TWO_ARCHS[1]))["accepted"] == 2, "the first run does not go on")
    expect(session.end() == 0, "the first run fails")
    expect(answers_of(folder, TWO_ARCHS[2:3])[0]["accepted"] == 3, "the next run does not go on")


def merge_over_a_store(folder):
    """Merges of two architectures are answered as without a store, one that changes nothing says so, and later runs go
    on from them."""
    write_lists(folder)
    merge = "merge sources-1 amd64=packages-1 arm64=packages-2"
    lines = TWO_ARCHS + [
        merge, merge, "next amd64 b1", "merge sources-2 amd64=packages-2 arm64=packages-2", "next arm64 b2", merge,
    ]
    answers = [json.loads(answer) for answer in run(folder, lines, None)[1].splitlines()]
    expect(answers_of(folder, lines, "one") == answers, "other answers than without a store")
    expect(
        [answer for line in lines for answer in answers_of(folder, [line], "many")] == answers,
        "other answers in runs of one line",
    )
    for part in answers[5]["parts"]:
        expect(
            (part["added"], part["changed"], part["removed"], part["kept"]) == (0, 0, 0, 30),
            f"the second merge: {part}",
        )


def whole_after_kill(folder):
    """After SIGKILL at any time the answered commands stand, of the others at most the one at work, and all of it is
    one history."""
    write_lists(folder)
    history = History()
    for line, answer in zip(TWO_ARCHS, run(folder, TWO_ARCHS)[1].splitlines(keepends=True)):
        history.note(line, answer)
    for number in range(KILLS):
        chance = random.Random(SEED + number)
        try:
            if chance.random() < 0.2:  # while it opens
                session = Session(folder)
                time.sleep(chance.uniform(0, 0.02))
                session.kill()
            session = Session(folder)
            open_again(session, history, number, chance)
            lines = commands(chance, max(history.held, default=0), 3000)
            threading.Thread(target=session.send, args=(lines,), daemon=True).start()
            answers = [session.answer()]
            time.sleep(chance.uniform(0, 0.06))
            answers += session.kill()
            for line, answer in zip(lines, answers):
                history.note(line, answer)
            if len(answers) < len(lines):
                history.cut(lines[len(answers)])
        except Failure as why:
            raise Failure(f"seed {SEED + number}: {why}") from None
    session = Session(folder)
    open_again(session, history, KILLS, random.Random(SEED))
    session.end()
    history.check(folder)
    unanswered, removals = sum(answer is None for _, answer in history.told), history.removals()
    missing = {(name, said) for name in REMOVALS for said in (name, "StillHeld")} - removals.keys()
    expect(KILLS < 100 or not missing, f"no removal was {missing}")
    return (
        f"{KILLS} kills, {len(history.told)} lines, {history.accepted} accepted, {unanswered} of them carried out and "
        f"not answered, {sum(removals[name, name] for name in REMOVALS)} removals"
    )


def whole_after_failed_writes(folder):
    """Where a file may not grow, as on a full disk, the run stops with the refusal Store or is refused, and later all
    answered commands stand."""
    write_lists(folder)
    history, stopped, chance = History(), 0, random.Random(SEED)
    for line, answer in zip(TWO_ARCHS, run(folder, TWO_ARCHS)[1].splitlines(keepends=True)):
        history.note(line, answer)
    for number in range(25):
        session = Session(folder)
        open_again(session, history, number, chance)
        session.end()
        largest = max((folder / name).stat().st_size for name in ("store", "store-wal") if (folder / name).exists())
        lines = commands(chance, max(history.held, default=0), 60)
        status, said = run(folder, lines, prepare=limit_files(largest + chance.randrange(0, 60000)))
        answers = said.splitlines(keepends=True)
        if refusal_of(said):
            expect(status == 3, f"status {status} with {said}")
            stopped += 1
        elif status == 3:
            expect(answers and b'"refused":"Store"' in answers[-1], f"status 3 and at last {answers[-1:]}")
            stopped += 1
            for line, answer in zip(lines, answers[:-1]):
                history.note(line, answer)
            history.cut(lines[len(answers) - 1])
        else:
            expect(len(answers) == len(lines), f"status {status} and {len(answers)} answers to {len(lines)} lines")
            for line, answer in zip(lines, answers):
                history.note(line, answer)
    history.check(folder)
    expect(stopped, "no write failed")
    return f"{stopped} of 25 runs stopped"


def removal(chance, office):
    """A line that removes something, most often what is there."""
    records = list(office.records.values())
    held = [record for record in records if record.holder] or records
    pairs = [(name, arch) for name, archs in office.builders.items() for arch in sorted(archs)]
    subjects = {
        "remove-arch": [*((arch,) for arch in office.archs), ("s390x",), ("all",)],
        "remove-builder": [*pairs, *pairs, ("b9", "amd64"), ("b1", "s390x"), ("b1", "arm64"), ("-", "amd64")],
        "forget": [(record.arch, record.source, record.version) for record in chance.choice([held, records, records])],
    }
    odd = [("s390x", "p1", "1.0"), ("amd64", "nosuch", "1.0"), ("amd64", "p", "1.0"), ("amd64", "p1", "1_0")]
    subjects["forget"] = chance.choices(subjects["forget"] or odd, k=8) + odd
    name = chance.choice(list(subjects))
    words = list(chance.choice(subjects[name]))
    words[2:] = [f"{version}~" if chance.random() < 0.2 else version for version in words[2:]]
    return " ".join([name, *words])


def reopens_after_each_removal(folder):
    """Lines at random, in half of the rounds the ends of all holds of an architecture, a line that removes something,
    and then another opening: the answers and the rows are those of the model, and each way comes in which a removal is
    answered."""
    write_lists(folder)
    office, chance, met = LineOffice(folder), random.Random(SEED), Counter()
    for number in range(ROUNDS):
        lines = [*TWO_ARCHS, *commands(chance, office.handed, 12)]
        wanted = office.answers(lines)
        freed = chance.choice([*office.archs, None, None])
        held = [record for record in office.records.values() if record.holder and record.arch == freed]
        lines += [f"give-back {record.arch} {record.source} {record.version}" for record in held]
        wanted += office.answers(lines[len(wanted) :])
        lines.append(removal(chance, office))
        wanted.append(office.answer(lines[-1]))
        answers = answers_of(folder, lines)
        wrong = [each for each in zip(lines, answers, wanted) if each[1] != each[2]]
        expect(not wrong and len(answers) == len(lines), f"round {number}: {wrong[:1]}")
        rows = table_rows(folder)
        differing = sorted({*rows} ^ {*office.rows()})[:4]
        expect(rows == office.rows(), f"round {number}: after {lines[-1]} the rows differ in {differing}")
        met[lines[-1].split()[0], answers[-1].get("refused", "ok")] += 1
    missing = {(name, way) for name, ways in REMOVALS.items() for way in ways.split()} - met.keys()
    expect(ROUNDS < 200 or not missing, f"no removal was {sorted(missing)}")
    return ", ".join(f"{count} {name} {way}" for (name, way), count in sorted(met.items()))


def table_rows(folder):
    """The rows of the file as the model has them."""
    with copied_database(folder) as database:
        return [
            " ".join([table, *map(value_shown, row)])
            for table, (columns, order) in TABLES.items()
            for row in database.execute(f"SELECT {columns} FROM {table} ORDER BY {order}")
        ]


def sqlite3_reads_it(folder):
    """sqlite3 reads what a run left, both after its end and after a kill with the log still full."""
    count = filled(folder)
    met = read_by_sqlite3(folder)
    expect(met == ([(1, 2, 4, 57)], count), f"after the end: {met}")
    session = Session(folder)
    for at in range(50):
        session.ask(f"enter arm64 more{at} 1.0 optional devel")
    session.kill()
    met = read_by_sqlite3(folder)
    expect(met == ([(1, 2, 4, 107)], count + 50), f"after a kill: {met}")


def answers_the_questions_of_its_page(folder):
    """Each question of docs/SCHEMA.md finds something in the office of examples/status, and what the page shows."""
    for path in (ROOT / "examples/status").iterdir():
        shutil.copy(path, folder)
    answers_of(folder, (folder / "lines").read_text().splitlines())
    page = (ROOT / "docs/SCHEMA.md").read_text().partition("## Five questions")[2]
    asked = re.findall("```sql\n(.*?)```(?:\n\n```text\n(.*?)```)?", page, re.S)
    for question, shown in asked:
        found = "".join("|".join(map(str, row)) + "\n" for row in rows_of(folder, question))
        expect(found and shown in ("", found), f"{question} finds {found}")
    expect(len(asked) == 5 and any(shown for _, shown in asked), f"{len(asked)} questions")


TESTS = [
    keeps_records, answers_as_stated, answers_large_examples, answers_as_one_run_over_many, second_program_is_refused,
]
TESTS += [merge_over_a_store, reopens_after_each_removal]
TESTS += [sqlite3_reads_it, answers_the_questions_of_its_page, whole_after_failed_writes, whole_after_kill]
if __name__ == "__main__":
    sys.exit(main(TESTS))

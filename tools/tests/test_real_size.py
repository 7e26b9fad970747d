#!/usr/bin/env python3
"""Tests at the size of Debian's archive and above: merges of a Sources list of 70,000 paragraphs and a Packages list of
77,584, the last of each as large as one may be; openings of an office of 59,851 records, and of one of 40,000 in format
1; a run of 70,000 lines; a report of 40,000; and the removal of an architecture with 35,000 records. Each call of the
program has two minutes of the processor.

    tools/tests/test_real_size.py [NAME..]     these tests, or all

A proof says that each answer is right, but not that a bound of the code is large enough: a list of more paragraphs than
a bound would be refused for want of memory. The lists are made here, and so are the answers that are wanted: every
record, by its state, the whole queue, each answer of the run.

From the environment: WB is the program, that of crates/wb/out where it is not set.
"""
import functools
import heapq
import json
import resource
import runpy
import shutil
import signal
import subprocess
import sys
import tempfile
from collections import Counter
from pathlib import Path

import real_archive as archive
from client_runs import peak
from harness import DEV, HERE, expect, main, program
from store_runs import Session, edit, rows_of

SECONDS = 120  # of the processor, which a call of the program may take
BEGUN = [f"add-arch {archive.ARCH} linux amd64", f"add-builder b1 {archive.ARCH}"]
STATES = (
    "BD-Uninstallable Build-Attempted Building Built Dep-Wait Failed Installed Needs-Build Not-For-Us Uploaded".split()
)
FIRST_LAST, LATER_LAST = "zz-on-the-first-day", "zz-on-the-second-day"  # the last package of the lists of each day
NEVER = "zz-on-no-day"
OLD_RECORDS = 40_000  # of the office in format 1
RUN_LINES, ENTERED, HANDED = 70_000, 20_000, 9_999
REPORTED = 40_000
REMOVED, OTHER = 35_000, "arm64"  # the records that are removed at once, and the architecture that stays
MEGABYTES = 64  # of memory that the program takes at most while it removes them


# ---- runs


def limited():
    resource.setrlimit(resource.RLIMIT_CPU, (SECONDS, SECONDS))


def called(folder, words, lines=()):
    """The status, the answers and the messages of a call of the program, and the seconds of the processor that it
    took."""
    (folder / "lines").write_text("".join(f"{line}\n" for line in lines), encoding="utf-8")
    before = resource.getrusage(resource.RUSAGE_CHILDREN)
    with open(folder / "lines", "rb") as given, open(folder / "said", "wb") as said:
        words = [program(), *words]
        done = subprocess.run(
            words, cwd=folder, stdin=given, stdout=said, stderr=subprocess.PIPE, preexec_fn=limited, check=False
        )
    after = resource.getrusage(resource.RUSAGE_CHILDREN)
    messages = done.stderr.decode(errors="replace")
    expect(done.returncode != -signal.SIGXCPU, f"it took more than {SECONDS} seconds of the processor")
    expect(done.returncode >= 0, f"signal {-done.returncode} ended it: {messages[-300:]}")
    spent = after.ru_utime + after.ru_stime - before.ru_utime - before.ru_stime
    return done.returncode, (folder / "said").read_text(encoding="utf-8").splitlines(), messages, spent


def expect_answers(folder, asked, words=("--store", "store", "run")):
    """Expects of a run that each line, given with its answer, is answered so, and that its status is that of these
    answers. Gives the seconds of the processor that it took."""
    status, said, messages, spent = called(folder, words, [line for line, _ in asked])
    for (line, wanted), answer in zip(asked, said):
        found = json.loads(answer)
        if found != wanted:
            expect(False, f"{line[:80]} is answered otherwise: {difference(found, wanted)}")
    expect(len(said) == len(asked), f"{len(said)} answers to {len(asked)} lines, {said[-1:]}: {messages[-300:]}")
    wanted = int(any("refused" in answer for _, answer in asked))
    expect(status == wanted, f"status {status} in place of {wanted}: {messages[-300:]}")
    return spent


def difference(found, wanted):
    """In which part an answer is another than the one that is wanted."""
    for key in sorted(wanted) if found.keys() == wanted.keys() else ():
        one, other = found[key], wanted[key]
        if isinstance(one, list) and isinstance(other, list):
            at = next((at for at, pair in enumerate(zip(one, other)) if pair[0] != pair[1]), min(len(one), len(other)))
            if one != other:
                shown = f"{one[at : at + 1]}, not {other[at : at + 1]}"
                return f"{key} of {len(one)} in place of {len(other)}, from {at} on: {shown}"
        elif one != other:
            return f"{key} is {one}, not {other}"
    return f"{str(found)[:300]}, not {str(wanted)[:300]}"


# ---- the answers


def done(line, accepted):
    """A line of a command that is done, with its answer."""
    return line, {"accepted": accepted, "ok": line.split()[0]}


def queue_answer(records):
    rows = [{"build": record["build"], "source": record["source"]} for record in archive.queue_of(records)]
    return f"queue {archive.ARCH}", {"arch": archive.ARCH, "queue": rows}


def state_answer(records, state):
    of_state = [record for record in records.values() if record["state"] == state]
    rows = sorted(of_state, key=lambda record: record["source"].encode())
    return f"by-state {archive.ARCH} {state}", {"arch": archive.ARCH, "records": rows, "state": state}


def summary_answer(records, accepted):
    counts = dict.fromkeys(STATES, 0) | Counter(record["state"] for record in records.values())
    return f"summary {archive.ARCH}", {"accepted": accepted, "arch": archive.ARCH, "counts": counts}


def looks(records, accepted):
    """What shows every record of the architecture, and the order of the queue."""
    states = sorted({record["state"] for record in records.values()})
    return [summary_answer(records, accepted), queue_answer(records), *(state_answer(records, it) for it in states)]


def item_answer(record):
    return f"item {record['arch']} {record['source']}", record


def depends_answer(source):
    answer = {"arch": archive.ARCH, "depends": archive.depends_of(source), "source": source.name}
    return f"depends {archive.ARCH} {source.name}", answer


def handed_answer(line, record, take, accepted):
    names = ("arch", "build", "message", "number", "source", "version")
    given = {name: record[name] for name in names}
    return line, {**given, "ok": line.split()[0], "take": take, "accepted": accepted}


def merge_answer(line, before, after, accepted):
    """The answer to a merge that turns these records into those."""
    both = before.keys() & after.keys()
    changed = sum(before[name] != after[name] for name in both)
    part = {
        "added": len(after.keys() - both), "changed": changed, "kept": len(both) - changed,
        "removed": len(before.keys() - both), "arch": archive.ARCH,
    }
    return line, {"accepted": accepted, "ok": "merge", "parts": [part]}


def bad_list_answer(line, which, paragraph):
    fault = {"code": 15, "fault": "TooLarge", "paragraph": paragraph, "refused": "BadListing", "which": which}
    return line, fault


# ---- an office of the first day, which is made once


class FirstDay:
    """An office into which the lists of the first day were merged."""

    def __init__(self):
        self.kept = tempfile.TemporaryDirectory()
        self.folder = Path(self.kept.name)
        self.sources = archive.first_day()
        self.records = archive.records_of(self.sources)
        self.lists = [archive.sources_of(self.sources), archive.packages_of(self.sources, FIRST_LAST)]
        expect(len(self.lists[0]) == archive.PARAGRAPHS, f"{len(self.lists[0])} paragraphs are made")
        write_lists(self.folder, "first", *self.lists)
        merge = merge_answer(merge_of("first"), {}, self.records, 3)
        asked = [*(done(line, at) for at, line in enumerate(BEGUN, 1)), merge]
        self.spent = expect_answers(self.folder, asked)

    def lay_out(self, folder):
        """Gives the folder an office of its own."""
        for path in self.folder.glob("store*"):
            shutil.copy(path, folder)


first_day = functools.cache(FirstDay)


def write_lists(folder, name, sources, packages):
    (folder / f"sources-{name}").write_text("\n".join(sources), encoding="utf-8")
    (folder / f"packages-{name}").write_text("\n".join(packages), encoding="utf-8")


def merge_of(name):
    return f"merge sources-{name} {archive.ARCH}=packages-{name}"


def in_seconds(*spent):
    return ", ".join(f"{seconds:.1f} s" for seconds in spent) + " of the processor"


# ---- the tests, each in an empty folder


def merge_of_70000_paragraphs(folder):
    """The lists of a day are merged into an empty office, and those of the next day into that one, where packages wait
    for one that only the last paragraph of these has. Every record is as the rules say, after each."""
    day = first_day()
    day.lay_out(folder)
    asked, count = before_the_second_day(day, records := dict(day.records))
    later_sources = archive.second_day()
    write_lists(folder, "later", archive.sources_of(later_sources), archive.packages_of(later_sources, LATER_LAST))
    after = archive.records_of(later_sources, records)
    for name, record in records.items():
        if record["state"] == "Dep-Wait" and NEVER in record["waits"]:
            after[name] = record
    asked += [merge_answer(merge_of("later"), records, after, count + 1), *looks(after, count + 1)]
    (folder / "empty").touch()
    asked += [merge_answer(f"merge empty {archive.ARCH}=empty", after, {}, count + 2), *looks({}, count + 2)]
    return in_seconds(day.spent, expect_answers(folder, asked))


def before_the_second_day(day, records):
    """What is asked of the office of the first day, with the answers: it shows its records, hands out the first and the
    last of its queue, takes them back, and lets some wait, which the records say then. And how many commands are
    accepted."""
    queue = archive.queue_of(records)
    asked, count = looks(records, 3), 5
    asked += [item_answer(records[source.name]) for source in day.sources[:: len(day.sources) // 7] if source.is_listed]
    asked += [depends_answer(source) for source in day.sources[:: len(day.sources) // 11] if source.is_listed]
    asked.append(handed_answer(f"next {archive.ARCH} b1", queue[0], 1, 4))
    last = queue[-1]
    asked.append(handed_answer(f"take {archive.ARCH} b1 {last['source']} {last['version']}", last, 2, 5))
    lines = ["put-back 1", "put-back 2"]
    stay = [it for it in day.sources if it.is_listed and not it.built and archive.next_day(it) == it]
    for at, source in enumerate(stay[:: len(stay) // 300]):
        waits = f"{LATER_LAST} (>= 1.0)" if at % 2 else f"{NEVER} | {LATER_LAST} (>> 1.0-1)"
        lines.append(f"dep-wait {archive.ARCH} {source.name} {source.version} {waits}")
        records[source.name] = records[source.name] | {"state": "Dep-Wait", "waits": waits}
    for line in lines:
        count += 1
        asked.append(done(line, count))
    return asked, count


def faults_at_the_end_of_long_lists(folder):
    """Where the last paragraph of a list of this size is one byte longer than it may be, the merge is refused with its
    number."""
    day = first_day()
    lists = [(day.folder / f"{name}-first").read_bytes() for name in ("sources", "packages")]
    for name, text in zip(("sources", "packages"), lists):
        (folder / name).write_bytes(text[:-1] + b"x\n")
        (folder / f"{name}-first").symlink_to(day.folder / f"{name}-first")
    bad = [(f"merge sources {archive.ARCH}=packages-first", "Sources", len(day.lists[0]))]
    bad += [(f"merge sources-first {archive.ARCH}=packages", "Packages", len(day.lists[1]))]
    asked = [done(line, at) for at, line in enumerate(BEGUN, 1)]
    asked += [bad_list_answer(*it) for it in bad] + looks({}, 2)
    return in_seconds(expect_answers(folder, asked, ["run"]))


def opening_of_59851_records(folder):
    """A start finds every record, and says of a row that is no office's, the last of all, which it is."""
    day = first_day()
    day.lay_out(folder)
    count = len(day.records)
    expect(rows_of(folder, "SELECT count(*) FROM source_record") == [(count,)], "sqlite3 counts other records")
    spent = expect_answers(folder, [summary_answer(day.records, 3)], ["--store", "store", "summary", archive.ARCH])
    last = max(day.records, key=str.encode)
    edit(folder / "store", f"UPDATE source_record SET rank = rank + 1 WHERE source = '{last}'")
    status, said, messages, more = called(folder, ["--store", "store", "summary", archive.ARCH])
    expect((status, said) == (3, ['{"fault":"store","store":"Damaged"}']), f"{last} is damaged: {status}, {said}")
    expect(f"in row {count}\n" in messages, f"{last} is damaged in row {count}: {messages}")
    return in_seconds(spent, more)


def opening_of_40000_records_of_format_1(folder):
    """A start brings an office of 40,000 records over into the format of today, whole. Each is held, since a file of
    format 1 takes the square of those that are not to be opened."""
    held = [("hello", "1.0"), *((f"source-{at:05}", "1.0-1") for at in range(2, OLD_RECORDS + 1))]
    given = ", ".join(f"('{name}', {take})" for take, (name, _) in list(enumerate(held, 1))[1:])
    rows = "'amd64', name, 1, '1.0-1', 'optional', 'devel', 0, 0, 'b1', take, '', '', '', '', 263"
    script = (HERE / "stores/format-1.sql").read_text(encoding="utf-8").split(";\n")
    insert = f"WITH given(name, take) AS (VALUES {given}) INSERT INTO source_state SELECT {rows} FROM given"
    edit(folder / "store", *filter(str.strip, script), insert, f"UPDATE office SET handed = {OLD_RECORDS}")
    records = {
        name: {
            "arch": "amd64", "source": name, "state": "Building", "version": version, "build": version, "number": 0,
            "message": "", "build_priority": 0, "holder": "b1", "take": take, "note": "", "waits": "",
            "earlier": False, "priority": "optional", "section": "devel",
        }
        for take, (name, version) in enumerate(held, 1)
    }
    by_take = ("mine b1", {"builder": "b1", "records": list(records.values())})
    first = expect_answers(folder, [by_take, *looks(records, 4)])
    expect(rows_of(folder, "SELECT format FROM office") == [(2,)], "it is not brought over")
    return in_seconds(first, expect_answers(folder, [by_take, *looks(records, 4)]))


def run_of_70000_lines(folder):
    """Each of 70,000 lines is answered, of which some are accepted and the others blank, refused, at fault or queries;
    the last is answered too."""
    lines, answers, status = lines_of_a_run()
    expect(len(lines) == RUN_LINES, f"{len(lines)} lines are made")
    met, said, messages, spent = called(folder, ["run"], lines)
    wrong = next((pair for pair in zip(said, answers) if pair[0] != pair[1]), None)
    expect(wrong is None, f"an answer is {wrong and wrong[0]} in place of {wrong and wrong[1]}")
    expect(len(said) == len(answers), f"{len(said)} answers in place of {len(answers)}: {messages[-300:]}")
    expect(met == status, f"status {met} in place of {status}")
    return in_seconds(spent)


def lines_of_a_run():
    """The lines, the answers and the status of the run."""
    large = runpy.run_path(str(DEV / "large_examples"))
    made, waiting = large["Run"](), []
    made.begin()
    for at in range(ENTERED):
        number = at * 7919 % ENTERED
        source = (f"source-{number:05}", large["PRIORITIES"][at % 5], large["SECTIONS"][at // 5 % 9], False)
        made.ok(f"enter amd64 {source[0]} 1.{number}-1 {source[1]} {source[2]}")
        heapq.heappush(waiting, (large["place"](source), source[0], f"1.{number}-1"))
        if at % 4 == 0:
            made.blank(" \t")
        elif at % 4 == 1:
            made.refused(f"enter amd64 {source[0]} 2.0 optional libs", 10, "AlreadyThere")
        elif at % 4 == 2:
            made.refused(f"built {at + 1}", 8, "NotHeld")
        else:
            made.fault(f"frobnicate amd64 {source[0]}")
    failed = 0
    for at in range(HANDED):
        place, name, version = heapq.heappop(waiting)
        made.next(name, version)
        made.ok(f"built {made.handed}")
        if at % 5:
            made.ok(f"fail amd64 {name} {version} it broke for the {at}th time")
            failed += 1
        else:
            made.ok(f"give-back amd64 {name} {version}")
            heapq.heappush(waiting, (place, name, version))
    counts = dict.fromkeys(STATES, 0) | {"Failed": failed, "Needs-Build": len(waiting)}
    made.answer("summary amd64", {"accepted": made.accepted, "arch": "amd64", "counts": counts}, 0)
    return made.lines, made.answers, made.status


def report_of_40000_lines(folder):
    """A report of 40,000 source packages moves all that wait, and moves nothing when it comes again; one that has them
    all installable moves them back; and a name that stands twice is found at its end."""
    day = first_day()
    day.lay_out(folder)
    waiting = archive.queue_of(day.records)
    others = [record for record in day.records.values() if record["state"] == "Installed"]
    reported = [*waiting, *others][:REPORTED]
    reasons = {
        record["source"]: f"lib{record['source']}-dev (>= {at % 90}.0~) is missing, on which {record['source']} depends"
        for at, record in enumerate(reported)
    }
    names = [f"{record['source']} {record['version']}" for record in reported]
    bad = [f"{name} uninstallable {reasons[name.split()[0]]}" for name in names]
    good = [f"{name}\t installable" for name in reversed(names)]
    for name, lines in {"bad": bad, "good": good, "twice": [*bad, f"{names[0]} installable"]}.items():
        (folder / name).write_text("".join(f"{line}\n" for line in lines), encoding="utf-8")
    after = dict(day.records)
    for record in waiting[:REPORTED]:
        moved = {"state": "BD-Uninstallable", "note": reasons[record["source"]]}
        after[record["source"]] = record | moved
    changed = min(len(waiting), REPORTED)
    asked = [(f"report {archive.ARCH} twice", {"code": 16, "line": REPORTED + 1, "refused": "BadReport"})]
    asked += [report_answer("bad", changed, 4), *looks(after, 4), report_answer("bad", 0, 5)]
    asked += [report_answer("good", changed, 6), *looks(day.records, 6)]
    return in_seconds(expect_answers(folder, asked))


def report_answer(name, changed, accepted):
    return f"report {archive.ARCH} {name}", {"accepted": accepted, "changed": changed, "ok": "report"}


def removal_of_35000_records(folder):
    """An architecture goes with its 35,000 records and its builders once none of these is held. The file then has
    nothing of it, and all of another architecture. It is not there a second time, and is empty once it is added again,
    but its take numbers do not return. The program takes 64 MB at most."""
    asked, records = before_the_removal(folder)
    first = expect_answers(folder, asked)
    accepted, unknown = len(asked), {"code": 1, "refused": "UnknownArch"}
    of_other = f"SELECT * FROM source_record WHERE arch = '{OTHER}' ORDER BY source"
    before, [(count,)] = rows_of(folder, of_other), rows_of(folder, "SELECT count(*) FROM source_record")
    expect(count == REMOVED + len(before), f"it begins with {count} records, {len(before)} of them of {OTHER}")
    line = f"remove-arch {archive.ARCH}"
    asked = [(line, {"code": 23, "refused": "StillHeld"}), done("put-back 1", accepted + 1), done(line, accepted + 2)]
    asked += [(line, unknown), (f"summary {archive.ARCH}", unknown), ("built 1", {"code": 8, "refused": "NotHeld"})]
    asked.append(("mine b2", {"code": 2, "refused": "UnknownBuilder"}))
    second, most = expect_in_session(folder, asked)
    expect(most <= MEGABYTES, f"the program takes {most:.0f} MB")
    for table, column in (("arch", "name"), ("builder", "arch"), ("source_record", "arch")):
        met = rows_of(folder, f"SELECT DISTINCT {column} FROM {table}")
        expect(met == [(OTHER,)], f"of {table} there is left {met}")
    expect(rows_of(folder, of_other) == before, f"the records of {OTHER} are others")
    asked = [done(line, accepted + 3 + at) for at, line in enumerate(BEGUN)]
    asked += [*looks({}, accepted + 4), (f"next {archive.ARCH} b1", {"code": 7, "refused": "QueueEmpty"})]
    name, record = next(iter(records.items()))
    asked.append(done(f"enter {archive.ARCH} {name} {record['version']} extra doc", accepted + 5))
    new = record | {"build": record["version"], "number": 0}
    asked.append(handed_answer(f"next {archive.ARCH} b1", new, 3, accepted + 6))
    return f"{in_seconds(first, second, expect_answers(folder, asked))}; {most:.0f} MB"


def before_the_removal(folder):
    """What is asked of an office of two architectures, with the answers: a merge for each, of few source packages for
    the one that stays, and an assignment of each. And the records of the one that is to go."""
    sources = [source for source in archive.first_day() if source.is_listed][:REMOVED]
    few = [source for source in sources if source.archs != "amd64 i386"][:1000]
    write_lists(folder, "many", map(archive.source_paragraph, sources), archive.packages_of(sources, FIRST_LAST))
    write_lists(folder, "few", map(archive.source_paragraph, few), [])
    records = {source.name: archive.record_of(source) for source in sources}
    lines = [*BEGUN, f"add-arch {OTHER} linux {OTHER}", f"add-builder b1 {OTHER}", f"add-builder b2 {archive.ARCH}"]
    asked = [done(line, at) for at, line in enumerate(lines, 1)]
    asked.append(merge_answer(merge_of("many"), {}, records, 6))
    line, answer = merge_answer(f"merge sources-few {OTHER}=packages-few", {}, dict.fromkeys(few), 7)
    answer["parts"][0]["arch"] = OTHER
    record = records[few[0].name] | {"arch": OTHER, "build": few[0].version, "number": 0}
    take = f"take {OTHER} b1 {few[0].name} {few[0].version}"
    asked += [(line, answer), handed_answer(f"next {archive.ARCH} b1", archive.queue_of(records)[0], 1, 8)]
    return [*asked, handed_answer(take, record, 2, 9)], records


def expect_in_session(folder, asked):
    """The same of lines that are given one after another, each once the one before is answered. Gives the seconds of
    the processor that the run took, and how many MB of memory it had at most."""
    before = resource.getrusage(resource.RUSAGE_CHILDREN)
    session = Session(folder)
    for line, wanted in asked:
        found = json.loads(session.ask(line))
        expect(found == wanted, f"{line} is answered {found}, and not {wanted}")
    most = peak(session)
    expect((status := session.end()) == 1, f"status {status} in place of 1")
    after = resource.getrusage(resource.RUSAGE_CHILDREN)
    spent = after.ru_utime + after.ru_stime - before.ru_utime - before.ru_stime
    expect(spent < SECONDS, f"it took {spent:.0f} seconds of the processor")
    return spent, most


TESTS = [
    merge_of_70000_paragraphs, faults_at_the_end_of_long_lists, opening_of_59851_records,
    opening_of_40000_records_of_format_1, run_of_70000_lines, report_of_40000_lines, removal_of_35000_records,
]

if __name__ == "__main__":
    sys.exit(main(TESTS))

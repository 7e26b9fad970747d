"""Answers from a journal, for tools/bin/wb-history: rows under a title, for each question that is asked of it."""
import argparse
import datetime
from collections.abc import Iterable, Iterator
from dataclasses import dataclass, field
from typing import Any

from wb_tools.answers import STATES, ByState, Record, UnknownArch, ask, counted, printable
from wb_tools.index.asking import Build, Event, Gap, Import, Index, Since, median_of
from wb_tools.index.writing import ENDS
from wb_tools.journal import Key, day_of, time_of

WAITING = (
    "Needs-Build", "Dep-Wait", "BD-Uninstallable", "Build-Attempted",
)  # the states in which a package waits for something
REPORTED = ("Built", "Uploaded")  # those in which a builder has built it, and no merge has seen it in the archive
Row = dict[str, Any]


@dataclass(slots=True)
class Sheet:
    """Rows under a title: of each column its head, its key in the rows, and its kind; what is said under them; and the
    keys of the columns that a narrow terminal does without, the first of them first."""

    title: str
    columns: list[tuple[str, str, str]]
    rows: list[Row]
    notes: list[str] = field(default_factory=list)
    spare: tuple[str, ...] = ()


# ---- what is asked


def package_sheet(index: Index, words: argparse.Namespace) -> Iterator[Sheet]:
    key = (words.arch, words.source)
    events, imports = index.history(key), index.imports(words.arch)
    unnamed = [one for one in imports if index.is_doubted(one)]
    rows = [move_row(event, event.at - before.at if before else None) for before, event in zip([None, *events], events)]
    if words.merges:
        rows = with_imports(rows, imports)
    columns = [
        ("TIME", "time", "time"), ("COMMAND", "command", "text"), ("STATE", "state", "text"),
        ("VERSION", "version", "text"), ("BY", "by", "text"), *HOLDER, ("AFTER", "after", "span"),
        ("TEXT", "text", "cut"),
    ]
    notes = []
    if unnamed and not words.merges:
        which = f"{len(unnamed):,} merges and reports" if len(unnamed) > 1 else "one merge or report"
        first, last = day_of(unnamed[0].at), day_of(unnamed[-1].at)
        days = f"from {first} to {last}" if first != last else f"of {first}"
        notes = [f"{which} of {printable(words.arch)} {days} may have moved it too; --merges shows them"]
    if gaps := index.gaps():
        notes.append(f"{counted(len(gaps), 'gap')} of the journal may hide more of it; the question gaps shows where")
    title = f"{printable(words.source)} on {printable(words.arch)}: {counted(len(events), 'command')} of the journal"
    yield Sheet(title, columns, rows, notes, ("version", "after"))


def move_row(event: Event, after: int | None) -> Row:
    row = {
        "accepted": event.accepted, "after": after, "builder": event.builder, "by": event.by, "command": event.command,
        "state": "removed" if event.state == "" else event.state or "", "was": event.was,
    }
    return row | {"take": event.take, "text": event.text, "time": time_of(event.at), "version": event.version}


def with_imports(rows: list[Row], imports: list[Import]) -> list[Row]:
    """The rows of a package's history with the merges and reports of its architecture: what the answer counts stands
    in the row of one that moved it, and the others have rows of their own."""
    counts = {one.accepted: one.text for one in imports}
    rows = [row | {"text": counts.get(row["accepted"], row["text"])} for row in rows]
    there = {row["accepted"] for row in rows}
    rows += [import_row(one) for one in imports if one.accepted not in there]
    return sorted(rows, key=lambda row: row["accepted"])


def import_row(one: Import) -> Row:
    """A merge or a report as a row of a package's history."""
    row: Row = dict.fromkeys(("after", "builder", "state", "take", "version", "was"))
    return row | {
        "accepted": one.accepted, "by": one.by, "command": one.command, "text": one.text, "time": time_of(one.at),
    }


def building_rows(index: Index, words: argparse.Namespace) -> list[Row]:
    """What is being built, the longest first: by the journal, or by a serving office, with what the journal knows of
    it."""
    rows = []
    if words.url:
        for record, since in asked(index, words, "Building"):
            rows.append(held_row(record.arch, record.source, record.version, record.holder, record.take)
                        | age_of(since, words))
    else:
        for build in index.builds(result="building", arch=words.arch):
            row = held_row(build.arch, build.source, build.version, build.builder, build.take)
            row |= age_of(Since(build.started, True), words)
            rows.append(row | doubts_of(index, build.arch, build.accepted, "merge"))
    return longest_first(rows)


def held_row(arch: str, source: str, version: str, builder: str | None, take: int | None) -> Row:
    return {"arch": arch, "builder": builder, "source": source, "take": take, "version": version}


def resting_rows(index: Index, words: argparse.Namespace, states: tuple[str, ...]) -> list[Row]:
    """What is in these states, the longest first, since the command that brought it there: by the journal, or by a
    serving office, with what the journal knows of it."""
    rows: list[Row] = []
    if words.url:
        for state in states:
            for record, since in asked(index, words, state):
                row = {"arch": record.arch, "source": record.source, "state": state, "version": record.version}
                row |= {"builder": record.holder, "take": record.take} if record.holder else {}
                rows.append(row | {"text": record.waits or record.note or record.message} | age_of(since, words))
        return longest_first(rows)
    is_held = set(states) <= {"Building", *REPORTED}
    names = ("merge",) if is_held else ("merge", "report")  # a report moves nothing that is held
    for one in index.resting(states, words.arch):
        event = one.event
        row = {"arch": one.key[0], "source": one.key[1], "state": event.state, "version": event.version}
        row |= {"builder": event.builder, "take": event.take} if event.take is not None and states == REPORTED else {}
        rows.append(row | {"text": event.text} | age_of(one.since, words))
        rows[-1] |= doubts_of(index, one.key[0], event.accepted, *names)
    return longest_first(rows)


def doubts_of(index: Index, arch: str, accepted: int, *names: str) -> Row:
    """Whether what the journal saw at a count may have moved since: by a merge or a report that names nothing, or while
    lines are missing."""
    merged = index.may_have_moved(arch, accepted, *names)
    return {"may_have_moved": merged or index.is_unseen_since(accepted), "merged": merged}


def age_of(since: Since | None, words: argparse.Namespace) -> Row:
    """How long ago something was, if it is known; and the time before which it was, if only that is."""
    if since is None or since.is_exact:
        at = since and since.at
        return {"age": None if at is None else max(0, words.now - at), "since": None if at is None else time_of(at)}
    return {"age": None, "before": time_of(since.at), "since": None}


def longest_first(rows: list[Row]) -> list[Row]:
    def key_of(row: Row) -> tuple[Any, ...]:
        return row["age"] is None, -(row["age"] or 0), row.get("before", "~"), row["arch"], row["source"]

    return sorted(rows, key=key_of)


def asked(index: Index, words: argparse.Namespace, state: str) -> Iterator[tuple[Record, Since | None]]:
    """The records in a state of a serving office, of one architecture or of all that the journal names and the office
    still has, and since when each is in it."""
    for arch in [words.arch] if words.arch else index.archs():
        try:
            answer = ask(words.url, "by-state", [arch, state], words.wait, words.keys.of(""))
        except UnknownArch:
            if words.arch:
                raise
            continue  # it was removed
        assert isinstance(answer, ByState)
        since = index.since_each(arch, state, {record.source: record.take for record in answer.records})
        yield from ((record, since[record.source]) for record in answer.records)


SINCE = [("SINCE", "since", "since"), ("AGE", "age", "span"), ("MAY HAVE MOVED", "may_have_moved", "mark")]
PACKAGE = [("ARCH", "arch", "text"), ("SOURCE", "source", "text"), ("VERSION", "version", "text")]
STATE, HOLDER = ("STATE", "state", "text"), [("BUILDER", "builder", "text"), ("TAKE", "take", "number")]


def ages_sheets(index: Index, words: argparse.Namespace) -> Iterator[Sheet]:
    if words.state:
        yield state_sheet(index, words)
        return
    building, waiting = building_rows(index, words), resting_rows(index, words, WAITING)
    every = resting_rows(index, words, REPORTED)
    reported = [row for row in every if not row.get("merged")]
    title = f"{counted(len(building)).capitalize()} being built"
    yield Sheet(title, [*PACKAGE, *HOLDER, *SINCE], building, unknown_notes(building), spare_of(building))
    title = f"{counted(len(reported)).capitalize()} built or uploaded"
    notes = unknown_notes(reported)
    if len(reported) < len(every):
        before = counted(len(every) - len(reported))
        notes.append(f"{before} reported before a merge, which may have found them in the archive, are left out; --url "
                     "asks for them")
    yield Sheet(title, [*PACKAGE, STATE, *HOLDER, *SINCE], reported, notes, spare_of(reported))
    title, columns = f"{counted(len(waiting)).capitalize()} waiting", [*PACKAGE, STATE, *SINCE, ("TEXT", "text", "cut")]
    yield Sheet(title, columns, waiting, unknown_notes(waiting), spare_of(waiting))


def state_sheet(index: Index, words: argparse.Namespace) -> Sheet:
    """What is in one state, the longest first."""
    rows = resting_rows(index, words, (words.state,))
    columns = [*PACKAGE, *(HOLDER if any(row.get("take") for row in rows) else []), *SINCE, ("TEXT", "text", "cut")]
    title = f"{counted(len(rows)).capitalize()} in {words.state}"
    return Sheet(title, columns, rows, unknown_notes(rows), spare_of(rows))


def spare_of(rows: list[Row]) -> tuple[str, ...]:
    """What a narrow terminal does without: an architecture that all rows have, the time of which the age says the same,
    take numbers, versions."""
    named = () if len({row["arch"] for row in rows}) > 1 else ("arch",)
    return (*named, "since", "take", "version", "may_have_moved")


def unknown_notes(rows: list[Row]) -> list[str]:
    unknown = sum(row["age"] is None and "before" not in row for row in rows)
    return (
        [f"of {counted(unknown)} the journal does not say since when: a merge or a report moved it, or it began before"]
        if unknown
        else []
    )


def suspects_sheet(index: Index, words: argparse.Namespace) -> Iterator[Sheet]:
    """What builds for longer than so many times the median of the package, or else of its builder."""
    medians = Medians(index.builds())
    rows = []
    for row in building_rows(index, words):
        median, whose = medians.of((row["arch"], row["source"]), row["builder"])
        if row["age"] is not None and median is not None and row["age"] > max(words.times * median, 60 * words.least):
            rows.append(row | {"median": median, "of": whose, "times": round(row["age"] / max(1, median), 1)})
    columns = [*PACKAGE, ("BUILDER", "builder", "text"), ("TAKE", "take", "number"), *SINCE]
    columns += [("MEDIAN", "median", "span"), ("OF", "of", "text"), ("TIMES", "times", "number")]
    title = f"{counted(len(rows)).capitalize()} building for more than {words.times:g} times the median"
    yield Sheet(title, columns, rows, spare=("of", *spare_of(rows)))


class Medians:
    """The medians of builds that ended well, by package and by builder."""

    def __init__(self, builds: Iterable[Build]) -> None:
        self.packages: dict[Key, list[int]] = {}
        self.builders: dict[tuple[str, str | None], list[int]] = {}
        for build in builds:
            if build.is_done and build.took is not None:
                self.packages.setdefault(build.key, []).append(build.took)
                self.builders.setdefault((build.arch, build.builder), []).append(build.took)

    def of(self, key: Key, builder: str | None) -> tuple[int | None, str]:
        """The median of a package if it was built before, else that of its builder on the architecture; and whose it
        is."""
        if key in self.packages:
            return median_of(self.packages[key]), "package"
        return median_of(self.builders.get((key[0], builder), [])), "builder"


def builders_sheet(index: Index, words: argparse.Namespace) -> Iterator[Sheet]:
    rows: dict[tuple[str, str], Row] = {}
    times: dict[tuple[str, str], list[int]] = {}
    for build in index.builds(arch=words.arch):
        key = build.arch, build.builder or ""
        row = rows.setdefault(key, new_builder(*key))
        row["taken"] += 1
        row[build.result] += 1
        row["last"] = max(row["last"], time_of(build.started if build.took is None else build.ended or build.started))
        if build.is_done and build.took is not None:
            times.setdefault(key, []).append(build.took)
    for key, row in rows.items():
        row |= {"longest": max(times.get(key, []), default=None), "median": median_of(times.get(key, []))}
    columns = [("ARCH", "arch", "text"), ("BUILDER", "builder", "text")]
    columns += [
        (head.upper().replace("_", " "), head, "number")
        for head in ("taken", "built", "failed", "waited", "put_back", "other", "building")
    ]
    columns += [("MEDIAN", "median", "span"), ("LONGEST", "longest", "span"), ("LAST", "last", "time")]
    title = (
        f"{counted(len(rows), 'builder').capitalize()}, with the median and the longest of the builds that ended well"
    )
    found = [rows[key] for key in sorted(rows)]
    yield Sheet(title, columns, found, spare=("longest", "other", "put_back", "waited"))


def new_builder(arch: str, builder: str) -> Row:
    return {"arch": arch, "builder": builder, "last": ""} | dict.fromkeys(
        ["taken", "other", "building", *ENDS.values()], 0
    )


def builds_sheet(index: Index, words: argparse.Namespace) -> Iterator[Sheet]:
    """Each hand-out, the last first, with its result and how long it took."""
    builds = index.builds("ORDER BY id DESC", arch=words.arch, builder=words.builder, source=words.source)
    rows = [build_row(build) for build in builds]
    columns = [*PACKAGE, *HOLDER, ("STARTED", "started", "time"), ("RESULT", "result", "text")]
    columns += [("TOOK", "took", "span"), ("TEXT", "text", "cut")]
    yield Sheet(f"{counted(len(rows), 'build').capitalize()}", columns, rows, spare=("take", "version"))


def build_row(build: Build) -> Row:
    row = held_row(build.arch, build.source, build.version, build.builder, build.take)
    row |= {"build": build.build, "ended": None if build.ended is None else time_of(build.ended), "text": build.text}
    return row | {"result": build.result.replace("_", " "), "started": time_of(build.started), "took": build.took}


def days_sheet(index: Index, words: argparse.Namespace) -> Iterator[Sheet]:
    """How many packages were built on each of the last days, those without a build among them."""
    days = index.built_by_day()
    archs = sorted({arch for counts in days.values() for arch in counts if words.arch in (None, arch)})
    rows: list[Row] = []
    for day in days_of(index, words, days):
        counts = {arch: days.get(day, {}).get(arch, 0) for arch in archs}
        rows.append({"all": sum(counts.values()), "archs": counts, "day": day})
    columns = [("DAY", "day", "text"), *((arch, f"archs/{arch}", "number") for arch in archs), ("ALL", "all", "number")]
    yield Sheet(f"{counted(sum(row['all'] for row in rows)).capitalize()} built", columns, rows)


def days_of(index: Index, words: argparse.Namespace, found: Iterable[str]) -> Iterator[str]:
    """The last days up to that of the last entry, from the first of those on which something was."""
    begin, (_, last) = min(found, default=None), index.ends()
    if begin is None or last is None:
        return
    first, end = datetime.date.fromisoformat(begin), datetime.date.fromisoformat(day_of(last[1]))
    first = max(first, end - datetime.timedelta(words.days - 1)) if words.days else first
    for at in range((end - first).days + 1):
        yield str(first + datetime.timedelta(at))


def states_sheet(index: Index, words: argparse.Namespace) -> Iterator[Sheet]:
    """How many packages came into each state on each of the last days."""
    days = index.moves_by_day(words.arch)
    rows = [{"day": day} | dict.fromkeys(STATES, 0) | days.get(day, {}) for day in days_of(index, words, days)]
    columns = [("DAY", "day", "text"), *((state, state, "number") for state in STATES)]
    count = sum(row[state] for row in rows for state in STATES)
    yield Sheet(f"{counted(count, 'move').capitalize()} into states", columns, rows)


def gaps_sheet(index: Index, words: argparse.Namespace) -> Iterator[Sheet]:
    rows = [gap_row(gap) for gap in index.gaps()]
    columns = [
        ("AFTER", "before", "number"), ("AT", "before_time", "time"), ("GOES ON", "after", "number"),
        ("AT", "after_time", "time"),
    ]
    columns += [("MISSING", "missing", "number"), ("WHAT", "what", "cut")]
    yield Sheet(f"{counted(len(rows), 'gap').capitalize()}", columns, rows, spare=("after_time", "before_time"))


def gap_row(gap: Gap) -> Row:
    what = "commands without a line" if gap.missing else "the office began anew, or is a copy of before"
    what = what if gap.before else "the journal begins later than the office"
    row: Row = {"after": gap.after[0], "after_time": time_of(gap.after[1]), "missing": gap.missing, "what": what}
    before = gap.before
    return row | {"before": before and before[0], "before_time": before and time_of(before[1])}

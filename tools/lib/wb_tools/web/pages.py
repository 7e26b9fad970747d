"""What stands on the first page of the site and on that of a package."""
import re
import statistics
from collections.abc import Iterable
from typing import Any
from urllib.parse import quote

from wb_tools.answers import STATES, Record
from wb_tools.index.asking import Build, Event
from wb_tools.journal import time_of
from wb_tools.web.charts import DAYS, bar, chart
from wb_tools.web.orders import COMMANDS, is_allowed
from wb_tools.web.settings import Suite
from wb_tools.web.tables import Column, Row, listed
from wb_tools.web.visit import Visit

OLDEST = 10  # rows of what has waited longest
Page = dict[str, Any]  # what a template shows; `status` is that of the page, and `template` its name

# What each state means to somebody who does not know it (docs/operations/PORTER.md).
MEANINGS = {
    "Needs-Build": "It waits in the queue for a builder.",
    "Building": "A builder builds it now.",
    "Built": "It is built, and its builder has not uploaded it yet.",
    "Uploaded": "It is uploaded, and the archive does not list it yet.",
    "Installed": "The archive has it.",
    "Dep-Wait": "It waits until the archive has what it needs to be built; then a merge puts it into the queue.",
    "BD-Uninstallable": "What it needs to be built cannot be installed there now; the next report may change it.",
    "Build-Attempted": "Its build failed, and no porter has looked at it yet: it may be given back, or be mended.",
    "Failed": "A porter found that it cannot be built until something is mended, as the note says.",
    "Not-For-Us": "It is not to be built on this architecture, as a porter decided.",
}
PACKAGE = Column("source", "Package", "package")
ARCH, STATE, BUILDER = Column("arch", "Architecture", "arch"), Column("state", "State", "state"), Column(
    "builder", "Builder", "builder"
)
EVENTS = (
    Column("at", "Time", "time"), ARCH, Column("command", "Command"), Column("state", "State", "move"),
    Column("version", "Version", "version"), BUILDER, Column("by", "By", "by"), Column("text", "Text", "note"),
)
BUILDS = (
    Column("started", "Started", "time"), ARCH, Column("build", "Build", "version"), BUILDER,
    Column("took", "Took", "span"), Column("result", "Result", "result"), Column("log", "Log", "log"),
    Column("text", "Text", "note"),
)


# ---- the first page


def front(visit: Visit) -> Page:
    """Where each suite and architecture stands, what was built and failed, what has waited longest, silent builders."""
    rows: list[Row] = []
    days: list[Row] = []
    oldest: list[Row] = []
    silent: list[Row] = []
    for suite in visit.suites():
        for found, make in (rows, summary_rows), (days, chart_rows), (oldest, oldest_rows), (silent, silent_rows):
            with visit.of(suite):
                found += make(visit, suite)
    counts = [Column(f"counts/{state}", state, "count") for state in STATES]
    return {
        "template": "front.html", "title": visit.settings.title, "status": visit.status(True), "is_shown": bool(days),
        "archs": listed("Packages in each state", visit.columns(ARCH, Column("bar", "States", "bars"), *counts), rows,
                        visit.args, "", "a-"),
        "days": listed(f"Built and failed on each of the last {DAYS} days", visit.columns(
            ARCH, Column("chart", "Each day", "chart"), Column("built", "Built", "number"),
            Column("failed", "Failed", "number")), days, visit.args, "", "d-"),
        "oldest": listed("What has waited longest to be built", visit.columns(
            PACKAGE, ARCH, Column("version", "Version", "version"), Column("since", "Since", "since")),
            oldest[: OLDEST * len(visit.suites())], visit.args, "since", "o-"),
        "silent": listed(f"Builders without a word for {visit.settings.silent} hours", visit.columns(
            BUILDER, Column("at", "Last heard", "time")), silent, visit.args, "at", "s-"),
    }


def summary_rows(visit: Visit, suite: Suite) -> Iterable[Row]:
    for at, arch in enumerate(visit.known(suite).archs):
        found = visit.ask(suite, "summary", arch)
        if found is None:
            visit.notes.append(f"{suite.name}: the office does not know {arch}, which the settings name")
            continue
        if not at:
            visit.mind_lag(suite, found["accepted"])
        counts = {state: found["counts"][state] for state in STATES}
        total = sum(counts.values())
        row = {"suite": suite.name, "arch": arch, "bar": bar(counts), "total": total, "accepted": found["accepted"]}
        yield row | {f"counts/{state}": count for state, count in counts.items()}


def chart_rows(visit: Visit, suite: Suite) -> Iterable[Row]:
    index = visit.index(suite)
    if index:
        found = index.ends_by_day(visit.now - 86400 * DAYS)
        for arch in visit.known(suite).archs:
            drawn = chart({day: archs.get(arch, {}) for day, archs in found.items()}, visit.now)
            figures = {"built": drawn["built"], "failed": drawn["failed"]}
            yield {"suite": suite.name, "arch": arch, "chart": drawn} | figures


def oldest_rows(visit: Visit, suite: Suite) -> list[Row]:
    """What waits in the queues, the longest first, as far as the journal knows."""
    index, rows = visit.index(suite), []
    for arch in visit.known(suite).archs if index else ():
        found = visit.ask(suite, "queue", arch)
        queued = {one.get("source"): one.get("build") for one in found["queue"]} if found else {}
        names = [name for name in index.oldest(arch, "Needs-Build") if name in queued] if index and queued else []
        for name in names[:OLDEST]:
            since = visit.since(suite, (arch, name), "Needs-Build", None)
            rows.append({"suite": suite.name, "source": name, "arch": arch, "version": queued[name], "since": since})
    return sorted(rows, key=lambda row: row["since"]["at"] if row["since"] else "~")[:OLDEST]


def silent_rows(visit: Visit, suite: Suite) -> Iterable[Row]:
    """Those of the builders that the office has; of an older office, those of which the journal has a word."""
    index = visit.index(suite)
    heard = index.last_heard() if index else {}
    known = visit.known(suite).builders if index else ()
    for builder in sorted(heard if known is None else known):
        at = heard.get(builder)
        if at is None or visit.now - at > 3600 * visit.settings.silent:
            yield {"suite": suite.name, "builder": builder, "at": at and time_of(at)}


# ---- a package


def package(visit: Visit, name: str) -> Page:
    """All that is known of a package."""
    rows, builds, events = [], [], []
    for suite in visit.suites():
        with visit.of(suite):
            rows += record_rows(visit, suite, name)
            visit.ask_accepted(suite)
        index = visit.index(suite)
        with visit.of(suite):
            found = list(index.builds("ORDER BY id DESC", source=name)) if index else []
            builds += [build_row(visit, suite, build) for build in found]
            changes = index.events("source = ?", (name,), "ORDER BY id DESC") if index else []
            events += [event_row(suite, event) for event in changes]
    records = visit.columns(
        ARCH, STATE, Column("build", "Version", "version"), Column("since", "Since", "since"), BUILDER,
        Column("place", "Place", "queued"), Column("waits", "Waits for", "waits"),
        Column("note", "Note", "note"),
    )
    return {
        "template": "package.html", "title": name, "status": visit.status(bool(rows or events)), "name": name,
        "is_shown": bool(rows or events),
        "records": listed("Where it stands", records, rows, visit.args, "", "r-"),
        "absent": absent_from(visit, rows) if rows else [],
        "meanings": {state: MEANINGS[state] for state in STATES if any(row["state"] == state for row in rows)},
        "needs": needs_of(rows),
        "builds": listed("Builds", visit.columns(*BUILDS), builds, visit.args, "-started", "b-"),
        "events": listed("History", visit.columns(*EVENTS), events, visit.args, "-at"),
        "links": {key: getattr(visit.settings, key).format(source=quote(name)) for key in ("tracker", "bugs")},
        "medians": medians_of(builds), "acts": acts_on(rows),
    }


def acts_on(rows: list[Row]) -> list[Row]:
    """What may be said of rows that have a box, each command with the rows whose state allows it."""
    found = [{"command": one, "rows": [row for row in rows if row["box"] and is_allowed(one.word, row["state"])]}
             for one in COMMANDS.values()]
    return [one | {"is_held": any(row["builder"] for row in one["rows"])} for one in found if one["rows"]]


def record_rows(visit: Visit, suite: Suite, name: str) -> Iterable[Row]:
    for arch in visit.known(suite).archs:
        found = visit.ask(suite, "item", arch, name)
        if found is not None:
            record = visit.record(suite, found)
            row = record_row(visit, suite, record)
            row["place"], row["queued"] = place_of(visit, suite, record)
            needs = visit.ask(suite, "depends", arch, name)
            yield row | {"needs": needs["depends"] if needs else None}


def record_row(visit: Visit, suite: Suite, record: Record) -> Row:
    """A record as a row of a table."""
    row = {name: getattr(record, name) for name in ("arch", "source", "state", "version", "build", "note", "take")}
    since = visit.since(suite, (record.arch, record.source), record.state, record.take)
    row |= {"suite": suite.name, "builder": record.holder, "priority": record.build_priority or None, "since": since}
    row["box"] = visit.box(suite, record)
    return row | {"waits": waits_of(visit, record.waits), "note": record.note or record.message}


def place_of(visit: Visit, suite: Suite, record: Record) -> tuple[int | None, int | None]:
    """The place in the queue, if it is there, of which the first is 1, and how many are there."""
    found = visit.ask(suite, "queue", record.arch) if record.state == "Needs-Build" else None
    names = [one.get("source") for one in found["queue"]] if found else []
    return (names.index(record.source) + 1, len(names)) if record.source in names else (None, None)


def absent_from(visit: Visit, rows: list[Row]) -> list[Row]:
    """The architectures of offices that answered all and have no record of a package."""
    there = {(row["suite"], row["arch"]) for row in rows}
    suites = [suite for suite in visit.suites() if suite.name in visit.heard]
    pairs = [(suite.name, arch) for suite in suites for arch in visit.known(suite).heard]
    return [{"suite": suite, "arch": arch} for suite, arch in pairs if (suite, arch) not in there]


def waits_of(visit: Visit, text: str) -> list[Row]:
    """Relations in parts, those that are names of packages with what they lead to."""
    found = []
    for part in re.findall(r"[a-z0-9][a-z0-9+.-]+|[(][^)]*[)]|[^a-z0-9(]+|.", text):
        is_name = re.fullmatch("[a-z0-9][a-z0-9+.-]+", part) is not None
        href = visit.settings.binary.format(package=quote(part)) if is_name else ""
        found.append({"text": part, "name": part if is_name else None, "href": href})
    return found


def needs_of(rows: list[Row]) -> list[Row]:
    """What it needs to be built, each text once, with the architectures of which it is so."""
    found: dict[str, list[str]] = {}
    for row in rows:
        needs = row.pop("needs")
        text = "It cannot be read." if needs is None else needs or "Nothing is known."
        found.setdefault(text, []).append(row["arch"])
    return [{"text": text, "archs": sorted(set(archs))} for text, archs in found.items()]


def build_row(visit: Visit, suite: Suite, build: Build) -> Row:
    """A build as a row of a table."""
    row = {name: getattr(build, name) for name in ("arch", "source", "version", "builder", "took", "text")}
    row |= {"suite": suite.name, "build": build.build or build.version, "started": time_of(build.started)}
    row |= {"ended": time_of(build.ended) if build.ended else None, "result": build.result.replace("_", " ")}
    return row | {"log": log_of(visit, build) if build.took is not None else None}


def log_of(visit: Visit, build: Build) -> str | None:
    """The address of the log of a build."""
    names = {name: quote(str(getattr(build, name) or ""), safe="") for name in ("source", "version", "arch", "builder")}
    return visit.settings.log.format(build=quote(build.build or build.version, safe=""), **names) or None


def event_row(suite: Suite, event: Event) -> Row:
    """What a line says of a package as a row of a table."""
    row = {name: getattr(event, name) for name in ("arch", "source", "command", "was", "builder", "by", "text", "take")}
    row |= {"suite": suite.name, "at": time_of(event.at), "version": event.build or event.version}
    return row | {"state": "removed" if event.state == "" else event.state, "accepted": event.accepted}


def medians_of(builds: list[Row]) -> list[Row]:
    """How long builds that ended well took, by architecture."""
    took: dict[str, list[int]] = {}
    for row in builds:
        if row["result"] == "built" and row["took"] is not None:
            took.setdefault(row["arch"], []).append(row["took"])
    return [{"arch": arch, "took": int(statistics.median(found))} for arch, found in sorted(took.items())]

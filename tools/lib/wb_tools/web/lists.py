"""What stands on the pages of an architecture, a state and a builder, and on that of all events."""
import calendar
import re
from collections import Counter
from collections.abc import Iterator, Mapping, Sequence
from typing import Any

from wb_tools.answers import HELD, STATES
from wb_tools.index.asking import Index, LastBuild, median_of
from wb_tools.web.charts import bar
from wb_tools.web.offices import Fault
from wb_tools.web.orders import commands_from
from wb_tools.web.pages import (
    ARCH, BUILDER, BUILDS, EVENTS, MEANINGS, PACKAGE, STATE, Page, build_row, event_row, log_of, record_row,
)
from wb_tools.web.settings import Suite
from wb_tools.web.tables import ROWS, Column, Order, Row, address, listed, order_of, places_in, sort, table
from wb_tools.web.visit import Visit

FILTERS = ("source", "arch", "builder", "by", "command")  # columns by which /history chooses
FAILURES = ("Build-Attempted", "Failed")  # states of which a porter wants to see the log
FIELDS = {"builder": "holder", "priority": "build_priority"}  # of a record, by the columns that have another name
COLUMNS = {"build": "version"}  # of an index, by which other columns of a page are sorted
REASONS = 8  # of the records of a state, those that are the most frequent
REASON = 200  # characters of one by which records are searched


# ---- an architecture


def arch(visit: Visit, name: str) -> Page:
    """How many packages an architecture has in each state, of each suite."""
    suites = []
    for suite in visit.suites():
        with visit.of(suite):
            found = visit.ask(suite, "summary", name) if name in visit.known(suite).archs else None
            if found:
                visit.mind_lag(suite, found["accepted"])
                suites.append({"suite": suite.name, "bar": bar(found["counts"])}
                              | {"states": states_table(visit, suite, name, found["counts"])})
    status = visit.status(bool(suites))
    return {"template": "arch.html", "title": name, "status": status, "arch": name, "suites": suites}


def states_table(visit: Visit, suite: Suite, name: str, counts: dict[str, int]) -> Row:
    rows = [{"suite": suite.name, "arch": name, "state": state, "count": counts[state]} for state in STATES]
    columns, caption = [STATE, Column("count", "Packages", "number")], f"Packages of {suite.name} in each state"
    return listed(caption, columns, rows, visit.args, "", f"{suite.name}-")


def state(visit: Visit, arch_name: str, name: str) -> Page:
    """The records of a state, with their places if it is the queue."""
    page: Page = {"template": "state.html", "title": f"{name} on {arch_name}", "arch": arch_name, "state": name}
    page |= {"q": visit.args.get("q", ""), "suite": None, "suites": [], "records": None}
    page |= {"from": visit.args.get("from", ""), "reasons": None, "meaning": MEANINGS.get(name)}
    having = []
    for one in visit.settings.suites:
        with visit.of(one):
            having += [one] if arch_name in visit.known(one).archs else []
    suite = next((one for one in having if one in visit.suites()), None)
    if suite and name in STATES:
        page |= {"suite": suite.name, "suites": [one.name for one in having] if visit.is_of_several else []}
        with visit.of(suite):
            visit.ask_accepted(suite)
            found = visit.ask(suite, "by-state", arch_name, name)
            if found:
                page["records"] = records_table(visit, suite, arch_name, name, found["records"])
                page["reasons"] = reasons_table(visit, found["records"])
                page |= marks_of(visit, [row["box"] for row in page["records"]["rows"]])
    return page | {"status": visit.status(page["records"] is not None)}


def records_table(visit: Visit, suite: Suite, arch_name: str, name: str, found: list[dict[str, Any]]) -> Row:
    """Records as a table; only those that are shown are looked at closely."""
    columns, caption, text = columns_of(name), f"{name} on {arch_name}", visit.args.get("q", "")
    chosen = [one for one in found if has_text(one, text)] if text else found
    begin = day_begin(visit.args.get("from", ""))
    if begin is not None:
        times = times_of(visit, suite, arch_name, name, chosen)
        chosen = [one for one, at in zip(chosen, times) if isinstance(at, int) and at >= begin]
    order = order_of(visit.args, columns, columns[0].key)
    builds = last_builds(visit, suite, arch_name) if name in FAILURES else {}
    places = places_of(visit, suite, arch_name) if name == "Needs-Build" else {}
    if order.key == "since":
        values = times_of(visit, suite, arch_name, name, chosen)
    elif order.key == "place":
        values = [places.get(str(one.get("source"))) for one in chosen]
    elif order.key in ("builder", "failures") and name in FAILURES:
        values = [getattr(builds.get(build_key(one)), order.key, None) for one in chosen]
    else:
        values = [value_of(one, order.key) for one in chosen]
    part = places_in(values, order.is_down)[order.offset : order.offset + ROWS]
    rows = [row_of(suite, chosen[at]) | {"place": places.get(str(chosen[at].get("source")))} for at in part]
    columns = [Column("box", "Mark", "box"), *columns]
    return table(caption, columns, closely(visit, rows, builds), len(chosen), order, visit.args)


def marks_of(visit: Visit, boxes: Sequence[Row | None]) -> Page:
    """What may be said of the rows that are marked, and the addresses that mark all of them, those of a state, and
    none; nothing if no row has a box."""
    states = {box["state"] for box in boxes if box}
    some = [state for state in STATES if state in states] if len(states) > 1 else []
    marks = [(word, address(visit.args, marked=word)) for word in ("all", *some)]
    page: Page = {"acts": commands_from(sorted(states)), "marks": [*marks, ("none", address(visit.args))]}
    return page | {"is_held": not states.isdisjoint(HELD)} if states else {}


def reasons_table(visit: Visit, found: list[dict[str, Any]]) -> Row | None:
    """Why the records of a state are there, each reason that several have, with the list of those that have it."""
    texts = (one.get("waits") or one.get("note") or one.get("message") for one in found)
    counts = Counter(text for text in texts if isinstance(text, str) and text)
    rows = [{"text": text, "count": count, "href": address({"suite": visit.args.get("suite", "")}, q=text[:REASON])}
            for text, count in counts.most_common(REASONS) if count > 1]
    order = Order("", False, 1)
    columns = [Column("text", "Reason", "reason"), Column("count", "Packages", "number")]
    return table("The same reason", columns, rows, len(rows), order, {}, is_fixed=True) if rows else None


def columns_of(name: str) -> list[Column]:
    """The columns of the records of a state."""
    return [
        *([Column("place", "Place", "number")] if name == "Needs-Build" else []), PACKAGE,
        Column("build", "Version", "version"), Column("since", "Since", "since", is_down=name in FAILURES),
        *([BUILDER] if name in (*HELD, *FAILURES) else []),
        *([Column("waits", "Waits for", "waits")] if name == "Dep-Wait" else []),
        *([Column("failures", "Failed builds", "number", is_down=True)] if name in FAILURES else []),
        *([Column("log", "Log", "log")] if name in FAILURES else []), Column("priority", "Build priority", "number"),
        Column("note", "Note", "note"),
    ]


def value_of(found: dict[str, Any], key: str) -> object:
    """What of a record stands in a column."""
    if key == "note":
        return found.get("note") or found.get("message")
    return found.get(FIELDS.get(key, key)) or None


def row_of(suite: Suite, found: dict[str, Any]) -> Row:
    """A record as it is answered, and by what it is sorted."""
    keys = ("source", "arch", "state", "build", "take", "builder")
    return {key: value_of(found, key) for key in keys} | {"suite": suite.name, "found": found, "of": suite}


def closely(visit: Visit, rows: list[Row], builds: Mapping[tuple[str, str], LastBuild]) -> list[Row]:
    """Rows of records, with all that is shown of them."""
    found = []
    for row in rows:
        one = record_row(visit, row["of"], visit.record(row["of"], row["found"])) | {"place": row.get("place")}
        last = builds.get((one["source"], one["build"]))
        if last:
            one |= {"builder": last.builder, "failures": last.failures, "log": last_log(visit, row["of"], last)}
        found.append(one)
    return found


def build_key(found: dict[str, Any]) -> tuple[str, str]:
    return str(found.get("source")), str(found.get("build"))


def last_builds(visit: Visit, suite: Suite, arch_name: str) -> dict[tuple[str, str], LastBuild]:
    """The last build of each package in each of its versions, and how many of these failed."""
    index = visit.index(suite)
    return index.last_builds(arch_name) if index else {}


def last_log(visit: Visit, suite: Suite, last: LastBuild) -> str | None:
    """The address of the log of a build of what failed."""
    index = visit.index(suite)
    builds = index.builds_of([last.id]).values() if index else ()
    return next((log_of(visit, build) for build in builds if build.took is not None), None)


def has_text(found: dict[str, Any], text: str) -> bool:
    """Whether a record has a text in its name, its version, its note or what it waits for."""
    places = (found.get(key) for key in ("source", "build", "note", "message", "waits", "holder"))
    return not text or any(isinstance(place, str) and text.casefold() in place.casefold() for place in places)


def places_of(visit: Visit, suite: Suite, arch_name: str) -> dict[str, int]:
    """The place of each package in a queue, of which the first is 1."""
    found = visit.ask(suite, "queue", arch_name)
    return {str(one.get("source")): at for at, one in enumerate(found["queue"], 1)} if found else {}


def times_of(visit: Visit, suite: Suite, arch_name: str, name: str, found: list[dict[str, Any]]) -> list[object]:
    """Since when each of these records is in its state, in seconds."""
    index = visit.index(suite)
    if not index:
        return [None] * len(found)
    sources = [str(one.get("source")) for one in found]
    takes = (take if type(take) is int else None for take in (one.get("take") for one in found))
    times = index.times_each(arch_name, name, dict(zip(sources, takes)) if name in HELD else dict.fromkeys(sources))
    return [times.get(source) for source in sources]


# ---- a builder


FIGURES = (("taken", "Taken"), ("built", "Built"), ("failed", "Failed"), ("waited", "Waited"), ("put_back", "Put back"),
           ("other", "Other"))


def builder(visit: Visit, name: str) -> Page:
    """What a builder holds and what became of what it built."""
    held: list[Row] = []
    figures: list[Row] = []
    is_known = False
    for suite in visit.suites():
        with visit.of(suite):
            found = visit.ask(suite, "mine", name)
            visit.ask_accepted(suite)
            held += [row_of(suite, one) for one in found["records"]] if found else []
            is_known = is_known or found is not None or name in (visit.known(suite).builders or ())
        with visit.of(suite):
            index = visit.index(suite)
            figures += figure_rows(index, suite, name) if index else []
    columns = [ARCH, *(Column(key, head, "number") for key, head in FIGURES)]
    columns += [Column("median", "Median", "span"), Column("longest", "Longest", "span")]
    return {
        "template": "builder.html", "title": name, "name": name, "held": held_table(visit, held),
        "status": visit.status(is_known or bool(figures)), "is_shown": bool(figures),
        "figures": listed("What became of its builds", visit.columns(*columns), figures, visit.args, "", "f-"),
        "builds": builds_table(visit, name),
    }


def held_table(visit: Visit, rows: list[Row]) -> Row:
    """What a builder holds, what was handed out last first."""
    columns = visit.columns(
        PACKAGE, ARCH, STATE, Column("build", "Version", "version"), Column("since", "Since", "since"),
        Column("take", "Take", "number"),
    )
    order = order_of(visit.args, columns, "-take", "h-")
    try:
        if order.key == "since":
            for row in rows:
                key = str(row["arch"]), str(row["source"])
                row["since"] = visit.since(row["of"], key, str(row["state"]), row["take"])
        part = sort(rows, order)[order.offset : order.offset + ROWS]
        return table("What it holds", columns, closely(visit, part, {}), len(rows), order, visit.args, "h-")
    except Fault as fault:
        visit.faults.append(fault)
        visit.heard.clear()
        return table("What it holds", columns, [], 0, order, visit.args, "h-")


def figure_rows(index: Index, suite: Suite, name: str) -> Iterator[Row]:
    """How many builds ended in each way, and how long those took that ended well."""
    for arch_name, results in index.results_of(name).items():
        took = [seconds for seconds in results.get("built", []) if seconds is not None]
        row = {"suite": suite.name, "arch": arch_name, "taken": sum(map(len, results.values()))}
        row |= {result: len(results.get(result, [])) for result, _ in FIGURES[1:]}
        yield row | {"median": median_of(took), "longest": max(took, default=None)}


def page_of(
    visit: Visit, name: str, order: Order, condition: str, values: Sequence[object]
) -> tuple[list[Row], int]:
    """The rows of `event` or `build` of the indexes that stand on a page of a list, and how many there are on all its
    pages. Of several suites the first rows of each are sorted together."""
    places: list[tuple[object, Suite, int]] = []
    total, is_one = 0, len(visit.suites()) == 1
    part = (ROWS, order.offset) if is_one else (order.offset + ROWS, 0)
    for suite in visit.suites():
        with visit.of(suite):
            index = visit.index(suite)
            if index:
                column = COLUMNS.get(order.key, order.key)
                found = index.places(name, (column, order.is_down), part, condition, values)
                places += [(value, suite, key) for value, key in found]
                total += index.count(name, condition, values)
    if not is_one:
        sorted_places = places_in([value for value, _, _ in places], order.is_down)
        places = [places[at] for at in sorted_places[order.offset : order.offset + ROWS]]
    rows = {suite: rows_of(visit, suite, name, [key for _, one, key in places if one == suite])
            for suite in visit.suites()}
    return [rows[suite][key] for _, suite, key in places if key in rows[suite]], total


def rows_of(visit: Visit, suite: Suite, name: str, ids: list[int]) -> dict[int, Row]:
    """Rows of `event` or `build` of an index, by their ids."""
    with visit.of(suite):
        index = visit.index(suite)
        if index and name == "event":
            return {key: event_row(suite, event) for key, event in index.events_of(ids).items()}
        if index:
            return {key: build_row(visit, suite, build) for key, build in index.builds_of(ids).items()}
    return {}


def builds_table(visit: Visit, name: str) -> Row:
    columns = [one for one in (PACKAGE, *BUILDS) if one.key not in ("builder", "log")]
    order = order_of(visit.args, columns, "-started")
    rows, total = page_of(visit, "build", order, "builder = ?", (name,))
    return table("Builds", visit.columns(*columns), rows, total, order, visit.args)


# ---- all events


def history(visit: Visit) -> Page:
    """The last events of all, by package, architecture, builder, who gave the command, command and day."""
    columns = [EVENTS[0], PACKAGE, *EVENTS[1:]]
    order = order_of(visit.args, columns, "-at")
    for suite in visit.suites():
        with visit.of(suite):
            visit.ask_accepted(suite)
    rows, total = page_of(visit, "event", order, *chosen(visit))
    is_kept = any(visit.indexes.values())
    return {
        "template": "history.html", "title": "History", "status": 200 if is_kept else 503,
        "chosen": {key: visit.args.get(key, "") for key in (*FILTERS, "day")}, "is_kept": is_kept,
        "events": table("Events, the last first", visit.columns(*columns), rows, total, order, visit.args),
    }


def day_begin(text: str) -> int | None:
    """When a day begins, in seconds, if a text is one."""
    day = re.fullmatch(r"([0-9]{4})-([0-9]{2})-([0-9]{2})", text)
    if day and 1 <= int(day[2]) <= 12 and 1 <= int(day[3]) <= 31 and int(day[1]) >= 1970:
        return calendar.timegm((int(day[1]), int(day[2]), int(day[3]), 0, 0, 0))
    return None


def chosen(visit: Visit) -> tuple[str, list[object]]:
    """The condition that the address of /history asks for."""
    given = {key: visit.args[key] for key in FILTERS if visit.args.get(key)}
    parts, values = [f"{key} = ?" for key in given], list[object](given.values())
    begin = day_begin(visit.args.get("day", ""))
    if begin is not None:
        parts.append("at >= ? AND at < ?")
        values += [begin, begin + 86400]
    return " AND ".join(["1", *parts]), values

"""What stands on the page of a search: one word in names, notes and waits, or several names at once."""
import re
from collections import Counter
from collections.abc import Sequence

from wb_tools.answers import STATES, Record
from wb_tools.web.lists import has_text, marks_of
from wb_tools.web.pages import ARCH, PACKAGE, Page
from wb_tools.web.settings import Suite
from wb_tools.web.tables import Column, Row, address, listed, order_of, table
from wb_tools.web.visit import Visit

NAMES = 200  # that are searched for at once
SHOWN = 25  # packages on a page of those with a word
LIKE = 25  # names that are proposed for those that are missing
LETTERS = "abcdefghijklmnopqrstuvwxyz0123456789+.-"  # of names (Policy 5.6.1)
DONE = ("Uploaded", "Installed", "Not-For-Us")  # where nothing is left to do
# The states whose records have texts to search in; names are found by the queues and the history besides.
WITH_TEXTS = ("Dep-Wait", "BD-Uninstallable", "Build-Attempted", "Failed", "Not-For-Us", "Building")
Notes = dict[str, str]  # by the name of a package, the first text of it with the word


def search(visit: Visit, text: str) -> Page:
    """The state of each package that is found on each architecture of each suite."""
    words = words_of(text)
    page: Page = {"template": "search.html", "title": f"Search for {' '.join(words)[:200]}", "q": " ".join(words)}
    page |= {"missing": [], "left": None, "is_of_several": len(words) > 1}
    if len(words) > 1:
        page |= several(visit, words)
    else:
        names, notes = found_names(visit, words[0])
        order = order_of(visit.args, [PACKAGE], "source")
        begin = (order.page - 1) * SHOWN
        shown = matrix(visit, names[begin : begin + SHOWN], notes)
        there = [row for row in shown if len(row) > 2]
        page["found"] = in_pages(visit, f"Packages with {words[0]}", there, len(names), SHOWN)
        page["like"] = like_table(visit, [] if words[0].casefold() in names[:1] else words)
    return page | {"status": visit.status(True)}


def words_of(text: str) -> list[str]:
    """The names of a pasted list, each once; or one word. What stands in brackets is a version or an architecture."""
    words = re.split(r"[\s,;]+", re.sub(r"\([^()]*\)|\[[^][]*\]", " ", text).strip(" \t\r\n,;"))
    if len(words) == 1:
        is_name = words[0].startswith("src:") or re.fullmatch(r"[a-z0-9+.-]+_[0-9]+[.:+~-][^_]*(_[^_]*)?", words[0])
        return [name_in(words[0]) if is_name else words[0] or text.strip()]
    return list(dict.fromkeys(filter(None, map(name_in, words))))


def name_in(word: str) -> str:
    """The name in a word of a list such as `src:hello_1.0-1_amd64` or `hello/sid`."""
    return re.split("[_/:=]", word.removeprefix("src:").casefold())[0]


def several(visit: Visit, words: list[str]) -> Page:
    """The packages of these names, how many of them are left to do on each architecture, and what is missing."""
    asked = words[:NAMES]
    if len(words) > NAMES:
        visit.notes.append(f"{len(words)} names are asked for: the first {NAMES} are shown")
    rows = matrix(visit, asked, {})
    missing = [row["source"] for row in rows if len(row) == 2]
    there = [row for row in rows if len(row) > 2]
    left = [row for row in there if is_left(row)]
    shown = left if visit.args.get("left") else there
    caption = f"{len(there)} of {len(asked)} packages"
    if visit.args.get("left"):
        caption = f"{len(left)} of {len(asked)} packages are left to do"
    found = in_pages(visit, caption, shown, len(shown), NAMES)
    links = {"left": address(visit.args, left="1"), "all": address(visit.args, left=None)}
    page: Page = {"title": f"Search for {len(words)} packages", "missing": missing, "found": found, "choices": links}
    page |= {"count": len(left), "left": left_table(visit, there) if there else None}
    page |= marks_of(visit, [box for row in shown for box in boxes_of(visit, row)])
    return page | {"like": like_table(visit, missing)}


def boxes_of(visit: Visit, row: Row) -> list[Row]:
    """The boxes of a row, each in the cell of its architecture."""
    row["boxes"] = visit.boxes.get(row["source"], {})
    return list(row["boxes"].values())


def states_of(row: Row) -> list[str]:
    return [state for key, state in row.items() if "/" in key]


def is_left(row: Row) -> bool:
    """Whether something is left to do for a package on an architecture where it has a record."""
    return any(state not in DONE for state in states_of(row))


def left_table(visit: Visit, rows: list[Row]) -> Row:
    """How many of these packages are in each state on each architecture, and how many are left to do there."""
    found: list[Row] = []
    for suite in visit.suites():
        with visit.of(suite):
            for arch in visit.known(suite).archs:
                counts = Counter(row[key] for row in rows if (key := f"{suite.name}/{arch}") in row)
                left = sum(count for state, count in counts.items() if state not in DONE)
                found.append({"suite": suite.name, "arch": arch, "left": left, "absent": len(rows) - counts.total()}
                             | {f"counts/{state}": counts[state] for state in STATES})
    there = {state for row in rows for state in states_of(row)}
    states = [Column(f"counts/{state}", state, "number") for state in STATES if state in there]
    columns = visit.columns(ARCH, Column("left", "Left to do", "number"), *states)
    columns += [Column("absent", "No record", "number")] if any(row["absent"] for row in found) else []
    return listed("What is left to do", columns, found, visit.args, "", "l-")


def like_table(visit: Visit, words: Sequence[str]) -> Row | None:
    """The packages whose names are like those that are missing, or none if there are none."""
    if not words:
        return None
    known, found = names_known(visit), Notes()
    for word in words:
        for name in sorted(names_like(word) & known - {word}):
            found.setdefault(name, f"in place of {word}")
    rows = matrix(visit, list(found)[:LIKE], found)
    return in_pages(visit, "Packages of similar names", rows, len(rows), LIKE) if rows else None


def names_known(visit: Visit) -> set[str]:
    """All names that the histories and the queues have."""
    names: set[str] = set()
    for suite in visit.suites():
        with visit.of(suite):
            index = visit.index(suite)
            names |= set(index.names_with("") if index else ())
            for arch in visit.known(suite).archs:
                add_queued(visit, suite, arch, "", names)
    return names


def names_like(word: str) -> set[str]:
    """The names from which a word differs by a letter, or by two that changed places; and those with which it begins,
    up to a hyphen, as the name of a library's package does with that of its source."""
    lower = word.casefold()[:100]
    parts = [(lower[:at], lower[at:]) for at in range(len(lower) + 1)]
    found = {head + rest[1:] for head, rest in parts}
    found |= {head + rest[1] + rest[0] + rest[2:] for head, rest in parts if len(rest) > 1}
    found |= {head + letter + rest[cut:] for head, rest in parts for letter in LETTERS for cut in (0, 1)}
    return found | {head for head, rest in parts if rest.startswith("-")}


def in_pages(visit: Visit, caption: str, rows: list[Row], total: int, size: int) -> Row:
    """The table of what was found, in the order in which it was found."""
    columns = [PACKAGE]
    for suite in visit.suites():
        with visit.of(suite):
            for arch in visit.known(suite).archs:
                head = f"{suite.name} {arch}" if visit.is_of_several else arch
                columns.append(Column(f"{suite.name}/{arch}", head, "place"))
    if any(row["note"] for row in rows):
        columns.append(Column("note", "Text", "note"))
    order = order_of({"page": visit.args.get("page", "1")}, columns, "")
    return table(caption, columns, rows, total, order, visit.args, size=size, is_fixed=True)


def found_names(visit: Visit, word: str) -> tuple[list[str], Notes]:
    """The packages that have a word in their names or their texts: that of this name first, then those that begin with
    it."""
    names: set[str] = set()
    notes: Notes = {}
    lower = word.casefold()  # as all names are
    for suite in visit.suites():
        with visit.of(suite):
            visit.ask_accepted(suite)
            index = visit.index(suite)
            names |= set(index.names_with(lower) if index else ())
            for arch in visit.known(suite).archs:
                names |= {lower} if visit.ask(suite, "item", arch, lower) else set()
                add_queued(visit, suite, arch, lower, names)
                add_noted(visit, suite, arch, word, notes)
    names |= notes.keys()
    return sorted(names, key=lambda name: (name != lower, not name.startswith(lower), name)), notes


def add_queued(visit: Visit, suite: Suite, arch: str, word: str, names: set[str]) -> None:
    names |= {name for name in visit.queued(suite, arch) if word in name}


def add_noted(visit: Visit, suite: Suite, arch: str, word: str, notes: Notes) -> None:
    for state in WITH_TEXTS:
        found = visit.ask(suite, "by-state", arch, state)
        for one in (one for one in found["records"] if has_text(one, word)) if found else ():
            record = visit.record(suite, one)
            texts = [record.waits, record.note, record.message]
            notes.setdefault(record.source, next((text for text in texts if word.casefold() in text.casefold()), ""))


def add_state(visit: Visit, suite: Suite, row: Row, record: Record) -> None:
    key = f"{suite.name}/{record.arch}"
    row[key] = record.state
    if box := visit.box(suite, record):
        visit.boxes.setdefault(record.source, {})[key] = box


def matrix(visit: Visit, names: Sequence[str], notes: Notes) -> list[Row]:
    """A row for each name, with its state on each architecture of each suite where it has a record."""
    rows: dict[str, Row] = {name: {"source": name, "note": notes.get(name)} for name in names}
    for suite in visit.suites():
        with visit.of(suite):
            for arch in visit.known(suite).archs:
                for name, row in rows.items():
                    found = visit.ask(suite, "item", arch, name)
                    if found:
                        add_state(visit, suite, row, visit.record(suite, found))
    return list(rows.values())

"""The feeds of the site (Atom, RFC 4287): what happened to a package, and what failed on an architecture."""
from collections.abc import Iterable

from wb_tools.index.asking import Event
from wb_tools.web.pages import Page, event_row
from wb_tools.web.settings import Suite
from wb_tools.web.tables import Row
from wb_tools.web.visit import Visit

ENTRIES = 50  # of a feed
FAILED = "arch = ? AND command IN ('attempted', 'fail')"


def package_feed(visit: Visit, name: str) -> Page:
    """The last events of a package."""
    return feed(visit, name, "source = ?", name)


def failures_feed(visit: Visit, name: str) -> Page:
    """The last failures on an architecture."""
    return feed(visit, f"Failures on {name}", FAILED, name)


def feed(visit: Visit, title: str, condition: str, value: str) -> Page:
    entries: list[Row] = []
    for suite in visit.suites():
        with visit.of(suite):
            index = visit.index(suite)
            found = index.latest(ENTRIES, condition, (value,)) if index else []
            entries += entries_of(suite, found)
    entries = sorted(entries, key=lambda entry: entry["at"], reverse=True)[:ENTRIES]
    is_kept = any(visit.indexes.values())
    return {"template": "feed.xml", "title": f"{visit.settings.title}: {title}", "status": 200 if is_kept else 503,
            "entries": entries, "updated": entries[0]["at"] if entries else "1970-01-01T00:00:00Z"}


def entries_of(suite: Suite, events: Iterable[Event]) -> Iterable[Row]:
    for event in events:
        if event.source is not None:
            row = event_row(suite, event) | {"source": event.source}
            yield row | {"id": f"tag:wb,2026:{suite.name}/{event.accepted}/{event.arch}/{event.source}"}

"""The page of HTML that tools/bin/wb-status makes of answers of an office, and of its journal."""
import argparse
import datetime
import html
import re
from collections.abc import Iterator, Sequence
from dataclasses import dataclass, field

from wb_tools.answers import HELD, STATES, Answer, ByState, Queue, Record, Summary, counted, printable
from wb_tools.index.asking import Index, Since
from wb_tools.journal import day_of
from wb_tools.style import AGE, AGE_HASH, STYLE

LISTED = [
    *HELD, "Dep-Wait", "BD-Uninstallable", "Build-Attempted", "Failed",
]  # the states of which packages are shown by name
DONE_STATES = ("Installed", "Not-For-Us")  # those in which nothing is left to do
DAYS = 14  # how many days are shown of a journal
LONGEST_WORD = 22  # characters that stand in one line of a phone; a longer word may be broken where there is no room
LONGEST_BUILD = 32  # the same for a version, which is written smaller, and is not broken after a hyphen either


@dataclass(slots=True)
class Arch:
    """What was answered of an architecture: by the office of a suite, whose name is empty if there is but one office;
    and what the journals of this office say, if there are some."""

    name: str
    suite: str = ""
    index: Index | None = None
    summary: Summary | None = None
    queue: Queue | None = None
    lists: dict[str, list[Record]] = field(default_factory=dict)

    def take(self, answer: Answer) -> None:
        if isinstance(answer, Summary):
            self.summary = answer
        elif isinstance(answer, Queue):
            self.queue = answer
        elif isinstance(answer, ByState):
            self.lists[answer.state] = answer.records

    def records(self, *states: str) -> list[Record]:
        return [record for state in states for record in self.lists.get(state, [])]

    @property
    def title(self) -> str:
        return f"{self.suite} {self.name}".lstrip()

    def place(self, name: str = "") -> str:
        """A place of the page to which a link leads: all of the architecture, or a part of it."""
        return html.escape("-".join(filter(None, (self.suite, self.name, name.replace(" ", "-").lower()))))


# ---- the page


def shown(text: str) -> str:
    """A text of the office inside the page: what HTML or a reader would take for something else is written out."""
    return html.escape(printable(text))


def package(record: Record) -> str:
    """A cell with a package, what is built of it, and why it is rebuilt."""
    return name_cell(record.source, record.build, record.message)


def is_long(*texts: str) -> bool:
    """Whether one of these texts has a word that no phone shows in one line, and may be broken."""
    return any(len(word) > LONGEST_WORD for text in texts for word in re.split("[ -]", printable(text)))


def cell(kind: str, content: str, *texts: str) -> str:
    """A cell of a kind, which shows these texts."""
    return f'<td class="{kind}{" long" if is_long(*texts) else ""}">{content}</td>'


def name_cell(source: str, build: str, message: str = "") -> str:
    is_short = len(printable(build)) <= LONGEST_BUILD
    built = f'<span class="build">{shown(build)}</span>' if is_short else shown(build)
    more = f"{built} {shown(message)}" if message else built
    return cell("package", f'<b>{shown(source)}</b> <span class="small">{more}</span>', source, build, message)


def builder_cell(record: Record) -> str:
    return cell("builder", shown(record.holder or ""), record.holder or "")


def text_cell(text: str) -> str:
    return cell("text", shown(text), text)


def row(*cells: str) -> str:
    return "<tr>" + "".join(cell if cell.startswith("<t") else f"<td>{cell}</td>" for cell in cells) + "</tr>"


def number(value: int, kind: str = "") -> str:
    return f'<td class="{f"number {kind}".rstrip()}">{value:,}</td>'


NUMBERS = {"Place": "number", "Packages": "number", "Take": "take"}  # heads of numbers, which stand over them


def heads_row(heads: Sequence[str]) -> str:
    cells = []
    for head in heads:
        kind = f' class="{NUMBERS[head]}"' if head in NUMBERS else ""
        cells.append(f'<th scope="col"{kind}>{html.escape(head)}</th>')
    return f"<thead><tr>{''.join(cells)}</tr></thead>"


def table(place: str, caption: str, heads: Sequence[str], rows: Sequence[str], limit: int) -> Iterator[str]:
    """A table with its caption, of which so many rows are shown; nothing if it has none."""
    if not rows:
        return
    yield f'<table class="rows" id="{place}">'
    yield f"<caption>{html.escape(caption)}</caption>"
    yield heads_row(heads)
    yield "<tbody>"
    yield from rows[:limit]
    if len(rows) > limit:
        yield f'<tr><td colspan="{len(heads)}">and {len(rows) - limit:,} more</td></tr>'
    yield "</tbody></table>"


def bar(counts: dict[str, int]) -> str:
    """A bar with a part for each state, as long as its count, and no shorter than can be seen."""
    parts = [(state, count) for state, count in counts.items() if count > 0]
    label = ", ".join(f"{state} {count:,}" for state, count in parts) or "no packages"
    spans = "".join(
        f'<span class="{html.escape(color_of(state))}" style="flex-grow:{count}" title="{shown(state)} '
        f'{count:,}"></span>'
        for state, count in parts
    )
    return f'<div class="bar" role="img" aria-label="{shown(label)}">{spans}</div>'


def color_of(state: str) -> str:
    return state.lower() if state in STATES else "other"


def ordered(summary: Summary) -> dict[str, int]:
    """The counts in the order of the states, those that this script does not know at the end."""
    states = [state for state in STATES if state in summary.counts]
    return {state: summary.counts[state] for state in [*states, *sorted(summary.counts.keys() - set(states))]}


def counts_table(arch: Arch, counts: dict[str, int], links: dict[str, str]) -> Iterator[str]:
    """How many packages are in each state, with a link to those that are shown by name."""
    total = sum(counts.values())
    yield f'<table class="counts" id="{arch.place("states")}">'
    yield "<caption>Packages in each state</caption>"
    yield '<thead><tr><th scope="col">State</th><th scope="col" class="number">Packages</th></tr></thead>'
    yield "<tbody>"
    for state, count in counts.items():
        name = f'<a href="#{links[state]}">{shown(state)}</a>' if state in links and count else shown(state)
        quiet = "" if count else ' class="none"'
        yield (
            f'<tr{quiet}><th scope="row"><i class="{html.escape(color_of(state))}"></i>{name}</th>{number(count)}</tr>'
        )
    yield f'</tbody><tfoot><tr><th scope="row">all</th>{number(total)}</tr></tfoot></table>'


def queue_table(arch: Arch, words: argparse.Namespace) -> Iterator[str]:
    if arch.queue is None:
        return
    waiting = arch.queue.queue
    if not waiting:
        yield f'<p id="{arch.place("queue")}">The queue is empty.</p>'
        return
    rows = [row(number(at), name_cell(one.source, one.build)) for at, one in enumerate(waiting, 1)]
    caption = f"The queue: {counted(len(waiting))}"
    yield from table(arch.place("queue"), caption, ["Place", "Package"], rows, words.first)


def held_cells(record: Record, index: Index | None) -> Iterator[str]:
    """The cells of what a builder holds; with a journal the time since when is the last, if the journal has it."""
    yield package(record)
    yield builder_cell(record)
    yield f'<td class="take">{record.take}</td>'
    if index is not None:
        since = index.since((record.arch, record.source), record.state, record.take)
        yield f'<td class="since">{since_text(since)}</td>' if since else "<td></td>"


def since_text(since: Since) -> str:
    """Since when a package is in its state, to the minute; or the end of that before which it was there already."""
    return clock(since.at) if since.is_exact else f"before {clock(since.at + 59)}"


def clock(at: int) -> str:
    """A time of the page, in UTC."""
    return f"{datetime.datetime.fromtimestamp(at, datetime.timezone.utc):%Y-%m-%d %H:%M}"


def days_table(arch: Arch, words: argparse.Namespace) -> Iterator[str]:
    """How many packages were built on each of the last days, the last first, if there is a journal; not on days before
    its first line."""
    first_entry, _ = arch.index.ends() if arch.index else (None, None)
    if arch.index and first_entry:
        days, first = arch.index.built_by_day(), day_of(first_entry[1])
        last = [day for day in (day_of(words.now - 86400 * at) for at in range(DAYS)) if day >= first]
        built = {day: days.get(day, {}).get(arch.name, 0) for day in last}
        rows = [row(f'<td class="day">{html.escape(day)}</td>', number(count)) for day, count in built.items()]
        yield from table(arch.place("days"), "Built on each day", ["Day", "Packages"], rows, DAYS)


def lists_of(arch: Arch, words: argparse.Namespace) -> Iterator[str]:
    """The tables of what is held, waits, cannot be installed or failed."""
    heads = ["Package", "Builder", "Take", *(["Since"] if arch.index else [])]
    for state, caption in HOLDS.items():
        of_builder = state == "Building"  # what is built now, by its builder; what was reported, the oldest first
        held = sorted(arch.records(state), key=lambda one: ((one.holder or "") if of_builder else "", one.take or 0))
        rows = [row(*held_cells(one, arch.index)) for one in held]
        yield from table(arch.place(state), caption, heads, rows, words.rows)
    for state, (caption, head) in REASONS.items():
        rows = [row(package(one), text_cell(one.waits or one.note)) for one in arch.records(state)]
        yield from table(arch.place(state), caption, ["Package", head], rows, words.rows)


# The tables of what builders hold.
HOLDS = {
    "Building": "Who builds what",
    "Built": "What is built, and not uploaded",
    "Uploaded": "What is uploaded, and not yet seen in the archive",
}
# The tables of packages that no builder can take, each with the head of what their records say of it.
REASONS = {
    "Build-Attempted": ("What failed, and nobody has looked at yet", "Note"),
    "Failed": ("What has to be mended before it is built again", "Note"),
    "Dep-Wait": ("What waits for what", "Waits for"),
    "BD-Uninstallable": ("What needs something that cannot be installed", "Why"),
}
PLACES = {"Needs-Build": "queue", **{state: state for state in (*HOLDS, *REASONS)}}


def section(arch: Arch, words: argparse.Namespace) -> Iterator[str]:
    """What the page has of an architecture that has a summary."""
    assert arch.summary
    counts = ordered(arch.summary)
    total, left = sum(counts.values()), {state: count for state, count in counts.items() if state not in DONE_STATES}
    links = {
        state: arch.place(name)
        for state, name in PLACES.items()
        if arch.lists.get(state) or (name == "queue" and arch.queue)
    }
    yield f'<section id="{arch.place()}" aria-labelledby="{arch.place("head")}">'
    yield f'<h2 id="{arch.place("head")}">{shown(arch.title)}</h2>'
    if not total:
        yield "<p>It has no packages.</p></section>"
        return
    installed = counts.get("Installed", 0)
    yield f"<p>{counted(total).capitalize()}; installed: {installed:,} ({100 * installed // total}\u00a0%).</p>"
    yield bar(counts)
    if 0 < 2 * sum(left.values()) < total:
        yield f"<p>{counted(sum(left.values())).capitalize()} neither installed nor set aside:</p>"
        yield bar(left)
    yield '<div class="columns"><div>'
    yield from counts_table(arch, counts, links)
    yield from queue_table(arch, words)
    yield from days_table(arch, words)
    yield "</div><div>"
    yield from lists_of(arch, words)
    yield "</div></div></section>"


# The numbers beside the bars of the first table, each of some states.
FIGURES = {
    "To build": ("Needs-Build",),
    "Building": ("Building",),
    "Waiting": ("Dep-Wait", "BD-Uninstallable"),
    "Failed": ("Build-Attempted", "Failed"),
    "Installed": ("Installed",),
}


def overview(archs: Sequence[Arch]) -> Iterator[str]:
    """All architectures beside one another, if there are several, with what the colors of the bars mean."""
    if len(archs) < 2:
        return
    caption, first = "All architectures", "Architecture"
    if any(arch.suite for arch in archs):
        caption, first = "All suites and architectures", "Suite and architecture"
    yield f'<table class="overview"><caption>{caption}</caption>'
    heads = "".join(f'<th scope="col" class="number">{head}</th>' for head in FIGURES)
    yield f'<thead><tr><th scope="col">{first}</th><th scope="col">States</th>{heads}</tr></thead><tbody>'
    for arch in archs:
        counts = ordered(arch.summary) if arch.summary else {}
        kind = ' class="long"' if is_long(arch.title) else ""
        name = f'<th scope="row"{kind}><a href="#{arch.place()}">{shown(arch.title)}</a></th>'
        figures = (
            number(sum(counts.get(state, 0) for state in states), head.lower().replace(" ", "-"))
            for head, states in FIGURES.items()
        )
        yield row(name, f'<td class="states">{bar(counts)}</td>', *figures)
    yield "</tbody></table>"
    found = {state for arch in archs if arch.summary for state, count in arch.summary.counts.items() if count}
    states = [*(state for state in STATES if state in found), *sorted(found - set(STATES))]
    marks = "".join(f'<li><i class="{html.escape(color_of(state))}"></i>{shown(state)}</li>' for state in states)
    yield f'<ul class="legend" aria-label="The colors of the states">{marks}</ul>' if marks else ""


def accepted_by(archs: Sequence[Arch]) -> int:
    """How many commands all offices had accepted, each at its last answer."""
    found: dict[str, int] = {}
    for arch in archs:
        found[arch.suite] = max(found.get(arch.suite, 0), arch.summary.accepted if arch.summary else 0)
    return sum(found.values())


def page(archs: Sequence[Arch], words: argparse.Namespace) -> Iterator[str]:
    asked = datetime.datetime.fromtimestamp(words.now, datetime.timezone.utc)
    yield "<!DOCTYPE html>"
    yield '<html lang="en"><head><meta charset="utf-8">'
    yield f"<title>{shown(words.title)}</title>"
    yield '<meta name="viewport" content="width=device-width, initial-scale=1">'
    yield '<meta name="color-scheme" content="light dark">'
    policy = f"default-src 'none'; style-src 'unsafe-inline'; script-src '{AGE_HASH}'"
    yield f'<meta http-equiv="Content-Security-Policy" content="{policy}">'
    yield f'<style>{STYLE}</style></head><body id="top">'
    yield f"<header><h1>{shown(words.title)}</h1>"
    yield (
        f'<p>As of <time id="made" datetime="{asked:%Y-%m-%dT%H:%M:%SZ}" data-due="{words.due}">{clock(words.now)} UTC'
        f'</time>, after {counted(accepted_by(archs), "accepted command")}. <span id="age" role="status"></span></p>'
    )
    yield "</header><main>"
    yield from overview(archs)
    for arch in archs:
        yield from section(arch, words)
    has_times = any(arch.index for arch in archs)
    times = "Days and times are those of its journal, in UTC." if has_times else "It keeps no times."
    yield (
        "</main><footer><p>Each table is an answer of its own, and the office may have gone on between two of them. "
        f"{times}</p></footer>"
    )
    yield f'<a class="up" href="#top">Top</a><script>{AGE}</script></body></html>'

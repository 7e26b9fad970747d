"""What tools/bin/wanna-build prints, in the forms that buildd reads: lists, records, and what came of a take, as YAML
or in the older words."""
from __future__ import annotations

import re
import unicodedata
from collections.abc import Iterator, Sequence

from wb_tools.wanna_build.office import Record
from wb_tools.wanna_build.words import NAME


def one_line(text: str) -> str:
    """A text without line ends and other control characters."""
    return " ".join(re.sub(r"[\x00-\x20\x7f-\x9f\u2028\u2029]+", " ", text).split())


# ---- lists


def notes_of(record: Record) -> str:
    """What stands in the brackets of a line."""
    notes = [record["priority"] or "-", "out-of-date" if record["earlier"] else "uncompiled"]
    if record["number"]:
        notes.append(f"binNMU{{{record['number']}}}")
    if record.get("build_priority"):
        notes.append(f"bp{{{record['build_priority']}}}")
    return ":".join(notes)


def list_line(record: Record) -> str:
    """A line of a list: what stands before its last slash is dropped by buildd, and the rest up to a blank is taken."""
    held = f" by {record['holder']}" if record["holder"] else ""
    return f"{record['section'] or '-'}/{record['source']}_{record['version']}{held} [{notes_of(record)}]"


def list_of(records: Sequence[Record], state: str) -> Iterator[str]:
    """The lines of a list. That of Needs-Build has nothing under its lines, since buildd would take it for a
    package."""
    for record in records:
        yield list_line(record)
        if state != "Needs-Build":
            yield from (
                f"  {name}: {one_line(record[key])}"
                for name, key in (("Waits for", "waits"), ("Note", "note"))
                if record[key]
            )


def total(count: int, state: str) -> str:
    return f"Total {count} package(s) in state {state}."


# ---- a record


def info(record: Record, suite: str) -> Iterator[str]:
    """A record in the words of wanna-build. No line of a text of somebody's can be taken for one of these."""
    yield f"{record['source']}({suite}):"
    rows = {
        "Package": record["source"], "Version": record["version"], "State": record["state"],
        "Section": record["section"],
    }
    rows |= {"Priority": record["priority"], "Built-Before": "yes" if record["earlier"] else "no"}
    if record["holder"]:
        rows |= {"Builder": record["holder"], "Take-Number": record["take"]}
    if record["number"]:
        rows |= {"Binary-NMU-Version": record["number"], "Binary-NMU-Changelog": one_line(record["message"])}
    if record.get("build_priority"):
        rows["Build-Priority"] = record["build_priority"]
    if record["waits"]:
        rows["Depends"] = one_line(record["waits"])
    for key, value in rows.items():
        yield f"  {key:<20}: {value}"
    if record["note"]:
        yield f"  {'Failed' if record['state'] == 'Failed' else 'Note':<20}:"
        yield from (f"    | {one_line(line)}" for line in record["note"].splitlines())


# ---- a take


def changelog(message: str) -> str:
    """The text for the changelog of a rebuild. It is never empty nor 0, for which buildd leaves out that it is a
    rebuild."""
    line = one_line(message)
    return line if line not in ("", "0") else f"Rebuild {line}".strip()


def plain(text: str) -> str:
    """A text in the characters that buildd hands on unchanged from YAML: of letters with a mark the letter, of others a
    question mark."""
    parts = (part for part in unicodedata.normalize("NFKD", text) if not unicodedata.combining(part))
    return "".join(part if part < "\x7f" else "?" for part in parts)


def quoted(text: str) -> str:
    return "'" + plain(one_line(text)).replace("'", "''") + "'"


def taken_as_yaml(source: str, assignment: Record | None, why: str) -> Iterator[str]:
    yield f"- {source if NAME.fullmatch(source) else 'wanna-build'}:"
    if assignment is None:
        yield f"    - status: {quoted(why or 'not ok')}"
        return
    yield "    - status: ok"
    if assignment["number"]:
        yield f"    - binNMU: {assignment['number']}"
        yield f"    - extra-changelog: {quoted(changelog(assignment['message']))}"


def taken_in_words(source: str, assignment: Record | None, why: str) -> Iterator[str]:
    if assignment is None:
        yield f"{source}: NOT OK!"
        yield f"  {one_line(why)}"
    elif assignment["number"]:
        yield f"{source}: Warning: needs binary NMU {assignment['number']}"
        yield changelog(assignment["message"])
        yield f"{source}: aok"
    else:
        yield f"{source}: ok"

"""The words of a merge of tools/bin/office, and what is looked at before it."""
from __future__ import annotations

import http.client
import json
import re
from collections.abc import Sequence
from dataclasses import dataclass
from pathlib import Path
from typing import Any

from wb_tools.keys import NOT_ADMITTED, BadKey, KeyFile, right_for
from wb_tools.lists import Refused, paragraphs
from wb_tools.office.files import word_for
from wb_tools.office.settings import WRONG_WORDS, Refusal

LOOK = 40  # seconds: more than an office takes at most for one connection
PART = re.compile("([a-z0-9][a-z0-9-]*)=(.+)", re.DOTALL)


@dataclass
class Merge:
    """A Sources list, and the Packages lists that are merged with it, by their architectures."""

    sources: str
    parts: list[tuple[str, str]]


def read_merges(words: Sequence[str]) -> list[Merge]:
    """The merges that the words of the command name: each word that is no ARCH=PACKAGESFILE is a Sources list, and
    begins one."""
    found: list[Merge] = []
    for word in words:
        part = PART.fullmatch(word)
        if part is None:
            found.append(Merge(word, []))
        elif not found:
            raise Refusal(f"{word} has to stand after a SOURCESFILE", WRONG_WORDS)
        else:
            found[-1].parts.append((part[1], part[2]))
    for merge in found:
        if not merge.parts:
            raise Refusal(f"after {merge.sources} has to stand ARCH=PACKAGESFILE", WRONG_WORDS)
    archs = archs_of(found)
    if len(set(archs)) < len(archs):
        raise Refusal("an architecture is named twice", WRONG_WORDS)
    return found


def archs_of(merges: Sequence[Merge]) -> list[str]:
    return [arch for merge in merges for arch, _ in merge.parts]


def read_reports(words: Sequence[str], merges: Sequence[Merge]) -> list[tuple[str, str]]:
    """The reports that are given after the merges, with their architectures."""
    found = []
    for word in words:
        part = PART.fullmatch(word)
        if part is None or part[1] not in archs_of(merges):
            raise Refusal(f"{word} has to be ARCH=REPORTFILE, of an architecture that is merged", WRONG_WORDS)
        found.append((part[1], part[2]))
    return found


def lines_of(links: Path | None, merges: Sequence[Merge], reports: Sequence[tuple[str, str]]) -> list[str]:
    """The lines for the office. A file whose name no line can hold is named by a link to it."""
    lines, count = [], 0
    for merge in merges:
        words = ["merge", word_for(links, merge.sources, count)]
        for at, (arch, packages) in enumerate(merge.parts, count + 1):
            words.append(f"{arch}={word_for(links, packages, at)}")
        count += len(words)
        lines.append(" ".join(words))
    for at, (arch, report) in enumerate(reports, count):
        lines.append(f"report {arch} {word_for(links, report, at)}")
    return lines


def look_at_lists(merges: Sequence[Merge]) -> None:
    """Refuses a list that is compressed, that is not UTF-8 or that is no control data, as the office would; the last
    paragraph may lack the empty line after it."""
    for name in dict.fromkeys(name for merge in merges for name in (merge.sources, *(file for _, file in merge.parts))):
        if not Path(name).is_file():
            continue  # a pipe, which can be read once
        try:
            for _ in paragraphs(Path(name), is_ended=False):
                pass
        except Refused as why:
            raise Refusal(f"{why}; nothing was done") from None


def ask_served(port: int, path: str, key: KeyFile) -> dict[str, Any]:
    """What a serving office answers to who shows this key; nothing if it gives no answer. It is refused if the key
    cannot be shown, or is not let through."""
    try:
        shown = key.fields()
    except BadKey as error:
        raise Refusal(f"{error.filename}: {error.strerror}; nothing was done") from None
    connection = http.client.HTTPConnection("127.0.0.1", port, timeout=LOOK)
    try:
        connection.request("GET", path, headers=shown)
        answer = json.loads(connection.getresponse().read())
    except (OSError, http.client.HTTPException, ValueError):
        return {}
    finally:
        connection.close()
    if isinstance(answer, dict) and answer.get("http") in NOT_ADMITTED:
        missing = key.missing(answer["http"], right_for(path))
        raise Refusal(f"the office answered {answer['http']}: {missing}; nothing was done")
    return answer if isinstance(answer, dict) else {}


def parts_of(answered: str) -> list[dict[str, Any]]:
    """The parts of accepted merges, in the lines of what the office answers."""
    try:
        answers = [json.loads(line) for line in answered.splitlines()]
        return [part for answer in answers if answer["ok"] == "merge" for part in answer["parts"]]
    except (ValueError, KeyError, TypeError):
        raise Refusal(f"the answer is no merge: {answered.strip()}") from None


def report_parts(answered: str) -> None:
    refused = [part for part in parts_of(answered) if "refused" in part]
    if refused:
        raise Refusal("not merged: " + ", ".join(f"{part['arch']} ({part['refused']})" for part in refused))

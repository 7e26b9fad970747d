"""Which source packages wait for a build, or may wait after a merge of lists, for the reports of
tools/bin/merge-archive."""
import http.client
import json
import urllib.parse
from pathlib import Path

from wb_tools.answers import ByState, ask
from wb_tools.keys import NOT_ADMITTED, KeyFile, right_for
from wb_tools.lists import (
    Architectures, Refused, binary_of, is_extra, is_package_name, is_version, paragraphs, version_key,
)

STATES = ("Needs-Build", "BD-Uninstallable")  # those between which a report moves
ANSWER = 40  # seconds: more than an office takes at most for one connection


def waiting_after(sources: Path, packages: Path, arch: str, architectures: Architectures) -> list[tuple[str, str]]:
    """The source packages of the list that are built for the architecture, in their greatest versions, of which the
    Packages list has no package of it. A merge finds no others to be built."""
    built: set[tuple[str, str]] = set()
    for paragraph in paragraphs(packages):
        if paragraph.value("Architecture") == arch:
            binary = binary_of(paragraph)
            built.add((binary.source, binary.source_version))
    found: dict[str, str] = {}
    for paragraph in paragraphs(sources):
        words = paragraph.value("Architecture").split()
        if is_extra(paragraph) or not any(architectures.matches(arch, word) for word in words):
            continue
        name, version = paragraph.checked("Package", is_package_name), paragraph.checked("Version", is_version)
        if name not in found or version_key(version) > version_key(found[name]):
            found[name] = version
    return [(name, version) for name, version in sorted(found.items()) if (name, version) not in built]


def waiting_now(url: str, arch: str, key: KeyFile) -> list[tuple[str, str]]:
    """The source packages that wait in a serving office, with their versions."""
    answers = [ask(url, "by-state", [arch, state], key=key) for state in STATES]
    records = [record for answer in answers if isinstance(answer, ByState) for record in answer.records]
    return sorted((record.source, record.version) for record in records)


def send_report(url: str, arch: str, text: str, key: KeyFile) -> int:
    """Gives a report to a serving office, and answers how many records it changed."""
    shown = key.fields()
    connection = http.client.HTTPConnection(urllib.parse.urlsplit(url).netloc, timeout=ANSWER)
    try:
        connection.request("POST", "/v1/report", json.dumps({"arch": arch, "text": text}), shown)
        answer = connection.getresponse().read().decode(errors="replace")
    except http.client.HTTPException as why:
        raise Refused(f"{url}: the report of {arch}: this is no answer of an office: {type(why).__name__}") from None
    finally:
        connection.close()
    try:
        said = json.loads(answer)
        if said.get("http") in NOT_ADMITTED:
            missing = key.missing(said["http"], right_for("/v1/report", {"arch": arch}))
            raise Refused(f"{url}: the report of {arch} is not taken: the office answered {said['http']}: {missing}")
        return int(said["changed"])
    except (ValueError, KeyError, TypeError, AttributeError):
        raise Refused(f"{url}: the report of {arch} is not taken: {answer.strip()[:200]}") from None

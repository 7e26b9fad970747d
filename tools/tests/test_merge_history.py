#!/usr/bin/env python3
"""Tests of what a merge, a report and a removal leave in the history of each package. The records before and after are
asked of an office that is served: what its journal, the index of that and `wb-history` say was changed is their
difference, of each package, and so are since when each record is in its state, the builds and the counts by day. What
no line tells, since a kill cost it or since it has no changes, is a gap or a doubt, and no time is guessed.

    tools/tests/test_merge_history.py [NAME..]     these tests, or all

From the environment: WB is the program, ./wb of this repository where it is not set. LISTS is a folder of an archive's
lists, `Sources`, `Packages-amd64` and `Packages-arm64`, as tools/bin/fetch-lists puts them there; where it is not set,
lists of NAMES source packages are made as those of real_archive.py are, of 6,000 if that is not set.
"""
import contextlib
import functools
import http.client
import json
import os
import sqlite3
import subprocess
import sys
import threading
import time
import zlib
from collections import Counter
from pathlib import Path

import real_archive as archive
from harness import BIN, WAIT, answers_of, expect, expect_none, main
from serve_runs import Server
from store_runs import rows_of
from wb_tools.answers import STATES
from wb_tools.index import tables
from wb_tools.index.asking import Index
from wb_tools.index.reading import read_whole
from wb_tools.journal import read_line, seconds_of

ARCHS = ("amd64", "arm64")
BUILDERS = {"amd64": "b1", "arm64": "b2"}
NAMES = int(os.environ.get("NAMES", "6000"))
LONG = 20 * WAIT  # seconds that a merge of a whole archive may take on a machine with other work
HANDED = 64  # packages of an architecture that are handed out between two merges, if so many wait
NO_LINE = -1  # in place of the count of a line that is not there
NOT_THERE, NOT_BUILT = 3, 5  # of 23 source packages, those that a day before were not there, or not built


# ---- lists


@functools.cache
def lists():
    """By their names the lists of a day, those of the day before, whose names begin with `old-`, and an empty one."""
    given, found = os.environ.get("LISTS"), {"none": ""}
    for name in ("Sources", *(f"Packages-{arch}" for arch in ARCHS)):
        text = (Path(given) / name).read_text(encoding="utf-8") if given else made_list(name)
        found |= {name: text, f"old-{name}": day_before(text, name == "Sources")}
    return found


def made_list(name):
    """A list of an archive of NAMES source packages, of which fewer are built on the second architecture."""
    sources = [archive.source_of(at) for at in range(NAMES)]
    if name == "Sources":
        return "\n".join(map(archive.source_paragraph, sources))
    arch = name.removeprefix("Packages-")
    built = [one for one in sources if one.built and (arch == ARCHS[0] or one.at % 7)]
    versions = (f"{one.built}+b{one.number}" if one.number else one.built for one in built)
    return "\n".join(archive.binary_paragraph(one, f"{one.name}-bin", version, arch, False)
                     for one, version in zip(built, versions))


def day_before(text, is_sources):
    """A list as it may have been a day before: some source packages are not there yet, some have an earlier version or
    another priority, and of some nothing is built yet."""
    found = []
    for paragraph in text.split("\n\n"):
        chance = chance_of(source_of(paragraph))
        if chance % 23 == (NOT_THERE if is_sources else NOT_BUILT):
            continue
        if is_sources and chance % 41 == 1:
            paragraph = changed(paragraph, "Version: ", "~")
        if is_sources and chance % 53 == 2:
            paragraph = changed(paragraph, "Priority: ", "x")
        found.append(paragraph)
    return "\n\n".join(found)


def chance_of(source):
    """A number that the name of a source package has on each day."""
    return zlib.crc32(source.encode())


def built_by(paragraph):
    """The source package of a paragraph, and of a binary package the version of that."""
    words = ("Source: ", "Package: ", "Version: ")
    fields = dict(line.split(": ", 1) for line in paragraph.split("\n") if line.startswith(words))
    source, _, version = fields.get("Source", fields.get("Package", "")).partition(" ")
    return source, version.strip("()") or fields.get("Version", "")


def source_of(paragraph):
    """The source package of a paragraph."""
    return built_by(paragraph)[0]


def changed(paragraph, field, end):
    """A paragraph with this at the end of a field's line."""
    return "\n".join(line + end if line.startswith(field) else line for line in paragraph.split("\n"))


# ---- an office, and what is known of its records


class Office:
    """An office that is served with a journal and lists. Of its records is known what each step changed, and the count
    of the line that led each of them into its state."""

    def __init__(self, folder):
        self.folder, self.journal = folder, folder / "journal"
        self.records, self.since, self.changes = {}, {}, {}
        self.moves = Counter()  # into the states of each architecture
        (folder / "lists").mkdir()
        for name, text in lists().items():
            (folder / "lists" / name).write_text(text, encoding="utf-8")
        self.start()

    def __enter__(self):
        return self

    def __exit__(self, *_):
        self.stop()

    def start(self):
        self.server = Server(self.folder, more=["--journal", "journal", "--lists", "lists"])

    def stop(self):
        self.server.__exit__()

    def begin(self):
        """Begins with the lists of the day before."""
        for arch, builder in BUILDERS.items():
            self.post("add-arch", name=arch, os="linux", cpu=arch)
            self.post("add-builder", name=builder, arch=arch)
        return self.merge_old()

    # ---- requests

    def ask(self, method, path, body=None):
        """The object that is answered to a request that is not refused, or none if it is refused."""
        link = http.client.HTTPConnection("127.0.0.1", self.server.port, timeout=LONG)
        with contextlib.closing(link):
            link.request(method, f"/v1/{path}", body and json.dumps(body))
            found = json.loads(link.getresponse().read())
        expect("http" not in found, f"{path}: {found}")
        return None if "refused" in found else found

    def post(self, path, **body):
        """The answer to a command that is accepted."""
        found = self.ask("POST", path, body)
        expect(found and found["ok"] == path, f"{path} {str(body)[:300]}: {found}")
        return found

    def merge(self, sources="Sources", packages="Packages-{}"):
        """Merges lists for all architectures, in a second of its own, and gives the count of its line."""
        time.sleep(1.1)
        parts = [{"arch": arch, "packages": packages.format(arch)} for arch in ARCHS]
        return self.post("merge", sources=sources, parts=parts)["accepted"]

    def merge_old(self):
        return self.merge("old-Sources", "old-Packages-{}")

    def report(self, arch, text):
        time.sleep(1.1)
        return self.post("report", arch=arch, text=text)["accepted"]

    def all_records(self):
        """All records by their architectures and names, by the queries for each state."""
        found = {}
        for arch in ARCHS:
            for state in STATES:
                answer = self.ask("GET", f"state/{arch}/{state}") or {"records": []}  # it is removed
                found |= {(arch, one["source"]): one for one in answer["records"]}
        return found

    # ---- what is known

    def look(self, accepted):
        """Sees what the line of this count changed."""
        before, self.records = self.records, self.all_records()
        there = {*before, *self.records}
        pairs = {key: (before.get(key), self.records.get(key)) for key in there}
        self.changes = {key: change_of(*pair) for key, pair in pairs.items() if pair[0] != pair[1]}
        for key in self.moved():
            self.note(key, self.changes[key][1], accepted)

    def moved(self):
        """What the last step that was seen moved into another state."""
        return {key for key, (was, state, _) in self.changes.items() if was != state}

    def note(self, key, state, accepted):
        self.since[key] = accepted
        if state:
            self.moves[key[0], state] += 1

    def work(self):
        """Hands out packages of each architecture, the first of the queue and some that the next day's lists have
        built in turn, and has some of them reported."""
        for arch in ARCHS:
            ends = ends_of_builds(lists()[f"Packages-{arch}"].split("\n", 1)[0].removeprefix("Package: "))
            waiting = [one for key, one in self.records.items() if key[0] == arch and one["state"] == "Needs-Build"]
            built = {built_by(paragraph) for paragraph in lists()[f"Packages-{arch}"].split("\n\n")}
            others = [one for one in waiting if (one["source"], one["version"]) in built]
            for at in range(HANDED):
                given = self.hand_out(arch, others.pop() if at % 2 and others else None)
                for path, state, words in ends[at % len(ends)] if given else ():
                    done = self.post(path, take=given["take"], **words)
                    self.note((arch, given["source"]), state, done["accepted"])
        self.records = self.all_records()

    def hand_out(self, arch, record):
        """Hands out this package, or the first of the queue if there is none; none if nothing waits, or if this one was
        handed out already."""
        body = {"arch": arch, "builder": BUILDERS[arch]}
        if record:
            body |= {"source": record["source"], "version": record["version"]}
        given = self.ask("POST", "take" if record else "next", body)
        if given:
            self.note((arch, given["source"]), "Building", given["accepted"])
        return given


def change_of(before, after):
    """The states of a record before and after, and its version after, empty for none."""
    return before["state"] if before else "", after["state"] if after else "", after["version"] if after else ""


def ends_of_builds(available):
    """What becomes of packages that are handed out, one after another: the reports, and the states after them."""
    return [
        [], [("built", "Built", {})], [("uploaded", "Uploaded", {})], [], [("put-back", "Needs-Build", {})],
        [("built", "Built", {}), ("uploaded", "Uploaded", {})], [("attempted", "Build-Attempted", {"reason": "no"})],
        [("waits", "Dep-Wait", {"relations": available})], [("waits", "Dep-Wait", {"relations": "no-such-package"})],
    ]


# ---- what is wanted of a journal and its index


def history(office, *words):
    """What `wb-history` says of the journal."""
    words = [BIN / "wb-history", office.journal, *words]
    done = subprocess.run(words, capture_output=True, text=True, timeout=LONG, check=False)
    expect(done.returncode == 0, f"{words} ends with {done.returncode}: {done.stderr}")
    return done.stdout


def rows(office, *words):
    return [json.loads(line) for line in history(office, *words, "--json").splitlines()]


def index_of(office):
    """The index beside the journal, read on."""
    history(office, "index")
    return Index(tables.open_to_read(Path(f"{office.journal}.index")))


def times_of(index):
    """When each line was that moved a package, by its count."""
    return {event.accepted: event.at for event in index.events("1")}


def line_of(office, accepted):
    """The line of this count."""
    begin = b'{"accepted":%d,' % accepted
    found = [line for line in office.journal.read_bytes().splitlines() if line.startswith(begin)]
    expect(len(found) == 1, f"the journal has {len(found)} lines of the count {accepted}")
    return json.loads(found[0])


def changes_in_line(line, arch):
    """What a line says was changed on an architecture, by the names, which stand in their order."""
    command = line["command"]
    parts = [command] if command["command"] == "report" else command["parts"]
    found = next(part["changes"] for part in parts if part["arch"] == arch)
    names = [name.encode() for name, *_ in found]
    expect(names == sorted(set(names)), f"the names of {arch} are in another order")
    return {name: tuple(text or "" for text in change) for name, *change in found}


def expect_changes(office, index, accepted, command):
    """The line of this count, the index and the history of each package say what was changed and nothing else."""
    line = line_of(office, accepted)
    named = [line["command"]["arch"]] if command == "report" else ARCHS
    for arch in ARCHS:
        wanted = {source: change for (of, source), change in office.changes.items() if of == arch}
        events = index.events("accepted = ? AND arch = ?", (accepted, arch))
        expect({event.command for event in events} <= {command}, f"the commands of the line {accepted}")
        expect(len(events) == len(wanted), f"{len(events)} events of {arch}, and not {len(wanted)}")
        found = {event.source: (event.was, event.state, event.version) for event in events}
        expect_none(differences(f"the index of {arch}", found, wanted))
        line_says = changes_in_line(line, arch) if arch in named else {}
        expect_none(differences(f"the line of {arch}", line_says, wanted))
        every = {source for of, source in office.since if of == arch}
        in_histories = {source: change for source in every for change in last_change(index, arch, source, accepted)}
        expect_none(differences(f"the histories of {arch}", in_histories, wanted))


def differences(where, found, wanted):
    """What is not as it is wanted, a line for each package."""
    names = sorted({*found, *wanted})
    return [f"{where}, {one}: {found.get(one)} in place of {wanted.get(one)}" for one in names
            if found.get(one) != wanted.get(one)]


def last_change(index, arch, source, accepted):
    """What the history of a package says of the line of this count, if it is its last."""
    found = index.history((arch, source))
    return [(event.was, event.state, event.version) for event in found[-1:] if event.accepted == accepted]


def expect_since(office, index):
    """Each record is in its state since the line that led there, by whichever question."""
    times, found = times_of(index), {}
    for arch in ARCHS:
        for state in STATES:
            takes = {key[1]: one["take"] for key, one in office.records.items()
                     if key[0] == arch and one["state"] == state}
            found |= {(arch, name): one for name, one in index.since_each(arch, state, takes).items()}
    expect(found.keys() == office.records.keys(), "records without an answer")
    alone = {key: index.since(key, one["state"], one["take"]) for key, one in office.records.items()}
    expect(found == alone, "since when differs by the question")
    wanted = {key: (times[office.since[key]], True) for key in office.records}
    expect_none(differences("since", {key: one and (one.at, one.is_exact) for key, one in found.items()}, wanted))


def expect_no_guess(office, index, unknown):
    """No record is in its state since a wrong time: the time is that of the line that led there, or one before which it
    was there; and only such a one if that line is not there. Gives how many times of each architecture are exact."""
    times, exact, amiss = times_of(index), Counter(), []
    for key, one in office.records.items():
        met, at = index.since(key, one["state"], one["take"]), times.get(office.since[key])
        if met is None or met.is_exact and (key in unknown or met.at != at) or at is not None and met.at < at:
            amiss.append(f"{key} is {one['state']} since {met}, and the line was at {at}")
        exact[key[0]] += met is not None and met.is_exact
    expect_none(amiss)
    return exact


def expect_counts(office, index):
    """The counts by day and state are those of the moves."""
    met = Counter()
    for arch in ARCHS:
        for counts in index.moves_by_day(arch).values():
            met.update({(arch, state): count for state, count in counts.items()})
    expect_none(differences("moves into", met, office.moves))


def expect_builds(office, index):
    """What builds is what is Building, under the same take numbers, and a build that a merge ended has no result. Gives
    how many merges ended."""
    wanted = {key: one["take"] for key, one in office.records.items() if one["state"] == "Building"}
    expect_none(differences("builds", {one.key: one.take for one in index.builds(result="building")}, wanted))
    ended = list(index.builds(command="merge"))
    lost = {key for key in office.moved() if office.changes[key][0] == "Building"} - {one.key for one in ended}
    expect(not lost, f"builds that a merge ended go on: {sorted(lost)[:3]}")
    expect({(one.result, one.took) for one in ended} <= {("other", None)}, "a merge is a result of a build")
    return len(ended)


def expect_all(office, accepted, command):
    """All that follows from a merge or a report is as the records say."""
    office.look(accepted)
    index = index_of(office)
    expect_changes(office, index, accepted, command)
    expect_since(office, index)
    expect_counts(office, index)
    ended = expect_builds(office, index)
    expect(not index.gaps() and not index.unnamed, "there is a gap or a doubt")
    index.connection.close()
    moved = len(office.moved())
    return f"{command} {accepted}: {len(office.changes)} records changed, {moved} moved, {ended} builds ended so far"


# ---- merges and reports


def follow_from_the_records(folder):
    """Over merges of two days, back and forth, with builders at work between them, reports, a merge that is repeated,
    and one that removes all."""
    with Office(folder) as office:
        said = [expect_all(office, office.begin(), "merge")]
        office.work()
        said += [expect_all(office, accepted, "report") for accepted in reports(office)]
        said.append(expect_all(office, office.merge(), "merge"))
        expect(any(change[:2] == ("Building", "Installed") for change in office.changes.values()), "no build is found")
        office.work()
        said.append(expect_all(office, office.merge_old(), "merge"))
        moved = sorted(office.moved() & office.records.keys())[:2]
        expect(moved, "the lists of two days move nothing")
        for key in moved:
            last = rows(office, "package", *key)[-1]
            met = last["command"], (last["was"], last["state"], last["version"])
            expect(met == ("merge", office.changes[key]), f"{key}: {last}")
        said.append(expect_all(office, office.merge_old(), "merge"))
        expect(not office.changes, "a merge that is repeated changes records")
        said.append(expect_all(office, office.merge("none", "none"), "merge"))
        expect(not office.records, "records are left")
        for key in moved:
            last = rows(office, "package", *key)[-1]
            expect((last["command"], last["state"]) == ("merge", "removed"), f"{key}: {last}")
    return "\n    ".join(said)


def reports(office):
    """A report that takes some of what waits out of the queue, one that gives another reason, one that puts them back,
    and an empty one, each as the count of its line."""
    arch = ARCHS[0]
    waiting = [one for key, one in office.records.items() if key[0] == arch and one["state"] == "Needs-Build"][::3]
    for word in ("uninstallable libnothing is missing", "uninstallable libother is missing", "installable"):
        yield office.report(arch, "".join(f"{one['source']} {one['version']} {word}\n" for one in waiting))
        moved = len(waiting) if "other" not in word else 0
        expect(len(office.moved()) == moved, f"{word}: {len(office.moved())} moved, and not {moved}")
    yield office.report(arch, "")


def tells_of_removals(folder):
    """Records that are forgotten, one after another, and an architecture that is removed once its holds are ended: the
    history of each of their packages says so with its version, and that of no other. Once the architecture is there
    again, a merge makes all of its records new."""
    first, second = ARCHS
    with Office(folder) as office:
        office.look(office.begin())
        office.work()
        free = [one for key, one in sorted(office.records.items()) if key[0] == first and one["holder"] is None]
        for one in free[:: len(free) // 5]:
            named = {key: one[key] for key in ("arch", "source", "version")}
            expect_removal(office, office.post("forget", **named)["accepted"], "forget", [(first, one["source"])])
        of_second = [key for key in office.records if key[0] == second]
        for key in (key for key in of_second if office.records[key]["holder"]):
            named = {name: office.records[key][name] for name in ("arch", "source", "version")}
            office.note(key, "Needs-Build", office.post("give-back", **named)["accepted"])
        office.records = office.all_records()
        accepted = office.post("remove-arch", name=second)["accepted"]
        expect_removal(office, accepted, "remove-arch", of_second)
        for name, words in (("add-arch", {"name": second, "os": "linux", "cpu": second}),
                            ("add-builder", {"name": BUILDERS[second], "arch": second})):
            office.post(name, **words)
        said = expect_all(office, office.merge(), "merge")
        added = {key for key, change in office.changes.items() if not change[0]}
        expect({key for key in office.records if key[0] == second} <= added, "records came back by a merge")
    return f"{len(of_second)} records were removed; {said}"


def expect_removal(office, accepted, command, keys):
    """The line of this count removed the records of these keys and no other; so says the index, and the history of each
    of their packages."""
    versions = {key: office.records[key]["version"] for key in keys}
    office.look(accepted)
    others = sorted(office.changes.keys() ^ set(keys))
    expect(not others, f"{command} changed others, or not these: {others[:3]}")
    index = index_of(office)
    found = {(event.arch, event.source): event for event in index.events("accepted = ?", (accepted,))}
    met = {key: (event.command, event.state, event.version) for key, event in found.items()}
    expect_none(differences("the index", met, {key: (command, "", versions[key]) for key in keys}))
    last = rows(office, "package", *keys[0])[-1]
    expect((last["command"], last["state"]) == (command, "removed"), f"{keys[0]}: {last}")
    expect_since(office, index)
    expect_counts(office, index)
    expect_builds(office, index)
    expect(not index.gaps() and not index.unnamed, "there is a gap or a doubt")
    index.connection.close()


def tells_of_other_fields(folder):
    """A merge that changes only what a package needs to be built is in its history, and changes nothing of since when
    it is in its state."""
    (folder / "few").mkdir()
    text = "Package: hello\nVersion: 1.0\nArchitecture: any\nBuild-Depends: {}\n\n"
    needs = ["debhelper", "debhelper, gettext", "debhelper, gettext"]
    for at, relations in enumerate(needs):
        (folder / "few" / f"Sources-{at}").write_text(text.format(relations))
    (folder / "few" / "none").write_text("")
    answers_of(folder, ["add-arch amd64 linux amd64"])
    with Server(folder, more=["--journal", "journal", "--lists", "few"]) as server:
        for at, relations in enumerate(needs):
            parts = [{"arch": "amd64", "packages": "none"}]
            expect(server.post("/v1/merge", sources=f"Sources-{at}", parts=parts)[0] == 200, f"the merge {at}")
            met = json.loads(server.ask("GET", "/v1/depends/amd64/hello")[1])["depends"]
            expect(met == relations, f"{met} in place of {relations}")
            time.sleep(1.1)
    lines = [json.loads(line) for line in (folder / "journal").read_text().splitlines()]
    wanted = [[["hello", None, "Needs-Build", "1.0"]], [["hello", "Needs-Build", "Needs-Build", "1.0"]], []]
    for line, changes in zip(lines, wanted, strict=True):
        expect(line["command"]["parts"] == [{"arch": "amd64", "changes": changes}], f"{line}")
    words = [BIN / "wb-history", folder / "journal"]
    said = subprocess.run([*words, "package", "amd64", "hello", "--json"], capture_output=True, check=True).stdout
    met = [(row["was"], row["state"]) for row in map(json.loads, said.splitlines())]
    expect(met == [("", "Needs-Build"), ("Needs-Build", "Needs-Build")], f"{met}")
    said = subprocess.run([*words, "ages", "--state", "Needs-Build", "--json"], capture_output=True, check=True).stdout
    expect(json.loads(said)["since"] == lines[0]["time"], said)


# ---- what no line tells


def begin_work(office):
    """Begins, and has builders at work."""
    office.look(office.begin())
    office.work()


def lose_line(office, ask):
    """Has the program killed after it committed what this asks for and before it wrote the line: meanwhile the journal
    is a pipe that nobody reads."""
    kept = office.folder / "kept"
    office.journal.rename(kept)
    os.mkfifo(office.journal)
    before, end = accepted_in(office), time.monotonic() + LONG
    with_no_answer = threading.Thread(target=asked_in_vain, args=(ask,))
    with_no_answer.start()
    while accepted_in(office) in (None, before):
        expect(with_no_answer.is_alive() and time.monotonic() < end, "it is answered before its line is written")
        time.sleep(0.2)
    office.stop()
    with_no_answer.join()
    office.journal.unlink()
    kept.rename(office.journal)
    office.start()


def accepted_in(office):
    """How many commands are committed in the file, or none if it is being written."""
    with contextlib.suppress(sqlite3.Error):
        return rows_of(office.folder, "SELECT accepted FROM office")[0][0]
    return None


def asked_in_vain(ask):
    with contextlib.suppress(OSError, http.client.HTTPException):
        ask()


def expect_goes_on(office):
    """After a gap a merge is exact in what it moved, and in nothing else."""
    accepted = office.merge_old()
    office.look(accepted)
    index = index_of(office)
    expect_changes(office, index, accepted, "merge")
    moved = office.moved() & office.records.keys()
    times = {index.since(key, office.records[key]["state"], office.records[key]["take"]) for key in moved}
    expect([(one.at, one.is_exact) for one in times] == [(times_of(index)[accepted], True)], f"{times}")
    expect_no_guess(office, index, {key for key, led in office.since.items() if led == NO_LINE})


def kills_cost_a_line_and_show_a_gap(folder):
    """A merge whose line a kill cost, after it was committed: what it moved is in its state since a time before the
    next line, and so is all else but what builders hold."""
    with Office(folder) as office:
        begin_work(office)
        lose_line(office, office.merge)
        office.look(NO_LINE)
        lost = office.moved()
        expect(lost, "the merge that was lost moved nothing")
        time.sleep(1.1)
        office.post("add-builder", name="b3", arch=ARCHS[0])
        index = index_of(office)
        expect([gap.missing for gap in index.gaps()] == [1], f"{index.gaps()}")
        exact = expect_no_guess(office, index, lost)
        held = sum(one["take"] is not None for one in office.records.values())
        expect(sum(exact.values()) == held, f"{exact} are exact, and {held} are held")
        expect(all(row["may_have_moved"] for row in rows(office, "ages")), "ages have no doubt")
        expect([row["missing"] for row in rows(office, "gaps")] == [1], "the gap is not shown")
        said = history(office, "package", *sorted(lost)[0])
        expect("one gap of the journal may hide more of it" in said, said)
        expect_goes_on(office)
    return f"{len(lost)} records were moved by the merge that was lost"


def lines_that_are_cut_show_a_gap(folder):
    """A merge whose line ends in its middle, as after a power cut, is such a line too, and the next line is read."""
    with Office(folder) as office:
        begin_work(office)
        office.merge()
        office.look(NO_LINE)
        office.stop()
        data = office.journal.read_bytes()
        begin = data.rindex(b"\n", 0, -1) + 1
        office.journal.write_bytes(data[: (begin + len(data)) // 2])
        office.start()
        time.sleep(1.1)
        office.post("add-builder", name="b3", arch=ARCHS[0])
        index = index_of(office)
        expect([is_cut for _, is_cut in index.faults()] == [True], f"{index.faults()}")
        expect([gap.missing for gap in index.gaps()] == [1], f"{index.gaps()}")
        expect_no_guess(office, index, office.moved())
        expect_goes_on(office)


def lines_without_changes_are_doubts(folder):
    """A merge that does not say what it changed on one architecture: there its records are in their states since a time
    before it, and on the other all is exact."""
    with Office(folder) as office:
        begin_work(office)
        accepted = office.merge()
        office.look(accepted)
        there = Counter(key[0] for key in office.records)
        exact = expect_no_guess(office, index_of(office), set())
        expect(exact == there, f"{exact} of {there} are exact")
        index = index_without_changes(office, accepted, ARCHS[0])
        exact = expect_no_guess(office, index, {key for key in office.moved() if key[0] == ARCHS[0]})
        expect(exact[ARCHS[0]] < there[ARCHS[0]] and exact[ARCHS[1]] == there[ARCHS[1]], f"{exact} of {there}")
        expect(not index.gaps(), "there is a gap")


def index_without_changes(office, accepted, arch):
    """The index of a journal in which the line of this count does not say what it changed on an architecture."""
    found = []
    for at, line in enumerate(office.journal.read_bytes().splitlines(keepends=True), 1):
        if line.startswith(b'{"accepted":%d,' % accepted):
            entry = json.loads(line)
            for part in (part for part in entry["command"]["parts"] if part["arch"] == arch):
                del part["changes"]
            line = json.dumps(entry).encode() + b"\n"
        found += read_line(f"line {at}", line)
    return Index(read_whole(found)[0])


def journals_that_begin_late_say_before(folder):
    """If a journal begins after the first merge, what has not moved since is in its state since a time before."""
    with Office(folder) as office:
        begin_work(office)
        lines = office.journal.read_bytes().splitlines(keepends=True)
        late = 1 + next(at for at, line in enumerate(lines) if b'"command":"merge"' in line)
        office.journal.write_bytes(b"".join(lines[late:]))
        first = json.loads(lines[late])
        accepted = office.merge()
        office.look(accepted)
        index = index_of(office)
        expect([(gap.before, gap.missing) for gap in index.gaps()] == [(None, late)], f"{index.gaps()}")
        early = {key for key in office.records if office.since[key] < first["accepted"]}
        exact = expect_no_guess(office, index, early)
        expect(sum(exact.values()) == len(office.records) - len(early), f"{exact}, and {len(early)} are early")
        latest = {seconds_of(first["time"]) + 1, times_of(index)[accepted]}
        met = {index.since(key, office.records[key]["state"]).at for key in early}
        expect(met <= latest, f"{met} in place of {latest}")
        expect_changes(office, index, accepted, "merge")


TESTS = [
    follow_from_the_records, tells_of_removals, tells_of_other_fields, kills_cost_a_line_and_show_a_gap,
    lines_that_are_cut_show_a_gap, lines_without_changes_are_doubts, journals_that_begin_late_say_before,
]

if __name__ == "__main__":
    sys.exit(main(TESTS))

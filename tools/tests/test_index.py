#!/usr/bin/env python3
"""Tests of the index of a journal (tools/lib/wb_tools/index, `wb-history JOURNAL index`): what it says of packages,
since when they are in their states, also by merges and reports whose lines say what they moved; and that reading on
makes the same index as reading all at once, through lines that are cut off or malformed, rotated journals and restored
copies.

    tools/tests/test_index.py [NAME..]     these tests, or all

All that is wanted was written by hand, but for indexes that are compared with one another.
"""
import contextlib
import gzip
import json
import sqlite3
import sys
import time

from harness import expect, main
from test_history import NOW, Journal, call, example, on
from wb_tools.answers import STATES
from wb_tools.index import reading, tables, writing
from wb_tools.index.asking import Index, Since
from wb_tools.index.reading import read_on, read_whole
from wb_tools.journal import read_line, seconds_of

TABLES = ("event", "package", "build", "import", "gap", "doubt")


class Named(Journal):
    """A journal whose lines say who gave each command, and what merges and reports moved."""

    def add(self, at, command, answer=None, by="porter", **words):
        super().add(at, command, answer, **words)
        self.lines[-1] = json.dumps(json.loads(self.lines[-1]) | {"by": by}, separators=(",", ":"), sort_keys=True)

    def merge(self, at, *parts):
        counts = {"added": 0, "changed": 1, "kept": 1, "removed": 0}
        merged = [counts | {"arch": arch} for arch, _ in parts]
        words = [{"arch": arch, "changes": changes} for arch, changes in parts]
        self.add(at, "merge", {"parts": merged}, by="merger", parts=words)

    def report(self, at, arch, changes):
        self.add(at, "report", {"changed": len(changes)}, by="reporter", arch=arch, bytes=7, changes=changes)


def named():
    """Two packages from their first merge on."""
    one = Named()
    one.add(on(1, "08:00:00"), "add-arch", name="amd64", os="linux", cpu="amd64")
    one.add(on(1, "08:00:01"), "add-builder", name="b1", arch="amd64")
    first = [["hello", None, "Needs-Build", "1.0-1"], ["tar", None, "Installed", "1.30"]]
    one.merge(on(2, "08:00:00"), ("amd64", [*first, ["zlib", "", "Installed", "1"]]))
    one.report(on(3, "08:00:00"), "amd64", [["hello", "Needs-Build", "BD-Uninstallable", "1.0-1"]])
    one.report(on(4, "08:00:00"), "amd64", [["hello", "BD-Uninstallable", "Needs-Build", "1.0-1"]])
    one.hand_out(on(5, "08:00:00"), "b1", "hello", "1.0-1")
    second = [["hello", "Building", "Needs-Build", "1.0-2"], ["tar", "Installed", None, "1.30"]]
    one.merge(on(5, "09:00:00"), ("amd64", second))
    one.merge(on(6, "09:00:00"), ("amd64", [["hello", "Needs-Build", "Needs-Build", "1.0-3"]]))
    return one


STAYS = '["gcc-14","Dep-Wait","Dep-Wait","14.2"]'  # a change of another field


def index_of(journal):
    """What a journal says, read whole into memory."""
    lines = journal.data().splitlines(keepends=True)
    return Index(read_whole(found for at, line in enumerate(lines, 1) for found in read_line(f"line {at}", line))[0])


def since(day, clock, is_exact=True):
    """Since when, or before when: a second after the line that may have led there."""
    return Since(seconds_of(on(day, clock)) + (not is_exact), is_exact)


def expect_since(index, wanted):
    for (source, state, *take), answer in wanted.items():
        met = index.since(("amd64", source), state, *take)
        expect(met == answer, f"{source} is {state} since {met}, and not {answer}")
        takes = {source: take[0] if take else None}
        [each] = index.since_each("amd64", state, takes).values()
        expect(each == met, f"{source} among others: {each}")
        time = index.times_each("amd64", state, takes).get(source)
        expect(time == (met.at if met else None), f"{source} among others has the time {time}")


# ---- what the lines say


def merges_and_reports_name_what_they_moved(folder):
    """They stand in a package's history with who gave them, end what was built, and are no doubt."""
    (folder / "journal").write_bytes(named().data())
    rows = [json.loads(line) for line in call(folder, "journal", "package", "amd64", "hello", "--json").splitlines()]
    met = [(row["command"], row["state"], row["version"], row["by"]) for row in rows]
    wanted = [
        ("merge", "Needs-Build", "1.0-1", "merger"), ("report", "BD-Uninstallable", "1.0-1", "reporter"),
        ("report", "Needs-Build", "1.0-1", "reporter"), ("next", "Building", "1.0-1", "porter"),
        ("merge", "Needs-Build", "1.0-2", "merger"), ("merge", "Needs-Build", "1.0-3", "merger"),
    ]
    expect(met == wanted, f"{met}")
    said = call(folder, "journal", "package", "amd64", "tar")
    last = said.rstrip().splitlines()[-1].split()
    expect("may have moved it too" not in said and last[2:4] == ["merge", "removed"], said)
    met = json.loads(call(folder, "journal", "builds", "--json"))
    expect((met["result"], met["took"], met["ended"]) == ("other", None, on(5, "09:00:00")), f"{met}")
    met = call(folder, "journal", "states", "--days", "0").splitlines()
    expect(met[0] == "7 moves into states" and met[2].split() == "2026-04-02 1 0 0 0 2 0 0 0 0 0".split(), f"{met}")
    met = call(folder, "journal", "ages", "--state", "Installed")
    expect("zlib" in met and "2026-04-02 08:00:00" in met and "tar" not in met, met)
    rows = call(folder, "journal", "package", "amd64", "hello", "--merges", "--json").splitlines()
    met = [(row["accepted"], row["command"], row["was"], row["text"]) for row in map(json.loads, rows)]
    counts = "added 0, changed 1, kept 1, removed 0"
    wanted = [
        (3, "merge", "", counts), (4, "report", "Needs-Build", "changed 1"),
        (5, "report", "BD-Uninstallable", "changed 1"), (6, "next", None, ""), (7, "merge", "Building", counts),
        (8, "merge", "Needs-Build", counts),
    ]
    expect(met == wanted, f"a merge that moved it has no row of its own: {met}")
    met = call(folder, "journal", "package", "amd64", "zlib", "--merges", "--json").splitlines()
    expect([json.loads(row)["accepted"] for row in met] == [3, 4, 5, 7, 8], f"{met}")


def keeps_a_build_that_a_merge_leaves(_folder):
    """A merge that changes another field of what builds, and one of another package, end no build; what ends it is its
    holder's report. A merge that finds it in the archive ends it, and so does one that removes it."""
    one = named()
    one.hand_out(on(7, "08:00:00"), "b1", "hello", "1.0-3")
    changes = [["hello", "Building", "Building", "1.0-3"], ["zlib", "Installed", None, None]]
    one.merge(on(7, "09:00:00"), ("amd64", changes))
    one.merge(on(7, "09:30:00"), ("arm64", [["hello", None, "Needs-Build", "1.0-3"]]))
    met = [build.result for build in index_of(one).builds(source="hello")]
    expect(met == ["other", "building"], f"the build goes on: {met}")
    expect_since(index_of(one), {("hello", "Building", 2): since(7, "08:00:00")})
    for state in ("Installed", None):
        other = named()
        other.hand_out(on(7, "08:00:00"), "b1", "hello", "1.0-3")
        other.merge(on(7, "10:00:00"), ("amd64", [["hello", "Building", state, state and "1.0-3"]]))
        last = list(index_of(other).builds(source="hello"))[-1]
        expect((last.result, last.command, last.took, last.ended) ==
               ("other", "merge", None, seconds_of(on(7, "10:00:00"))), f"{last}")
    one.add(on(7, "10:00:00"), "uploaded", take=2)
    last = list(index_of(one).builds(source="hello"))[-1]
    expect((last.result, last.took) == ("built", 7200), f"{last}")


def keeps_what_was_said_of_a_state(folder):
    """A merge that changes another field of what waits or is held leaves its note, its holder and its time; and a
    version that it changes is the new one."""
    one = named()
    one.add(on(7, "08:00:00"), "fail", arch="amd64", source="hello", version="1.0-3", note="no disk")
    take = one.hand_out(on(7, "09:00:00"), "b1", "tar", "1.31")
    one.add(on(7, "10:00:00"), "built", take=take)
    changes = [["hello", "Failed", "Failed", "1.0-3"], ["tar", "Built", "Built", "1.31"]]
    one.merge(on(8, "08:00:00"), ("amd64", [*changes, ["zlib", "Installed", "Installed", "2"]]))
    (folder / "journal").write_bytes(one.data())
    wanted = {
        "hello": ("Failed", "1.0-3", on(7, "08:00:00"), "no disk", None),
        "tar": ("Built", "1.31", on(7, "10:00:00"), "", "b1"),
        "zlib": ("Installed", "2", on(2, "08:00:00"), "", None),
    }
    [failed] = call(folder, "journal", "ages", "--state", "Failed", "--json").splitlines()
    [held] = call(folder, "journal", "ages", "--json").splitlines()
    [there] = call(folder, "journal", "ages", "--state", "Installed", "--json").splitlines()
    for row in map(json.loads, (failed, held, there)):
        met = (row["state"], row["version"], row["since"], row["text"], row.get("builder"))
        expect(met == wanted[row["source"]], f"{met}")


def says_since_when(_folder):
    """Of each state from the line that led there; a merge that leaves the state as it is changes nothing of it."""
    one = named()
    expect_since(index_of(one), {
        ("hello", "Needs-Build"): since(5, "09:00:00"), ("zlib", "Installed"): since(2, "08:00:00"),
        ("hello", "Failed"): None, ("none", "Needs-Build"): None,
    })
    one.hand_out(on(7, "08:00:00"), "b1", "hello", "1.0-3")
    one.add(on(7, "09:00:00"), "built", take=2)
    expect_since(index_of(one), {
        ("hello", "Built", 2): since(7, "09:00:00"), ("hello", "Building", 2): since(7, "08:00:00"),
    })
    for command, state in (("fail", "Failed"), ("not-for-us", "Not-For-Us"), ("dep-wait", "Dep-Wait")):
        one.add(on(8, "09:00:00"), command, arch="amd64", source="hello", version="1.0-3")
        expect_since(index_of(one), {("hello", state): since(8, "09:00:00")})


def guesses_nothing(_folder):
    """What a line may have moved without naming it is in its state since a time before: a merge or a report that names
    nothing, a gap, and the begin of a journal that begins late."""
    one = example()
    expect_since(index_of(one), {
        ("hello", "Uploaded", 3): since(10, "01:30:00"), ("none", "Installed"): since(9, "09:00:00", False),
        ("gcc-14", "Dep-Wait"): since(12, "08:05:00"), ("hello", "Failed"): None,
    })
    one.merge(on(12, "20:00:00"), ("amd64", 1))
    expect_since(index_of(one), {
        ("hello", "Uploaded", 3): since(10, "01:30:00"), ("hello", "Installed"): since(12, "20:00:00", False),
        ("gcc-14", "Dep-Wait"): since(12, "08:05:00"), ("gcc-14", "Needs-Build"): since(12, "20:00:00", False),
    })
    one.accepted += 2
    one.add(on(12, "21:00:00"), "add-builder", name="b7", arch="amd64")
    gap = since(12, "21:00:00", False)
    expect_since(index_of(one), {
        ("hello", "Uploaded", 3): since(10, "01:30:00"), ("gcc-14", "Dep-Wait"): gap, ("gcc-14", "Failed"): gap,
    })
    late = Named(accepted=7)
    late.merge(on(5, "09:00:00"), ("amd64", [["hello", "Needs-Build", "Needs-Build", "1.0-3"]]))
    late.add(on(6, "09:00:00"), "attempted", take=4, reason="cc died")
    expect_since(index_of(late), {
        ("hello", "Needs-Build"): Since(seconds_of(on(5, "09:00:00")), False),
        ("tar", "Failed"): since(5, "09:00:00", False), ("tar", "Build-Attempted"): since(6, "09:00:00", False),
    })


def asks_each_architecture_for_itself(_folder):
    """Of the parts of a merge one may say what it changed, one not, and one be refused: of the first and the last all
    is known, and what may have moved on the second is there since a time before."""
    one, archs = named(), ("amd64", "arm64", "armhf")
    one.merge(on(7, "08:00:00"), *((arch, [["tar", None, "Installed", "1.31"]]) for arch in archs))
    refused = {"arch": "armhf", "code": 15, "fault": "NoColon", "paragraph": 1, "refused": "BadListing"}
    parts = [{"arch": "amd64", "changes": [["tar", "Installed", "Needs-Build", "1.32"]]}, {"arch": "arm64"}]
    counts = {"added": 0, "changed": 1, "kept": 3, "removed": 0}
    answer = {"parts": [counts | {"arch": arch} for arch in archs[:2]] + [refused]}
    one.add(on(9, "08:00:00"), "merge", answer, parts=[*parts, {"arch": "armhf"}])
    index = index_of(one)
    met = {arch: index.since((arch, "tar"), state) for arch, state in zip(archs, ("Needs-Build", *["Installed"] * 2))}
    wanted = {"amd64": since(9, "08:00:00"), "arm64": since(9, "08:00:00", False), "armhf": since(7, "08:00:00")}
    expect(met == wanted, f"{met}")
    expect_since(index, {("zlib", "Installed"): since(2, "08:00:00")})
    expect([one.accepted for one in index.imports("armhf")] == [9], f"{index.imports('armhf')}")
    expect([index.is_doubted(index.imports(arch)[-1]) for arch in archs] == [False, True, False], "doubts")


def doubts_what_is_before_a_gap(folder):
    """Without an office to ask, what may have moved while lines are missing is marked, and nothing that was seen since;
    an upload after a gap says of a build that it is done, and not how long it took. A package's history says that there
    is a gap."""
    one = example()
    one.accepted += 1
    one.add(on(12, "19:50:00"), "uploaded", take=4)
    one.hand_out(on(12, "19:55:00"), "b1", "tar", "1.30")
    (folder / "journal").write_bytes(one.data())
    met = {}
    for line in call(folder, "journal", "ages", "--json").splitlines():
        row = json.loads(line)
        met[row["arch"], row["source"]] = (row["may_have_moved"], row["merged"])
    before, after = [("arm64", "zlib"), ("arm64", "tar"), ("amd64", "hello"), ("amd64", "gcc-14")], ["zlib", "tar"]
    wanted = {key: (True, False) for key in before} | {("amd64", source): (False, False) for source in after}
    expect(met == wanted, f"{met}")
    expect("MAY HAVE MOVED" in call(folder, "journal", "ages"), "the marks have no column")
    row = json.loads(call(folder, "journal", "builds", "--source", "zlib", "--arch", "amd64", "--json"))
    expect((row["result"], row["took"]) == ("built", None), f"how long a build took is guessed: {row}")
    met = call(folder, "journal", "package", "amd64", "hello").splitlines()[-1]
    expect(met == "one gap of the journal may hide more of it; the question gaps shows where", met)
    expect("gap" not in call(folder, "-", "package", "amd64", "hello", said=example().data()), "there is no gap")
    one.merge(on(12, "20:00:00"), ("amd64", 1))
    one.lines[-1] = one.lines[-1].replace('{"arch":"amd64"}', '{"arch":"amd64","changes":[%s]}' % STAYS)
    for _ in range(2):
        expect_since(index_of(one), {("gcc-14", "Dep-Wait"): since(12, "19:50:00", False)})
        row = json.loads(call(folder, "-", "ages", "--state", "Dep-Wait", "--json", said=one.data()))
        expect((row["since"], row["before"], row["may_have_moved"]) == (None, on(12, "19:50:01"), False), f"{row}")
        one.add(on(12, "20:01:00"), "add-builder", name="b8", arch="amd64")


def removed():
    """The two packages with another architecture, on which a merge that names nothing ended a build; this architecture
    is removed, and a package of the first forgotten."""
    one = named()
    changes = [["hello", None, "Needs-Build", "1.0-3"], ["zlib", None, "Installed", "1"]]
    one.merge(on(7, "08:00:00"), ("arm64", changes))
    one.hand_out(on(7, "09:00:00"), "b2", "hello", "1.0-3", arch="arm64")
    one.add(on(7, "10:00:00"), "merge", {"parts": [{"added": 0, "arch": "arm64", "changed": 1}]}, parts=[])
    one.add(on(8, "08:00:00"), "remove-arch", name="arm64")
    one.add(on(8, "09:00:00"), "forget", arch="amd64", source="zlib", version="1")
    return one


def removes_what_an_architecture_has(folder):
    """Each package of an architecture that is removed has that in its history, with its last version, and is in no
    state from there on; what builds there by the journal ends; nothing of others changes. What is entered once it is
    there again is in its state since then."""
    one = removed()
    index, columns = index_of(one), ("arch", "source", "command", "was", "state", "version")
    met = [tuple(getattr(event, name) for name in columns) for event in index.events("accepted > 11")]
    wanted = [("arm64", "hello", "remove-arch", None, "", "1.0-3"), ("arm64", "zlib", "remove-arch", None, "", "1")]
    expect(met == [*wanted, ("amd64", "zlib", "forget", None, "", "1")], f"{met}")
    last = list(index.builds(arch="arm64"))[-1]
    expect((last.result, last.command, last.took) == ("other", "remove-arch", None), f"{last}")
    left = [(resting.key, resting.event.state) for resting in index.resting(STATES)]
    expect(left == [(("amd64", "hello"), "Needs-Build")] and index.names_with("l") == ["hello"], f"{left} are left")
    expect(not index.gaps() and not list(index.builds(result="building")), "a gap, or a build that goes on")
    expect_since(index, {("hello", "Needs-Build"): since(5, "09:00:00"), ("zlib", "Installed"): None})
    one.add(on(9, "08:00:00"), "add-arch", name="arm64", os="linux", cpu="arm64")
    words = {"arch": "arm64", "source": "hello", "version": "2.0", "priority": "extra", "section": "misc"}
    one.add(on(9, "09:00:00"), "enter", **words)
    met = index_of(one).since(("arm64", "hello"), "Needs-Build")
    expect(met == since(9, "09:00:00"), f"{met}")
    one.add(on(9, "10:00:00"), "remove-arch", name="s390x")  # of which the journal names no package
    expect(len(index_of(one).events("accepted > 11")) == 4, "another architecture has events")
    (folder / "journal").write_bytes(one.data())
    kept = writing.FLUSH
    try:
        writing.FLUSH = 1
        update_here(folder)
    finally:
        writing.FLUSH = kept
    expect_same(folder, one.data())


def brings_back_what_a_copy_has(folder):
    """After an office was restored from a copy of before a removal all is in the states of then."""
    one, before = removed(), named().accepted
    again = Named(accepted=before + 3)
    again.add(on(10, "08:00:00"), "add-builder", name="b7", arch="amd64")
    (folder / "journal").write_bytes(one.data())
    update(folder)
    (folder / "journal").write_bytes(one.data() + again.data())
    update(folder)
    expect_same(folder, one.data() + again.data())
    index = Index(tables.open_to_read(folder / "journal.index"))
    met = [resting.key for resting in index.resting(STATES)]
    keys = [("amd64", "zlib"), ("amd64", "hello"), ("arm64", "zlib"), ("arm64", "hello")]
    expect(met == keys and len(list(index.builds(result="building"))) == 1, f"{met}")


def takes_odd_changes_for_none(_folder):
    """Changes in another form are as if they were not there: then a merge may have moved any package."""
    for changes in ("x", [["hello"]], [["hello", 1, "Failed", "1"]], [[None, None, "Failed", "1"]], {}):
        one = named()
        one.merge(on(9, "09:00:00"), ("amd64", changes))
        expect_since(index_of(one), {("zlib", "Installed"): since(9, "09:00:00", False)})
    one = named()
    one.merge(on(9, "09:00:00"), ("amd64", []))
    expect_since(index_of(one), {("zlib", "Installed"): since(2, "08:00:00")})


def keeps_texts_and_numbers_that_sqlite_lacks(folder):
    """Half a surrogate pair and a number beyond 64 bits stop nothing."""
    one = named()
    one.add(on(9, "09:00:00"), "fail", arch="amd64", source="hello", version="1", note="\ud800 \0 \u202e")
    one.add(on(9, "09:00:00"), "built", take=10**30)
    one.hand_out(on(9, "10:00:00"), "b\ud800", "tar", "1")
    data = "".join(f"{json.dumps(json.loads(line))}\n" for line in one.lines).encode()
    rows = call(folder, "-", "package", "amd64", "hello", "--json", said=data).splitlines()
    expect(json.loads(rows[-1])["text"] == "\\ud800 \0 \u202e", rows[-1])
    huge = data + data.splitlines()[-1].replace(b'"accepted": 11', b'"accepted": %d' % 10**30) + b"\n"
    call(folder, "-", "gaps", said=huge, status=1, message="this is no line of a journal")


# ---- reading on


def rows_of(connection):
    return {table: connection.execute(f"SELECT * FROM {table} ORDER BY rowid").fetchall() for table in TABLES
            if table != "package"} | {"package": connection.execute("SELECT * FROM package").fetchall()}


def update(folder, status=0, message=""):
    return call(folder, "journal", "index", status=status, message=message)


def update_here(folder):
    """Brings the index up to date in this program."""
    with contextlib.closing(tables.open_to_write(folder / "journal.index")) as connection:
        expect(not list(read_on(connection, folder / "journal")), "lines are amiss")


def expect_same(folder, data):
    """The index beside the journal has what these lines have, read at once."""
    wanted = read_whole(found for line in data.splitlines(keepends=True) for found in read_line("here", line))[0]
    met, wanted = rows_of(sqlite3.connect(folder / "journal.index")), rows_of(wanted)
    expect(met == wanted, f"{[(name, met[name][-2:], wanted[name][-2:]) for name in met if met[name] != wanted[name]]}")


def reads_on_line_by_line(folder):
    """Whatever stood in the journal each time, the index is that of all lines; a line that is being written waits."""
    data, journal = example().data() + named().data().replace(b'"accepted":', b'"accepted":1'), folder / "journal"
    for size in [0, 10, 400, 2000, 2001, len(data) - 300, len(data) - 1, len(data)]:
        journal.write_bytes(data[:size])
        update(folder)
        expect_same(folder, data[: data[:size].rfind(b"\n") + 1])
    for name, words in {"days": [], "gaps": [], "builders": [], "package": ["amd64", "hello"], "builds": []}.items():
        met = call(folder, "journal", name, *words)
        expect(met == call(folder, "-", name, *words, said=data), f"{name} of the index: {met}")


def passes_over_broken_lines(folder):
    """A line that is malformed, or that a kill cut off, is named once with its place, and the others count."""
    lines = example().data().splitlines(keepends=True)
    lines[7] = b"{]\n"
    lines[12] = lines[12][:40] + b"\n"
    (folder / "journal").write_bytes(b"".join(lines))
    update(folder, 1, "journal, line 8: this is no JSON")
    expect_same(folder, b"".join(lines))
    update(folder)
    index = Index(tables.open_to_read(folder / "journal.index"))
    met = index.faults()
    expect([is_cut for _, is_cut in met] == [False, True] and "line 13: the line is cut off" in met[1][0], f"{met}")
    expect([gap.missing for gap in index.gaps()] == [1, 1], f"{index.gaps()}")


def follows_rotated_journals(folder):
    """As logrotate leaves them: renamed, then compressed, by numbers and by dates, copied and cut short; several times
    between two readings; and nothing is read twice."""
    data = example().data()
    lines = data.splitlines(keepends=True)
    parts = [b"".join(lines[at : at + 4]) for at in range(0, 20, 4)]
    journal = folder / "journal"
    journal.write_bytes(parts[0])
    update(folder)
    journal.write_bytes(parts[0] + lines[4])
    journal.rename(folder / "journal.1")
    update(folder)
    expect_same(folder, parts[0] + lines[4])
    journal.write_bytes(b"".join(lines[5:8]))
    update(folder)
    (folder / "journal.3.gz").write_bytes(gzip.compress((folder / "journal.1").read_bytes()))
    (folder / "journal.2").write_bytes(b"".join(lines[5:10]))
    (folder / "journal.1").write_bytes(b"".join(lines[10:14]))
    journal.write_bytes(b"".join(lines[14:16]))
    update(folder)
    expect_same(folder, b"".join(lines[:16]))
    (folder / "journal.index").unlink()
    update(folder)
    expect_same(folder, b"".join(lines[:16]))
    for name in ("1", "2", "3.gz"):
        (folder / f"journal.{name}").unlink()
    (folder / "journal-20260412").write_bytes(b"".join(lines[14:18]))
    journal.write_bytes(b"".join(lines[18:]))
    update(folder)
    expect_same(folder, data)


def says_that_a_part_is_gone(folder):
    """If nothing goes on where the index ends, that is said once, and the counts show the gap."""
    lines = example().data().splitlines(keepends=True)
    (folder / "journal").write_bytes(b"".join(lines[:8]))
    update(folder)
    (folder / "journal").write_bytes(b"".join(lines[10:]))
    update(folder, 1, "does not go on where the index ends")
    expect_same(folder, b"".join(lines[:8] + lines[10:]))
    update(folder)
    expect_same(folder, b"".join(lines[:8] + lines[10:]))


def forgets_what_a_copy_lacks(folder):
    """After an office was restored from a copy, what came after the copy is not there, also in a later reading."""
    one, again = example(), Journal(accepted=12)
    (folder / "journal").write_bytes(one.data())
    update(folder)
    again.handed = 3
    again.hand_out(on(12, "20:00:00"), "b2", "tar", "1.30")
    (folder / "journal").write_bytes(one.data() + again.data())
    update(folder)
    expect_same(folder, one.data() + again.data())
    met = call(folder, "journal", "ages", "--state", "Building", "--json").splitlines()
    expect([json.loads(line)["source"] for line in met] == ["tar"], f"{met}")


def reads_long_lines_in_parts(folder):
    """Lines of merges that change many records are committed part by part, each line whole, also if it is longer than
    what is committed together; and what was before a restored copy is derived anew, part by part."""
    one = Named()
    for at in range(1, 5):
        changes = [[f"s{number:05}", "Installed" if at > 1 else None, "Installed", f"{at}"] for number in range(6000)]
        one.merge(on(at, "08:00:00"), ("amd64", changes))
    data = one.data()
    again = Named(accepted=3)
    again.report(on(6, "08:00:00"), "amd64", [["s00000", "Installed", "Installed", "4"]])
    (folder / "journal").write_bytes(data)
    commits, kept = [], (reading.SIZE, writing.FLUSH)
    connection = tables.open_to_write(folder / "journal.index")
    connection.set_trace_callback(lambda said: commits.append(said) if said == "COMMIT" else None)
    try:
        reading.SIZE, writing.FLUSH = 300000, 1000
        expect(not list(read_on(connection, folder / "journal")), "lines are amiss")
        expect(len(commits) == 3, f"{len(commits)} transactions, of lines of {len(data) // 4} bytes")
        with open(folder / "journal", "ab") as journal:
            journal.write(again.data())
        expect(not list(read_on(connection, folder / "journal")), "lines are amiss")
    finally:
        reading.SIZE, writing.FLUSH = kept
    connection.close()
    expect_same(folder, data + again.data())


def takes_its_own_files_alone(folder):
    """An index of another form is made anew; what is no index stays as it is, and what is no journal has none."""
    (folder / "journal").write_bytes(example().data())
    update(folder)
    with sqlite3.connect(folder / "journal.index") as old:
        old.execute("PRAGMA user_version = 77")
        old.execute("DROP TABLE event")
    call(folder, "journal", "days")
    expect_same(folder, example().data())
    for data in (b"no database" * 100, None):
        (folder / "journal.index").unlink()
        if data is None:
            with sqlite3.connect(folder / "journal.index") as other:
                other.execute("CREATE TABLE mine(x)")
        else:
            (folder / "journal.index").write_bytes(data)
        kept = (folder / "journal.index").read_bytes()
        update(folder, 1, "journal.index is ")
        expect((folder / "journal.index").read_bytes() == kept, "a file of another program was changed")
    for text, why in ((b"x\n" * 1000, "no line of it is one of a journal"), (b"\x1f\x8b\n", "compressed by gzip")):
        (folder / "other").write_bytes(text)
        for question in ("index", "index", "days"):
            expect(call(folder, "other", question, status=1, message=why) == "", f"{question} of {text[:9]}")
    (folder / "other").write_bytes(example().data())
    expect("no command" not in call(folder, "other", "index"), "what was no journal stays in its index")
    call(folder, "nowhere", "index", status=3, message="nowhere: No such file")
    call(folder, "-", "index", status=2, message="usage:")


def answers_from_an_index_elsewhere(folder):
    """--index names it, and each question then asks it; with it a reader reads no more than it."""
    (folder / "journal").write_bytes(named().data())
    met = call(folder, "journal", "index", "--index", "other")
    expect(met == f"The index ends with command 8 at {on(6, '09:00:00')}, and has no gaps\n", met)
    expect(not (folder / "journal.index").exists(), "there are two indexes")
    call(folder, "journal", "days", "--index", "other")
    connection = tables.open_to_read(folder / "other")
    expect([row[0] for row in connection.execute("SELECT count(*) FROM event")] == [9], "events")
    try:
        connection.execute("DELETE FROM event")
        expect(False, "what is only read was written")
    except sqlite3.OperationalError:
        pass


def passes_over_other_keys(folder):
    """A line may have keys that are not known here."""
    one = named()
    lines = [json.dumps(json.loads(line) | {"key": "k1", "more": [1, {}]}) for line in one.lines]
    (folder / "journal").write_text("".join(f"{line}\n" for line in lines))
    update(folder)
    expect_same(folder, one.data())


def takes_a_millisecond_a_line(folder):
    """A journal of 20,000 lines is read in 20 seconds at most, and an index that is up to date at once."""
    one = Journal()
    for at in range(10000):
        when = time.strftime("%Y-%m-%dT%H:%M:%SZ", time.gmtime(NOW - 9000000 + 200 * at))
        one.add(when, "built", take=one.hand_out(when, f"b{at % 9}", f"s{at % 5000}", "1.0"))
    (folder / "journal").write_bytes(one.data())
    connection, begun = tables.open_to_write(folder / "journal.index"), time.process_time()
    expect(not list(read_on(connection, folder / "journal")), "lines are amiss")
    took = time.process_time() - begun
    expect(took < 20, f"it took {took:.1f} seconds")
    begun = time.process_time()
    list(read_on(connection, folder / "journal"))
    again = time.process_time() - begun
    expect(again < 0.1, f"nothing new took {again:.3f} seconds")
    of_merge = first_merge_takes(folder)
    expect(of_merge < 10, f"the lines of a first merge and of a removal took {of_merge:.1f} seconds")
    return f"{took / 20:.3f} ms a line, and a first merge of 16,000 records and their removal {of_merge:.1f} s"


def first_merge_takes(folder):
    """How many seconds the lines take of a merge that adds 16,000 records, which has a megabyte, and of the removal of
    their architecture."""
    one = Named()
    changes = [[f"source-{at:05}", None, "Installed", f"1.{at}-1"] for at in range(16000)]
    one.merge(on(9, "08:00:00"), ("amd64", changes))
    one.add(on(9, "09:00:00"), "remove-arch", name="amd64")
    (folder / "first").write_bytes(one.data())
    connection, begun = tables.open_to_write(folder / "first.index"), time.process_time()
    expect(not list(read_on(connection, folder / "first")), "a line is amiss")
    took = time.process_time() - begun
    met = connection.execute("SELECT count(*), sum(state = '') FROM package").fetchone()
    expect(met == (16000, 16000), f"of 16,000 records {met[0]} are there, {met[1]} of them removed")
    return took


TESTS = [
    merges_and_reports_name_what_they_moved, keeps_a_build_that_a_merge_leaves, keeps_what_was_said_of_a_state,
    says_since_when, guesses_nothing, asks_each_architecture_for_itself, doubts_what_is_before_a_gap,
    removes_what_an_architecture_has, brings_back_what_a_copy_has, takes_odd_changes_for_none,
    keeps_texts_and_numbers_that_sqlite_lacks, reads_on_line_by_line, passes_over_broken_lines,
    follows_rotated_journals, says_that_a_part_is_gone, forgets_what_a_copy_lacks, reads_long_lines_in_parts,
    takes_its_own_files_alone, answers_from_an_index_elsewhere, passes_over_other_keys, takes_a_millisecond_a_line,
]

if __name__ == "__main__":
    sys.exit(main(TESTS))

#!/usr/bin/env python3
"""Tests of tools/bin/wb-history, and of what tools/bin/wb-status shows of a journal, on a journal of a few lines that
stands here with its answers, on lines that are cut off or malformed, with a stand-in for a serving office, and with the
program. Each test has a folder of its own.

    tools/tests/test_history.py [NAME..]     these tests, or all

From the environment: WB is the program, ./wb of this repository where it is not set. All that is wanted was written by
hand.
"""
import calendar
import contextlib
import http.server
import json
import os
import re
import resource
import subprocess
import sys
import threading
import time

from harness import BIN, WB, expect, free_port, main
from look_runs import in_terminal

WAIT = 30
NOW = calendar.timegm((2026, 4, 12, 20, 0, 0))
QUESTIONS = {
    "package": ["package", "amd64", "hello"],
    "ages": ["ages"],
    "builders": ["builders"],
    "suspects": ["suspects"],
    "days": ["days"],
    "gaps": ["gaps"],
}


def call(folder, *words, script="wb-history", said=b"", status=0, message="", now=NOW):
    """What a script writes on standard output, if it ends with this status and its messages have this text."""
    variables = {**os.environ, "SOURCE_DATE_EPOCH": str(now)}
    command = [BIN / script, *map(str, words)]
    done = subprocess.run(
        command, cwd=folder, input=said, env=variables, capture_output=True, timeout=WAIT, check=False
    )
    errors = done.stderr.decode()
    met = (done.returncode == status, message in errors, "Traceback" not in errors, bool(errors) == bool(message))
    expect(all(met), f"{words} ends with {done.returncode} and {errors!r}, not {status} and {message!r}")
    return done.stdout.decode()


class Journal:
    """A journal that a test writes, each line of an accepted command after the one before."""

    def __init__(self, accepted=0):
        self.lines, self.accepted, self.handed = [], accepted, 0

    def add(self, at, command, answer=None, **words):
        self.accepted += 1
        answer = {"accepted": self.accepted, "ok": command} | (answer or {})
        found = {"accepted": self.accepted, "answer": answer, "command": {"command": command} | words, "time": at}
        self.lines.append(json.dumps(found, ensure_ascii=False, separators=(",", ":"), sort_keys=True))

    def hand_out(self, at, builder, source, version, arch="amd64", command="next", **words):
        self.handed += 1
        given = {
            "arch": arch, "build": version, "message": "", "number": 0, "source": source, "take": self.handed,
            "version": version,
        }
        named = {"source": source, "version": version} if command == "take" else {}
        self.add(at, command, given, arch=arch, builder=builder, **named, **words)
        return self.handed

    def merge(self, at, *parts):
        merged = [{"added": added, "arch": arch, "changed": 0, "kept": 1, "removed": 0} for arch, added in parts]
        self.add(at, "merge", {"parts": merged}, parts=[{"arch": arch} for arch, _ in parts])

    def data(self):
        return "".join(f"{line}\n" for line in self.lines).encode()


def on(day, clock):
    return f"2026-04-{day:02}T{clock}Z"


def example():
    """Three days: `hello` fails, is given back and built; `tar` is built twice; `zlib` has been building since the
    morning, `gcc-14` waits."""
    one = Journal()
    one.add(on(9, "08:00:00"), "add-arch", name="amd64", os="linux", cpu="amd64")
    one.add(on(9, "08:00:00"), "add-arch", name="arm64", os="linux", cpu="arm64")
    one.add(on(9, "08:00:01"), "add-builder", name="b1", arch="amd64")
    one.merge(on(9, "09:00:00"), ("amd64", 4), ("arm64", 3))
    one.hand_out(on(9, "10:00:00"), "b1", "tar", "1.30")
    one.add(on(9, "10:10:00"), "built", take=1)
    one.add(on(9, "10:11:00"), "uploaded", take=1)
    one.hand_out(on(9, "11:00:00"), "b1", "hello", "1.0-1")
    one.add(on(9, "11:00:45"), "attempted", take=2, reason="cc died\n\x1b[31m")
    one.add(on(9, "12:00:00"), "give-back", arch="amd64", source="hello", version="1.0-1")
    one.hand_out(on(9, "23:00:00"), "b2", "hello", "1.0-1", command="take")
    one.add(on(10, "01:30:00"), "uploaded", take=3)
    one.hand_out(on(12, "06:00:00"), "b1", "zlib", "1:1.3", after=2)
    one.add(
        on(12, "07:00:00"), "enter", arch="amd64", source="gcc-14", version="14.2", priority="optional", section="devel"
    )
    one.hand_out(on(12, "08:00:00"), "b2", "gcc-14", "14.2")
    one.add(on(12, "08:05:00"), "waits", take=5, relations="libisl-dev (>= 0.27)")
    one.hand_out(on(12, "09:00:00"), "a1", "tar", "1.30", arch="arm64")
    one.add(on(12, "09:20:00"), "uploaded", take=6)
    one.hand_out(on(12, "19:30:00"), "a1", "zlib", "1:1.3", arch="arm64")
    one.add(on(12, "19:45:00"), "report", {"changed": 1}, arch="arm64", text=2)
    return one


def expect_text(met, wanted):
    wanted = "".join(f"{line}\n" for line in wanted)
    expect(met == wanted, f"\n{met}\nin place of\n{wanted}")


# ---- each question


def follows_a_package(folder):
    """By its name and by its take numbers, through a failed build and another builder; merges are shown if they are
    asked for."""
    (folder / "journal").write_bytes(example().data())
    rows = [
        "hello on amd64: 5 commands of the journal",
        "TIME                 COMMAND    STATE            VERSION  BUILDER  TAKE        AFTER  TEXT",
        "2026-04-09 11:00:00  next       Building         1.0-1    b1          2",
        "2026-04-09 11:00:45  attempted  Build-Attempted  1.0-1    b1          2         45 s  cc died\\n\\u001b[31m",
        "2026-04-09 12:00:00  give-back  Needs-Build      1.0-1                   59 min 15 s",
        "2026-04-09 23:00:00  take       Building         1.0-1    b2          3  11 h  0 min",
        "2026-04-10 01:30:00  uploaded   Uploaded         1.0-1    b2          3   2 h 30 min",
    ]
    note = "one merge or report of amd64 of 2026-04-09 may have moved it too; --merges shows them"
    expect_text(call(folder, "journal", "package", "amd64", "hello"), [*rows, note])
    met = call(folder, "journal", "package", "amd64", "hello", "--merges").splitlines()
    expect(
        met[2].split("  ")[:2] == ["2026-04-09 09:00:00", "merge"]
        and met[2].endswith("added 4, changed 0, kept 1, removed 0"),
        f"{met[2]}",
    )
    expect(
        call(folder, "journal", "package", "amd64", "none").startswith("none on amd64: no commands of the journal\n"),
        "a package that is not there",
    )
    met = call(folder, "journal", "package", "amd64", "hello", "--first", "1").splitlines()
    expect(met[2:] == ["2026-04-09 11:00:00  next     Building  1.0-1    b1          2", "and 4 more", note], f"{met}")
    one = example()
    one.add(on(12, "19:55:00"), "build-priority", arch="amd64", source="zlib", version="1:1.3", value=-50)
    one.add(on(12, "19:56:00"), "build-priority", arch="amd64", source="zlib", version="1:1.3", value=0)
    one.add(on(12, "19:57:00"), "built", take=4)
    rows = [json.loads(line) for line in call(folder, "-", *QUESTIONS["package"][:2], "zlib", "--json",
                                              said=one.data()).splitlines()]
    wanted = [("next", "Building", ""), ("build-priority", "", "-50"), ("build-priority", "", "0")]
    wanted += [("built", "Built", "")]
    expect([(row["command"], row["state"], row["text"]) for row in rows] == wanted, f"{rows}")
    met = json.loads(call(folder, "-", "builders", "--json", "--arch", "amd64", said=one.data()).splitlines()[0])
    expect((met["built"], met["building"]) == (2, 0), f"a build priority ends a build: {met}")


def follows_what_is_removed(folder):
    """A record that is forgotten, and each of an architecture that is removed; a builder that is has no records."""
    one = example()
    one.add(on(12, "19:55:00"), "put-back", take=4)
    one.add(on(12, "19:56:00"), "forget", arch="amd64", source="zlib", version="1:1.3")
    one.add(on(12, "19:57:00"), "remove-builder", name="a1", arch="arm64")
    one.add(on(12, "19:58:00"), "remove-arch", name="arm64")
    one.add(on(12, "19:59:00"), "enter", arch="amd64", source="zlib", version="1:1.4", priority="a", section="b")

    def rows(*key):
        said = call(folder, "-", "package", *key, "--json", said=one.data()).splitlines()
        return [(row["command"], row["state"]) for row in map(json.loads, said)]

    wanted = [("put-back", "Needs-Build"), ("forget", "removed"), ("enter", "Needs-Build")]
    expect(rows("amd64", "zlib")[-3:] == wanted, f"{rows('amd64', 'zlib')}")
    expect(rows("arm64", "tar")[-1] == ("remove-arch", "removed"), f"{rows('arm64', 'tar')}")
    expect(rows("amd64", "tar")[-1][0] == "uploaded", f"another architecture: {rows('amd64', 'tar')}")
    met = call(folder, "-", "ages", "--arch", "arm64", said=one.data())
    expect("arm64" not in met.replace("of arm64", ""), f"what was removed has an age: {met}")


def says_how_old_things_are(folder):
    """What builds and what waits, the longest first, and whether a merge or a report came since."""
    one = example()
    wanted = [
        "2 packages being built",
        "ARCH   SOURCE  VERSION  BUILDER  TAKE  SINCE                        AGE",
        "amd64  zlib    1:1.3    b1          4  2026-04-12 06:00:00  14 h  0 min",
        "arm64  zlib    1:1.3    a1          7  2026-04-12 19:30:00  30 min  0 s",
        "",
        "3 packages built or uploaded",
        "ARCH   SOURCE  VERSION  STATE     BUILDER  TAKE  SINCE                        AGE",
        "amd64  tar     1.30     Uploaded  b1          1  2026-04-09 10:11:00     3 d  9 h",
        "amd64  hello   1.0-1    Uploaded  b2          3  2026-04-10 01:30:00     2 d 18 h",
        "arm64  tar     1.30     Uploaded  a1          6  2026-04-12 09:20:00  10 h 40 min",
        "",
        "One package waiting",
        "ARCH   SOURCE  VERSION  STATE     SINCE                        AGE  TEXT",
        "amd64  gcc-14  14.2     Dep-Wait  2026-04-12 08:05:00  11 h 55 min  libisl-dev (>= 0.27)",
    ]
    expect_text(call(folder, "-", "ages", said=one.data()), wanted)
    refused = {
        "arch": "arm64", "code": 15, "fault": "NoColon", "paragraph": 1, "refused": "BadListing", "which": "Packages",
    }
    parts = [{"added": 0, "arch": "amd64", "changed": 0, "kept": 4, "removed": 0}, refused]
    one.add(on(12, "19:50:00"), "merge", {"parts": parts}, parts=[{"arch": "amd64"}, {"arch": "arm64"}])
    met = call(folder, "-", "ages", said=one.data()).splitlines()
    more = "2 packages reported before a merge, which may have found them in the archive, are left out; --url asks"
    expect(
        [line.split()[-1] for line in met[2:4]] == ["yes", "s"] and met[12].split()[10] == "yes"
        and [line.split()[:2] for line in met[7:8]] == [["arm64", "tar"]] and met[8] == f"{more} for them",
        f"after a merge of one architecture: {met}",
    )
    met = call(folder, "-", "ages", "--arch", "arm64", said=one.data())
    expect("amd64" not in met and "No packages waiting" in met, f"{met}")


def fits_a_terminal(folder):
    """At 80 columns no row is wider: what the table does without is left out and named, the reason is cut last."""
    one = example()
    one.add(on(12, "19:46:00"), "attempted", take=4, reason="x" * 300)
    (folder / "journal").write_bytes(one.data())
    for question in ("ages", "builders", "suspects", "gaps", "package"):
        words = ["wb-history", str(folder / "journal"), *QUESTIONS[question]]
        rows = in_terminal(words, b"", 80).splitlines()
        expect(max(map(len, rows)) <= 80 or question == "package", f"{question}: {max(rows, key=len)}")
        expect("left out here: " in "".join(rows) or question not in ("ages", "builders"), f"{question}: {rows}")
        wide = in_terminal([*words, "--wide"], b"", 80).splitlines()
        expect("left out here" not in "".join(wide) and wide[0] == rows[0], f"{question} --wide: {wide}")
        if question == "ages":
            expect(max(row.count("x") for row in rows) >= 24 and max(row.count("x") for row in wide) >= 300, f"{rows}")


def says_what_builders_did(folder):
    """Hand-outs by their ends, and the times of the builds that ended well."""
    wanted = [
        "3 builders, with the median and the longest of the builds that ended well",
        "ARCH   BUILDER  TAKEN  BUILT  FAILED  WAITED  PUT BACK  OTHER  BUILDING       MEDIAN      LONGEST  LAST",
        "amd64  b1           3      1       1       0         0      0         1  10 min  0 s  10 min  0 s  "
        "2026-04-12 06:00:00",
        "amd64  b2           2      1       0       1         0      0         0   2 h 30 min   2 h 30 min  "
        "2026-04-12 08:05:00",
        "arm64  a1           2      1       0       0         0      0         1  20 min  0 s  20 min  0 s  "
        "2026-04-12 19:30:00",
    ]
    expect_text(call(folder, "-", "builders", said=example().data()), wanted)
    one = example()
    one.add(on(12, "19:50:00"), "give-back", arch="amd64", source="zlib", version="1:1.3")
    one.hand_out(on(12, "19:51:00"), "b1", "zlib", "1:1.3")
    one.add(on(12, "19:52:00"), "put-back", take=one.handed)
    rows = [
        json.loads(line)
        for line in call(folder, "-", "builders", "--json", "--arch", "amd64", said=one.data()).splitlines()
    ]
    counts = {
        key: rows[0][key]
        for key in ("taken", "built", "failed", "waited", "put_back", "other", "building", "median", "longest")
    }
    wanted = {
        "taken": 4, "built": 1, "failed": 1, "waited": 0, "put_back": 1, "other": 1, "building": 0, "median": 600,
        "longest": 600,
    }
    expect(counts == wanted and [row["builder"] for row in rows] == ["b1", "b2"], f"{rows}")


def suspects_what_hangs(folder):
    """By the median of the package if it was built before, else of the builder; by how many times, and no young one."""
    one = example()
    met = [json.loads(line) for line in call(folder, "-", "suspects", "--json", said=one.data()).splitlines()]
    expect(
        [(row["source"], row["median"], row["of"], row["times"]) for row in met] == [("zlib", 600, "builder", 84.0)],
        f"{met}",
    )
    expect(
        call(folder, "-", "suspects", "--times", "84", "--json", said=one.data()) == "",
        "84 times is no more than 84 times",
    )
    expect(
        len(call(folder, "-", "suspects", "--times", "1", "--least", "29", "--json", said=one.data()).splitlines())
        == 2,
        "30 minutes of 20",
    )
    expect(
        call(folder, "-", "suspects", "--times", "1", "--least", "30", "--arch", "arm64", "--json", said=one.data())
        == "",
        "too young",
    )
    one.hand_out(
        on(12, "16:00:00"), "b1", "hello", "1.0-2"
    )  # four hours of a package that takes two and a half, on a builder that takes minutes
    met = [
        json.loads(line)
        for line in call(folder, "-", "suspects", "--times", "1.5", "--json", said=one.data()).splitlines()
    ]
    expect(
        [(row["source"], row["of"], row["times"]) for row in met]
        == [("zlib", "builder", 84.0), ("hello", "package", 1.6)],
        f"{met}",
    )
    expect(
        call(folder, "-", "suspects", said=one.data()).startswith(
            "One package building for more than 3 times the median\n"
        ),
        "the title",
    )
    old = Journal()
    old.hand_out(on(12, "06:00:00"), "b1", "new", "1")
    expect(call(folder, "-", "suspects", "--json", said=old.data()) == "", "there is no median")


def counts_by_day(folder):
    """Days without a build are among them; a package that was built and then uploaded counts once, on the day when it
    was built."""
    wanted = [
        "3 packages built",
        "DAY         amd64  arm64  ALL",
        "2026-04-09      1      0    1",
        "2026-04-10      1      0    1",
        "2026-04-11      0      0    0",
        "2026-04-12      0      1    1",
    ]
    expect_text(call(folder, "-", "days", said=example().data()), wanted)
    expect_text(
        call(folder, "-", "days", "--days", "2", said=example().data()), ["One package built", wanted[1], *wanted[4:]]
    )
    met = call(folder, "-", "days", "--days", "0", "--arch", "arm64", "--json", said=example().data()).splitlines()
    expect(json.loads(met[3]) == {"all": 1, "archs": {"arm64": 1}, "day": "2026-04-12"} and len(met) == 4, f"{met}")
    expect(call(folder, "-", "days", said=b"") == "No packages built\n", "an empty journal")


def finds_gaps(folder):
    """Where commands are missing between two lines, before the first, and where the office went back to an older
    state."""
    one = example()
    expect(call(folder, "-", "gaps", said=one.data()) == "No gaps\n", "a journal without gaps")
    lines = one.lines[:8] + one.lines[10:]
    wanted = [
        "2 gaps",
        "AFTER  AT                   GOES ON  AT                   MISSING  WHAT",
        "                                  3  2026-04-09 08:00:01        2  the journal begins later than the office",
        "    8  2026-04-09 11:00:00       11  2026-04-09 23:00:00        2  commands without a line",
    ]
    expect_text(call(folder, "-", "gaps", said="\n".join(lines[2:]).encode()), wanted)
    again = Journal(accepted=12)
    again.handed = 3
    again.hand_out(on(12, "10:00:00"), "b2", "tar", "1.30")
    again.add(on(12, "10:30:00"), "uploaded", take=4)
    met = call(folder, "-", "gaps", "--json", said=one.data() + again.data())
    expect(
        json.loads(met)["what"] == "the office began anew, or is a copy of before" and json.loads(met)["missing"] == 0,
        f"{met}",
    )
    met = call(folder, "-", "ages", said=one.data() + again.data()).splitlines()
    wanted = ["No packages being built", "", "2 packages built or uploaded"]
    expect(met[:3] == wanted and met[-1] == "No packages waiting", f"what an older copy does not have: {met}")
    met = call(folder, "-", "package", "amd64", "tar", "--json", said=one.data() + again.data()).splitlines()
    expect(
        [json.loads(line)["accepted"] for line in met] == [5, 6, 7, 13, 14],
        f"a take number that was given again: {met}",
    )
    repeated = json.loads(one.lines[12])
    repeated["answer"]["ok"] = "again"
    expect(
        call(folder, "-", "gaps", said=one.data() + json.dumps(repeated).encode()) == "No gaps\n",
        "an assignment that is repeated",
    )


# ---- what is read


def goes_on_after_a_cut_line(folder):
    """A kill may cut the last line off, and the next start may write after it: the message says so, and the other lines
    count."""
    one = example()
    whole = one.data()
    wanted = call(folder, "-", "days", said=whole)
    expect(call(folder, "-", "days", said=whole[:-1]) == wanted, "a last line without a line feed")
    last = len(one.lines[-1].encode()) + 1
    for cut in (1, 2, 30, last // 2, last - 1):
        message = "" if cut == 1 else "line 20: the line is cut off, as after a kill"
        met = call(folder, "-", "gaps", said=whole[: len(whole) - cut], message=message)
        expect(met == "No gaps\n", f"{cut} bytes cut off: {met}")
        if cut > 1:  # a start that finds such a line begins a new one
            later = whole[: len(whole) - cut] + b"\n" + one.lines[-1].encode() + b"\n"
            expect(
                call(folder, "-", "gaps", said=later, message=message) == "No gaps\n",
                f"{cut} bytes cut off before a new line",
            )
    for cut in (2, 30, last // 2, last - 3):
        after = json.dumps(json.loads(one.lines[-1]) | {"accepted": 21}, separators=(",", ":"), sort_keys=True)
        later = whole[: len(whole) - cut] + after.encode() + b"\n"
        met = call(
            folder, "-", "gaps", "--json", said=later,
            message="line 20: a line that was cut off stands before another one, as after a kill",
        )
        expect(json.loads(met)["missing"] == 1, f"{cut} bytes cut off before a line: {met}")


MALFORMED = {
    b"{]": "this is no JSON",
    b"[]": "this is no line of a journal",
    b"\xff": "this is no JSON",
    b"[" * 100000: "this is no JSON",
    b"{}": "this is no line of a journal: it lacks `accepted`, `answer` or `command`",
    b'{"accepted":true,"answer":{},"command":{"command":"next"},"time":"2026-04-09T08:00:00Z"}': (
        "this is no line of a journal: it lacks"
    ),
    b'{"accepted":1,"answer":{},"command":"next","time":"2026-04-09T08:00:00Z"}': (
        "this is no line of a journal: it lacks"
    ),
    b'{"accepted":1,"answer":{},"command":{"command":"next"}}': "it has no time such as 2026-11-27T08:15:30Z",
    b'{"accepted":1,"answer":{},"command":{"command":"next"},"time":"2026-04-09 08:00:00"}': "it has no time",
    b'{"accepted":1,"answer":{},"command":{"command":"next"},"time":"2026-13-09T08:00:00Z"}': (
        "there is no time 2026-13-09T08:00:00Z"
    ),
}


def reports_malformed_lines(folder):
    """Each with its place; all other lines are shown, and the status is 1."""
    one = example()
    wanted = call(folder, "-", "days", said=one.data())
    for text, why in MALFORMED.items():
        said = text + b"\n\n" + one.data()
        expect(
            call(folder, "-", "days", said=said, status=1, message=f"wb-history: standard input, line 1: {why}")
            == wanted,
            f"{text[:80]}",
        )
    for text, why in ((b"x\n" * 1000, "no line of it is one of a journal"), (b"\x1f\x8b\n", "compressed by gzip")):
        expect(call(folder, "-", "days", said=text, status=1, message=why) == "", f"{text[:80]}")
    odd = Journal()
    odd.add(on(9, "08:00:00"), "built", take=77)  # handed out before the journal began
    odd.add(on(9, "08:00:00"), "built", take="x")
    odd.add(on(9, "08:00:00"), "next")
    odd.add(on(9, "08:00:00"), "merge", {"parts": "x"})
    odd.add(on(9, "08:00:00"), "merge", {"parts": [7, {"arch": "amd64"}]})
    odd.add(on(9, "08:00:00"), "some-command-of-later", arch=[1])
    for words in QUESTIONS.values():
        call(folder, "-", *words, said=odd.data())
        call(folder, "-", *words, "--json", said=odd.data())
    return f"{len(MALFORMED)} lines"


def takes_the_words_that_it_says(folder):
    """Help with an example and the statuses; other words end with 2, and a file that is not there with 3."""
    said = call(folder, "--help")
    expect(
        "example:\n" in said and "tools/bin/wb-history journal" in said and "Status: 0" in said,
        "help has no example or no statuses",
    )
    for name, words in QUESTIONS.items():
        expect(f"\n    {name} " in said and "usage: " in call(folder, "-", name, "--help"), f"help of {name}")
        call(folder, "nowhere", *words, status=3, message="wb-history: nowhere: No such file")
        expect(
            all(
                isinstance(json.loads(line), dict)
                for line in call(folder, "-", *words, "--json", said=example().data()).splitlines()
            ),
            name,
        )
    wrong = [
        [], ["-"], ["-", "what"], ["-", "package"], ["-", "package", "all", "hello"], ["-", "days", "--days", "x"],
        ["-", "days", "--days", "-1"],
    ]
    wrong += [
        ["-", "suspects", "--times", "0"], ["-", "suspects", "--times", "nan"],
        ["-", "ages", "--url", "http://example.org"],
    ]
    wrong += [["-", "gaps", "--arch", "amd64"]]
    for words in wrong:
        call(folder, *words, status=2, message="usage:")
    pipe = subprocess.PIPE
    with subprocess.Popen([BIN / "wb-history", "-", "days"], stdin=pipe, stdout=pipe, stderr=pipe) as closed:
        closed.stdout.close()
        closed.stdin.write(example().data())
        closed.stdin.close()
        expect(closed.wait(timeout=WAIT) == 0 and closed.stderr.read() == b"", "a reader that has seen enough")


def is_quick(folder):
    """A journal of 40,000 hand-outs is read within seconds of the processor."""
    one = Journal()
    for at in range(40000):
        when = time.strftime("%Y-%m-%dT%H:%M:%SZ", time.gmtime(NOW - 9000000 + 200 * at))
        take = one.hand_out(when, f"b{at % 9}", f"s{at % 5000}", "1.0")
        one.add(when, "built", take=take)
    (folder / "journal").write_bytes(one.data())
    before = resource.getrusage(resource.RUSAGE_CHILDREN)
    rows = call(folder, "journal", "days", "--days", "0", "--json").splitlines()
    expect(sum(json.loads(row)["all"] for row in rows) == 40000, "builds were lost")
    spent = resource.getrusage(resource.RUSAGE_CHILDREN)
    took = spent.ru_utime + spent.ru_stime - before.ru_utime - before.ru_stime
    expect(took < WAIT / 2, f"it took {took:.1f} seconds of the processor")
    return f"{took:.1f} s"


# ---- a serving office, the page, the program


class StandIn(http.server.ThreadingHTTPServer):
    """What stands for a serving office: it answers which records are in a state, but for architectures that it does not
    have, and nothing else."""

    def __init__(self, records, port=0, removed=()):
        class Handler(http.server.BaseHTTPRequestHandler):
            def do_GET(self):
                found = re.fullmatch("/v1/state/([a-z0-9]+)/([A-Za-z-]+)", self.path)
                chosen = [one for one in records if found and (one["arch"], one["state"]) == found.groups()]
                answer = {"http": "NoRoute"}
                if found:
                    answer = {"arch": found[1], "records": chosen, "state": found[2]}
                    answer = {"code": 1, "refused": "UnknownArch"} if found[1] in removed else answer
                said = json.dumps(answer).encode()
                self.send_response(200 if "arch" in answer else 404)
                self.send_header("Content-Length", str(len(said)))
                self.end_headers()
                self.wfile.write(said)

            def log_message(self, *_):
                pass

        super().__init__(("127.0.0.1", port), Handler)
        self.url = f"http://127.0.0.1:{self.server_port}"
        threading.Thread(target=self.serve_forever, args=(0.01,), daemon=True).start()

    def __exit__(self, *_):
        self.shutdown()
        self.server_close()


def record(source, state, **others):
    fields = {
        "arch": "amd64", "build": "1.0", "build_priority": 0, "earlier": False, "holder": None, "message": "",
        "note": "", "number": 0,
    }
    fields |= {
        "priority": "optional", "section": "devel", "source": source, "state": state, "take": None, "version": "1.0",
        "waits": "",
    }
    return fields | others


def asks_a_serving_office(folder):
    """What is there now is the office's answer, and since when is the journal's: a hold that a merge ended is not
    shown, and what the journal does not know is shown without a time."""
    records = [
        record("zlib", "Building", arch="arm64", holder="a1", take=7), record("new", "Building", holder="b1", take=99),
    ]
    records += [
        record("gcc-14", "Dep-Wait", waits="libisl-dev"), record("rustc", "BD-Uninstallable", note="libssl is missing"),
    ]
    records += [record("tar", "Needs-Build"), record("hello", "Uploaded", holder="b2", take=3)]
    records += [record("bash", "Built", holder="b9", take=50)]
    with StandIn(records) as office:
        met = call(folder, "-", "ages", "--url", office.url, said=example().data())
        wanted = [
            "2 packages being built",
            "ARCH   SOURCE  VERSION  BUILDER  TAKE  SINCE                        AGE",
            "arm64  zlib    1.0      a1          7  2026-04-12 19:30:00  30 min  0 s",
            "amd64  new     1.0      b1         99",
            "of one package the journal does not say since when: a merge or a report moved it, or it began before",
            "",
            "2 packages built or uploaded",
            "ARCH   SOURCE  VERSION  STATE     BUILDER  TAKE  SINCE                     AGE",
            "amd64  hello   1.0      Uploaded  b2          3  2026-04-10 01:30:00  2 d 18 h",
            "amd64  bash    1.0      Built     b9         50",
            "of one package the journal does not say since when: a merge or a report moved it, or it began before",
            "",
            "3 packages waiting",
            "ARCH   SOURCE  VERSION  STATE             SINCE                        AGE  TEXT",
            "amd64  gcc-14  1.0      Dep-Wait          2026-04-12 08:05:00  11 h 55 min  libisl-dev",
            "amd64  rustc   1.0      BD-Uninstallable                                    libssl is missing",
            "amd64  tar     1.0      Needs-Build",
            "of 2 packages the journal does not say since when: a merge or a report moved it, or it began before",
        ]
        expect_text(met, wanted)
        met = call(
            folder, "-", "suspects", "--url", office.url, "--least", "0", "--times", "1", "--json",
            said=example().data(),
        )
        expect(json.loads(met)["source"] == "zlib", f"{met}")
    call(
        folder, "-", "ages", "--wait", "0", "--url", office.url, said=example().data(), status=3,
        message="it does not answer: Connection refused",
    )


def asks_for_no_architecture_that_was_removed(folder):
    """An architecture that the journal names and the office does not have any more is passed over, unless it is asked
    for by its name."""
    building = record("zlib", "Building", holder="b1", take=4)
    with StandIn([building], removed=["arm64"]) as office:
        met = call(folder, "-", "ages", "--url", office.url, "--json", said=example().data()).splitlines()
        expect([(row["arch"], row["source"]) for row in map(json.loads, met)] == [("amd64", "zlib")], f"{met}")
        met = call(folder, "-", "suspects", "--url", office.url, "--json", said=example().data())
        expect(json.loads(met)["source"] == "zlib", f"{met}")
        words = ("ages", "--url", office.url, "--arch", "arm64")
        call(folder, "-", *words, said=example().data(), status=1, message="it has no architecture arm64")


def waits_for_an_office_that_starts(folder):
    records, port, offices = [record("zlib", "Building", arch="arm64", holder="a1", take=7)], free_port(), []
    starting = threading.Timer(1.5, lambda: offices.append(StandIn(records, port)))
    starting.start()
    try:
        met = call(folder, "-", "ages", "--url", f"http://127.0.0.1:{port}", said=example().data())
    finally:
        starting.join()
        offices[0].__exit__()
    expect("arm64  zlib    1.0      a1          7  2026-04-12 19:30:00  30 min  0 s" in met, f"{met}")


def stands_on_the_page(folder):
    """With a journal the page has the days and since when each package is held; a line that cannot be read is reported,
    and the page is made."""
    counts = dict.fromkeys(
        "Needs-Build Building Built Uploaded Installed Dep-Wait BD-Uninstallable Build-Attempted Failed".split(), 0
    )
    counts["Not-For-Us"] = 0
    said = [{"accepted": 20, "arch": "amd64", "counts": counts | {"Building": 2}}]
    held = [record("zlib", "Building", holder="b1", take=4), record("x", "Building", holder="b9", take=9)]
    said += [{"arch": "amd64", "records": held, "state": "Building"}]
    answers = "".join(json.dumps(one) + "\n" for one in said).encode()
    (folder / "journal").write_bytes(example().data() + b"{]\n" + example().data()[:50])
    without = call(folder, script="wb-status", said=answers)
    expect(
        "It keeps no times." in without and "Since" not in without and "Built on each day" not in without,
        "there are times without a journal",
    )
    page = call(
        folder, "--journal", "journal", script="wb-status", said=answers,
        message="wb-status: journal, line 21: this is no JSON",
    )
    expect("line 22" not in page and "Days and times are those of its journal" in page, f"{page[-300:]}")
    expect(
        '<th scope="col">Since</th>' in page
        and page.count('<td class="since">2026-04-12 06:00</td>') == 1
        and page.count("<td></td>") == 1,
        "since when",
    )
    table = re.search('<table class="rows" id="amd64-days">(.*?)</table>', page, re.S)[1]
    days = re.findall(r'<td class="day">([0-9-]+)</td><td class="number">([0-9,]+)</td>', table)
    wanted = [("2026-04-12", "0"), ("2026-04-11", "0"), ("2026-04-10", "1"), ("2026-04-09", "1")]
    expect(days == wanted, f"the days from the first line of the journal on: {days}")
    call(
        folder, "--journal", "nowhere", "--to", "page", script="wb-status", said=answers, status=3,
        message="nowhere: No such file",
    )
    expect(not (folder / "page").exists(), "a page was made")


def reads_what_the_program_writes(folder):
    """The journal of a run of the program: each accepted command is in it, and what became of each package is
    found."""
    lines = (
        "add-arch amd64 linux amd64\nadd-builder b1 amd64\nenter amd64 hello 1.0 optional devel\n"
        "enter amd64 tar 1.30 required admin\nnext amd64 b1\n"
    )
    lines += (
        "next amd64 b1 --after 0\nnext amd64 b1\nattempted 2 cc died\nbuilt 1\nuploaded 1\ngive-back amd64 hello 1.0\n"
        "fail amd64 tar 1.30 no\n"
    )
    (folder / "sources").write_text("Package: hello\nVersion: 1.0\nArchitecture: any\nSection: admin\n\n")
    (folder / "packages").write_text("")
    lines += "merge sources amd64=packages\n"
    begun = int(time.time())
    words = [WB, "--store", "store", "run", "--journal", "journal"]
    done = subprocess.run(words, cwd=folder, input=lines.encode(), capture_output=True, timeout=WAIT, check=False)
    expect(done.returncode == 1, f"the run ends with {done.returncode}: {done.stderr}")
    expect(call(folder, "journal", "gaps") == "No gaps\n", "there are gaps")
    rows = [json.loads(line) for line in call(folder, "journal", "package", "amd64", "hello", "--json").splitlines()]
    wanted = [
        ("enter", "Needs-Build"), ("next", "Building"), ("attempted", "Build-Attempted"), ("give-back", "Needs-Build"),
        ("merge", "Needs-Build"),
    ]
    expect([(row["command"], row["state"]) for row in rows] == wanted, f"{rows}")
    met = [json.loads(line) for line in call(folder, "journal", "package", "amd64", "tar", "--json").splitlines()][-1]
    expect((met["command"], met["was"], met["state"]) == ("merge", "Uploaded", "removed"), f"{met}")
    expect(rows[2]["text"] == "cc died" and rows[2]["builder"] == "b1", f"{rows[2]}")
    with contextlib.suppress(ValueError):
        expect(
            all(
                begun <= calendar.timegm(time.strptime(row["time"], "%Y-%m-%dT%H:%M:%SZ")) <= time.time()
                for row in rows
            ),
            "the times",
        )
    met = call(folder, "journal", "builders", "--json")
    expect(json.loads(met)["taken"] == 2 and json.loads(met)["built"] == 1, f"{met}")
    accepted = [json.loads(line)["accepted"] for line in (folder / "journal").read_text().splitlines()]
    expect(accepted == sorted(accepted), f"{accepted}")
    return f"{len(accepted)} lines"


# Lines of a journal that say who gave the commands, as far as that is known.
WITH_NAMES = """\
{"accepted":1,"answer":{"accepted":1,"ok":"enter"},"command":{"arch":"amd64","command":"enter","priority":"optional",\
"section":"devel","source":"hello","version":"1.0-1"},"time":"2026-04-10T08:00:00Z"}
{"accepted":2,"answer":{"accepted":2,"ok":"fail"},"by":"anna","command":{"arch":"amd64","command":"fail",\
"note":"no","source":"hello","version":"1.0-1"},"time":"2026-04-10T09:00:00Z"}
{"accepted":3,"answer":{"accepted":3,"ok":"give-back"},"by":"otto.2","command":{"arch":"amd64","command":"give-back",\
"source":"hello","version":"1.0-1"},"time":"2026-04-10T10:00:00Z"}
{"accepted":4,"answer":{"accepted":4,"ok":"give-back"},"by":null,"command":{"arch":"amd64","command":"give-back",\
"source":"hello","version":"1.0-1"},"time":"2026-04-10T10:30:00Z"}
{"accepted":5,"answer":{"accepted":5,"ok":"merge","parts":[{"added":0,"arch":"amd64","changed":1,"kept":0,\
"removed":0}]},"by":"operator","command":{"command":"merge","parts":[{"arch":"amd64"}]},"time":"2026-04-10T11:00:00Z"}
"""


def names_who_gave_each_command(folder):
    """`package` has who gave each command and each merge, as a column and in JSON, also by the index; a
    journal that names nobody has no such column."""
    (folder / "journal").write_text(WITH_NAMES)
    asked = ("journal", "package", "amd64", "hello", "--merges")
    shown, rows = call(folder, *asked), call(folder, *asked, "--json")
    met = [(row["command"], row["by"]) for row in map(json.loads, rows.splitlines())]
    wanted = [
        ("enter", None), ("fail", "anna"), ("give-back", "otto.2"), ("give-back", None), ("merge", "operator"),
    ]
    expect(met == wanted, f"{met}")
    expect(" BY " in shown.splitlines()[1], shown)
    expect(all(shown.count(name) == 1 for name in ("anna", "otto.2", "operator")), shown)
    expect(re.search("^2026-04-10 09:00:00 +fail +Failed .*anna .*no$", shown, re.M), shown)
    call(folder, "journal", "index")
    expect((folder / "journal.index").exists(), "there is no index")
    expect(call(folder, *asked) == shown and call(folder, *asked, "--json") == rows, "the index says otherwise")
    (folder / "old").write_text(re.sub('"by":("[a-z0-9.]*"|null),', "", WITH_NAMES))
    shown = call(folder, "old", *asked[1:])
    expect(" BY " not in shown.splitlines()[1] and shown.count("give-back") == 2, shown)


TESTS = [
    follows_a_package, follows_what_is_removed, names_who_gave_each_command, says_how_old_things_are, fits_a_terminal,
    says_what_builders_did, suspects_what_hangs, counts_by_day, finds_gaps,
]
TESTS += [
    goes_on_after_a_cut_line, reports_malformed_lines, takes_the_words_that_it_says, is_quick, asks_a_serving_office,
    asks_for_no_architecture_that_was_removed, waits_for_an_office_that_starts, stands_on_the_page,
]
TESTS += [reads_what_the_program_writes]

if __name__ == "__main__":
    sys.exit(main(TESTS))

#!/usr/bin/env python3
"""Tests of the lines and the merges that tools/bin/office gives an office: by requests while it is served, and else by
a run over its file. Both have to give the same bytes and the same status, and requests stop nothing. So too the removal
of an architecture, with what it refuses, and what it asks at a terminal.

    tools/tests/test_office_lines.py [NAME..]     these tests, or all

From the environment: WB is the program, crates/wb/out/wb of this repository where it is not set.
"""
import contextlib
import json
import os
import pty
import random
import select
import signal
import subprocess
import sys
import time
from pathlib import Path

from harness import SEED, WAIT, call, expect, main, program
from package_runs import OFFICE, Trial, wait_until
from wanna_build_runs import Gate, ask
from wb_tools.office.lines import request_of

LONG = "x" * 9000
NAMES = ("hello", "new", "tar")  # in the Sources list of the merges
# Runs of lines, each with the status of tools/bin/office for it. REPORT and others stand for files of a folder.
RUNS = [
    (0, ["add-arch arm64 linux arm64", "add-builder b2 arm64", "enter arm64 hello 1.0 optional devel",
         "next amd64 b1", "next amd64 b1 --after 0", "next --after=+0 amd64 b1", "built 1", "uploaded +01",
         "give-back amd64 tar 1.30", "next amd64 b1", "waits 2 libc6 (>= 2), xx  |  yy", "mine b1", "queue amd64",
         "summary amd64", "by-state amd64 Dep-Wait", "item amd64 hello", "depends amd64 hello", "", " \t",
         "take arm64 b2 hello 1.0", "attempted 3", "give-back arm64 hello 1.0",
         "take arm64 b2 hello 1.0", "attempted 4 \"é\" \x01\x7f\u2028 \\ -", "give-back arm64 hello 1.0",
         "take arm64 b2 hello 1.0", "put-back 5", "fail arm64 hello 1.0 -- -a -- b", "give-back arm64 hello 1.0",
         "not-for-us arm64 hello 1.0", "build-priority arm64 hello 1.0 -50", "build-priority arm64 hello 1.0 -- +7",
         "give-back amd64 tar 1.30", "dep-wait amd64 tar 1.30 libx", "item amd64 tar", "item arm64 hello"]),
    (1, ["add-arch amd64 linux amd64", "add-arch all linux amd64", "add-arch x Linux amd64", "add-builder b1 amd64",
         "add-builder b/1 amd64", "add-builder b3 none", "enter amd64 hello 1.0 optional devel",
         "enter amd64 Hello 1.0 optional devel", "enter amd64 hello 1_0 optional devel",
         "enter none hello 1.0 optional devel", "next amd64 none", "next amd64 b1 --after 99", "take amd64 b2 tar 1.30",
         "built 18446744073709551615", "waits 1 (", "give-back amd64 none 1.0", "give-back amd64 tar 2.0",
         "rebuild amd64 tar 1.30 0", "rebuild amd64 tar 1.30 1 for libc6", "build-priority amd64 tar 1.30 9000",
         f"fail amd64 tar 1.30 {'é' * 600}", "item amd64 ../x", "item amd64 %41?", "item none tar", "by-state amd64 x",
         "mine b?", "queue none", "depends amd64 none", "summary all", "item amd64 \x01é"]),
    (1, ["nonsense", "help", "--", "--help", "queue", "queue amd64 amd64", "queue amd64 -h", "built one", "built -1",
         "built 18446744073709551616", "next amd64 b1 --after", "next amd64 b1 --before 1", "fail amd64 tar",
         "waits 1", "build-priority amd64 -5 1.30 5", "merge", "report amd64", b"queue \xff", "\r", "summary amd64"]),
    (1, ["report amd64 REPORT", "report none REPORT", "report amd64 BAD", "report amd64 EMPTY", "report amd64 NOWHERE",
         "report amd64 FOLDER", "report amd64 LATIN", "nonsense", "report all NOWHERE", "item amd64 tar"]),
    (1, ["queue amd64", "x" * 65537, "merge a amd64=b", "queue amd64"]),
    (1, ["queue amd64", " " * 65536, "fail amd64 tar 1.30 " + "x" * 65516, "summary amd64"]),
    (1, ["merge SOURCES amd64=PACKAGES", "merge SOURCES amd64=PACKAGES", "merge NOWHERE amd64=PACKAGES",
         "merge SOURCES amd64=NOWHERE", "merge SOURCES none=PACKAGES", "merge SOURCES amd64=PACKAGES none=EMPTY",
         "merge SOURCES=LINK amd64=EMPTY", "merge LINK amd64=EMPTY", "merge BAD amd64=PACKAGES", "merge SOURCES amd64=",
         "merge SOURCES amd64=BAD none=BAD", "merge SOURCES amd64=PACKAGES amd64=EMPTY", "merge LATIN amd64=EMPTY",
         "merge -- SOURCES amd64=PACKAGES", "merge -x amd64=PACKAGES", "merge SOURCES", "merge SOURCES PACKAGES",
         "merge SOURCES Amd64=EMPTY", "merge to-merge/HERE amd64=to-merge/HERE", "queue amd64", "item amd64 new"]),
]  # fmt: skip


def make_reports(folder):
    """The files that lines of RUNS name."""
    paragraph = "Package: {0}\nVersion: 1.30\nArchitecture: {1}\nPriority: optional\nSection: misc\n\n"
    texts = {
        "REPORT": "hello 1.0 uninstallable é is \"missing\"\n\ntar 1.30 installable", "BAD": "tar 1.30\n", "EMPTY": "",
        "LATIN": b"tar 1.30 uninstallable \xe9\n", "SOURCES": "".join(paragraph.format(name, "any") for name in NAMES),
        "PACKAGES": paragraph.format("tar", "amd64"), "SOURCES=LINK": "",
    }
    for name, text in texts.items():
        (folder / name).write_bytes(text if isinstance(text, bytes) else text.encode())
    (folder / "FOLDER").mkdir()
    (folder / "LINK").symlink_to("SOURCES")


def given(office, lines, wanted, **options):
    """The bytes that are answered to lines on standard output, and what is said on standard error."""
    data = b"\n".join(line if isinstance(line, bytes) else line.encode() for line in lines)
    return call(
        [OFFICE, "--settings", office.conf, "run"], wanted, cwd=office.conf.parent, stdin=None, text=None, input=data,
        **options,
    )


def offices(folder):
    """Two offices that are alike, of which the second is served."""
    found = []
    for name in ("idle", "served"):
        (folder / name).mkdir()
        make_reports(folder / name)
        found.append(Trial(folder / name, LISTS=folder / name / "to-merge"))
        found[-1].fill()
        (folder / name / "to-merge" / "HERE").write_text("")
    found[1].do("start")
    return found


def answers_alike(folder):
    idle, served = offices(folder)
    with idle, served:
        process = served.server()
        for wanted, lines in RUNS:
            one, two = given(idle, lines, wanted), given(served, lines, wanted)
            for line, other in zip(one[0].splitlines(), two[0].splitlines()):
                expect(line == other, f"{line} of a run is {other} of requests")
            expect(one[0] == two[0] and one[0].endswith(b"}\n"), f"{lines[0]}: {one[0][-300:]} and {two[0][-300:]}")
            ends = [said.decode().partition(" ended with ")[2][:1] for _, said in (one, two)]
            expect(ends[0] == ends[1], f"{lines[0]}: {ends}")
            left = os.listdir(served.settings["LISTS"])
            expect(left == ["HERE"], f"in the folder of lists there is {left}")
        expect(served.server() == process, "another process serves")


def random_word(rng):
    words = (
        "amd64 b1 hello 1.0 tar 1.30 - -- -5 +5 5 0 1 2 --after --after=1 --after=x -h é a/b % ? Needs-Build "
        "18446744073709551616 \r none REPORT"
    )
    return rng.choice([*words.split(" "), ""])


def random_line(rng):
    """A line that may be right, or has a word more, less or another."""
    forms = (
        "enter amd64 hello 1.0 a b/next amd64 b1/next amd64 b1 --after 1/take amd64 b1 hello 1.0/built 1/uploaded 1/"
        "waits 1 libc6 | xx/attempted 2 a  b/put-back 2/give-back amd64 hello 1.0/dep-wait amd64 tar 1.30 xx, yy/"
        "fail amd64 tar 1.30 a b/not-for-us amd64 hello 1.0/rebuild amd64 tar 1.30 2 x/report amd64 REPORT/"
        "build-priority amd64 tar 1.30 -5/queue amd64/summary amd64/by-state amd64 Building/item amd64 hello/"
        "depends amd64 tar/mine b1"
    )
    words = rng.choice(forms.split("/")).split(" ")
    for _ in range(rng.choice([0, 0, 0, 1, 1, 2])):
        at = rng.randrange(len(words) + 1)
        words[at : at + rng.randrange(2)] = [random_word(rng)] * rng.randrange(2)
    return rng.choice([" ", " ", "\t", "  "]).join(words)


def answers_random_lines_alike(folder):
    rng = random.Random(62 + SEED)
    idle, served = offices(folder)
    with idle, served:
        for _ in range(3):
            lines = [*(random_line(rng) for _ in range(300)), "nonsense"]
            one, two = given(idle, lines, 1)[0].splitlines(), given(served, lines, 1)[0].splitlines()
            for line, other in zip(one, two):
                expect(line == other, f"{line} of a run is {other} of requests")
            expect(len(one) == len(two), "there are more answers")


def commands_answer_alike(folder):
    """The commands that are one line: the same bytes and the same status whether the office is served or not, and
    nothing is stopped; what no line can hold, and what has no request while it is served, is refused."""
    idle, served = offices(folder)
    (folder / "a report").write_text("tar 1.30 uninstallable libx is missing\n")
    (folder / "large").write_text("\n" * (1 << 24))
    report = ("report", "amd64", folder / "a report")
    with idle, served:
        process = served.server()
        for wanted, words in [
            (0, ("add-arch", "armhf", "linux", "arm")), (1, ("add-arch", "armhf", "linux", "arm")),
            (0, ("add-builder", "b4", "armhf")), (1, ("add-builder", "b4", "none")),
            (1, ("add-builder", "b/4", "armhf")), (1, ("add-builder", "--", "-b", "armhf")),
            (0, ("enter", "armhf", "hello", "1.0", "optional", "devel")), (1, ("enter", "armhf", "x", "1", "a", "b")),
            (0, report), (1, ("report", "none", folder / "a report")), (1, ("report", "amd64", idle.conf)),
            (2, ("report", "amd64", folder / "nowhere")), (2, ("add-builder", "b 4", "armhf")),
            (2, ("add-arch", "x", "", "y")), (2, ("add-builder", "b4")), (2, ("add-builder", "b4", "x", "y")),
            (0, report),
        ]:
            one, two = (office.do(*words, wanted=wanted) for office in (idle, served))
            expect(one[0] == two[0] and bool(one[0]) == (wanted < 2), f"{words}: {one} and {two}")
            expect("stop the service" not in two[1], two[1])
        expect(json.loads(one[0]) == {"accepted": 9, "changed": 0, "ok": "report"}, f"{one[0]}")
        large = ("report", "amd64", folder / "large")
        expect('"ok":"report"' in idle.do(*large)[0], "a large report by the file")
        said, steps = served.do(*large, wanted=1)
        expect(not said and "16777216 bytes; nothing was done: office run stops the service" in steps, steps)
        _, steps = served.do("--dry-run", *report)
        expect("would send 1 lines" in steps, steps)
        _, steps = idle.do("--dry-run", "add-builder", "b9", "armhf")
        expect("would give" in steps and "run: add-builder b9 armhf" in steps, steps)
        expect(served.server() == process, "another process serves")


def stops_nothing(folder):
    """The process stays for each command; a journal has them all."""
    journal = folder / "journal"
    with Trial(folder, JOURNAL=journal) as office:
        make_reports(folder)
        office.fill()
        office.do("start")
        keeper, process = office.keeper(), office.server()
        for line in (
            "add-arch arm64 linux arm64", "add-builder b9 arm64", "enter arm64 new 1.0 optional devel",
            "fail arm64 new 1.0 broken", "give-back arm64 new 1.0", f"report amd64 {folder / 'REPORT'}",
        ):
            _, said = office.do("--dry-run", "run", stdin=office.lines([line]))
            expect("would send 1 lines" in said, said)
            answer, said = office.do("run", stdin=office.lines([line]))
            expect(json.loads(answer)["ok"] == line.split()[0] and "stop the service" not in said, f"{answer}{said}")
        expect((office.keeper(), office.server()) == (keeper, process), "the service was stopped")
        counts = [json.loads(line)["accepted"] for line in journal.read_text().splitlines()]
        expect(counts == list(range(1, 11)), f"the journal has {counts}")


def stops_for_what_has_no_request(folder):
    """It is said before the service is stopped, nothing is sent before, and the service runs again."""
    with Trial(folder) as office:
        office.fill()
        office.do("start")
        (folder / "Sources").write_text("")
        (folder / "large").write_text("\n" * (1 << 24))
        os.mkfifo(folder / "pipe")
        merge = f"merge {folder}/Sources amd64={folder}/Sources"
        for at, (line, why, ok) in enumerate([
            (f"report amd64 {folder}/large", "16777216 bytes", True), (f"item amd64 {LONG}", "too long", False),
            (f"report amd64 {folder}/pipe", "can be read again", True), (merge, "a merge has no request", True),
        ]):
            process = office.server()
            lines = [f"add-builder b{at + 5} amd64", line, "queue amd64"]
            with subprocess.Popen(["sh", "-c", f"[ {at} != 2 ] || : > {folder}/pipe"]) as writer:
                said, steps = office.do("run", stdin=office.lines(lines), wanted=0 if ok else 1)
                writer.wait(WAIT)
            expect(why in steps and steps.index("line 2 ") < steps.index("stop the service"), steps)
            expect('"ok":"add-builder"' in said and office.runs(), f"{said}{steps}")
            expect(office.server() != process, f"the service was not stopped for {line[:40]}")
        _, steps = office.do("--dry-run", "run", stdin=office.lines([merge]))
        expect("would stop the service" in steps and "a merge has no request" in steps, steps)


def lists_of(folder, count=0):
    """The words of a merge of lists whose names no line can hold, of NAMES and so many others."""
    make_reports(folder)
    (folder / "the lists").mkdir()
    text = (folder / "SOURCES").read_text() + "".join(
        f"Package: p{at:05d}\nVersion: 1.0\nArchitecture: any\n\n" for at in range(count)
    )
    (folder / "the lists/Sources é").write_text(text)
    (folder / "the lists/Packages").write_text("")
    return folder / "the lists/Sources é", f"amd64={folder}/the lists/Packages"


STEPS = ("while it is served", "try the merge on a copy", "send 3 lines", "check the sums", "name the copy")


def merges_without_a_stop(folder):
    """A merge of an office that is served with a folder of lists: a backup, the merges and the reports in their order.
    Nothing is stopped, and nothing is left in that folder. With --stop the service is stopped."""
    place = folder / "an office" / "to merge"
    with Trial(folder, LISTS=place, JOURNAL=folder / "journal") as office:
        office.fill()
        office.do("run", stdin=office.lines(["add-arch arm64 linux arm64"]))
        office.do("start")
        process = office.server()
        sources, part = lists_of(folder)
        words = [sources, part, sources, part.replace("amd64=", "arm64=")]
        (folder / "r").write_text("new 1.30 uninstallable libx is missing\n")
        (place / "office-4194305-0123456789abcdef-Sources").write_text("left by a call that was broken off")
        said, steps = office.do("merge", "--most-removed", "0", "--report", f"amd64={folder}/r", *words)
        answers = [json.loads(line) for line in said.splitlines()[:-1]]
        expect([one["ok"] for one in answers] == ["merge", "merge", "report"] and answers[2]["changed"] == 1, said)
        order = [steps.index(step) for step in STEPS]
        expect(order == sorted(order) and "stop the service" not in steps, f"the steps are {steps}")
        expect(office.saved() == [Path(said.splitlines()[-1])], f"there are {office.saved()}")
        _, steps = office.do("--dry-run", "merge", *words)
        expect("would send 2 lines" in steps and not os.listdir(place), f"{os.listdir(place)} is left: {steps}")
        expect(office.server() == process, "the service was stopped")
        counts = [json.loads(line)["accepted"] for line in (folder / "journal").read_text().splitlines()]
        expect(counts == list(range(1, 9)), f"the journal has {counts}")
        _, steps = office.do("merge", "--stop", *words)
        expect("stop the service" in steps and office.server() not in (None, process), steps)


def says_what_is_wrong_with_its_folder(folder):
    """A folder of lists into which nothing can be put, or another one than that of the service, costs no stop; an
    office that was started without one is stopped, and then has it."""
    place = folder / "an office" / "to merge"
    with Trial(folder, LISTS=place) as office:
        office.fill()
        office.do("start")
        process = office.server()
        words = lists_of(folder)
        place.rename(folder / "gone")
        _, steps = office.do("merge", *words, wanted=2)
        expect(f"no list can be put into {place}: see LISTS of" in steps and not office.saved(), steps)
        (folder / "gone").rename(place)
        (folder / "other").mkdir()
        office.settings["LISTS"] = folder / "other"
        office.write_settings()
        _, steps = office.do("merge", *words, wanted=3)
        expect("NoList (does it serve with another folder than LISTS?)" in steps, steps)
        expect(office.server() == process and not os.listdir(folder / "other"), "it was stopped, or left a list")
        del office.settings["LISTS"]
        office.write_settings()
        _, steps = office.do("merge", *words)
        expect("stop the service" in steps, steps)
        office.settings["LISTS"] = place
        office.write_settings()
        line = f"merge {folder}/SOURCES amd64={folder}/PACKAGES"
        _, steps = office.do("run", stdin=office.lines([line]))
        expect("since the office was not started with --lists, so the service is stopped" in steps, steps)
        _, steps = office.do("run", stdin=office.lines([line]))
        expect("send 1 lines" in steps and "stop the service" not in steps, steps)


def says_that_a_merge_is_in_doubt(folder):
    """A program that is killed within a merge: the merge is named as in doubt, and may be repeated."""
    place = folder / "an office" / "to merge"
    with Trial(folder, LISTS=place) as office:
        office.fill()
        office.do("start")
        lists = lists_of(folder, 20000)
        words = [OFFICE, "--settings", office.conf, "merge", "--no-look", *lists]
        with subprocess.Popen(words, stdout=subprocess.PIPE, stderr=subprocess.PIPE, text=True) as merge:
            wait_until(lambda: any(name[0] != "." for name in os.listdir(place)), "no list is put there")
            time.sleep(0.1)
            os.kill(office.server(), signal.SIGKILL)
            said, steps = merge.communicate(timeout=WAIT)
        expect(merge.returncode == 3 and "line 1 (" in steps and "is in doubt" in steps, f"{said}{steps}")
        expect(not os.listdir(place), f"{os.listdir(place)} is left")
        wait_until(office.runs, "the service is not started again")
        said, _ = office.do("merge", *lists)
        expect(json.loads(said.splitlines()[0])["ok"] == "merge", said)


@contextlib.contextmanager
def through(office, kind=Gate):
    """A gate through which the operator's command asks the office meanwhile."""
    gate = kind(office)
    try:
        office.settings["PORT"] = gate.port
        office.write_settings()
        yield gate
    finally:
        gate.close()
        office.settings["PORT"] = office.port
        office.write_settings()


def says_which_line_is_in_doubt(folder):
    """An answer that is lost: the line stands, it is named, and nothing after it is sent. A query is sent again."""
    with Trial(folder) as office:
        office.fill()
        office.do("start")
        with through(office) as gate:
            gate.lose += [("/v1/queue/", "answer"), ("/v1/add-builder", "answer")]
            lines = ["queue amd64", "enter amd64 new 1.0 a b", "", "add-builder b5 amd64", "add-builder b6 amd64"]
            said, steps = office.do("run", stdin=office.lines(lines), wanted=3)
            expect([json.loads(line).get("ok") for line in said.splitlines()] == [None, "enter"], said)
            expect("line 4 (add-builder b5 amd64) is in doubt" in steps and "stop the service" not in steps, steps)
        said, _ = office.do("run", stdin=office.lines(["mine b5", "mine b6"]), wanted=1)
        expect("UnknownBuilder" in said.splitlines()[1] and "UnknownBuilder" not in said.splitlines()[0], said)


def ends_where_the_office_is_stopped(folder):
    """What was answered stands, the line that was not is named, and none after it is carried out."""
    with Trial(folder) as office:
        office.fill()
        office.do("start")
        lines = [f"enter amd64 p{at} 1.0 a b" for at in range(5000)]
        words = [OFFICE, "--settings", office.conf, "run"]
        with subprocess.Popen(
            words, stdin=office.lines(lines), stdout=subprocess.PIPE, stderr=subprocess.PIPE, text=True
        ) as run:
            first = run.stdout.readline()
            os.kill(office.keeper(), signal.SIGTERM)
            rest, said = run.communicate(timeout=WAIT)
        answered = len((first + rest).splitlines())
        expect(run.returncode == 3 and 0 < answered < 5000, f"status {run.returncode}, {answered} answers: {said}")
        expect(f"line {answered + 1} (enter amd64 p{answered} 1.0 a b)" in said, said)
        wait_until(lambda: not office.runs(), "the service still runs")
        have = [office.has(f"p{at}") for at in (0, answered - 1, answered, answered + 1, 4999)]
        expect(have[:2] == [True, True] and have[3:] == [False, False], f"it has {have}")
        expect("is in doubt" in said or not have[2], f"a line that stands is said not to: {said}")


def says_where_a_signal_ended_it(folder):
    """The line that was being sent is named; those before it stand, and none after it."""
    with Trial(folder) as office:
        office.fill()
        office.do("start")
        process = office.server()
        lines = [f"enter amd64 p{at} 1.0 a b" for at in range(5000)]
        words = [OFFICE, "--settings", office.conf, "run"]
        with subprocess.Popen(
            words, stdin=office.lines(lines), stdout=subprocess.PIPE, stderr=subprocess.PIPE, text=True
        ) as run:
            first = run.stdout.readline()
            run.send_signal(signal.SIGTERM)
            rest, said = run.communicate(timeout=WAIT)
        answered = len((first + rest).splitlines())
        expect(run.returncode == 128 + signal.SIGTERM and answered < 5000, f"status {run.returncode}: {said}")
        named = [f"ended at line {at} (" in said for at in (answered, answered + 1)]
        expect(any(named) and "in doubt" in said, f"after {answered} answers it says {said}")
        said, _ = office.do("run", stdin=office.lines([f"item amd64 p{answered + 1}"]), wanted=1)
        expect("UnknownSource" in said and office.server() == process, "a line after it was sent")


def goes_on_while_the_program_starts_anew(folder):
    """A program whose connections are used up is started again; a line that it did not get is sent then."""
    with Trial(folder, REQUESTS=7) as office:
        office.fill()
        office.do("start")
        lines = [f"item amd64 p{at}" for at in range(30)]
        said, _ = office.do("run", stdin=office.lines(lines), wanted=1)
        expect(said.count("UnknownSource") == 30, said)


# ---- the removal of an architecture

GOING = [
    "add-arch arm64 linux arm64", "add-builder b1 arm64", "add-builder b2 arm64",
    "enter arm64 hello 1.0 optional devel", "enter arm64 tar 1.30 required admin", "fail arm64 tar 1.30 broken",
]  # fmt: skip
SHOWN = (
    "arm64 has 2 records: 1 Needs-Build, 1 Failed\n", "arm64 has 2 pairs with a builder: b1, b2\n",
    "would name the copy ", "would ask: remove arm64, 2 records and 2 pairs with a builder?\n",
)  # fmt: skip


def has_arch(office, arch="arm64"):
    said, _ = office.do("run", stdin=office.lines(["archs"]))
    return f'"arch":"{arch}"' in said


def removes_an_architecture(folder):
    """Whether the office is served, which stops nothing, or not: what goes is shown, and after a backup it is gone,
    without a question. A dry run shows it, and changes nothing."""
    idle, served = offices(folder)
    with idle, served:
        process = served.server()
        for office, last in (idle, "give the office: remove-arch arm64"), (served, "send 1 lines"):
            office.do("run", stdin=office.lines(GOING))
            before = office.tree()
            said, steps = office.do("remove-arch", "arm64", "--dry-run")
            expect(not said and office.tree() == before, f"a dry run changes files, or says {said}")
            expect(all(text in steps for text in (*SHOWN, f"would {last}")), f"a dry run says {steps}")
            said, steps = office.do("remove-arch", "arm64", "--yes")
            backup, answer = said.splitlines()
            expect(json.loads(answer) == {"accepted": 11, "ok": "remove-arch"}, answer)
            expect(office.saved() == [Path(backup)], f"there are {office.saved()}")
            expect("removed arm64, 2 records and 2 pairs with a builder\n" in steps and "[y/N]" not in steps, steps)
            expect("stop the service" not in steps, steps)
            said, _ = office.do("run", stdin=office.lines(["summary arm64", "mine b2", "archs", "builders"]), wanted=1)
            left = [json.loads(line) for line in said.splitlines()]
            expect([one.get("refused") for one in left[:2]] == ["UnknownArch", "UnknownBuilder"], said)
            expect(len(left[2]["archs"]) == len(left[3]["builders"]) == 1 and office.has("tar"), said)
        expect(served.server() == process, "another process serves")
        idle.do("restore", "--force", idle.saved()[0])
        expect(has_arch(idle), "the backup lacks the architecture")


def removes_nothing_that_is_refused(folder):
    """An architecture that is not there or of which a record is held, a call without a terminal, and a backup that
    cannot be made: no backup is there, no file is changed, and of many records that are held some are named."""
    held = [f"enter arm64 p{at:02} 1.0 a b" for at in range(12)] + ["next arm64 b1"] * 7 + ["next arm64 b2"] * 5
    idle, served = offices(folder)
    with idle, served:
        for office in (idle, served):
            office.do("run", stdin=office.lines(GOING))
            expect_refused(office, 2, "there is no terminal to ask at; nothing was done: --yes", "arm64")
            office.fault("bad-trial")
            expect_refused(office, 1, "the copy does not open as an office", "--yes", "arm64")
            (office.faults / "bad-trial").unlink()
            for wanted, message, *words in (
                (1, "the office has no architecture armel (UnknownArch); nothing was done", "armel"),
                (1, 'summary Arm64: the office answers {"code":11,"refused":"BadName"}; nothing was done', "Arm64"),
                (2, "is no word of a line, which has no blanks", "arm 64"), (2, "required: NAME"),
            ):
                expect_refused(office, wanted, message, "--yes", *words)
            office.do("run", stdin=office.lines(["give-back arm64 tar 1.30", "next arm64 b2", "built 1"]))
            message = "one record that a builder holds (StillHeld): tar 1.30 (Built by b2); nothing was done: "
            expect_refused(office, 1, f"arm64 has 2 records: 1 Needs-Build, 1 Built\n|{message}", "--yes", "arm64")
            expect_refused(office, 1, message, "--dry-run", "arm64")
            office.do("run", stdin=office.lines(["give-back arm64 tar 1.30", "take arm64 b1 hello 1.0", *held]))
            many = "arm64 has 13 records that a builder holds (StillHeld): hello 1.0 (Building by b1), |, and 3 more; "
            steps = expect_refused(office, 1, many, "--yes", "arm64")
            expect(steps.count("(Building by b") == 10, steps)
        with through(served, OlderGate) as gate:
            expect_refused(served, 1, f"port {gate.port} takes no remove-arch; nothing was done", "--yes", "amd64")


def expect_refused(office, wanted, messages, *words):
    """That a removal ends with this status and has these messages, parted by bars, and that nothing was done."""
    before = office.tree()
    said, steps = office.do("remove-arch", *words, wanted=wanted)
    expect(not said and all(message in steps for message in messages.split("|")), f"{words}: {said}{steps}")
    expect(office.tree() == before and not office.saved(), f"{words}: it changes files")
    return steps


class OlderGate(Gate):
    """A gate before an office that has no command remove-arch."""

    def refusal(self, method, path, head, body):
        head = "HTTP/1.1 404 Not Found\r\nContent-Length: 18\r\nConnection: close\r\n\r\n"
        return f'{head}{{"http":"NoRoute"}}'.encode() if path == "/v1/remove-arch" else None


def asks_at_a_terminal(folder):
    """Only yes removes; the backup stays. What the office refuses by then is refused, and an answer that is lost is
    said to be in doubt."""
    with Trial(folder) as office:
        office.fill()
        office.do("start")
        office.do("run", stdin=office.lines(GOING))
        for answer in (b"n\n", b"\n", b"yesno\n", b"\xff\n", b"\x04"):
            said, shown = at_a_terminal(office, answer, 1)
            expect(f"arm64 was not removed; the backup {said[-1]} stays\n" in shown, f"{answer}: {said}{shown}")
            expect(office.saved()[-1] == Path(said[-1]) and has_arch(office), f"{answer}: {office.saved()}")
        said, shown = at_a_terminal(office, b"y\n", 1, lambda: take_one(office, "take arm64 b2 hello 1.0"))
        expect(json.loads(said[-1])["refused"] == "StillHeld" and has_arch(office), f"{said}{shown}")
        take_one(office, "give-back arm64 hello 1.0")
        said, shown = at_a_terminal(office, b" YES \n", 0, lambda: take_one(office, "enter arm64 late 1.0 a b"))
        counted = "removed arm64, 2 records and 2 pairs with a builder, as counted before one command of others\n"
        expect(json.loads(said[-1])["ok"] == "remove-arch" and counted in shown, f"{said}{shown}")
        office.do("run", stdin=office.lines(GOING))
        with through(office) as gate:
            _, shown = at_a_terminal(office, b"y\n", 3, lambda: gate.lose.append(("/v1/remove-arch", "answer")))
            expect("line 1 (remove-arch arm64) is in doubt" in shown and not has_arch(office), shown)


def take_one(office, line):
    """Sends the office a line as another client, while a call of the operator's command is under way."""
    path, body = request_of(line.split())
    said = ask(office.port, "POST", path, json.loads(body))
    expect("ok" in said, f"{line}: {said}")


def at_a_terminal(office, answer, wanted, meanwhile=lambda: None):
    """The lines of standard output of a removal of arm64, and what it shows at a terminal, where its question is
    answered so."""
    ours, theirs = pty.openpty()
    words, met = [OFFICE, "--settings", office.conf, "remove-arch", "arm64"], b""
    with (
        open(ours, "rb+", buffering=0) as shown,
        subprocess.Popen(words, stdin=theirs, stdout=subprocess.PIPE, stderr=theirs) as process,
    ):
        os.close(theirs)
        with contextlib.suppress(OSError):  # the end of the terminal
            while select.select([shown], [], [], WAIT)[0]:
                met += shown.read(65536)
                if answer and b"[y/N] " in met:
                    meanwhile()
                    shown.write(answer)
                    answer = b""
        said = process.stdout.read().decode().splitlines()
        text = met.decode(errors="replace").replace("\r\n", "\n")
        expect(process.wait(timeout=WAIT) == wanted and not answer, f"status {process.returncode}: {said}{text}")
    return said, text


TESTS = [
    answers_alike, answers_random_lines_alike, commands_answer_alike, stops_nothing, stops_for_what_has_no_request,
    merges_without_a_stop, says_what_is_wrong_with_its_folder, says_that_a_merge_is_in_doubt,
    says_which_line_is_in_doubt, ends_where_the_office_is_stopped, says_where_a_signal_ended_it,
    goes_on_while_the_program_starts_anew, removes_an_architecture, removes_nothing_that_is_refused, asks_at_a_terminal,
]  # fmt: skip

if __name__ == "__main__":
    program()
    sys.exit(main(TESTS))

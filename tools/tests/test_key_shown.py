#!/usr/bin/env python3
"""Tests of the key that each command shows to a serving office: that it is that of the file which its words, its
settings or its environment name, that a file which others may open is refused, that it stands in no word and in no
environment of a process and in no file or message, and what is said and kept if the office does not let it through. The
office is the program without keys; a gate before it lets requests through as key_model.py has it, and notes what each
shows. Each test has a folder of its own.

    tools/tests/test_key_shown.py [NAME..]     these tests, or all

From the environment: WB is the program, crates/wb/out/wb of this repository where it is not set.
"""
import os
import subprocess
import sys
from pathlib import Path

from harness import BIN, ROOT, WAIT, call, expect, main, program
from key_runs import KeyGate, holders, key, key_file, lines_of, put, tellers
from list_cases import DOSE, answer
from list_runs import stub, tables
from package_runs import OFFICE, Trial, wait_until
from wanna_build_runs import LISTED, Network, Program, free_port
from web_runs import Site, interpreter
from wb_tools import keys
from wb_tools.wanna_build import settings as wanna_build_settings

RIGHTS = {
    "operator": "operate", "reader": "read", "b1": "build=b1", "b3": "build=b3", "porter": "port=amd64",
    "other": "port=arm64",
}
JOURNAL = ["add-arch amd64 linux amd64", "add-builder b1 amd64", "enter amd64 hello 1.0-1 optional devel"]
# The commands that are given the address of an office: their first words, their last, and standard input.
BY_ADDRESS = {
    "wb-table": (["wb-table"], ["summary"], ""),
    "wb-table by state": (["wb-table"], ["by-state", "amd64", "Needs-Build"], ""),
    "wb-status": (["wb-status"], ["--to", "page.html"], ""),
    "wb-history ages": (["wb-history", "journal", "ages"], ["--arch", "amd64"], ""),
    "wb-history suspects": (["wb-history", "journal", "suspects"], ["--arch", "amd64"], ""),
    "wb-requests": (["wb-requests"], ["--arch", "amd64"], "bp 5 hello . ANY\n"),
    "wb-requests of all": (["wb-requests"], [], "bp 6 hello . ANY\n"),
    "wb-requests --simulate": (["wb-requests"], ["--simulate"], "bp 7 hello . amd64\n"),
}
LIST = ("--api 1", "--list=needs-build", "")


class Keyed(Network):
    """An office behind a gate of keys, which lets nobody through without one, and calls of commands."""

    gate_of = KeyGate

    def __init__(self, folder, anyone=None, **settings):
        super().__init__(folder, **settings)
        self.url = f"http://127.0.0.1:{self.gate.port}"
        self.gate.keys = folder / "office.keys"
        self.allow(anyone)
        self.files = {name: key_file(folder, name) for name in (*RIGHTS, "stranger")}
        text = "".join(f"{line}\n" for line in JOURNAL)
        subprocess.run([program(), "run", "--journal", "journal"], cwd=folder, input=text, text=True,
                       capture_output=True, timeout=WAIT, check=False)

    def allow(self, anyone=None, **others):
        """Has these keys in force."""
        put(self.gate.keys, lines_of({**RIGHTS, **others}, anyone))

    def shows(self, name):
        """Has wanna-build show the key of this name, or that of no file."""
        self.settings["KEY_FILE"] = self.files[name] if name else "/nowhere/key"
        self.write_settings()

    def asked(self, what, *more, **variables):
        """The status of a command that is given the address of the office, and all that it says."""
        front, rest, text = BY_ADDRESS[what]
        words = [BIN / front[0], *front[1:], "--url", self.url, "--wait", "0", *more, *rest]
        environment = {name: value for name, value in os.environ.items() if name != "WB_KEY_FILE"}
        done = subprocess.run(
            words, cwd=self.folder, input=text, env={**environment, **variables}, capture_output=True, text=True,
            timeout=3 * WAIT, check=False,
        )
        said = done.stdout + done.stderr
        expect("Traceback" not in said and key("") not in said, f"{what}: it says {said}")
        return done.returncode, said


# ---- which key is shown


def is_that_of_the_file_that_is_named(folder):
    """By --key-file, or by WB_KEY_FILE, in whose place --key-file counts; without both no key is shown."""
    with Keyed(folder, anyone="operate") as net:
        reader, operator = str(net.files["reader"]), str(net.files["operator"])
        for what in BY_ADDRESS:
            for more, variables, name in (
                (["--key-file", operator], {}, "operator"), ([], {"WB_KEY_FILE": operator}, "operator"), ([], {}, None),
                (["--key-file", operator], {"WB_KEY_FILE": reader}, "operator"), ([], {"WB_KEY_FILE": ""}, None),
                (["--key-file", "operator.key"], {"WB_KEY_FILE": "/nowhere"}, "operator"),
            )[: None if what in ("wb-table", "wb-requests") else 3]:
                status, said = net.asked(what, *more, **variables)
                expect(status == 0, f"{what} {more} {variables}: status {status}: {said}")
                net.gate.expect_shown(name, f"{what} {more} {variables}")
    return f"{len(BY_ADDRESS)} commands"


def is_read_anew_and_without_its_ends(folder):
    """The first line counts, with or without an end, and blanks around it do not; a file that was replaced is read."""
    with Keyed(folder, anyone="read") as net:
        file = net.files["reader"]
        for text in (key("b1"), f"{key('b1')}\n", f"  {key('b1')}\t\r\n", f"{key('b1')}\nsecond\n"):
            put(file, text)
            status, said = net.asked("wb-table", "--key-file", file)
            expect(status == 0, f"{text!r}: {said}")
            net.gate.expect_shown("b1", repr(text))
        for size in (keys.LEAST, keys.MOST):
            put(file, "x" * size)
            net.allow("read")
            _, said = net.asked("wb-table", "--key-file", file)
            expect(net.gate.shown[0][2] == ["Bearer " + "x" * size] and "NoKey" in said, f"{size} bytes: {said}")
            net.gate.shown.clear()


def is_that_of_each_suite(folder):
    """Of several offices each is shown its own key, and no other."""
    with Keyed(folder) as net:
        other = Program(program(), folder / "other", free_port(), LISTED)
        other.start()
        second = KeyGate(other)
        second.keys = net.gate.keys
        try:
            urls = ["--url", f"sid={net.url}", "--url", f"exp=http://127.0.0.1:{second.port}"]
            files = ["--key-file", f"sid={net.files['operator']}", "--key-file", f"exp={net.files['porter']}"]
            call([BIN / "wb-status", *urls, *files, "--wait", "0", "--to", folder / "page.html"])
            expect_each(net, second, "wb-status")
            call([BIN / "wb-requests", *urls, *files, "--wait", "0"], input="bp 5 hello . amd64 . sid\nbp 5 hello . "
                 "amd64 . exp\n", stdin=None)
            expect_each(net, second, "wb-requests")
            net.settings["SUITES"] = f"sid={net.gate.port} exp={second.port}"
            net.settings["KEY_FILE"] = f"sid={net.files['operator']} exp={net.files['porter']}"
            net.write_settings()
            for suite in ("sid", "exp"):
                net.call(*LIST, suite=suite)
            expect_each(net, second, "wanna-build")
            one = ["--key-file", f"exp={net.files['porter']}", "--key-file", net.files["operator"]]
            call([BIN / "wb-status", *urls, *one, "--wait", "0", "--to", folder / "page.html"])
            expect_each(net, second, "one for all others")
            for words in (["--key-file", "sid=a", "--key-file", "sid=b"], ["--key-file", "a", "--key-file", "b"],
                          ["--key-file", "sid="], ["--key-file", ""]):
                call([BIN / "wb-status", *urls, *words, "--wait", "0"], 2)
        finally:
            second.close()
            other.stop()


def expect_each(net, second, what):
    net.gate.expect_shown("operator", f"{what}, the first office")
    second.expect_shown("porter", f"{what}, the second office")


def is_in_settings_of_wanna_build(folder):
    """KEY_FILE, and without it a file in the home of the caller, which need not be there."""
    with Keyed(folder, anyone="read") as net:
        net.shows("b1")
        net.call(*LIST)
        net.gate.expect_shown("b1", "KEY_FILE")
        for text, message in (
            ("key", "has to be a path that begins with / or ~/"), ("sid=key", "or words SUITE=PATH"),
            ("/a /b", "a suite once"), ("sid=/a sid=/b", "a suite once"),
        ):
            net.settings["KEY_FILE"] = text
            net.write_settings()
            net.refuses(message, *LIST, wanted=2)
        expect(not net.gate.shown, "something was sent")
    found = wanna_build_settings.keys_in(Path("/conf"), "").of("sid")
    place = wanna_build_settings.home() / "wanna-build.key"
    expect((found.path, found.may_be_missing) == (place, True), f"without KEY_FILE it is {found}")
    found = wanna_build_settings.keys_in(Path("/conf"), "sid=~/k exp=/k").of("sid")
    expect((found.path, found.may_be_missing) == (place.with_name("k"), False), f"with ~ it is {found}")
    bare = keys.KeyFile(folder / "none", "KEY_FILE", may_be_missing=True)
    expect(bare.fields() == {} and "there is no " in bare.missing("NoKey", "read"), "one that may be missing")


# ---- files that are refused

ODD = [
    ("its group or others may open it (mode 0640); give it the mode 0600", "{}\n", 0o640),
    ("(mode 0604)", "{}\n", 0o604), ("(mode 0620)", "{}\n", 0o620), ("(mode 0601)", "{}\n", 0o601),
    ("(mode 0644)", "{}\n", 0o644), ("(mode 0666)", "{}\n", 0o666),
    ("its first line is no key, which has 20 to 200 bytes", "", 0o600), ("is no key", "\n{}\n", 0o600),
    ("is no key", "short\n", 0o600), ("is no key", "{} x\n", 0o600), ("is no key", "Bearer {}\n", 0o600),
    ("is no key", "{}\u00e4\n", 0o600), ("is no key", "{}\0\n", 0o600), ("is no key", "={}\n", 0o600),
    ("is no key", "x" * 201, 0o600), ("is no key", "x" * 100000, 0o600), ("is no key", "{}\rX-More: 1\n", 0o600),
]


def of_a_file_that_is_odd_is_not_shown(folder):
    """Files that others may open, and files without a key: nothing is sent, and the message names the file and what is
    wrong, and has none of its bytes."""
    with Keyed(folder, anyone="operate") as net:
        file = folder / "odd"
        for message, text, mode in ODD:
            put(file, text.format(key("b1")), mode)
            expect_not_shown(net, ["wb-table"], file, message)
        put(file, key("b1"), 0o640)
        expect_not_shown(net, list(BY_ADDRESS), file, "(mode 0640)")
        file.unlink()
        expect_not_shown(net, list(BY_ADDRESS), file, "No such file or directory")
        file.mkdir()
        expect_not_shown(net, ["wb-table", "wb-requests"], file, "the key cannot be shown: ")
        file.rmdir()
        os.mkfifo(file, 0o600)
        expect_not_shown(net, ["wb-table", "wb-requests"], file, "it is no regular file")
    return f"{len(ODD)} files"


def expect_not_shown(net, commands, file, message):
    for what in commands:
        status, said = net.asked(what, "--key-file", file)
        wanted = f"{file}: the key cannot be shown: "
        expect(status == 3 and (wanted in said or f"'{file}'" in said) and message in said,
               f"{what}: status {status}, and it says {said}, not {wanted}..{message}")
        expect(not net.gate.shown, f"{what}: it asks the office")


def of_an_odd_file_leaves_reports_owed(folder):
    """wanna-build says it, sends nothing, and keeps the report of a builder until the file is mended."""
    with Keyed(folder) as net:
        net.shows("b1")
        net.takes("hello_1.0-1")
        net.files["b1"].chmod(0o644)
        net.gate.shown.clear()
        message = f"{net.files['b1']}: the key cannot be shown: its group or others may open it (mode 0644); give it "
        net.refuses(message, *LIST, wanted=3)
        net.refuses(message, "--built", "hello_1.0-1", wanted=3)
        expect(net.owed() == ["built hello"] and not net.gate.shown, f"owed is {net.owed()}, or something was sent")
        net.files["b1"].chmod(0o600)
        net.call(*LIST)
        expect(not net.owed(), "it is owed still")
        net.expect_state("hello", "Built b1 1")


# ---- what is said of a key that is not let through

WITHOUT = "it wants a key, and no file of one is named (--key-file)"


def that_is_not_known_is_said(folder):
    """NoKey and NotAllowed, by each command: what is missing, of which file, and which right."""
    with Keyed(folder) as net:
        stranger, reader = (net.files[name] for name in ("stranger", "reader"))
        for what in BY_ADDRESS:
            for words, message in (
                ([], WITHOUT),
                (["--key-file", stranger], f"the key in {stranger} is on no line of its keys"),
            ):
                status, said = net.asked(what, *words)
                wanted = 3 if what == "wb-requests of all" else 1  # it does not learn which architectures there are
                is_said = "NoKey" in said and message in said
                expect(status == wanted and is_said, f"{what}: status {status}, it says {said}")
        status, said = net.asked("wb-requests", "--key-file", reader)
        message = f"NotAllowed: the key in {reader} lacks the right port=amd64"
        expect(status == 1 and message in said, f"it says {said}")
        net.allow("read")
        status, said = net.asked("wb-requests")
        expect("NotAllowed: without a key nobody has the right port=amd64, and no file" in said, f"it says {said}")
        status, said = net.asked("wb-requests", "--key-file", net.files["other"])
        expect(status == 1 and "lacks the right port=amd64" in said, f"of another architecture: {said}")
        status, said = net.asked("wb-requests", "--key-file", net.files["porter"])
        expect(status == 0, f"of its architecture: {said}")


def that_is_not_known_is_said_to_porters_and_builders(folder):
    """By wanna-build, on standard error with the status 1, or as buildd reads it; a porter's word is not kept."""
    with Keyed(folder) as net:
        net.shows("stranger")
        unknown = f"the office answered NoKey: the key in {net.files['stranger']} is on no line of its keys"
        net.refuses(unknown, *LIST)
        said, _ = net.call("--api 1", "hello_1.0-1", wanted=1)
        expect("status: ok" not in said and "NoKey" in said, f"buildd reads {said}")
        net.shows("porter")
        lacking = f"the office answered NotAllowed: the key in {net.files['porter']} lacks the right build=b1"
        said, noted = net.call("--api 1", "hello_1.0-1", wanted=1)
        expect("status: ok" not in said and lacking in said + noted, f"it says {said}{noted}")
        net.shows("reader")
        _, noted = net.call("--build-priority=5", "hello_1.0-1", "--arch=amd64", "--dist=sid", user=None, wanted=1)
        expect("lacks the right port=amd64" in noted and not net.owed(), f"a porter: {noted}, owed {net.owed()}")
        net.settings["KEY_FILE"] = folder / "none"
        net.write_settings()
        net.refuses(f"{folder}/none: the key cannot be shown: No such file or directory", *LIST, wanted=3)


# ---- reports of builders


def that_is_taken_away_leaves_reports_owed(folder):
    """A report that is refused for its key, or for want of its right, stays owed, is not tried for long, and is sent
    once the key is let through again; the log has why."""
    with Keyed(folder) as net:
        net.shows("b1")
        net.takes("hello_1.0-1")
        for change, fault in (
            (lambda: put(net.gate.keys, lines_of({"operator": "operate"}, "read")), "NoKey"),
            (lambda: net.allow(b1="read"), "NotAllowed"), (lambda: net.allow(b1="build=b2"), "NotAllowed"),
        ):
            change()
            count = len(net.gate.shown)
            what = "lacks the right build=b1" if fault == "NotAllowed" else "is on no line of its keys"
            why = f"the office answered {fault}: the key in {net.files['b1']} {what}"
            net.refuses(why, "--built", "hello_1.0-1", wanted=3)
            expect(set(net.owed()) == {"built hello"}, f"{fault}: owed is {net.owed()}")
            expect(len(net.gate.shown) - count < 5, f"{fault}: it is asked {len(net.gate.shown) - count} times")
            net.expect_state("hello", "Building b1 1")
        expect("owed: " in Path(net.settings["LOG"]).read_text(), "the log does not say it")
        net.allow()
        net.says("", "--built", "hello_1.0-1")
        expect(not net.owed(), f"owed is {net.owed()}")
        net.expect_state("hello", "Built b1 1")
        net.allow(b1="read")
        net.refuses("NotAllowed", "--uploaded", "hello_1.0-1", wanted=3)
        net.allow()
        net.call(*LIST)
        expect(not net.owed(), "it is not sent before the next command")


def that_may_not_give_back_by_name_asks_once(folder):
    """What a builder has built it can give back by name alone, for which its key has no right: that is noted and said,
    and not repeated for ever; a key with the right does it."""
    with Keyed(folder) as net:
        net.shows("b1")
        net.takes("hello_1.0-1")
        net.says("", "--built", "hello_1.0-1")
        net.gate.shown.clear()
        said, noted = net.call("--give-back", "hello_1.0-1", wanted=1)
        lacking = f"NotAllowed: the key in {net.files['b1']} lacks the right port=amd64"
        expect(lacking in said + noted and not net.owed(), f"it says {said}{noted}, and owed is {net.owed()}")
        posts = [path for method, path, _ in net.gate.shown if method == "POST"]
        expect(posts == ["/v1/give-back"], f"sent was {posts}")
        expect(lacking in Path(net.settings["LOG"]).read_text(), "the log does not say it")
        net.gate.shown.clear()
        net.call(*LIST)
        expect(all(method == "GET" for method, _, _ in net.gate.shown), "it is sent again")
        net.expect_state("hello", "Built b1 1")
        net.allow(b1="build=b1 port=amd64")
        net.says("", "--give-back", "hello_1.0-1")
        net.expect_state("hello", "Needs-Build")


def lets_a_porter_give_back_all_that_is_held(folder):
    """What a builder that is gone was building and has built; the key of another architecture does not."""
    with Keyed(folder) as net:
        net.shows("b1")
        for package in ("hello_1.0-1", "zlib_1:1.2.13-1"):
            net.takes(package)
        net.says("", "--built", "hello_1.0-1")
        words = ("--forget-user", "b1", "--arch=amd64", "--dist=sid")
        net.shows("other")
        _, noted = net.call(*words, user=None, wanted=1)
        expect(noted.count(f"the key in {net.files['other']} lacks the right port=amd64") == 2, f"it says {noted}")
        net.shows("porter")
        said, noted = net.call(*words, user=None)
        expect(said.count(" -> Needs-Build") == 2 and not noted, f"it says {said}{noted}")
        for source in ("hello", "zlib"):
            net.expect_state(source, "Needs-Build")


def lets_a_builder_build_to_the_end(folder):
    """With a key of its own alone a builder takes, reports and uploads, and reports a failure and what is missing."""
    with Keyed(folder) as net:
        net.shows("b1")
        net.call(*LIST)
        net.takes("hello_1.0-1")
        for word in ("--built", "--uploaded"):
            net.says("", word, "hello_1.0-1")
        net.takes("zlib_1:1.2.13-1")
        net.says("", "--attempted", "zlib_1:1.2.13-1")
        net.expect_state("hello", "Uploaded b1 1")
        net.expect_state("zlib", "Build-Attempted")
        expect(net.gate.shows() == {f"Bearer {key('b1')}"}, f"shown is {net.gate.shows()}")
        net.shows("b3")
        net.refuses("NotAllowed", "--api 1", "libsigc++-2.0_2.12.0-1")


# ---- the operator


class Operated(Trial):
    """An office that a process serves, the gate before it, and the settings by which the operator's commands ask there,
    with the key of this name."""

    def __init__(self, folder, name="operator", **more):
        super().__init__(folder, LISTS=folder / "an office" / "to merge", **more)
        self.gate = KeyGate(self)
        self.gate.keys = folder / "office.keys"
        put(self.gate.keys, lines_of(RIGHTS, None))
        self.served, self.conf_of_gate = self.conf, folder / "gate.conf"
        self.files = {one: key_file(folder, one) for one in (*RIGHTS, "stranger")}
        self.show(self.files[name])

    def show(self, file):
        """Has the commands show the key of a file, if one is given."""
        more = {"PORT": self.gate.port, **({"KEY_FILE": file} if file else {})}
        lines = [f'{name}="{value}"\n' for name, value in {**self.settings, **more}.items()]
        self.conf_of_gate.write_text("".join(lines))

    def __enter__(self):
        self.fill()
        self.do("start")
        return self

    def __exit__(self, *_):
        self.gate.close()
        super().__exit__()

    def asks(self, *words, wanted=0, **options):
        """A call whose requests come to the gate."""
        return call([OFFICE, "--settings", self.conf_of_gate, *words], wanted, **options)


def lists(folder):
    """Lists of one package, and the words that merge them."""
    text = "Package: {}\nVersion: 1.0\nArchitecture: any\nPriority: optional\nSection: devel\n\n"
    (folder / "Sources").write_text("".join(map(text.format, ("hello", "new"))))
    (folder / "Packages").write_text("")
    return folder / "Sources", f"amd64={folder}/Packages"


def is_shown_by_the_operators_commands(folder):
    """Lines, single commands, merges, reports and a removal by requests, and merge-archive's report of what waits
    now."""
    with Operated(folder) as office:
        (folder / "report").write_text("hello 1.0 uninstallable libx is missing\n")
        for words, options in (
            (("add-arch", "arm64", "linux", "arm64"), {}), (("add-builder", "b3", "amd64"), {}),
            (("enter", "amd64", "late", "1.0", "optional", "devel"), {}), (("report", "amd64", folder / "report"), {}),
            (("run",), {"stdin": office.lines(["summary amd64", "build-priority amd64 hello 1.0 5"])}),
            (("merge", "--report", f"amd64={folder}/report", *lists(folder)), {}),
            (("remove-arch", "arm64", "--yes"), {}),
        ):
            keeper = office.keeper()
            _, noted = office.asks(*words, **options)
            office.gate.expect_shown("operator", words[0])
            expect(office.keeper() == keeper and "stop the service" not in noted, f"{words[0]}: it stops: {noted}")
        reported = archive_words(folder, office)
        said, _ = call(reported, env=with_stubs(folder), cwd=folder)
        expect("report-amd64 " in said, f"it says {said}")
        office.gate.expect_shown("operator", "merge-archive")
        office.do("stop")
        expect(office.has("late") is False and office.has("new"), "the merge was not carried out")


def archive_words(folder, office, waiting=2):
    """The words by which merge-archive reports what waits now, by lists that were merged before, of which so many
    packages wait."""
    stub(folder, "dose-builddebcheck", f"env >>\"$STUB/environment\"\n{DOSE}")
    (folder / "answer").write_text(answer([], waiting))
    merged = folder / "lists/merged"
    merged.mkdir(parents=True, exist_ok=True)
    (folder / "lists/ready").mkdir(exist_ok=True)
    text = "Package: {0}\nBinary: {0}\nVersion: 1.0\nMaintainer: A <a@a.example>\nArchitecture: any\nFormat: 3.0\n"
    text += "Files:\n 0123 45 {0}.dsc\nDirectory: pool\nPriority: optional\nSection: misc\n\n"
    (merged / "Sources-amd64").write_text("".join(map(text.format, ("hello", "new"))))
    (merged / "Packages-amd64").write_text("")
    return [BIN / "merge-archive", "--settings", office.conf_of_gate, "--tables", tables(folder), "--arch", "amd64",
            "--no-fetch", "--dose", "--only-report", folder / "lists"]


def with_stubs(folder):
    return {**os.environ, "PATH": f"{folder / 'stubs'}:{os.environ['PATH']}", "STUB": str(folder), "STATUS": "0"}


def that_lacks_a_right_stops_the_operators_commands(folder):
    """Each says why, does nothing further, and stops no service for it; a file of the key that is not there shows
    none."""
    with Operated(folder, "reader") as office:
        before = office.tree()
        cases = [
            ("reader", "NotAllowed: the key in {} lacks the right operate"),
            ("stranger", "NoKey: the key in {} is on no line of its keys"), ("b1", "lacks the right operate"),
        ]
        for name, message in cases:
            office.show(office.files[name])
            for words, options in (
                (("add-builder", "b9", "amd64"), {}), (("merge", *lists(folder)), {}),
                (("remove-arch", "amd64", "--yes"), {}),
                (("run",), {"stdin": office.lines(["add-builder b9 amd64", "next amd64 b1"])}),
            ):
                _, noted = office.asks(*words, wanted=1, **options)
                expect(message.format(office.files[name]) in noted, f"{name}, {words[0]}: {noted}")
                expect("stop the service" not in noted and office.runs(), f"{name}, {words[0]}: {noted}")
            expect({path for path in office.tree() if "backups" not in path} == set(before), f"{name} leaves files")
        office.show(folder / "none")
        _, noted = office.asks("add-builder", "b9", "amd64", wanted=1)
        why = f"NoKey: it wants a key, and there is no {folder}/none (KEY_FILE of {office.conf_of_gate})"
        expect(why in noted, noted)
        office.show(None)
        _, noted = office.asks("add-builder", "b9", "amd64", wanted=1)
        expect("no file of one is named (KEY_FILE of " in noted, noted)
        office.files["operator"].chmod(0o640)
        office.show(office.files["operator"])
        office.gate.shown.clear()
        _, noted = office.asks("add-builder", "b9", "amd64", wanted=1)
        expect("the key cannot be shown: its group or others may open it (mode 0640)" in noted, noted)
        expect(not office.gate.shown, "something was sent")
        office.files["operator"].chmod(0o600)
        reported = archive_words(folder, office, waiting=1)
        office.show(office.files["stranger"])
        _, noted = call(reported, 1, env=with_stubs(folder), cwd=folder)
        expect(f"NoKey\"}}; the key in {office.files['stranger']} is on no line" in noted, f"merge-archive: {noted}")
        office.show(office.files["reader"])
        _, noted = call(reported, 1, env=with_stubs(folder), cwd=folder)
        expect("the report of amd64 is not taken: the office answered NotAllowed: the key in " in noted, noted)
        expect("lacks the right port=amd64" in noted, noted)


# ---- the site, and the loop of a builder


def is_shown_by_the_site(folder):
    """KEY_FILE of its settings; a page says what is amiss, and neither the key nor its file."""
    interpreter()
    with Keyed(folder) as net:
        with Site(folder, SUITES=f"sid={net.gate.port}", KEY_FILE=net.files["reader"]) as site:
            expect("hello" in site.page("/package/hello").text, "the page of a package")
            net.gate.expect_shown("reader", "the site")
            net.files["reader"].chmod(0o640)
            _, text = site.ask("/package/hello", 503)
            expect("the site cannot show the office its key, that of KEY_FILE" in text, text[-800:])
            expect(not net.gate.shown and str(net.files["reader"]) not in text, "it asks, or tells where the key is")
            net.files["reader"].chmod(0o600)
            put(net.files["reader"], key("stranger"))
            _, text = site.ask("/package/hello", 503)
            why = "the office answers NoKey: it wants a key with the right read, that of KEY_FILE"
            expect(why in text, text[-800:])
        with Site(folder, SUITES=f"sid={net.gate.port}", KEY_FILE=f"sid={net.files['b1']}") as site:
            net.gate.shown.clear()
            site.page("/package/hello")
            net.gate.expect_shown("b1", "the site, by its suite")


def is_shown_by_the_loop_of_a_builder(folder):
    """The file that KEY_FILE of its environment names; while the key is not let through it says so and asks again."""
    with Keyed(folder) as net:
        net.gate.secrets = [key("b1")]
        words = [ROOT / "examples/builder_loop", net.url, "amd64", "b1", "seen", "true"]
        variables = {**os.environ, "KEY_FILE": str(net.files["b1"]), "PAUSE": "0.1"}
        net.allow(b1="read")
        with open(folder / "errors", "wb") as errors:
            loop = subprocess.Popen(words, cwd=folder, env=variables, stdout=errors, stderr=errors)
            try:
                asks = "is KEY_FILE right?"
                wait_until(lambda: (folder / "errors").read_text().count(asks) > 1, "it does not say it")
                expect('{"http":"NotAllowed"}' in (folder / "errors").read_text(), "it does not say why")
                net.allow()
                loop.wait(timeout=2 * WAIT)
            finally:
                loop.kill()
                loop.wait()
        expect(loop.returncode == 0, f"it ended with {loop.returncode}: {(folder / 'errors').read_text()[-500:]}")
        net.gate.expect_shown("b1", "the loop")
        net.expect_state("hello", "Uploaded b1 3")
        expect(not net.gate.told, f"the key stands in {net.gate.told}")
        expect(key("b1") not in (folder / "errors").read_text(), "the key is told")


# ---- where it does not stand


def stands_in_no_word_and_no_environment(folder):
    """Of any process while a request is under way, and in no file besides its own once all is done."""
    with Keyed(folder) as net:
        net.gate.secrets = [key("operator"), key("b1")]
        for what in BY_ADDRESS:
            net.asked(what, "--key-file", net.files["operator"])
            net.asked(what, WB_KEY_FILE=str(net.files["operator"]))
        net.shows("b1")
        net.call(*LIST)
        net.takes("hello_1.0-1")
        net.says("", "--built", "hello_1.0-1")
        net.allow(b1="read")
        net.call("--uploaded", "hello_1.0-1", wanted=3)
        net.allow()
        net.call(*LIST)
        expect(len(net.gate.shown) > 20, f"{len(net.gate.shown)} requests")
        expect(not net.gate.told, f"a key stands in {net.gate.told}")
        for name in ("operator", "b1"):
            met = holders(folder, key(name), net.files[name])
            expect(not met, f"the key of {name} stands in {met}")


def stands_in_no_file_of_the_operators_commands(folder):
    with Operated(folder) as office:
        office.gate.secrets = [key("operator")]
        reported = archive_words(folder, office)
        office.asks("add-builder", "b3", "amd64")
        office.asks("merge", *lists(folder))
        call(reported, env=with_stubs(folder), cwd=folder)
        expect(len(office.gate.shown) > 5 and not office.gate.told, f"the key stands in {office.gate.told}")
        expect("PATH=" in (folder / "environment").read_text(), "dose was not asked")
        met = holders(folder, key("operator"), office.files["operator"])
        expect(not met, f"the key stands in {met}")


def would_be_found_where_it_stands(folder):
    """What looks for a key finds one among the words of a process, in an environment, and in a file."""
    for words, variables in ((["sh", "-c", "read x", key("b1")], {}), (["sh", "-c", "read x"], {"KEY": key("b1")})):
        with subprocess.Popen(words, stdin=subprocess.PIPE, env={**os.environ, **variables}) as process:
            wait_until(lambda: list(tellers(key("b1"))), f"{words} is not found")
            process.stdin.close()
    (folder / "log").write_text(f"Authorization: Bearer {key('b1')}\n")
    file = key_file(folder, "b1")
    expect(holders(folder, key("b1"), file) == ["log"], f"found is {holders(folder, key('b1'), file)}")


TESTS = [
    is_that_of_the_file_that_is_named, is_read_anew_and_without_its_ends, is_that_of_each_suite,
    is_in_settings_of_wanna_build, of_a_file_that_is_odd_is_not_shown, of_an_odd_file_leaves_reports_owed,
    that_is_not_known_is_said, that_is_not_known_is_said_to_porters_and_builders,
    that_is_taken_away_leaves_reports_owed, that_may_not_give_back_by_name_asks_once,
    lets_a_porter_give_back_all_that_is_held, lets_a_builder_build_to_the_end,
    is_shown_by_the_operators_commands, that_lacks_a_right_stops_the_operators_commands, is_shown_by_the_site,
    is_shown_by_the_loop_of_a_builder, stands_in_no_word_and_no_environment,
    stands_in_no_file_of_the_operators_commands, would_be_found_where_it_stands,
]

if __name__ == "__main__":
    sys.exit(main(TESTS))

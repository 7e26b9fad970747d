#!/usr/bin/env python3
"""Tests of tools/bin/wanna-build, called with the words that buildd, buildd-mail and buildd-uploader of Debian give,
byte for byte and in an empty environment, over an office that is served. Each test has a folder of its own.

    tools/tests/test_wanna_build.py [NAME..]     these tests, or all

From the environment: WB is the program, crates/wb/out/wb of this repository where it is not set.
"""
import json
import re
import subprocess
import sys
import threading
import time

from harness import ROOT, expect, main
from wanna_build_runs import COMMAND, Network, free_port, killed_after

QUEUE = "libs/zlib_1:1.2.13-1 [required:uncompiled]\n"
QUEUE += "contrib/libs/libsigc++-2.0_2.12.0-1 [optional:uncompiled]\ndevel/hello_1.0-1 [optional:uncompiled]\n"
TOTAL = "Total {} package(s) in state Needs-Build.\n"
LIST = ("--api 1", "--list=needs-build", "")
ENDED = "has ended"


# ---- what buildd reads, by its own expressions


def picked(text):
    """The package that buildd picks from a list, and the number that it reads."""
    found, total = None, None
    for line in text.splitlines():
        if said := re.match(r"Total (\d+) package", line):
            total = int(said[1])
        elif not re.match(r"Database for \S+ doesn.t exist", line) and found is None:
            found = re.sub("^.*/", "", re.split(r"\s+", line)[0])
    return found, total


def yaml_of(text):
    """What YAML::Tiny, by which buildd reads the answer to a take, makes of it."""
    found, rows = {}, None
    for line in text.splitlines():
        if head := re.fullmatch(r"- ([a-z0-9][a-z0-9+.-]+):", line):
            rows = found.setdefault(head[1], {})
            continue
        row = re.fullmatch(r"    - ([A-Za-z-]+): (.*)", line)
        expect(row and rows is not None and line == line.rstrip(), f"this line is no such YAML: {line!r}")
        value = row[2]
        if quoted := re.fullmatch("'([^']*(?:''[^']*)*)'", value):
            value = quoted[1].replace("''", "'")
        else:
            expect(
                not re.match(r"['\"!&{}\[\]>|@%`~#*?]|-(\s|$)", value) and not re.search(r":(\s|$)|\s#", value),
                f"it is not plain: {value!r}",
            )
        rows[row[1]] = value
    expect(found, f"this is no such YAML: {text!r}")
    return found


def info_of(text):
    """What buildd-mail reads of a record."""
    found = {}
    for line in text.splitlines():
        for key in ("Version", "State", "Builder", "Binary-NMU-Version"):
            if said := re.match(rf"\s*{key}\s*:\s*(\S+)", line):
                found[key] = said[1]
    return found


# ---- words and settings


def helps_and_refuses_words(folder):
    with Network(folder) as net:
        said, _ = net.call("--help", user=None)
        expect("examples:" in said and "exit statuses:" in said, "help has no example, or no statuses")
        for words in (
            "", "--list", "--pretend-avail", "--built", "--list=all --info", "--info", "--list=no-state", "--built=1",
            "--built hello",
        ):
            net.call(*words.split(), wanted=2)
        for words in ("--built Hello_1.0", "--binNMU=x hello_1.0-1", "--extra-depends=a --binNMU=1 hello_1.0-1"):
            net.call(*words.split(), wanted=2)
        for words in (("--api 1", "--no-such", "hello_1.0-1"), ("--api 1", "hello"), ("--api 1", "-x")):
            expect(
                "ok" not in [row["status"] for row in yaml_of(net.call(*words, wanted=2)[0]).values()],
                f"{words}: it is ok",
            )
        posted = [request for request in net.requests() if request.startswith("POST")]
        expect(not posted, f"wrong words are sent: {posted}")


def refuses_wrong_settings(folder):
    cases = {
        "": "SUITES is missing", "SUITES=sid": ":1: SUITES", "SUITES=sid=0": "from 1 to 65535",
        "SUITES=sid=99999": "from 1 to 65535", "SUITES=sid=8080\nTRY=0": ":2: TRY",
        "SUITES=sid=8080\nSTATE=state": "begins with /", "SUITES=sid=8080\nRETAKE=1": "yes or no",
        "SUITES=sid=8080\nPORT=1": "is no setting", "SUITES=sid=8080\nSUITES=sid=8081": "is set twice",
        "SUITES='sid": "one pair of quotes",
    }  # fmt: skip
    with Network(folder) as net:
        for text, wanted in cases.items():
            net.conf.write_text(text)
            net.refuses(wanted, *LIST, wanted=2)
            expect(
                wanted in yaml_of(net.call("--api 1", "hello_1.0-1", wanted=2)[0])["hello"]["status"],
                f"{text!r}: buildd does not read why",
            )
        net.conf.unlink()
        net.refuses("cannot be read", "--built", "--dist=sid", "hello_1.0-1", wanted=2)
        shipped = (ROOT / "packaging/wanna-build.conf").read_text()
        port = free_port()
        shipped = shipped.replace("8080", str(port)).replace("#TRY=300", "TRY=1").replace("#STATE=~", f"STATE={folder}")
        net.conf.write_text(shipped)
        net.refuses(f"no answer from port {port}", "--info", "hello", "--dist=sid", wanted=3)
        expect(not net.requests(), "something was sent")


# ---- lists


def lists_the_queue(folder):
    with Network(folder) as net:
        before = net.accepted()
        net.requests()
        for words in (
            LIST, ("--api", "1", "--list=needs-build"), ("--api 1", "--list=needs-build", "--min-age 0"),
            ("", "--list=needs-build", ""),
        ):
            net.says(QUEUE + TOTAL.format(3), *words)
        expect(picked(QUEUE + TOTAL.format(3)) == ("zlib_1:1.2.13-1", 3), "buildd reads another package")
        asked = set(net.requests())
        expect(
            asked == {"GET /v1/queue/amd64", "GET /v1/state/amd64/Needs-Build", "GET /v1/mine/b1"},
            f"a list asks {asked}",
        )
        net.post("build-priority", arch="amd64", source="hello", version="1.0-1", value=7)
        said, _ = net.call(*LIST)
        expect(said.startswith("devel/hello_1.0-1 [optional:uncompiled:bp{7}]\n"), f"it says {said}")
        expect(net.accepted() == before + 2, "a list changes something")


def lists_what_waits_for_a_rebuild(folder):
    with Network(folder) as net:
        net.call("--binNMU=2", "-m", "Rebuild against libfoo2", "tar_1.30-1", user="release")
        said, _ = net.call(*LIST)
        expect(
            said.startswith("admin/tar_1.30-1 [required:out-of-date:binNMU{2}]\n") and said.endswith(TOTAL.format(4)),
            f"it says {said}",
        )


def lists_other_states(folder):
    with Network(folder) as net:
        net.takes("hello_1.0-1")
        wanted = "devel/hello_1.0-1 by b1 [optional:uncompiled]\nTotal 1 package(s) in state Building.\n"
        net.says(wanted, "-A", "amd64", "--dist", "sid", "--list=building", user=None)
        net.call("--attempted", "--dist=sid", "hello_1.0-1")
        wanted = (
            "devel/hello_1.0-1 [optional:uncompiled]\n  Note: the build failed on b1\n"
            "Total 1 package(s) in state Build-Attempted.\n"
        )
        net.says(wanted, "-A", "amd64", "-d", "sid", "-l", "build-attempted", user=None)
        net.call("--dep-wait", "zlib_1:1.2.13-1", text="libz\n")
        net.says(
            "libs/zlib_1:1.2.13-1 [required:uncompiled]\n  Waits for: libz\nTotal 1 package(s) in state Dep-Wait.\n",
            "--list=Dep-Wait",
        )
        said, _ = net.call("--list=all")
        expect(said.count("/") == 5 and said.endswith("Total 4 package(s) in state all.\n"), f"it says {said}")


def list_that_cannot_be_had_is_no_list(folder):
    with Network(folder) as net:
        net.says("Database for etch doesn't exist\n", *LIST, suite="etch", wanted=1)
        net.refuses("UnknownArch", *LIST, arch="s390x")
        for lost in ("/v1/queue", "/v1/state"):
            for how in ("request", "answer", "half"):
                net.gate.lose = [(lost, how)]
                net.refuses("no answer", *LIST, wanted=3)
        net.gate.close()
        net.refuses("no answer", *LIST, wanted=3)


# ---- takes


def takes_for_buildd(folder):
    with Network(folder) as net:
        net.takes("libsigc++-2.0_2.12.0-1")
        net.expect_state("libsigc++-2.0", "Building b1 1")
        net.takes("hello_1.0-1", user="b3", state=folder / "another")
        said, _ = net.call("--api 1", "hello_1.0-1", wanted=1)
        expect(yaml_of(said) == {"hello": {"status": "it is Building, held by b3"}}, f"it says {said}")
        said, _ = net.call("--api 1", "zlib_1:1.2.12-1", wanted=1)
        expect("OtherVersion" in yaml_of(said)["zlib"]["status"], f"it says {said}")
        net.call("--api 1", "no-such_1.0", wanted=1)
        net.call("--api 1", "hello_1.0-1", user="nobody", wanted=1)
        net.refuses("no suite etch", "--api 1", "hello_1.0-1", suite="etch", wanted=2)
        expect([take["source"] for take in net.kept()["takes"]] == ["libsigc++-2.0"], f"it keeps {net.kept()}")


def takes_in_older_words(folder):
    with Network(folder) as net:
        net.says("hello: ok\n", "-v", "hello_1.0-1")
        net.says("zlib: ok\n", "zlib_1:1.2.13-1")
        said, noted = net.call("-v", "hello_1.0-1", user="b3", wanted=1)
        expect(re.fullmatch("hello: NOT OK!\n  it is Building, held by b1\n", said) and not noted, f"it says {said}")
        net.call("--binNMU=1", "-m", "Rebuild against\n libfoo2", "tar_1.30-1", user="release")
        net.says("tar: Warning: needs binary NMU 1\nRebuild against libfoo2\ntar: aok\n", "-v", "tar_1.30-1")


def gives_rebuilds_to_buildd(folder):
    texts = {
        "Rebuild against libfoo2": None, "it's 'quoted' # \"so\": - x": None, "": "Rebuild", "0": "Rebuild 0",
        "\n\t": "Rebuild", "~": None, "--- x": None, "two\nlines": "two lines",
        "caf\u00e9 \u2013 \U0001f600": "cafe ? ?",
        "back\\slash '": None, "- a: b": None, "%YAML: 1": None, "a" * 1000: None,
    }  # fmt: skip
    with Network(folder) as net:
        for number, (text, wanted) in enumerate(texts.items(), 1):
            net.call(f"--binNMU={number}", "-m", text, "tar_1.30-1", user="release")
            said = yaml_of(net.call("--api 1", "tar_1.30-1")[0])
            expect(
                said == {"tar": {"status": "ok", "binNMU": str(number), "extra-changelog": wanted or text}},
                f"of {text!r} buildd reads {said}",
            )
            net.office.merge("amd64", {"tar": ("1.30-1", number)})


def keeps_the_take_number_before_it_answers(folder):
    with Network(folder) as net:
        (folder / "no folder").write_text("")
        net.settings["STATE"] = folder / "no folder/state"
        net.write_settings()
        said = yaml_of(net.call("--api 1", "hello_1.0-1", wanted=3)[0])
        expect("state" in said["hello"]["status"], f"it says {said}")
        expect(
            not net.requests() and net.state_of("hello") == "Needs-Build",
            "it was taken, and its take number cannot be kept",
        )


def takes_once_if_answers_are_lost(folder):
    with Network(folder, TRY="5", RETAKE="no") as net:
        before = net.accepted()
        net.gate.lose = [("/v1/take", "answer"), ("/v1/item", "half"), ("/v1/take", "request")]
        net.takes("hello_1.0-1")
        net.expect_state("hello", "Building b1 1")
        expect(net.accepted() == before + 2, "it was taken more than once")
        said = yaml_of(net.call("--api 1", "hello_1.0-1", wanted=1)[0])
        expect(said["hello"]["status"] == "it is Building, held by b1", f"without RETAKE it is taken again: {said}")


def takes_again_what_it_was_killed_in(folder):
    with Network(folder) as net:
        net.takes("hello_1.0-1")
        net.state.unlink()
        said, _ = net.call(*LIST)
        expect(picked(said) == ("hello_1.0-1", 3), f"the list does not begin with what it holds: {said}")
        expect(picked(net.call(*LIST, user="b3")[0])[0] == "zlib_1:1.2.13-1", "the list of another builder has it")
        net.takes("hello_1.0-1")
        net.expect_state("hello", "Building b1 1")
        net.says("", "--built", "--dist=sid", "hello_1.0-1")
        expect(picked(net.call(*LIST)[0])[0] == "zlib_1:1.2.13-1", "what is built is listed as waiting")


# ---- reports


def reports_what_sbuild_ended_with(folder):
    with Network(folder) as net:
        for package in ("hello_1.0-1", "zlib_1:1.2.13-1", "libsigc++-2.0_2.12.0-1"):
            net.takes(package)
        net.requests()
        net.says("", "--built", "--dist=sid", "hello_1.0-1")
        net.says("", "--attempted", "--dist=sid", "zlib_1:1.2.13-1")
        net.says("", "--give-back", "--dist=sid", "libsigc++-2.0_2.12.0-1")
        posted = [request for request in net.requests() if request.startswith("POST")]
        expect(posted == ["POST /v1/built", "POST /v1/attempted", "POST /v1/put-back"], f"it sends {posted}")
        net.expect_state("hello", "Built b1 1")
        expect(
            net.item("zlib")["note"] == "the build failed on b1" and net.state_of("zlib") == "Build-Attempted",
            "attempted has no reason",
        )
        net.expect_state("libsigc++-2.0", "Needs-Build")
        net.says("", "--uploaded", "hello_1.0-1")
        net.expect_state("hello", "Uploaded b1 1")


def reports_rebuilds_by_both_versions(folder):
    with Network(folder) as net:
        net.call("--binNMU=3", "-m", "again", "tar_1.30-1", user="release")
        net.call("--api 1", "tar_1.30-1")
        net.says("", "--built", "--dist=sid", "tar_1.30-1")
        net.says("", "--uploaded", "tar_1.30-1+b3")
        net.expect_state("tar", "Uploaded b1 1")


def is_content_if_a_merge_was_quicker(folder):
    with Network(folder) as net:
        net.takes("hello_1.0-1")
        net.call("--built", "--dist=sid", "hello_1.0-1")
        net.office.merge("amd64", {"hello": ("1.0-1", 0)})
        net.says("", "--uploaded", "hello_1.0-1")
        net.expect_state("hello", "Installed")
        net.takes("zlib_1:1.2.13-1")
        net.call("--built", "--dist=sid", "zlib_1:1.2.13-1")
        net.office.merge("amd64", {"zlib": ("1:1.2.14-1", None)})
        net.refuses("1.2.13-1", "--uploaded", "zlib_1:1.2.13-1")
        net.expect_state("zlib", "Needs-Build")


def keeps_late_reports_from_others(folder):
    for report in ("--built", "--attempted", "--give-back"):
        inner = folder / report
        inner.mkdir()
        with Network(inner) as net:
            net.takes("hello_1.0-1")
            net.post("give-back", arch="amd64", source="hello", version="1.0-1")
            net.takes("hello_1.0-1", user="b3", state=inner / "another")
            net.refuses(ENDED, report, "--dist=sid", "hello_1.0-1")
            net.refuses("", "--uploaded", "hello_1.0-1")
            net.expect_state("hello", "Building b3 2")
            # what was taken anew is another build: an upload that was not reported as built under it is an older one
            net.post("put-back", take=2)
            net.takes("hello_1.0-1")
            net.refuses("not reported as built under take 3", "--uploaded", "hello_1.0-1")
            net.expect_state("hello", "Building b1 3")


def sends_no_number_of_another_office(folder):
    with Network(folder) as net:
        net.takes("hello_1.0-1")
        net.call("--built", "--dist=sid", "hello_1.0-1")
        net.office.begin_anew()
        net.takes("zlib_1:1.2.13-1", state=folder / "another")
        net.expect_state("zlib", "Building b1 1")
        net.refuses("begun anew", "--uploaded", "hello_1.0-1")
        net.expect_state("zlib", "Building b1 1")


def builds_again_by_mail(folder):
    """After the answer `retry` buildd builds without taking, and then reports."""
    with Network(folder) as net:
        for package in ("hello_1.0-1", "zlib_1:1.2.13-1", "libsigc++-2.0_2.12.0-1"):
            net.takes(package)
            net.call("--attempted", "--dist=sid", package)
        net.gate.lose = [("/v1/give-back", "answer"), ("/v1/take", "answer"), ("/v1/built", "answer")]
        net.settings["TRY"] = "9"
        net.write_settings()
        net.says("", "--built", "--dist=sid", "hello_1.0-1")
        net.expect_state("hello", "Built b1 4")
        net.says("", "--uploaded", "hello_1.0-1")
        net.expect_state("hello", "Uploaded b1 4")
        net.says("", "--attempted", "--dist=sid", "zlib_1:1.2.13-1")
        net.expect_state("zlib", "Build-Attempted")
        net.post("give-back", arch="amd64", source="libsigc++-2.0", version="2.12.0-1")
        net.takes("libsigc++-2.0_2.12.0-1", user="b3", state=folder / "another")
        net.refuses("held by b3", "--built", "--dist=sid", "libsigc++-2.0_2.12.0-1")
        net.expect_state("libsigc++-2.0", "Building b3 5")


# ---- what is owed


def owes_what_is_not_delivered(folder):
    with Network(folder) as net:
        net.takes("hello_1.0-1")
        net.takes("zlib_1:1.2.13-1")
        net.gate.close()
        net.refuses("it is kept", "--built", "--dist=sid", "hello_1.0-1", wanted=3)
        net.refuses("it is kept", "--uploaded", "hello_1.0-1", wanted=3)
        net.refuses("it is kept", "--attempted", "--dist=sid", "zlib_1:1.2.13-1", wanted=3)
        expect(net.owed() == ["built hello", "uploaded hello", "attempted zlib"], f"it owes {net.owed()}")
        said = yaml_of(net.call("--api 1", "libsigc++-2.0_2.12.0-1", wanted=3)[0])
        expect("no answer" in said["libsigc++-2.0"]["status"], f"it takes before it reports: {said}")
        net.refuses("no answer", *LIST, wanted=3)
        net.refuses("no answer", "--owed", user=None, wanted=3)
        net.gate.open()
        net.requests()
        net.says("contrib/libs/libsigc++-2.0_2.12.0-1 [optional:uncompiled]\n" + TOTAL.format(1), *LIST)
        posted = [request for request in net.requests() if request.startswith("POST")]
        expect(posted == ["POST /v1/built", "POST /v1/uploaded", "POST /v1/attempted"], f"it sends {posted}")
        expect(not net.owed(), f"it still owes {net.owed()}")
        net.expect_state("hello", "Uploaded b1 1")
        net.expect_state("zlib", "Build-Attempted")


def waits_for_an_office_that_comes_back(folder):
    with Network(folder, TRY="10") as net:
        net.takes("hello_1.0-1")
        net.office.stop()
        threading.Timer(0.7, net.office.start).start()
        net.says("", "--built", "--dist=sid", "hello_1.0-1")
        net.expect_state("hello", "Built b1 1")


def says_nothing_twice(folder):
    """If the answer to a report is lost, or half of it, or the report itself, the office carries it out once."""
    reports = {
        "--built": ("built", "Built b1 1", ""), "--attempted": ("attempted", "Build-Attempted", ""),
        "--give-back": ("put-back", "Needs-Build", ""),
        "--dep-wait": ("waits", "Dep-Wait", "libz\n"),
    }  # fmt: skip
    for word, (command, state, text) in reports.items():
        inner = folder / word
        inner.mkdir()
        with Network(inner, TRY="9") as net:
            net.takes("hello_1.0-1")
            before = net.accepted()
            for how in ("request", "half", "answer"):
                net.gate.lose.append((f"/v1/{command}", how))
            net.says("", word, "--dist=sid", "hello_1.0-1", text=text)
            net.expect_state("hello", state)
            expect(
                net.accepted() == before + 2 and not net.owed(),
                f"{word} was carried out {net.accepted() - before - 2} times",
            )
            expect(
                len([request for request in net.requests() if request == f"POST /v1/{command}"]) >= 2,
                f"{word} was not sent again",
            )


def owes_across_kills(folder):
    with Network(folder, TRY="60") as net:
        packages = ("hello_1.0-1", "zlib_1:1.2.13-1", "libsigc++-2.0_2.12.0-1")
        for package in packages:
            net.takes(package)
        net.gate.close()
        for package in packages:
            process = net.start("--built", "--dist=sid", package)
            process.stdin.close()
            end = time.monotonic() + 20
            while f"built {package.partition('_')[0]}" not in net.owed():
                expect(process.poll() is None and time.monotonic() < end, "the report is not written down")
                time.sleep(0.01)
            process.stdin = None
            expect(killed_after(process, 0) == -9, "it ended before it was killed")
        expect(len(net.owed()) == 3, f"it owes {net.owed()}")
        net.gate.open()
        net.says(TOTAL.format(0), *LIST)
        for number, package in enumerate(packages, 1):
            net.expect_state(package.partition("_")[0], f"Built b1 {number}")


def loses_nothing_at_any_kill(folder):
    with Network(folder, TRY="60") as net:
        for at in range(12):
            killed_after(net.start("--api 1", "hello_1.0-1"), 0.03 + 0.007 * at)
            net.takes("hello_1.0-1")
            take = net.item("hello")["take"]
            process = net.start("--built", "--dist=sid", "hello_1.0-1")
            killed_after(process, 0.03 + 0.007 * at)
            owed = net.owed()
            net.call(*LIST)
            if owed or process.returncode == 0:
                net.expect_state("hello", f"Built b1 {take}")
            net.says("", "--built", "--dist=sid", "hello_1.0-1")
            net.expect_state("hello", f"Built b1 {take}")
            net.says("", "--give-back", "hello_1.0-1")
            net.expect_state("hello", "Needs-Build")
            expect(not net.owed(), f"it owes {net.owed()}")


def sends_what_it_cannot_keep(folder):
    with Network(folder) as net:
        net.takes("hello_1.0-1")
        net.state.with_name(f".{net.state.name}.new").mkdir()
        net.says("", "--built", "--dist=sid", "hello_1.0-1")
        net.expect_state("hello", "Built b1 1")
        net.gate.close()
        net.refuses("cannot be kept", "--uploaded", "hello_1.0-1", wanted=3)
        net.state.with_name(f".{net.state.name}.new").rmdir()
        for text in ("", "[]", '{"format": 2}', '{"format": 1, "takes": [{}], "owed": []}', "\x00"):
            net.state.write_text(text)
            net.refuses("not as this command wrote it", "--built", "--dist=sid", "hello_1.0-1", wanted=3)
            net.refuses("not as this command wrote it", *LIST, wanted=3)
            expect(net.state.read_text() == text, "a file that cannot be read was written over")


def finds_what_it_holds_without_its_file(folder):
    with Network(folder) as net:
        for word, state, text in (
            ("--built", "Built b1 1", ""), ("--give-back", "Needs-Build", ""), ("--dep-wait", "Dep-Wait", "libz"),
        ):
            net.takes("hello_1.0-1")
            net.state.unlink()
            net.says("", word, "hello_1.0-1", text=text)
            net.expect_state("hello", state)
            if word == "--built":
                net.state.unlink()
                net.says("", "--give-back", "hello_1.0-1")
        net.refuses("does not hold it: it is Dep-Wait", "--built", "hello_1.0-1")
        net.refuses("does not hold it: it is Needs-Build", "--attempted", "zlib_1:1.2.13-1")
        net.takes("zlib_1:1.2.13-1")
        net.state.unlink()
        net.gate.close()
        net.refuses("it is kept", "--built", "zlib_1:1.2.13-1", wanted=3)
        net.gate.open()
        net.call(*LIST)
        net.expect_state("zlib", "Built b1 4")


def waits_for_an_office_that_is_set_up(folder):
    """An office without this builder is another one, or is not set up yet: what is owed is not thrown away."""
    with Network(folder) as net:
        net.takes("hello_1.0-1")
        builders = net.kept()
        for row in builders["takes"]:
            row["builder"] = "b9"
        net.state.write_text(json.dumps(builders))
        net.refuses("UnknownBuilder", "--built", "hello_1.0-1", user="b9", wanted=3)
        expect(net.owed() == ["built hello"], f"it owes {net.owed()}")


# ---- mail, and the words of porters


def shows_records_to_buildd_mail(folder):
    with Network(folder) as net:
        said, _ = net.call("--info", "hello")
        expect(said.startswith("hello(sid):\n  Package "), f"it says {said}")
        expect(info_of(said) == {"Version": "1.0-1", "State": "Needs-Build"}, f"buildd-mail reads {info_of(said)}")
        net.takes("hello_1.0-1")
        expect(
            info_of(net.call("--info", "hello")[0]) == {"Version": "1.0-1", "State": "Building", "Builder": "b1"},
            "it is not Building by b1",
        )
        net.call("--binNMU=2", "-m", "State: x\nVersion: 9", "tar_1.30-1", user="release")
        said = info_of(net.call("--info", "tar")[0])
        expect(
            said == {"Version": "1.30-1", "State": "Needs-Build", "Binary-NMU-Version": "2"},
            f"buildd-mail reads {said}",
        )
        net.call("--failed", "zlib_1:1.2.13-1", text="Version: 9\n  State : Installed\n\n  Builder: b3\n.\nnot this\n")
        said, _ = net.call("--info", "zlib", "hello")
        expect(
            info_of(said.partition("hello(")[0]) == {"Version": "1:1.2.13-1", "State": "Failed"},
            f"a note is taken for the record: {said}",
        )
        net.says("none(sid): not registered\n", "--info", "none")


def answers_mail_on_failed_builds(folder):
    with Network(folder) as net:
        for word, state, text in (
            ("--dep-wait", "Dep-Wait", "libz\n"), ("--failed", "Failed", "..\nno\n"), ("--no-build", "Not-For-Us", ""),
        ):
            net.takes("hello_1.0-1")
            net.call("--attempted", "--dist=sid", "hello_1.0-1")
            net.says("", word, "hello_1.0-1", text=text)
            net.expect_state("hello", state)
            net.says("", "--give-back", "hello_1.0-1")
            net.expect_state("hello", "Needs-Build")
        net.takes("hello_1.0-1")
        net.call("--attempted", "--dist=sid", "hello_1.0-1")
        net.refuses("BadRelations", "--dep-wait", "hello_1.0-1", text="(\n")
        net.refuses("WrongState", "--give-back", "zlib_1:1.2.13-1")
        net.refuses("the office has version 1.0-1", "--give-back", "hello_0.9")
        net.refuses("UnknownSource", "--no-build", "none_1.0")
        net.call("--failed", "hello_1.0-1", text="\u00e9" * 700 + "\n.\nrest")
        expect(net.item("hello")["note"] == "\u00e9" * 500, "a long reason is not cut where a note ends")


def answers_mail_on_what_is_built(folder):
    """Dep-Wait and give-back from Built, which no report of the office does."""
    with Network(folder, TRY="9") as net:
        net.takes("hello_1.0-1")
        net.call("--built", "--dist=sid", "hello_1.0-1")
        net.gate.lose = [("/v1/give-back", "answer"), ("/v1/take", "half"), ("/v1/waits", "answer")]
        net.says("", "--dep-wait", "hello_1.0-1", text="debhelper (>= 13)\n")
        expect(
            (net.state_of("hello"), net.item("hello")["waits"]) == ("Dep-Wait", "debhelper (>= 13)"), "it does not wait"
        )
        net.takes("zlib_1:1.2.13-1")
        net.call("--built", "--dist=sid", "zlib_1:1.2.13-1")
        net.refuses("BadRelations", "--dep-wait", "zlib_1:1.2.13-1", text="(")
        net.expect_state("zlib", "Built b1 3")
        net.refuses("Nothing", "--dep-wait", "zlib_1:1.2.13-1", text="libz [armhf]")
        net.expect_state("zlib", "Needs-Build")
        net.takes("zlib_1:1.2.13-1")
        net.call("--built", "--dist=sid", "zlib_1:1.2.13-1")
        net.gate.lose = [("/v1/give-back", "answer")]
        net.says("", "--give-back", "zlib_1:1.2.13-1")
        net.expect_state("zlib", "Needs-Build")
        expect(not net.owed() and not net.kept()["takes"], f"it keeps {net.kept()}")


def asks_before_it_repeats_a_porter(folder):
    with Network(folder, TRY="9") as net:
        before = net.accepted()
        net.gate.lose = [
            ("/v1/not-for-us", "answer"), ("/v1/give-back", "answer"), ("/v1/build-priority", "answer"),
            ("/v1/rebuild", "half"),
        ]
        net.says("", "--no-build", "-m", "x86 alone", "hello_1.0-1")
        net.says("", "--give-back", "hello_1.0-1")
        net.says("", "--build-priority=-5", "hello_1.0-1", user="release")
        net.says("", "--binNMU=1", "-m", "why", "tar_1.30-1", user="release")
        expect(net.accepted() == before + 5, "something was said twice")
        expect(
            (net.item("tar")["message"], net.item("tar")["number"], net.item("hello")["build_priority"])
            == ("why", 1, -5),
            "it is not so",
        )
        net.refuses("BadNumber", "--build-priority=5000", "hello_1.0-1")
        net.refuses("WrongState", "--binNMU=1", "-m", "why", "hello_1.0-1")


def leaves_the_holds_of_others(folder):
    with Network(folder) as net:
        net.takes("hello_1.0-1", user="b3", state=folder / "another")
        for word in ("--give-back", "--dep-wait", "--failed", "--no-build"):
            net.refuses("held by b3", word, "-m", "libz", "hello_1.0-1")
        net.expect_state("hello", "Building b3 1")
        net.says("", "--give-back", "--override", "hello_1.0-1")
        net.expect_state("hello", "Needs-Build")


def hears_porters_who_are_no_builders(folder):
    with Network(folder, TRY="60") as net:
        net.takes("hello_1.0-1")
        net.call("--attempted", "--dist=sid", "hello_1.0-1")
        net.says("", "--give-back", "hello_1.0-1", user="porter")
        net.expect_state("hello", "Needs-Build")
        net.says("", "--dep-wait", "hello_1.0-1", user="porter", text="libz\n")
        net.refuses("WrongState", "--failed", "-m", "no", "tar_1.30-1", user="porter")
        net.refuses("UnknownArch", "--give-back", "hello_1.0-1", user="porter", arch="s390x")
        net.refuses("does not hold it", "--built", "tar_1.30-1")


def tells_dupload_what_may_be_uploaded(folder):
    changes = folder / "hello.changes"
    changes.write_text(
        "-----BEGIN PGP SIGNED MESSAGE-----\n\nSource: hello (1.0-1)\nVersion: 1.0-1\nArchitecture: all amd64\n"
        "Distribution: sid\n"
    )
    with Network(folder) as net:
        ask = ("--user=b1", "--may-upload", str(changes))
        net.refuses("not held", *ask, user=None)
        net.takes("hello_1.0-1")
        net.refuses("not held", *ask, user=None)
        net.call("--built", "--dist=sid", "hello_1.0-1")
        net.says("", *ask, user=None)
        over_ssh = {"environment": {"SSH_ORIGINAL_COMMAND": "wanna-build --may-upload -"}, "text": changes.read_text()}
        net.says("", "--forced", "--user=b1", "--arch=amd64", user=None, **over_ssh)
        net.post("give-back", arch="amd64", source="hello", version="1.0-1")
        net.refuses("not held", *ask, user=None)
        net.refuses("not held", "--user=b3", *ask[1:], user=None)
        changes.write_text("Source: hello\n")
        net.refuses("no .changes", *ask, user=None, wanted=2)


# ---- suites, ssh, and many at once


def knows_suites_and_databases(folder):
    with Network(folder) as net:
        net.settings["SUITES"] = f"sid={net.gate.port} experimental=1"
        net.settings["ARCH"] = "amd64"
        net.write_settings()
        net.says(QUEUE + TOTAL.format(3), "--dist=sid", "--user=b1", *LIST, user=None)
        wanted = "devel/hello_1.0-1 [optional:uncompiled]\n" + TOTAL.format(1)
        net.says(wanted, "--dist=sid", "--database=arm64/build-db", "--user=b3", *LIST, user=None)
        net.refuses("--dist is missing", *LIST, user=None, wanted=2)
        net.settings["ALL"] = "arm64"
        net.write_settings()
        net.says(wanted, *LIST, arch="all", user="b3")
        net.takes("hello_1.0-1")
        net.refuses("no answer", *LIST, suite="experimental", wanted=3)
        net.says("", "--built", "--dist=sid", "hello_1.0-1")
        net.settings["SUITES"] = f"experimental={net.gate.port}"
        net.write_settings()
        net.refuses("no suite sid", "--uploaded", "hello_1.0-1", wanted=2)


def obeys_a_forced_command(folder):
    with Network(folder) as net:
        forced = ("--forced", "--user=b1", "--arch=amd64")

        def over_ssh(text, wanted=0):
            return net.call(*forced, user=None, wanted=wanted, environment={"SSH_ORIGINAL_COMMAND": text})[0]

        said = over_ssh("wanna-build --arch=amd64 --dist=sid --user=b1 --api 1 --list=needs-build ")
        expect(said == QUEUE + TOTAL.format(3), f"it says {said}")
        said = over_ssh("wanna-build --dist=sid --api 1 hello_1.0-1")
        expect(yaml_of(said)["hello"]["status"] == "ok" and net.state_of("hello") == "Building b1 1", f"it says {said}")
        over_ssh("wanna-build --dist=sid --binNMU=1 -m 'two words' tar_1.30-1")
        expect(net.item("tar")["message"] == "two words", "quotes are not read")
        for text in (
            "", "rm -rf .", "wanna-build --settings /dev/null --list=needs-build", "wanna-build --forced --info hello",
            "wanna-build 'x",
        ):
            over_ssh(text, wanted=2)


def keeps_two_builders_apart(folder):
    """Two builders take from one queue at once, each by its own file, as fast as they can."""
    listed = {("amd64", f"s{at}"): (f"1.{at}", "optional", "devel", False) for at in range(12)}
    listed["amd64", "hello"] = ("1.0-1", "extra", "games", False)
    with Network(folder, listed, TRY="20") as net:
        built = {"b1": [], "b3": []}
        faults = []

        def build(builder):
            own = {"user": builder, "state": folder / f"state of {builder}"}
            try:
                while (found := picked(net.call(*LIST, **own)[0]))[1]:
                    status = yaml_of(net.start("--api 1", found[0], **own).communicate()[0].decode())
                    if "ok" in [row["status"] for row in status.values()]:
                        net.says("", "--built", "--dist=sid", found[0], **own)
                        built[builder].append(found[0])
            except Exception as why:  # it is shown by the test itself
                faults.append(why)

        threads = [threading.Thread(target=build, args=(builder,)) for builder in built]
        for thread in threads:
            thread.start()
        for thread in threads:
            thread.join(50)
        expect(not faults, f"{faults}")
        expect(
            sorted(built["b1"] + built["b3"]) == sorted({f"{source}_{row[0]}" for (_, source), row in listed.items()}),
            f"built is {built}",
        )


def is_read_by_the_interpreter_of_its_first_line(folder):
    first = COMMAND.read_text().splitlines()[0]
    expect(first == "#!/usr/bin/python3", f"without a PATH {first} is not found")
    said = subprocess.run(
        ["/bin/sh", "-c", f"cd {folder} && '{COMMAND}' --help"], env={}, capture_output=True, check=False
    )
    expect(said.returncode == 0, f"it says {said}")


TESTS = [
    helps_and_refuses_words, refuses_wrong_settings, is_read_by_the_interpreter_of_its_first_line, lists_the_queue,
    lists_what_waits_for_a_rebuild,
    lists_other_states, list_that_cannot_be_had_is_no_list, takes_for_buildd, takes_in_older_words,
    gives_rebuilds_to_buildd,
    keeps_the_take_number_before_it_answers, takes_once_if_answers_are_lost, takes_again_what_it_was_killed_in,
    reports_what_sbuild_ended_with,
    reports_rebuilds_by_both_versions, is_content_if_a_merge_was_quicker, keeps_late_reports_from_others,
    sends_no_number_of_another_office,
    builds_again_by_mail, owes_what_is_not_delivered, waits_for_an_office_that_comes_back, says_nothing_twice,
    owes_across_kills,
    loses_nothing_at_any_kill, sends_what_it_cannot_keep, finds_what_it_holds_without_its_file,
    waits_for_an_office_that_is_set_up,
    shows_records_to_buildd_mail, answers_mail_on_failed_builds, answers_mail_on_what_is_built,
    asks_before_it_repeats_a_porter,
    leaves_the_holds_of_others, hears_porters_who_are_no_builders, tells_dupload_what_may_be_uploaded,
    knows_suites_and_databases, obeys_a_forced_command, keeps_two_builders_apart,
]  # fmt: skip

if __name__ == "__main__":
    sys.exit(main(TESTS, at_once=4))

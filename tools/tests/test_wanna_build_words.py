#!/usr/bin/env python3
"""Tests of tools/bin/wanna-build, of what porters say and of what keys of ssh may say: words that change nothing, lists
in an order and in a form, several suites, forced commands, files to be uploaded, and what is owed. They are called over
an office that is served. Each test has a folder of its own.

    tools/tests/test_wanna_build_words.py [NAME..]     these tests, or all

From the environment: WB is the program, crates/wb/out/wb of this repository where it is not set.
"""
import os
import re
import stat
import sys
import threading

from harness import ROOT, LeftOut, expect, main
from wanna_build_runs import Network, ask, free_port
from wb_tools.wanna_build.forced import BUILDERS
from wb_tools.wanna_build.listing import PRIORITIES, SECTIONS

LIST = ("--api 1", "--list=needs-build", "")
CHANGES = "Source: hello (1.0-1)\nVersion: 1.0-1\nArchitecture: {}\nDistribution: sid\n"


def posted(net):
    """The commands that were sent since the last look."""
    return [request.removeprefix("POST /v1/") for request in net.requests() if request.startswith("POST")]


# ---- what is sent


def names_what_the_caller_wrote(folder):
    cases = {
        ("--binNMU=1", "--dep-wait", "hello_1.0-1"): "--dep-wait stands beside --binNMU;",
        ("-f", "-n", "hello_1.0-1"): "-n stands beside -f;",
        ("--binNMU=1",): "--binNMU wants a package",
        ("--needs-build",): "--needs-build wants a package",
        ("--binNMU=x", "hello_1.0-1"): "--binNMU: 'x' is no number",
        ("--list=built", "hello"): "--list stands alone, without 'hello'",
        ("--built", "hello_1.0 1"): "'hello_1.0 1' is no package",
        ("-D", "hello_1.0-1"): "the word '-D' is not known",
        ("--min-age=5", "--list=needs-build"): "--min-age cannot be obeyed: the office has no clock",
        ("--list=needs-build", "--max-age", "5"): "--max-age cannot be obeyed: the office has no clock",
        ("-l", "failed", "-c", "fix"): "--category cannot be obeyed: the office keeps no categories",
        ("--list=failed", "--order=pa"): "--order=pa cannot be obeyed: a is none of p, priority,",
        ("--list=failed", "--format=%p %t"): "--format cannot be obeyed: %t is none of",
        ("--list=failed", "--format=%p %{x"): "--format cannot be obeyed",
        ("--format=%p", "--info", "hello"): "--format stands beside --info, and is for --list alone",
        ("--arch=AMD", "--list=failed"): "'AMD' is no architecture",
        ("--forced=porter", "--list=failed"): "--forced has no value but builder",
    }
    with Network(folder) as net:
        for words, message in cases.items():
            net.refuses(message, *words, wanted=2)
        expect(not net.requests(), "something was sent")
        net.says("", "--binNMU=13", "-m", "why", "tar_1.30-1", user="release")
        for words in ("--give-back", "--built", "--simulate --give-back"):
            net.refuses("the office has version 1.30-1+b13", *words.split(), "tar_1.30-1+b1")


def lists_in_an_order_and_a_form(folder):
    page = (ROOT / "docs/PROTOCOL.md").read_text()
    queue = page[page.index("## The queue") : page.index("## Reports")]
    for names, about in ((PRIORITIES, "the priority: "), (SECTIONS, "before its first slash: ")):
        stated = re.search(re.escape(about) + r"([a-z0-9,\s]+), any other", queue)[1]
        expect(re.split(r",\s+", stated) == names, f"docs/PROTOCOL.md has another order: {stated}")
    with Network(folder) as net:
        net.takes("hello_1.0-1")
        net.call("--binNMU=2", "-m", "why", "tar_1.30-1")
        orders = {
            "": "tar zlib libsigc++-2.0", "n": "libsigc++-2.0 tar zlib", "pn": "tar zlib libsigc++-2.0",
            "s": "zlib libsigc++-2.0 tar", "cs": "tar zlib libsigc++-2.0",
        }  # fmt: skip
        for letters, wanted in orders.items():
            words = ("--list=needs-build", f"--order={letters}", "--format=%p")
            net.says("".join(f"{name}\n" for name in wanted.split()), *words, user="porter")
        said, _ = net.call("--list=needs-build", "--order", "n", user="porter")
        expect(said.startswith("contrib/libs/libsigc++-2.0_2.12.0-1 [optional:uncompiled]\nadmin/tar"), said)
        form = "--format=%a %c %d %p %v %V %S%{ by }u%u%{ +b}B%B %E %X%n  %%%{ idle}u%{!.}u"
        wanted = "amd64 devel sid hello 1.0-1 1.0-1 Building by b1  optional:uncompiled\n  % idle\n"
        net.says(wanted, form, "--list=building", user="porter")
        wanted = "amd64 admin sid tar 1.30-1 1.30-1+b2 Needs-Build +b2 1 required:out-of-date:binNMU{2}\n  %.\n"
        expect(net.call(form, "--list=needs-build", user="porter")[0].startswith(wanted), "%E is not its place")
        net.call("--failed", "-m", "two\nlines", "hello_1.0-1")
        net.call("--dep-wait", "-m", "libz", "zlib_1:1.2.13-1")
        ask(net.office.port, "POST", "/v1/report", {"arch": "amd64", "text": "tar 1.30-1 uninstallable no libx\n"})
        for state, wanted in (
            ("failed", "hello F=two lines D= E=\n"), ("dep-wait", "zlib F= D= E=libz\n"),
            ("bd-uninstallable", "tar F= D=no libx E=\n"), ("not-for-us", ""),
        ):
            net.says(wanted, "--format=%p F=%F D=%D E=%E", f"--list={state}", user="porter")


# ---- what would change, and what changes

# The commands that bring a package into each state; that of Installed is listed as built.
WAYS = {
    "Needs-Build": "", "Building": "take", "Built": "take built", "Uploaded": "take uploaded", "Installed": "",
    "Dep-Wait": "dep-wait", "BD-Uninstallable": "report", "Failed": "fail", "Not-For-Us": "not-for-us",
    "Build-Attempted": "take attempted",
}  # fmt: skip
# Words, and who says them: the builder that holds what is held, or a porter who ends holds.
WORDS = [
    (word, "b1")
    for word in ("--give-back", "--dep-wait", "--failed", "--no-build", "--binNMU=1", "--build-priority=7", "--take",
                 "--built", "--attempted", "--uploaded")
] + [("--give-back", "porter"), ("--dep-wait", "porter")]  # fmt: skip


def name_of(word, user, state):
    return f"{word.strip('-').partition('=')[0]}-of-{state}-by-{user}".lower()


def bring(net, source, way):
    """Brings a listed package into a state by commands of others."""
    name, take = {"arch": "amd64", "source": source, "version": "1.0"}, None
    texts = {"dep-wait": {"relations": "libx"}, "fail": {"note": "no"}, "not-for-us": {"note": "no"}}
    for command in way.split():
        if command == "take":
            take = net.post("take", builder="b1", **name)["take"]
        elif command == "report":
            net.post("report", arch="amd64", text=f"{source} 1.0 uninstallable no liby\n")
        elif command in texts:
            net.post(command, **name, **texts[command])
        else:
            net.post(command, take=take, **({"reason": "the build failed on b1"} if command == "attempted" else {}))


def simulates_each_word_in_each_state(folder):
    """What is shown is what comes of the same word then, and nothing is sent or written."""
    listed = {("amd64", "hello"): ("1.0", "extra", "games", False)}
    for word in WORDS:
        for state in WAYS:
            listed["amd64", name_of(*word, state)] = ("1.0", "optional", "devel", state == "Installed")
    with Network(folder, listed) as net:
        for word, user in WORDS:
            sources = {state: name_of(word, user, state) for state in WAYS}
            for state, source in sources.items():
                bring(net, source, WAYS[state])
            before = {source: net.state_of(source) for source in sources.values()}
            words = (word, "-o", "-m", "libz", *(f"{source}_1.0" for source in sources.values()))
            status = 0 if word.startswith("--build-priority") else 1
            net.requests()
            said, noted = net.call("--simulate", *words, wanted=status, user=user)
            expect(not posted(net) and not net.state.exists(), f"{word}: something was sent or written")
            shown = {line.partition("_1.0 (sid, amd64): ")[0]: line.partition("): ")[2] for line in said.splitlines()}
            refused = set(re.findall("^wanna-build: ([a-z0-9-]+)_1.0: ", noted, re.M))
            expect(set(shown) | refused == set(before) and len(before) == len(shown) + len(refused), f"{said}{noted}")
            net.call(*words, wanted=status, user=user)
            for source, was in before.items():
                if source in refused:
                    wanted = was.split()[0]
                elif word.startswith("--build-priority"):
                    expect(shown[source] == "build priority 0 -> 7", f"{source}: {shown[source]}")
                    wanted = was.split()[0] if net.item(source)["build_priority"] == 7 else "of this build priority"
                else:
                    wanted = re.match(r"(?:\S+ -> )?([A-Za-z-]+)", shown[source])[1]
                found = net.state_of(source).split()[0]
                expect(found == wanted, f"{source} is {found} after {word}: it was shown as {shown.get(source)}")
            net.state.unlink(missing_ok=True)


def waits_once_for_many(folder):
    """An office that does not answer is waited for once, and not for each package."""
    with Network(folder) as net:
        packages = ("hello_1.0-1", "zlib_1:1.2.13-1", "libsigc++-2.0_2.12.0-1")
        net.gate.lose = [("/v1/item", "request")] * 100
        net.call("--no-build", "-m", "why", *packages, wanted=3)
        asked = [request for request in net.requests() if "item" in request]
        expect(asked.count("GET /v1/item/amd64/hello") > 1 and len(set(asked)) == 3, f"it asks {asked}")
        expect(all(asked.count(each) == 1 for each in asked if "hello" not in each), f"it waits again: {asked}")
        net.gate.lose = []
        net.says("", "--no-build", "-m", "why", *packages)


def simulates_for_others(folder):
    with Network(folder) as net:
        net.takes("hello_1.0-1")
        net.requests()
        for word, wanted in (
            ("--give-back", "Building -> Needs-Build"), ("--failed", "Building -> Failed"),
            ("--dep-wait", "Building -> Dep-Wait, if the office can read the relations"),
        ):
            said, noted = net.call("--simulate", word, "-m", "x", "hello_1.0-1", user="porter", wanted=1)
            expect(not said and "held by b1; --override ends the hold" in noted, f"{word}: it says {said}{noted}")
            words = ("--simulate", "-o", word, "-m", "x", "hello_1.0-1")
            net.says(f"hello_1.0-1 (sid, amd64): {wanted}\n", *words, user="porter")
        wanted = "tar_1.30-1 (sid, amd64): Installed -> Needs-Build, as 1.30-1+b2\n"
        net.says(wanted, "--simulate", "--binNMU=2", "tar_1.30-1")
        for words, message in (
            ("--binNMU=0 tar_1.30-1", "from 1 to 999"), ("--binNMU=1000 tar_1.30-1", "from 1 to 999"),
            ("--permbuildpri=1001 hello_1.0-1", "from -1000 to 1000"), ("--give-back none_1.0", "UnknownSource"),
            ("--take hello_1.0-1", "it is Building, held by b1"), ("--take tar_1.30-2", "has version 1.30-1"),
        ):
            net.refuses(message, "--simulate", *words.split(), user="b3")
        net.gate.close()
        net.call("--built", "--dist=sid", "hello_1.0-1", wanted=3)
        net.gate.open()
        net.requests()
        wanted = "hello_1.0-1 (sid, amd64, b1, take 1)\n"
        net.says(f"owed: built {wanted}built: {wanted}", "--simulate", "--owed")
        net.call("--simulate", *LIST)
        expect(not posted(net) and net.owed() == ["built hello"], "what is owed was sent")
        net.says("", "--permbuildpri=-7", "hello_1.0-1", user="porter")
        expect(net.item("hello")["build_priority"] == -7, "it has another build priority")


def gives_back_what_a_builder_holds(folder):
    with Network(folder, TRY="9") as net:
        for arch, source, reports in (
            ("amd64", "hello", ""), ("arm64", "hello", "built"), ("amd64", "zlib", "uploaded"), ("amd64", "tar", ""),
        ):
            version = net.item(source, arch)["version"]
            if source == "tar":
                net.post("rebuild", arch=arch, source=source, version=version, number=1, message="why")
            take = net.post("take", arch=arch, builder="b3", source=source, version=version)["take"]
            for report in reports.split():
                net.post(report, take=take)
        net.takes("libsigc++-2.0_2.12.0-1")
        words, lines = ("-d", "sid", "--user=porter", "--forget-user", "b3"), [
            "hello_1.0-1 (sid, amd64): Building, held by b3 -> Needs-Build\n",
            "hello_1.0-1 (sid, arm64): Built, held by b3 -> Needs-Build\n",
            "zlib_1:1.2.13-1 (sid, amd64): Uploaded, held by b3 -> Needs-Build\n",
            "tar_1.30-1 (sid, amd64): Building, held by b3 -> Needs-Build\n",
        ]  # fmt: skip
        net.requests()
        net.says("".join(lines), "--simulate", *words, user=None)
        expect(not posted(net), "something was sent")
        net.says(lines[1], "--arch=arm64", *words, user=None)
        before = net.accepted()
        net.gate.lose = [("/v1/put-back", "answer"), ("/v1/give-back", "half")]
        net.says(lines[0] + lines[2] + lines[3], *words, user=None)
        expect(net.accepted() == before + 4, "something was said twice")
        net.says("", *words, user=None)
        net.expect_state("libsigc++-2.0", "Building b1 5")
        net.refuses("b9: the office answered UnknownBuilder", *words[:-1], "b9", user=None)
        net.refuses("--forget-user wants a builder", *words[:-1], user=None, wanted=2)


# ---- several suites


def asks_several_suites(folder):
    with Network(folder) as net:
        port = net.gate.port
        net.settings["SUITES"] = f"sid={port} experimental={port}"
        net.write_settings()
        wanted = "devel/hello_1.0-1 [optional:uncompiled]\nTotal 1 package(s) in state Needs-Build.\n"
        words = ("-A", "arm64", "--list=needs-build")
        both = f"sid:\n{wanted}experimental:\n{wanted}"
        for suites in ("sid,experimental", "all"):
            net.says(both, "-d", suites, *words, user=None)
        net.says("hello sid\nhello experimental\n", "--dist=all", "--format=%p %d", *words, user=None)
        said, _ = net.call("-d", "sid,etch,experimental", *words, user=None, wanted=1)
        expect(said == both.replace("experimental", "etch:\nDatabase for etch doesn't exist\nexperimental"), said)
        said, _ = net.call("-d", "all", "-A", "amd64", "--info", "hello", user=None)
        expect("hello(sid):" in said and "hello(experimental):" in said, f"it says {said}")
        (folder / "third.conf").write_text(
            f"STORE=/s\nBACKUPS=/b\nPORT={free_port()}\nSERVICE=pidfile\nPID_FILE=/p\nLOG=/l\n"
        )
        (folder / "office.conf").write_text((folder / "third.conf").read_text())
        (folder / "unstable.conf").write_text(re.sub("PORT=.*", f"PORT={port}", (folder / "third.conf").read_text()))
        said, noted = net.call("-d", "all", *words, user=None, wanted=3)
        expect(said == f"{both}third:\n" and "third: no answer" in noted, f"it says {said}{noted}")
        net.requests()
        for action in ("--take", "--built", "--attempted", "--uploaded"):
            net.refuses(f"{action} is of one suite", action, "hello_1.0-1", suite="sid,experimental", wanted=2)
        net.refuses("no suite etch", "--give-back", "hello_1.0-1", suite="sid,etch", wanted=2)
        expect(not posted(net), "something was sent")
        said, noted = net.call("--dep-wait", "hello_1.0-1", text="libz\n", suite="sid,experimental", wanted=1)
        expect(noted.count("hello_1.0-1") == 1 and "hello_1.0-1 (experimental): " in noted, f"it says {noted}")
        expect(net.item("hello")["waits"] == "libz", "the relations were not read once for both")


# ---- keys of ssh


class Key:
    """A key of ssh, with its forced command."""

    def __init__(self, net, *forced):
        self.net, self.forced = net, forced

    def call(self, text, wanted=0, given=""):
        """What is said to the words that come by this key."""
        environment = {"SSH_ORIGINAL_COMMAND": f"wanna-build {text}"}
        return "".join(self.net.call(*self.forced, user=None, wanted=wanted, text=given, environment=environment))

    def refuses(self, message, text, given=""):
        said = self.call(text, 2, given)
        expect(message in said, f"{text}: it says {said!r}, without {message!r}")


def holds_a_key_to_its_forced_command(folder):
    with Network(folder) as net:
        net.settings["SUITES"] += f" experimental={net.gate.port}"
        net.settings["ALL"] = "arm64"
        net.write_settings()
        one = Key(net, "--forced", "--user=b1", "--arch=amd64", "--dist=sid")
        for words, message in {
            "--arch=all --list=needs-build": "--arch=all is not let through: this key may say --arch=amd64",
            "-A arm64 -d sid --api 1 hello_1.0-1": "--arch=arm64 is not let through",
            "--database=arm64/build-db --list=needs-build": "--arch=arm64 is not let through",
            "--arch=amd64 --database=arm64/build-db --list=all": "--arch=arm64 is not let through",
            "--user=b3 --dist=sid hello_1.0-1": "--user=b3 is not let through: this key may say --user=b1",
            "--user=b3 --dist=sid --give-back hello_1.0-1": "--user=b3 is not let through",
            "--dist=experimental --list=needs-build": "--dist=experimental is not let through",
            "--dist=sid,experimental --list=needs-build": "--dist=experimental is not let through",
            "--arch=all --forget 1": "--arch=all is not let through",
            "--settings /dev/null --list=needs-build": "stand in the forced command alone",
            "--forced=builder --list=needs-build": "stand in the forced command alone",
        }.items():
            one.refuses(message, words)
        expect(not net.requests(), "something was sent")
        listed = one.call("--list=needs-build")
        for words in ("--arch=amd64 --user=b1 --dist=all", "--user= --arch= --dist=sid", "-b amd64/build-db -U b1"):
            expect(one.call(f"{words} --list=needs-build") == listed and "hello" in listed, f"{words}: another list")
        two = Key(net, "--forced", "--user=b3", "--arch=amd64,all", "--dist=sid,experimental")
        two.refuses("--arch is missing: this key may say --arch=amd64 or --arch=all", "-d sid --list=needs-build")
        two.refuses("--dist is missing: this key may say", "--arch=all --list=needs-build")
        two.refuses("--arch=arm64 is not let through", "--arch=arm64 --dist=sid --list=needs-build")
        expect(two.call("--arch=all --dist=sid --api 1 hello_1.0-1") == "- hello:\n    - status: ok\n", "no take")
        expect(net.state_of("hello", "arm64") == "Building b3 1", "it was taken for another architecture")
        expect(two.call("--arch=amd64 --dist=all --format=%p%d --list=building") == "", "something is Building")
        net.post("put-back", take=1)
        free = Key(net, "--forced")
        expect(free.call("--arch=all --dist=sid --user=b3 hello_1.0-1") == "hello: ok\n", "a free key is held")


def leaves_a_builder_its_words(folder):
    with Network(folder) as net:
        key = Key(net, "--forced=builder", "--user=b1", "--arch=amd64")
        for words in (
            "--list=failed", "--list=all", "--override --give-back hello_1.0-1", "--binNMU=1 tar_1.30-1", "--owed",
            "--build-priority=1 hello_1.0-1", "--permbuildpri=1 hello_1.0-1", "--forget-user b3", "--forget 1",
            "--simulate --give-back hello_1.0-1", "-m x --failed hello_1.0-1", "--list=needs-build --format=%p",
            "--list=needs-build --order=n", "--may-upload /etc/passwd", "--may-upload /etc/none",
            "--arch=arm64 hello_1.0-1",
        ):
            key.refuses("is let through" if "upload" in words else "is not let through: this key may say", words)
        said = key.call("--dist=sid --owed", 2)
        expect(all(word in said for word in BUILDERS.values()), f"it does not say what it may say: {said}")
        expect(not net.requests(), "something was sent")
        Key(net, "--forced=builder", "--user=b1").refuses("stands beside --user and --arch", "--list=needs-build")
        # what is not its own, and nobody's
        for words in ("--no-build", "--failed", "--dep-wait", "--give-back"):
            said = key.call(f"--dist=sid {words} zlib_1:1.2.13-1", 1, "libz\n.\n")
            expect("b1 neither holds it nor was the last to try it" in said, f"{words}: it says {said}")
        net.post("take", arch="amd64", builder="b3", source="zlib", version="1:1.2.13-1")
        net.post("attempted", take=1, reason="the build failed on b3")
        said = key.call("--dist=sid --no-build zlib_1:1.2.13-1", 1)
        expect(net.state_of("zlib") == "Build-Attempted" and "b1 neither" in said, f"it says {said}")
        # its own, as buildd and buildd-mail say it
        expect("hello_1.0-1" in key.call("--arch=amd64 --dist=sid --user=b1 --api 1 --list=needs-build"), "no list")
        key.call("--arch=amd64 --dist=sid --user=b1 --api 1 hello_1.0-1")
        expect("Building" in key.call("--dist=sid --info hello"), "no record")
        key.call("--dist=sid --attempted --dist=sid hello_1.0-1")
        key.call("--dist=sid --give-back hello_1.0-1")
        for words, state in (
            ("--failed", "Failed"), ("--no-build", "Not-For-Us"), ("--dep-wait", "Dep-Wait"),
            ("--uploaded", "Uploaded"),
        ):
            key.call("--dist=sid -v hello_1.0-1")
            if words == "--uploaded":
                key.call("--dist=sid --built hello_1.0-1")
                expect(key.call("--may-upload -", given=CHANGES.format("amd64")) == "", "it may not be uploaded")
            else:
                key.call("--dist=sid --attempted hello_1.0-1")
            key.call(f"--dist=sid {words} hello_1.0-1", given="libz\n.\n")
            expect(net.state_of("hello").startswith(state), f"after {words} it is {net.state_of('hello')}")
            if state != "Uploaded":
                net.post("give-back", arch="amd64", source="hello", version="1.0-1")


# ---- files to be uploaded


def reads_changes_of_anybody(folder):
    """A file takes time by its length alone, what is no file is not waited for, and a key shows it no file at all."""
    changes = folder / "hello.changes"
    with Network(folder) as net:
        net.takes("hello_1.0-1")
        net.call("--built", "--dist=sid", "hello_1.0-1")
        ask = ("--user=b1", "--may-upload")
        whole = CHANGES.format("amd64")
        changes.write_text("".join(f"{line}{' ' * 4000}\n" for line in whole.splitlines()) + "x" * 15_000_000)
        net.says("", *ask, changes, user=None)
        (folder / "link").symlink_to(changes)
        net.says("", *ask, folder / "link", user=None)
        os.mkfifo(folder / "pipe")
        (folder / "large").write_text(whole)
        os.truncate(folder / "large", 16_000_001)
        (folder / "blanks").write_text(whole.replace("hello", f"a{' ' * 1_000_000}b"))
        (folder / "twice").write_text(whole + "Source: zlib\n")
        (folder / "version").write_text(whole.replace("1.0-1\n", "1.0/1\n"))
        for name, message in {
            "pipe": "is no regular file", "office": "is no regular file", "/dev/zero": "is no regular file",
            "large": "has more than 16000000 bytes", "blanks": "with more than 4096 bytes", "twice": "has Source twice",
            "version": "has no Source, no Version or no Distribution",
        }.items():
            net.refuses(message, *ask, folder / name, user=None, wanted=2)
        net.refuses("No such file", *ask, folder / "none", user=None, wanted=3)
        net.refuses("wants one .changes file", *ask, user=None, wanted=2)
        net.refuses("has more than 16000000 bytes", *ask, "-", user=None, wanted=2, text="x" * 16_000_001)
        for forced in ("--forced", "--forced=builder"):
            key = Key(net, forced, "--user=b1", "--arch=amd64")
            said = {key.call(f"--may-upload {name}", 2) for name in (changes, folder / "none", folder, "/dev/zero", "")}
            expect(len(said) == 1 and str(folder) not in said.pop(), f"it says {said}")
            expect(key.call("--may-upload -", given=whole) == "", "it may not be uploaded")
            for archs, message in {
                "all": "it is for all, and not for amd64", "arm64": "it is for arm64, and not for amd64",
                "source": "it is for no architecture, and not for amd64",
            }.items():
                key.refuses(message, "--may-upload -", CHANGES.format(archs))
        key = Key(net, "--forced", "--user=b1", "--arch=amd64,all", "--dist=sid,etch")
        for archs, status in {"all amd64": 0, "all": 1, "arm64": 2}.items():
            key.call("--may-upload -", status, CHANGES.format(archs))
        key.refuses("it is for buster, and not for sid or etch", "--may-upload -", whole.replace("sid", "buster"))


# ---- what is kept


def keeps_its_files_to_itself(folder):
    """Nobody else can read what is held, hold the lock, or read the log."""
    with Network(folder) as net:
        state, log = folder / "made/of it/state", folder / "log of it/log"
        net.settings |= {"STATE": state, "LOG": log}
        net.write_settings()
        net.takes("hello_1.0-1")
        net.refuses("does not hold it", "--built", "zlib_1:1.2.13-1")
        lock = state.with_name(".state.lock")
        modes = dict.fromkeys((state, lock, log), 0o600)
        modes |= dict.fromkeys((state.parent, state.parent.parent, log.parent), 0o700)
        for path, mode in modes.items():
            found = stat.S_IMODE(path.stat().st_mode)
            expect(found == mode, f"{path} has the mode {found:o}")
        for path in (state, lock, log):
            path.chmod(0o666)
        net.says("", "--built", "hello_1.0-1")
        net.refuses("does not hold it", "--built", "zlib_1:1.2.13-1")
        expect({stat.S_IMODE(path.stat().st_mode) for path in (state, lock, log)} == {0o600}, "they are still open")
        net.settings["LOG"] = "/dev/null"
        net.write_settings()
        before = os.stat("/dev/null").st_mode
        net.refuses("does not hold it", "--built", "zlib_1:1.2.13-1")
        expect(os.stat("/dev/null").st_mode == before, "a device was closed to others")


def leaves_what_root_makes_to_the_owner(folder):
    if os.geteuid() != 0:
        raise LeftOut("only root can do this")
    with Network(folder) as net:
        own = folder / "of another user"
        own.mkdir()
        os.chown(own, 65534, 65534)
        net.settings |= {"STATE": own / "state", "LOG": own / "log"}
        net.write_settings()
        net.takes("hello_1.0-1")
        net.refuses("does not hold it", "--built", "zlib_1:1.2.13-1")
        found = [path.stat().st_uid for path in own.iterdir()]
        expect(found == [65534] * 3, f"they are those of {found}")


def needs_no_file_for_a_porter(folder):
    with Network(folder) as net:
        (folder / "no folder").write_text("")
        net.settings |= {"STATE": folder / "no folder/state", "LOG": folder / "no folder/log"}
        net.write_settings()
        for words in (
            "--binNMU=1 -m why tar_1.30-1", "--build-priority=5 hello_1.0-1", "--failed -m no hello_1.0-1",
            "--give-back hello_1.0-1", "--no-build hello_1.0-1", "--give-back hello_1.0-1",
            "--dep-wait -m libx hello_1.0-1", "--list=dep-wait", "--list=needs-build", "--info hello",
            "--forget-user b1", "--simulate --give-back hello_1.0-1",
        ):
            net.call(*words.split(), user="porter")
        expect(net.state_of("hello") == "Dep-Wait" and net.item("tar")["number"] == 1, "something was not done")
        said, _ = net.call("--api 1", "zlib_1:1.2.13-1", wanted=3)
        expect("no folder/state" in said and net.state_of("zlib") == "Needs-Build", "a take needs its file")
        net.settings |= {"STATE": folder / "none/state", "LOG": folder / "log"}
        net.write_settings()
        net.says("", "--owed", user=None)
        expect(not (folder / "none").exists(), "a question makes a folder")
        # a porter needs no file that is whole, and a builder does
        net.settings["STATE"] = net.state
        net.write_settings()
        net.state.write_text("damaged")
        net.call("--give-back", "hello_1.0-1", user="porter")
        net.refuses("is not as this command wrote it", *LIST, wanted=3)
        expect(net.state.read_text() == "damaged" and not list(folder.glob(".*")), "a porter made a file")


def refuses_what_no_office_accepts(folder):
    """A report that would be owed for ever is none: it would keep its builder from all others."""
    with Network(folder) as net:
        net.refuses("UnknownArch", "--built", "g01_1.0", arch="amd46")
        net.refuses("UnknownArch", "--attempted", "g01_1.0", arch="amd46")
        net.refuses("'amd64/sid' is no architecture", "--built", "hello_1.0-1", arch="amd64/sid", wanted=2)
        net.refuses("'b 1' is no name of a builder", "--built", "hello_1.0-1", user="b 1", wanted=2)
        net.refuses("is no package with its version", "--built", "hello_1.0_1", wanted=2)
        net.refuses("UnknownSource", "--uploaded", "none_1.0")
        expect(not net.owed(), f"it owes {net.owed()}")
        net.gate.close()
        net.refuses("it is kept", "--built", "g01_1.0", arch="amd46", wanted=3)
        net.gate.open()
        expect(net.owed() == ["built g01"], "the office was not there, and may have it")
        net.call(*LIST)
        said = (folder / "log").read_text()
        expect(not net.owed() and "refused: built g01_1.0 (sid, amd46, b1)" in said, f"it owes it, or says {said}")


def forgets_what_is_owed(folder):
    with Network(folder) as net:
        net.takes("hello_1.0-1", user="b3")
        net.takes("hello_1.0-1", user="b3", arch="arm64")
        net.takes("zlib_1:1.2.13-1")
        net.gate.close()
        for package, options in (
            ("hello_1.0-1", {"user": "b3"}), ("hello_1.0-1", {"user": "b3", "arch": "arm64"}), ("zlib_1:1.2.13-1", {}),
        ):
            net.call("--built", package, wanted=3, **options)
        net.call("--uploaded", "zlib_1:1.2.13-1", wanted=3)
        before = net.state.read_text()
        net.refuses("nothing is owed as 4", "--forget", "4", user=None)
        net.refuses("nothing is owed as 3", "--forget", "3", "--arch=arm64", user=None)
        net.refuses("is owed by several; --dist, --arch and --user", "--forget", "hello_1.0-1", user=None, wanted=2)
        net.refuses("wants one take number", "--forget", user=None, wanted=2)
        said, _ = net.call("--simulate", "--forget", "3", user=None)
        expect(net.state.read_text() == before and said.count("zlib") == 2, f"it forgets, or says {said}")
        of_zlib = [f"forgotten: {word} zlib_1:1.2.13-1 (sid, amd64, b1, take 3)\n" for word in ("built", "uploaded")]
        net.says("".join(of_zlib), "--forget", "3", user=None)
        of_hello = "forgotten: built hello_1.0-1 (sid, arm64, b3, take 2)\n"
        net.says(of_hello, "--forget", "hello_1.0-1", "-A", "arm64", user=None)
        said, _ = net.call("--owed", user=None, wanted=3)
        expect("owed: built hello_1.0-1 (sid, amd64, b3, take 1)\n" in said and said.count("owed:") == 1, said)
        expect((folder / "log").read_text().count("forgotten: ") == 3, "the log does not have it")
        net.gate.open()
        net.call(*LIST)
        net.expect_state("hello", "Built b3 1")
        net.expect_state("zlib", "Building b1 3")


def waits_for_a_stopped_office(folder):
    """buildd-mail would send the answer of a porter back, and dupload would mail that the upload failed."""
    with Network(folder, TRY="20") as net:
        net.takes("hello_1.0-1")
        net.call("--built", "--dist=sid", "hello_1.0-1")
        for words, text, wanted in (
            (("--info", "hello"), "", "  State               : Built\n"),
            (("--may-upload", "-"), CHANGES.format("amd64"), ""),
        ):
            net.office.stop()
            threading.Timer(0.7, net.office.start).start()
            said, _ = net.call(*words, text=text)
            expect(wanted in said, f"{words}: it says {said}")


TESTS = [
    names_what_the_caller_wrote, lists_in_an_order_and_a_form, simulates_each_word_in_each_state, waits_once_for_many,
    simulates_for_others, gives_back_what_a_builder_holds, asks_several_suites, holds_a_key_to_its_forced_command,
    leaves_a_builder_its_words,
    reads_changes_of_anybody, keeps_its_files_to_itself, leaves_what_root_makes_to_the_owner,
    needs_no_file_for_a_porter, refuses_what_no_office_accepts, forgets_what_is_owed,
    waits_for_a_stopped_office,
]  # fmt: skip

if __name__ == "__main__":
    sys.exit(main(TESTS, at_once=4))

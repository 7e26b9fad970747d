#!/usr/bin/env python3
"""Tests of tools/bin/fetch-lists and tools/bin/merge-archive with Debian's own apt, over signed archives that each test
makes in its folder: one as Debian's, with the sources of sid, and one as that of the ports, which has packages of sid
and no sources of it, and another suite with both.

    tools/tests/test_ports.py [NAME..]     these tests, or all

No network is asked: the archives are folders. They are left out where apt-get or gpg is not installed. From the
environment: WB is the program, crates/wb/out/wb of this repository where it is not set.
"""
import hashlib
import os
import shutil
import subprocess
import sys
from pathlib import Path

from harness import LeftOut, call, expect, main
from list_runs import expect_status, expect_text, tables, tool
from package_runs import Trial

KEY = "%no-protection\nKey-Type: eddsa\nKey-Curve: ed25519\nName-Real: {0}\nName-Email: {0}@a.example\n%commit\n"


def source(name: str, version: str, archs: str = "any", more: str = "") -> str:
    text = f"Package: {name}\nBinary: {name}\nVersion: {version}\nMaintainer: A <a@a.example>\nArchitecture: {archs}\n"
    files = f"Format: 3.0 (quilt)\nFiles:\n 0123 45 {name}.dsc\nChecksums-Sha256:\n 01 45 {name}.dsc\n"
    return f"{text}{more}{files}Directory: pool/{name}\nPriority: optional\nSection: misc\n\n"


def package(name: str, arch: str, version: str) -> str:
    text = f"Package: {name}\nVersion: {version}\nArchitecture: {arch}\nMaintainer: A <a@a.example>\nDescription: d\n"
    return f"{text}Section: misc\nFilename: pool/{name}_{arch}.deb\nSize: 45\nSHA256: 0123\n\n"


class Archive:
    """A signed archive, and the file of its key."""

    def __init__(self, folder: Path, name: str) -> None:
        self.folder, self.keyring, self.home = folder / name, folder / f"{name}.gpg", folder / f"{name}.home"
        self.home.mkdir(0o700)
        self.gpg("--gen-key", said=KEY.format(name))
        self.keyring.write_bytes(self.gpg("--export"))

    def gpg(self, *words: object, said: str = "") -> bytes:
        command = ["gpg", "--homedir", str(self.home), "--batch", "--quiet", *map(str, words)]
        done = subprocess.run(command, input=said.encode(), capture_output=True, timeout=60, check=False)
        expect(done.returncode == 0, f"gpg {words} ended with {done.returncode}: {done.stderr.decode()}")
        return done.stdout

    def suite(self, name: str, lists: dict[str, str]) -> None:
        """Makes a suite of these lists, by their paths, and signs it."""
        place = self.folder / "dists" / name
        sums = []
        for path, text in lists.items():
            (place / path).parent.mkdir(parents=True, exist_ok=True)
            (place / path).write_text(text)
            sums.append(f" {hashlib.sha256(text.encode()).hexdigest()} {len(text)} {path}\n")
        head = f"Origin: a\nSuite: {name}\nCodename: {name}\nDate: Thu, 01 Jan 2026 00:00:00 UTC\n"
        head += "Architectures: all m68k sh4\nComponents: main\nSHA256:\n" + "".join(sums)
        (place / "Release").write_text(head)
        (place / "InRelease").unlink(missing_ok=True)
        self.gpg("--clearsign", "--output", place / "InRelease", place / "Release")

    def line(self, kind: str, suite: str, options: str = "") -> list[str]:
        return ["--from", f"{kind} [signed-by={self.keyring}{options}] file:{self.folder} {suite} main"]


class Port:
    """Both archives, and the words that fetch from them what a port needs."""

    def __init__(self, folder: Path) -> None:
        for name in ("apt-get", "gpg"):
            if not shutil.which(name):
                raise LeftOut(f"{name} is not installed")
        self.folder = folder
        self.debian, self.ports = Archive(folder, "a_debian"), Archive(folder, "the-ports")
        self.debian.suite(
            "sid", {
                "main/source/Sources": source("hello", "2.0") + source("docs", "1.0", "all") + source("tar", "1.0"),
                "main/binary-all/Packages": package("docs", "all", "1.0"),
            },
        )
        self.ports.suite(
            "sid", {
                "main/binary-m68k/Packages": package("hello", "m68k", "1.0") + package("tar", "m68k", "1.0"),
                "main/binary-sh4/Packages": package("tar", "sh4", "1.0"),
            },
        )
        self.ports.suite(
            "unreleased", {
                "main/source/Sources": source("tar", "1.0+m68k"),
                "main/binary-m68k/Packages": package("tar", "m68k", "1.0+m68k"),
                "main/binary-sh4/Packages": "",
            },
        )

    def words(self) -> list[str]:
        return [
            *self.debian.line("deb-src", "sid"), *self.debian.line("deb", "sid", " arch=all"),
            *self.ports.line("deb", "sid"), *self.ports.line("deb", "unreleased"),
            *self.ports.line("deb-src", "unreleased"), "--arch", "m68k", "--arch", "sh4",
        ]

    def fetch(self, *words: str) -> tuple[int, str, str]:
        return tool(self.folder, "fetch-lists", *(words or self.words()), "out")


def named(path: Path) -> list[str]:
    """The packages of a list with their versions, in an order that does not depend on apt."""
    found = [dict(line.split(": ", 1) for line in text.splitlines() if ": " in line and line[0] != " ")
             for text in path.read_text().split("\n\n") if text]
    return sorted(f"{one['Package']} {one['Version']}" for one in found)


def joins_lists_of_two_archives(folder):
    """Sources and packages of each suite that is named, those of all from one archive alone; a list that a Release file
    says is empty may be missing, but in that archive alone."""
    port = Port(folder)
    expect_status(0, port.fetch())
    wanted = {
        "Sources": ["docs 1.0", "hello 2.0", "tar 1.0", "tar 1.0+m68k"],
        "Packages-m68k": ["docs 1.0", "hello 1.0", "tar 1.0", "tar 1.0+m68k"],
        "Packages-sh4": ["docs 1.0", "tar 1.0"],
    }
    for name, packages in wanted.items():
        expect_text(" ".join(named(folder / "out" / name)), " ".join(packages), name)
    port.ports.suite("sid", {"main/binary-m68k/Packages": "", "main/binary-sh4/Packages": package("tar", "sh4", "1.1")})
    expect_status(0, port.fetch())
    expect_text(" ".join(named(folder / "out/Packages-m68k")), "docs 1.0 tar 1.0+m68k", "once a list is empty")
    expect_text(" ".join(named(folder / "out/Packages-sh4")), "docs 1.0 tar 1.1", "once a list is renewed")


def refuses_what_an_archive_lacks(folder):
    """The message names the archive; and so it does for keys that are not those of the archive. No list is replaced."""
    port = Port(folder)
    expect_status(0, port.fetch())
    before = {path.name: path.read_bytes() for path in (folder / "out").iterdir() if path.is_file()}
    lacking = [*port.words(), *port.ports.line("deb-src", "sid")]
    message = f"apt has not fetched these: main/source/Sources of sid, file:{port.ports.folder}; no list"
    expect_status(3, port.fetch(*lacking), message)
    port.ports.keyring.write_bytes(port.debian.keyring.read_bytes())
    shutil.rmtree(folder / "out/apt")
    expect_status(3, port.fetch(), "apt-get update -q ended with status")
    after = {path.name: path.read_bytes() for path in (folder / "out").iterdir() if path.is_file()}
    expect(after == before, f"there is {sorted(after)}, or a list was replaced")


def merges_a_port(folder):
    """From both archives into an office: the greatest version of each source package counts."""
    port = Port(folder)
    with Trial(folder) as office:
        office.do("create")
        office.do("run", stdin=office.lines(["add-arch m68k linux m68k", "add-arch sh4 linux sh4"]))
        office.do("start")
        place = tables(folder)
        (place / "cputable").write_text("m68k m68k m68k 32 big\nsh4 sh4 sh4 32 little\n")
        words = ["merge-archive", "--settings", office.conf, "--tables", place, *port.words(), "lists"]
        said = expect_status(0, tool(folder, *words))
        expect("m68k      2        0     0        0\nsh4       2        0     0        0\n" in said, f"it says {said}")
        office.do("stop")
        query = [office.program, "--store", office.store]
        for arch, name, state in (("m68k", "tar", "Installed"), ("sh4", "tar", "Needs-Build"), ("m68k", "hello", "")):
            answered, _ = call([*query, "item", arch, name])
            expect(f'"state":"{state or "Needs-Build"}"' in answered, f"{name} on {arch}: {answered}")


def hands_out_nothing_that_cannot_be_built(folder):
    """With --dose a new package whose build dependencies are missing never waits; builds of `all` are merged too."""
    if not shutil.which("dose-builddebcheck"):
        raise LeftOut("dose-builddebcheck is not installed")
    port = Port(folder)
    needs = "Build-Depends: missing-dev\n"
    sources = source("hello", "2.0", more=needs) + source("tar", "2.0") + source("text", "1.0", "all", needs)
    port.debian.suite(
        "sid", {"main/source/Sources": sources, "main/binary-all/Packages": package("docs", "all", "1.0")}
    )
    tools = package("build-essential", "m68k", "1.0")
    port.ports.suite("sid", {"main/binary-m68k/Packages": tools, "main/binary-sh4/Packages": ""})
    words = [*port.words()[:-2], "--indep", "indep", "--dose"]
    with Trial(folder) as office:
        office.do("create")
        office.do("run", stdin=office.lines(["add-arch m68k linux m68k", "add-arch indep linux m68k"]))
        words = ["merge-archive", "--settings", office.conf, *words, "lists"]
        expect_status(0, tool(folder, *words), "2 wait, 1 are installable, 1 are not")
        query = [office.program, "--store", office.store]
        for arch, name, state in [
            ("m68k", "tar", "Needs-Build"), ("m68k", "hello", "BD-Uninstallable"),
            ("indep", "text", "BD-Uninstallable"),
        ]:
            answered, _ = call([*query, "item", arch, name])
            expect(f'"state":"{state}"' in answered, f"{name} on {arch}: {answered}")
        expect_status(3, tool(folder, *words[:-1], "--only-report", "lists"), "it does not answer")
        office.do("start")
        reported = [*words[:-1], "--only-report", "lists"]
        expect_text(expect_status(0, tool(folder, *reported)), "report-m68k 0\nreport-indep 0\n", "what was said")
        with (folder / "lists/merged/Packages-m68k").open("a") as file:
            file.write(package("missing-dev", "m68k", "1.0"))
        expect_text(expect_status(0, tool(folder, *reported)), "report-m68k 1\nreport-indep 1\n", "what was said")


def refuses_words(folder):
    good = ["--from", "deb-src file:/d sid main", "--from", "deb file:/d sid main", "--arch", "m68k"]
    for words, message in [
        ([*good, "--suite", "sid"], "--from stands in place of --suite"),
        ([*good, "--mirror", "file:/d"], "--from stands in place of --suite"),
        (good[2:], "give --from for the sources (deb-src) and for the packages (deb)"),
        (["--arch", "m68k"], "give --suite, or --from"),
        ([*good, "--from", "deb file:/d sid"], "is no line of sources.list"),
        ([*good, "--from", "deb [trusted=yes] file:/d sid main"], "an option that is neither arch nor signed-by"),
        ([*good, "--from", "deb [arch=A] file:/d sid main"], "has no architecture after arch="),
        ([*good, "--from", "deb [signed-by=k.gpg] file:/d sid main"], "has no absolute path"),
        ([*good, "--from", "deb file:/d\nTrusted: yes sid main"], "is no line of sources.list"),
    ]:
        expect_status(2, tool(folder, "fetch-lists", *words, "out"), message)
    expect(not os.listdir(folder), f"there is {os.listdir(folder)}")


TESTS = [
    joins_lists_of_two_archives, refuses_what_an_archive_lacks, merges_a_port, hands_out_nothing_that_cannot_be_built,
    refuses_words,
]

if __name__ == "__main__":
    sys.exit(main(TESTS))

#!/usr/bin/env python3
"""Tests of the scripts that prepare lists: tools/bin/fetch-lists, tools/bin/prepare-lists, tools/bin/report-from-dose
and tools/bin/rebuild-from-ben, each test in a folder of its own.

    tools/tests/test_lists.py [NAME..]     these tests, or all

No network is asked, and neither apt nor dose3 nor ben has to be there: stubs on the PATH stand for the first two, and
what they say was written by hand after what the programs write. All that is wanted was written by hand too; versions
and control data are those of crates/vectors/data.
"""
import json
import os
import shutil
import stat
import subprocess
import sys
from pathlib import Path

from harness import BIN, ROOT, LeftOut, expect, main
from list_cases import (
    APT_CONFIG, APT_GET, ASKED, BEN_MESSAGES, BEN_PACKAGES, BEN_SOURCES, DEEP, DOSE, ENTRIES, GOOD, KEYS, LEVELS,
    MALFORMED, PACKAGE, REBUILDS, REPORT, answer, broken, source,
)
from list_runs import expect_status, expect_text, loaded, stub, tables, tool
from wb_tools import lists as archive_lists

VECTORS = ROOT / "crates/vectors/data"


def refuses(call, *arguments: object) -> bool:
    try:
        call(*arguments)
    except archive_lists.Refused:
        return True
    return False


# ---- what all of them share


def helps_and_refuses_words(folder):
    """Each has a help with an example and its statuses, and ends with 2 for other words."""
    for name in ("fetch-lists", "prepare-lists", "report-from-dose", "rebuild-from-ben"):
        said = expect_status(0, tool(folder, name, "--help"))
        expect(
            "example:\n" in said and f"tools/bin/{name} " in said and "Status: 0" in said,
            f"{name} --help has no example or no statuses",
        )
        expect_status(2, tool(folder, name, "--no-such-option"), "usage:")
        expect((BIN / name).stat().st_mode & stat.S_IXUSR, f"{name} cannot be executed")


def reads_versions(folder):
    """Their form and their order."""
    count = 0
    for path in [VECTORS / "version_parse.tsv", VECTORS / "version_parse_own.tsv"]:
        for row in rows(path):
            text = row[0].replace("\\t", "\t").replace("\\n", "\n").replace("\\r", "\r").replace("\\\\", "\\")
            expect(archive_lists.is_version(text) == (row[1] == "ok"), f"the form of {text!r}")
            count += 1
    for path in [VECTORS / "version_pairs.tsv", VECTORS / "version_pairs_own.tsv", VECTORS / "version_real.tsv"]:
        for left, wanted, right, *_ in rows(path):
            if wanted.startswith("invalid"):
                continue
            one, other = archive_lists.version_key(left), archive_lists.version_key(right)
            expect((one > other) - (one < other) == int(wanted), f"the order of {left} and {right}")
            count += 1
    return f"{count} cases"


def rows(path: Path) -> list[list[str]]:
    return [line.split("\t") for line in path.read_text().split("\n") if line and not line.startswith("#")]


def reads_control_data(folder):
    """Fields, folded values, and the paragraph of the first fault."""
    paths = [path for path in sorted(VECTORS.glob("*.json")) if path.name != "control-wrong.json"]
    for path in paths:
        wanted = json.loads(path.read_text())
        (folder / "list").write_bytes(path.with_suffix(".txt").read_bytes() + b"\n\n")
        met, fault = [], 0
        try:
            for paragraph in archive_lists.paragraphs(folder / "list"):
                met.append(
                    {
                        name: " ".join(part.strip(" \t") for part in paragraph.value(name).split("\n"))
                        for name in paragraph.fields
                    }
                )
        except archive_lists.Refused as why:
            fault = int(str(why).split("paragraph ")[1].split(":")[0].split(",")[0])
        fields = [{field["name"].lower(): field["folded"] for field in one["fields"]} for one in wanted["paragraphs"]]
        expect(met == fields, f"{path.name}: {met} in place of {fields}")
        expect(
            fault == (wanted["fault"]["paragraph"] if wanted["fault"] else 0),
            f"{path.name}: the fault is said of paragraph {fault}",
        )
    return f"{len(paths)} lists"


# The words of `Architecture` that match an architecture, as dpkg's manual has it; WORDS are those, and some that match
# others or none, without those that are no words of dpkg.
MATCHING = {
    "amd64": (
        "amd64 any linux-any any-amd64 any-any linux-amd64 any-linux-amd64 gnu-any-any gnu-linux-amd64 "
        "base-gnu-linux-amd64 any-any-any-any"
    ),
    "armhf": (
        "armhf any linux-any any-arm any-any any-linux-arm gnu-any-any eabihf-gnu-linux-arm eabihf-any-any-any "
        "any-any-any-any linux-armhf"
    ),
    "hurd-i386": "hurd-i386 any hurd-any any-i386 any-any gnu-any-any any-any-any-any any-hurd-i386",
}
OTHERS = {"all", "linux", "musl-any-any", "kfreebsd-any", "x32", "any-any-any-any-any", "source"}
NO_WORDS = {"gnu-linux-amd64", "base-gnu-linux-amd64", "eabihf-gnu-linux-arm"}
WORDS = sorted((set(" ".join(MATCHING.values()).split()) | OTHERS) - NO_WORDS)


def matches_architectures(folder):
    known = archive_lists.read_architectures(tables(folder))
    for arch, matching in MATCHING.items():
        for word in WORDS:
            expect(known.matches(arch, word) == (word in matching.split()), f"{word} and {arch}")
    return f"{len(WORDS)} words"


def matches_architectures_as_dpkg_does():
    if not shutil.which("dpkg-architecture") or not archive_lists.TABLES.is_dir():
        raise LeftOut("dpkg-architecture, of dpkg-dev, or the tables of dpkg are not installed")
    real = archive_lists.read_architectures(archive_lists.TABLES)
    for arch in ("amd64", "armhf", "x32", "kfreebsd-amd64"):
        for word in WORDS:
            done = subprocess.run(["dpkg-architecture", "-a", arch, "-i", word], capture_output=True, check=False)
            expect(real.matches(arch, word) == (done.returncode == 0), f"{word} and {arch}, as dpkg-architecture says")



# ---- prepare-lists


def prepare(folder: Path, text: str | bytes, *words: object) -> tuple[int, str, str]:
    (folder / "Sources").write_bytes(text if isinstance(text, bytes) else text.encode())
    return tool(folder, "prepare-lists", "--sources", "Sources", "--tables", tables(folder), *words, "out")


def prepares_priorities_and_sections(folder):
    """From Package-List, for each architecture, with all else as it was."""
    said = expect_status(
        0, prepare(folder, "".join(source(case[0]) + "\n" for case in KEYS), "--arch", "amd64", "--arch", "armhf")
    )
    for at, arch in ((1, "amd64"), (2, "armhf")):
        met = (folder / f"out/Sources-{arch}").read_text().split("\n\n")
        expect(len(met) == len(KEYS) + 1, f"{len(met) - 1} paragraphs")
        for case, paragraph in zip(KEYS, met):
            priority, section = case[at].split()
            expect_text(
                paragraph + "\n", source(case[0], keys=f"Priority: {priority}\nSection: {section}\n"),
                f"{case[0]!r} for {arch}",
            )
    changed = [sum(case[at] != "optional misc" for case in KEYS) for at in (1, 2)]
    expect_text(
        said, f"Sources-amd64 {len(KEYS)} {changed[0]}\nSources-armhf {len(KEYS)} {changed[1]}\n", "what was said"
    )
    return f"{len(KEYS)} cases"


def keeps_all_else(folder):
    """A paragraph that needs no change stays byte for byte, in whatever way it was written; keys that are missing are
    added."""
    whole = (
        "package:aa\nVERSION:\t1:0-1  \nArchitecture:any\nPriority:  extra\nSection:x\nDescription: \xe4\n .\n \t.\n"
        " b\r\nOdd:\n"
    )
    expect_status(0, prepare(folder, f"\n \n{whole}\t\n{source()}\n\n\n", "--arch", "amd64"))
    expect_text((folder / "out/Sources-amd64").read_bytes(), f"{whole}\n{source()}\n".encode(), "the list")
    same = source("aa deb net extra arch=any", keys="priority:extra \nSECTION:\n net\n") + "\n"
    expect_text(expect_status(0, prepare(folder, same, "--arch", "amd64")), "Sources-amd64 1 0\n", "what was said")
    expect_text((folder / "out/Sources-amd64").read_text(), same, "the list whose keys are right")
    expect_status(
        0,
        prepare(
            folder, source("aa deb net extra arch=any", keys="PRIORITY:\n optional\n")[:-1] + "\n\n", "--arch", "amd64"
        ),
    )
    wanted = source("aa deb net extra arch=any", keys="PRIORITY: extra\n") + "Section: net\n\n"
    expect_text((folder / "out/Sources-amd64").read_text(), wanted, "the list without a section")


def prepares_words(folder):
    """Words that the office does not read become the name of an architecture that dpkg means by them, and others
    stay."""
    cases = [
        ("linux-amd64", "amd64", "linux-amd64"),
        ("any-linux-amd64 all", "amd64 all", "any-linux-amd64 all"),
        ("linux-amd64 any-linux-amd64  i386", "amd64 i386", "linux-amd64 any-linux-amd64  i386"),
        ("gnu-any-any", "amd64", "armhf"),
        ("any-linux-arm musl-any-any", "any-linux-arm musl-any-any", "armhf musl-any-any"),
        ("any-any linux-any", "any-any linux-any", "any-any linux-any"),
        ("any-arm hurd-any", "any-arm hurd-any", "any-arm hurd-any"),
        ("all", "all", "all"),
    ]
    expect_status(
        0,
        prepare(folder, "".join(source(archs=case[0]) + "\n" for case in cases), "--arch", "amd64", "--arch", "armhf"),
    )
    for at, arch in ((1, "amd64"), (2, "armhf")):
        wanted = "".join(source(archs=case[at]) + "\n" for case in cases)
        expect_text((folder / f"out/Sources-{arch}").read_text(), wanted, arch)
    expect_status(1, prepare(folder, source() + "\n", "--arch", "vax"), "no architecture vax")
    return f"{len(cases)} cases"


def prepares_builds_of_all(folder):
    """The sources that build `all`, and the packages of `all`, as those of an architecture of their own."""
    both, one = (
        "aa deb net required arch=any\nbb deb doc extra arch=all\ncc deb web standard arch=all",
        "aa deb net important arch=any",
    )
    lists = (
        source(both, archs="any all")
        + "\n"
        + source(one)
        + "\n"
        + source("aa deb doc extra arch=all", archs="all")
        + "\n"
    )
    binary = "Package: {}\nVersion: {}\nArchitecture: {}\nDescription: d\n\n"
    (folder / "first").write_text(
        binary.format("bb", "1:2", "all") + binary.format("aa", "3", "amd64") + binary.format("zz", "3", "armhf")
    )
    (folder / "second").write_text(binary.format("bb", "1:2", "all") + binary.format("bb", "2:2", "all"))
    words = ["--indep", "indep", "--packages", "first", "--packages", "second"]
    said = expect_status(0, prepare(folder, lists, *words))
    expect_text(said, "Sources-indep 2 2\nPackages-indep 2 2\n", "what was said")
    wanted = source(both, "indep", "Priority: standard\nSection: web\n") + "\n"
    wanted += source("aa deb doc extra arch=all", "indep", "Priority: extra\nSection: doc\n") + "\n"
    expect_text((folder / "out/Sources-indep").read_text(), wanted, "Sources")
    built = [binary.format("bb", "1:2", "indep"), binary.format("bb", "2:2", "indep")]
    expect_text((folder / "out/Packages-indep").read_text(), "".join(built), "Packages")
    expect_status(0, prepare(folder, lists, *words, "--available", "amd64"))
    expect_text(
        (folder / "out/Packages-indep").read_text(), built[0] + binary.format("aa", "3", "all") + built[1],
        "Packages with --available",
    )
    expect_status(2, prepare(folder, lists, "--indep", "indep"), "--packages")
    expect_status(2, prepare(folder, lists, "--arch", "all"), "'all' is no name")


def refuses_malformed_lists(folder):
    """With the paragraph's number, and without touching what is in place."""
    (folder / "out").mkdir()
    (folder / "out/Sources-amd64").write_text("as before")
    for text, message in MALFORMED:
        said = expect_status(1, prepare(folder, text, "--arch", "amd64", "--arch", "armhf"), message)
        expect(not said, f"something was said of {message!r}")
        expect(
            os.listdir(folder / "out") == ["Sources-amd64"], f"after {message!r} there is {os.listdir(folder / 'out')}"
        )
        expect_text((folder / "out/Sources-amd64").read_text(), "as before", f"after {message!r} the list")
    words = ("--indep", "indep", "--packages", "packages")
    binary = "Package: aa\nVersion: 1\nArchitecture: all\n"
    for text in (binary, f"{binary}Source: bb (1\n\n", binary.replace("Architecture: all", "")):
        (folder / "packages").write_text(text)
        expect_status(1, prepare(folder, source(archs="all") + "\n", *words), "packages: paragraph 1")
    (folder / "packages").unlink()
    expect_status(3, prepare(folder, source(archs="all") + "\n", *words), "packages: No such file")
    expect(os.listdir(folder / "out") == ["Sources-amd64"], f"there is {os.listdir(folder / 'out')}")
    return f"{len(MALFORMED) + 4} lists"


def needs_little_memory(folder):
    """A list of 60 MB in 96 MB of address space, which Python has most of."""
    text = (GOOD[:-1] + "Long: " + "x" * 40000 + "\n\n") * 1500
    said = expect_status(0, prepare(folder, text, "--arch", "amd64"))
    expect_text(said, "Sources-amd64 1500 1500\n", "what was said")
    command = ("prepare-lists", "--sources", "Sources", "--tables", tables(folder), "--arch", "amd64", "out")
    expect_text(expect_status(0, tool(folder, *command, limit=96 << 20)), said, "what was said with less memory")


# ---- fetch-lists


def make_archive(folder: Path) -> None:
    """Two suites, with lists of `all` and of udebs in the first, of which some do not end with an empty line."""
    stub(folder, "apt-get", APT_GET)
    stub(folder, "apt-config", APT_CONFIG)
    (folder / "archive").mkdir()
    targets = []
    for kind, suite, component, arch, count, end in [
        ("Sources", "sid", "main", "", 2, "\n"),
        ("Packages", "sid", "main", "amd64", 2, None),
        ("Packages", "sid", "main", "arm64", 1, "\n"),
        ("Packages", "sid", "main", "all", 1, ""),
        ("Udebs", "sid", "main", "amd64", 1, "\n"),
        ("Udebs", "sid", "main", "arm64", 1, "\n"),
        ("Sources", "more", "main", "", 1, "\n"),
        ("Packages", "more", "main", "amd64", 1, "\n"),
        ("Packages", "more", "main", "arm64", 1, "\n"),
    ]:
        names = [f"{kind.lower()}-{suite}-{arch or 'none'}-{number}" for number in range(count)]
        text = "\n".join(PACKAGE.format(name) for name in names)
        file = f"_{kind}_{suite}_{component}_{arch}"
        (folder / "archive" / file).write_text(text[:-1] if end is None else text + end)
        targets.append(f"{kind}|{suite}|{component}|{arch}|{file}\n")
    (folder / "targets").write_text("".join(targets))
    (folder / "machine").write_text(
        "Debian-Security|http://a.example/s/|/keys/a.gpg\nDebian|http://b.example/d/|/keys/b.gpg\n|http://c.example/|\n"
    )


FETCH = ("fetch-lists", "--suite", "sid", "--suite", "more", "--arch", "amd64", "--arch", "arm64")


def names_in(path: Path) -> list[str]:
    """The packages of a list, if an empty line ends each paragraph, and no other line is empty."""
    text = path.read_text()
    expect(text.endswith("\n\n") and "\n\n\n" not in text and not text.startswith("\n"), f"{path.name} is {text!r}")
    return [paragraph.split("\n")[0].removeprefix("Package: ") for paragraph in text[:-2].split("\n\n")]


def fetches_and_joins(folder):
    """Each list over all suites; that of `all` in each architecture's, and udebs if they are wanted."""
    make_archive(folder)
    said = expect_status(0, tool(folder, *FETCH, "out"))
    wanted = {
        "Sources": ["sources-sid-none-0", "sources-sid-none-1", "sources-more-none-0"],
        "Packages-amd64": [
            "packages-sid-amd64-0", "packages-sid-amd64-1", "packages-sid-all-0", "packages-more-amd64-0",
        ],
        "Packages-arm64": ["packages-sid-arm64-0", "packages-sid-all-0", "packages-more-arm64-0"],
    }
    for name, packages in wanted.items():
        expect_text(names_in(folder / "out" / name), packages, name)
    figures = "".join(
        f"{name} {len(packages)} {(folder / 'out' / name).stat().st_size}\n" for name, packages in wanted.items()
    )
    expect_text(said, figures, "what was said")
    mask = os.umask(0o022)
    os.umask(mask)
    expect(
        stat.S_IMODE((folder / "out/Sources").stat().st_mode) == 0o666 & ~mask,
        "others cannot read the list as they can other files",
    )
    expect_status(0, tool(folder, *FETCH, "--udebs", "--drop", "out"))
    wanted["Packages-arm64"] = [
        "packages-sid-arm64-0", "packages-sid-all-0", "udebs-sid-arm64-0", "packages-more-arm64-0",
    ]
    expect_text(names_in(folder / "out/Packages-arm64"), wanted["Packages-arm64"], "with udebs, Packages-arm64")
    expect(sorted(os.listdir(folder / "out")) == sorted(wanted), f"there is {os.listdir(folder / 'out')}")


def asks_apt_for_the_archive(folder):
    """The mirror and its keys are those of the command line, or else Debian's of the machine's own apt; so are the
    settings of its network."""
    make_archive(folder)
    expect_status(0, tool(folder, *FETCH, "--component", "main", "--udebs", "out"))
    asked = (
        "Types: deb deb-src\nURIs: {}\nSuites: sid more\nComponents: main\nArchitectures: amd64 arm64\n"
        "Targets: Packages Sources{}\n{}"
    )
    expect_text(
        (folder / "asked").read_text(), asked.format("http://b.example/d/", " Udebs", "Signed-By: /keys/b.gpg\n"),
        "what apt is asked for",
    )
    config = (folder / "config").read_text()
    archs = 'APT::Architectures { "amd64"; "arm64"; };'
    for line in (
        'Acquire::http::Proxy "proxy";', 'APT::Update::Error-Mode "any";', 'Acquire::GzipIndexes "false";', archs,
    ):
        expect(f"{line}\n" in config, f"the configuration lacks {line}")
    expect(
        "Post-Invoke" not in config
        and "Valid-Until" not in config
        and '"true"' not in config.replace('Optional "true"', ""),
        f"it is {config}",
    )
    expect('Dir::Etc::trustedparts "/keys/trusted.gpg.d/";' in config, "the machine's keys are not trusted")
    expect_status(0, tool(folder, *FETCH, "--mirror", "file:/d", "--expired", "out"))
    expect_text((folder / "asked").read_text(), asked.format("file:/d", "", ""), "what apt is asked for")
    expect('Acquire::Check-Valid-Until "false";' in (folder / "config").read_text(), "--expired is not passed on")
    expect_status(0, tool(folder, *FETCH, "--mirror", "file:/d", "--keyring", "/k.gpg", "out"))
    expect_text(
        (folder / "asked").read_text(), asked.format("file:/d", "", "Signed-By: /k.gpg\n"), "what apt is asked for"
    )
    (folder / "machine").write_text("")
    expect_status(1, tool(folder, *FETCH, "out"), "--mirror")
    for words in (
        ["--suite", "sid"], ["--arch", "all"], ["--mirror", "nowhere"], ["--suite", "a b"], ["--keyring", "k.gpg"],
    ):
        expect_status(2, tool(folder, *FETCH, *words, "out"), "usage:")


def puts_nothing_in_place_if_a_fetch_fails(folder):
    """Neither if apt fails, nor if it has not all that was asked for; but a list that the archive says is empty may be
    missing."""
    make_archive(folder)
    expect_status(3, tool(folder, *FETCH, "out", UPDATE="100"), "apt-get update -q ended with status 100")
    expect(os.listdir(folder / "out") == ["apt"], f"there is {os.listdir(folder / 'out')}")
    for name in ("Sources", "Packages-amd64"):
        (folder / "out" / name).write_text("as before")
    lacks = {
        "_Sources_more_main_": "main/source/Sources of more",
        "_Packages_sid_main_arm64": "main/binary-arm64/Packages of sid",
    }
    for file, message in {**lacks, "_Udebs_sid_main_arm64": "udebs of arm64"}.items():
        (folder / "archive" / file).rename(folder / "aside")
        shutil.rmtree(folder / "out/apt")
        expect_status(3, tool(folder, *FETCH, "--udebs", "out"), f"apt has not fetched these: {message}; no list")
        (folder / "aside").rename(folder / "archive" / file)
        expect(
            sorted(os.listdir(folder / "out")) == ["Packages-amd64", "Sources", "apt"],
            f"there is {os.listdir(folder / 'out')}",
        )
        expect_text((folder / "out/Sources").read_text(), "as before", "Sources")
    shutil.rmtree(folder / "out/apt")
    release = "Suite: more\nSHA256:\n {0} 0 main/source/Sources\n {0} 9 main/binary-arm64/Packages\n"
    (folder / "archive/b.example_d_dists_more_InRelease").write_text(release.format("0" * 64))
    (folder / "archive/_Packages_more_main_arm64").unlink()
    (folder / "archive/_Sources_more_main_").unlink()
    expect_status(
        3, tool(folder, *FETCH, "out"), "apt has not fetched these: main/binary-arm64/Packages of more; no list"
    )
    (folder / "archive/b.example_d_dists_more_InRelease").write_text(release.format("0" * 64).replace(" 9 ", " 0 "))
    expect_status(0, tool(folder, *FETCH, "out"))
    (folder / "stubs/apt-get").unlink()
    expect_status(3, tool(folder, *FETCH, "out", PATH=f"{folder / 'stubs'}:/nowhere"), "apt-get cannot be started")


# ---- report-from-dose


def waiting(*names: str) -> str:
    """A Sources list of these, each as NAME_VERSION, and ARCHITECTURE after a comma."""
    found = []
    for name in names:
        which, _, arch = name.partition(",")
        found.append("Package: {}\nVersion: {}\nArchitecture: {}\n\n".format(*which.split("_"), arch or "any"))
    return "".join(found)


def report(folder: Path, said: str = ASKED, *words: str, **environment: str) -> tuple[int, str, str]:
    lists = ("--sources", "Sources", "--packages", "Packages", "--tables", tables(folder))
    return tool(folder, "report-from-dose", *(words or ("amd64",)), *lists, "-", said=said, **environment)


def make_dose(folder: Path, sources: str, text: str) -> None:
    stub(folder, "dose-builddebcheck", DOSE)
    (folder / "Sources").write_text(sources)
    (folder / "Packages").write_text("Package: bb\n\n")
    (folder / "answer").write_text(text)


THREE = waiting("s1_1:1.0~rc1-1", "s2_2.0-1", "s3_3")


def reports_what_dose_says(folder):
    """A line for each package in the order asked, with all reasons, once."""
    make_dose(folder, THREE, answer(ENTRIES, 3))
    expect_text(expect_status(0, report(folder), "3 wait, 1 are installable, 2 are not"), REPORT, "the report")
    expect_status(0, report(folder, ASKED, "amd64", "--to", "report"))
    expect_text((folder / "report").read_text(), REPORT, "the file")
    make_dose(folder, THREE, answer([], 3))
    expect_text(
        expect_status(0, report(folder, STATUS="0")),
        "s1 1:1.0~rc1-1 installable\ns2 2.00-1 installable\ns3 3 installable\n", "the report",
    )
    make_dose(
        folder, THREE, answer([broken("s3", "3", "".join(DEEP.replace("cc:", f"cc{'x' * n}:") for n in range(90)))], 3)
    )
    line = expect_status(0, report(folder)).splitlines()[2]
    expect(len(line.removeprefix("s3 3 uninstallable ")) == 1000 and line.endswith("..."), f"the line is {line!r}")
    (folder / "answer").unlink()
    expect_text(expect_status(0, report(folder, "\n")), "", "the report of nothing")


def asks_about_what_waits(folder):
    """Only what waits, in its version, as what the architecture builds; what the list lacks gets no line, and a
    message."""
    many = waiting(
        "s1_1", "s1_1:1.0~rc1-1", "zz_1", "s2_2.0-1,linux-any all", "s3_3,any-arm", "s4_4,all", "s5_5,indep", "s5_5"
    )
    many += "Package: s6\nVersion: 6\nArchitecture: any\nExtra-Source-Only: yes\n\n"
    asked = "s1 1:1.0~rc1-1\ns2 2.0-1\ns3 3\ns4 4\ns5 5\ns6 6\n"
    make_dose(folder, many, answer(ENTRIES[:1], 3))
    done = report(folder, asked)
    wanted = (
        "s1 1:1.0~rc1-1 uninstallable libx-dev (>= 2) | liby:any is missing\ns2 2.0-1 installable\ns5 5 installable\n"
    )
    expect_text(expect_status(0, done, "s3 3: Sources does not have it for amd64"), wanted, "the report")
    for name in ("s4 4", "s6 6"):
        expect(f"{name}: Sources does not have it" in done[2], f"nothing is said of {name}")
    expect_text(
        (folder / "picked").read_text(), waiting("s1_1:1.0~rc1-1,amd64", "s2_2.0-1,amd64", "s5_5,amd64"),
        "what dose is asked about",
    )
    words = (folder / "words").read_text().split("\n")
    place = folder / "tables"
    for word in (
        "--deb-native-arch=amd64", "--deb-drop-b-d-indep", f"--deb-tupletable={place}/tupletable",
        f"--deb-cputable={place}/cputable",
    ):
        expect(word in words, f"dose is not given {word}")
    make_dose(folder, many, answer([], 3))
    wanted = "s2 2.0-1 installable\ns4 4 installable\ns5 5 installable\n"
    done = report(folder, asked, "indep", "--native", "amd64", "--first-alternatives", STATUS="0")
    expect_text(
        expect_status(0, done, "s3 3: Sources does not have it for indep"), wanted, "the report on builds of all"
    )
    expect_text(
        (folder / "picked").read_text(), waiting("s2_2.0-1,all", "s4_4,all", "s5_5,all"), "what dose is asked about"
    )
    words = (folder / "words").read_text().split("\n")
    expect(
        "--deb-drop-b-d-arch" in words and "--deb-drop-b-d-indep" not in words and "--deb-emulate-sbuild" in words,
        f"dose is given {words}",
    )
    expect_status(1, report(folder, ASKED, "indep"), "no architecture indep; give the one that builds by --native")


def refuses_answers_that_do_not_fit(folder):
    """Whatever was cut off, and whatever is about something else; a report that is in place stays."""
    whole = answer(ENTRIES, 3)
    make_dose(folder, THREE, whole)
    (folder / "report").write_text("as before")
    cases = [
        (whole.replace("source-packages: 3", "source-packages: 2"), "it counts 2 source packages in place of 3"),
        (whole.replace("broken-packages: 2", "broken-packages: 3"), "it counts 3 broken packages and names 2"),
        (
            whole.replace("native-architecture: amd64", "native-architecture: arm64"),
            "it is about arm64 in place of amd64",
        ),
        (whole.replace("  package: s3\n", "  package: s4\n", 1), "it names s4 3, which was not asked about"),
        (whole.replace("  version: 3\n", "  version: 4\n", 1), "it names s3 4, which was not asked about"),
        (answer([ENTRIES[0], ENTRIES[0]], 3), "it names s1 twice"),
        (whole.replace("status: broken", "status: ok", 1), "or not as broken"),
        (whole.replace("   -\n    missing:\n", "   -\n    missed:\n", 1), "missing is missing"),
        (whole.replace(" -\n  package", " - package", 1), "is not of dose's form"),
        (whole + "more\n", "is not of dose's form: 'more'"),
        (whole + "report:\n", "is not of dose's form"),
        (whole.replace("\n", "\r\n"), "is not of dose's form: 'report:"),
        (answer(ENTRIES[:1], 3)[: answer(ENTRIES[:1], 3).index("binary")], "binary-packages is missing"),
        (answer([broken("s1", "1:1.0~rc1-1", "")], 3), "has no reason"),
        ("", "it was cut off"),
    ]
    for text, message in cases:
        (folder / "answer").write_text(text)
        expect(not expect_status(1, report(folder, ASKED, "amd64", "--to", "report"), message), "something was said")
        expect_text((folder / "report").read_text(), "as before", f"after {message!r} the report")
    (folder / "answer").write_text(whole)
    expect_status(1, report(folder, STATUS="0"), "it names 2 broken packages, and the status was 0")
    expect_status(3, report(folder, STATUS="64"), "dose-builddebcheck ended with status 64")
    module = loaded("report-from-dose")
    asked = [module.Waiting(*line.split()) for line in ASKED.splitlines() if line.strip()]
    expect(len(module.reasons_of(whole, 1, asked, "amd64")) == 2, "the whole answer is not read")
    for end in range(len(whole)):
        expect(
            refuses(module.reasons_of, whole[:end], 1, asked, "amd64"),
            f"an answer that was cut off after {end} bytes is read",
        )
    kept, lines = 0, whole.splitlines(keepends=True)
    for begin in range(len(lines)):
        for end in range(begin + 1, len(lines) + 1):
            text = "".join(lines[:begin] + lines[end:])
            if not refuses(module.reasons_of, text, 1, asked, "amd64"):
                kept += 1
                met = module.reasons_of(text, 1, asked, "amd64")
                expect(list(met) == ["s1", "s3"], f"an answer that lost the lines {lines[begin:end]} is read as {met}")
    return f"{len(cases)} answers, {len(whole)} that were cut off, and {kept} that lost lines and no package"


def refuses_what_waits_and_lists(folder):
    """Lines that name no source package, and lists that were cut off."""
    make_dose(folder, THREE, answer([], 3))
    for said, message in [
        ("s1 1\ns1 2\n", "standard input, line 2: s1 is named twice"),
        ("s1|1\n", "standard input, line 1: it is no name and version"),
        ("s1 1 2\n", "line 1"),
        ("s1 1\r\n", "line 1"),
        ("S1 1\n", "line 1"),
        ("\ns1 1:\n", "line 2"),
    ]:
        expect_status(1, report(folder, said), message)
    (folder / "Packages").write_text("Package: bb\n")
    expect_status(1, report(folder), "Packages: no empty line ends it")
    (folder / "Packages").write_bytes(b"\xfd7zXZ\0\0")
    expect_status(1, report(folder), "Packages: it is compressed by xz")
    for other in ("arm64", "any", "allx", "amd64 arm64"):
        (folder / "Packages").write_text(f"Package: bb\nArchitecture: all\n\nPackage: cc\nArchitecture: {other}\n\n")
        expect_status(1, report(folder), f"Packages: it has a package of the Architecture '{other}', which is neither")
    (folder / "Packages").write_text("Package: bb\nArchitecture: all\n\nPackage: cc\nArchitecture: amd64 \n\n")
    expect_status(0, report(folder, STATUS="0"))
    (folder / "Packages").write_text("")
    expect_status(0, report(folder, STATUS="0"))
    (folder / "Sources").write_text(THREE[:-1])
    expect_status(1, report(folder), "Sources: paragraph 3, the last")
    (folder / "Sources").unlink()
    expect_status(3, report(folder), "Sources: No such file")
    (folder / "Sources").write_text(THREE)
    (folder / "stubs/dose-builddebcheck").unlink()
    expect_status(3, report(folder, PATH=str(folder / "stubs")), "dose-builddebcheck cannot be started")


# ---- rebuild-from-ben


def rebuild(folder: Path, found: object, *words: str) -> tuple[int, str, str]:
    (folder / "Sources").write_text(BEN_SOURCES)
    packages = [line.split(" ", 3) for line in BEN_PACKAGES]
    text = "Package: {}\nArchitecture: {}\nVersion: {}\nSource: {}\n\n"
    (folder / "amd64").write_text("".join(text.format(*one) for one in packages).replace("Source: \n", ""))
    (folder / "armhf").write_text("")
    (folder / "found").write_text(found if isinstance(found, str) else json.dumps(found))
    lists = ("--sources", "Sources", "--packages", "amd64=amd64", "--tables", tables(folder))
    return tool(
        folder, "rebuild-from-ben", *lists, *(words or ("--packages", "armhf=armhf", "--message", "against libx2")),
        "found",
    )


def rebuilds_what_is_bad(folder):
    """With the next number, and waits for what has to be rebuilt before, in the order of levels."""
    done = rebuild(folder, LEVELS)
    expect_text(expect_status(0, done), REBUILDS, "the lines")
    for message in BEN_MESSAGES:
        expect(message in done[2], f"nothing is said as {message!r}")
    expect(done[2].count("\n") == len(BEN_MESSAGES), f"more is said: {done[2]}")
    words = ("--packages", "armhf=armhf", "--partial", "--message", "see -x", "--to", "lines")
    expect_text(expect_status(0, rebuild(folder, LEVELS, *words)), "", "standard output")
    met = (folder / "lines").read_text()
    wanted = "rebuild amd64 half 4+b1 1 -- see -x\ndep-wait amd64 half 4+b1 liba-dev (>= 1:1.0-1+b5)\n"
    expect(wanted in met and "rebuild amd64 liba 1:1.0-1 5 -- see -x\n" in met, f"the lines are {met}")
    expect_text(expect_status(0, rebuild(folder, {})), "", "the lines of an empty answer")


def refuses_answers_of_ben(folder):
    """Whatever was cut off, is not of its form, or has an architecture without a list."""
    expect_status(1, rebuild(folder, LEVELS, "--message", "m"), "it has armhf, for which --packages gives no list")
    text = json.dumps(LEVELS)
    for found, message in [
        (text[:-1], "it is no JSON, or was cut off"),
        (text.replace('"good"', '"fine"'), "it is not of ben's form"),
        (text.replace('"good"', "1"), "it is not of ben's form"),
        (text.replace('"10"', '"ten"'), "it is not of ben's form"),
        (text.replace('"gone"', '"Gone"'), "it is not of ben's form"),
        (text.replace('"gone"', '"liba"'), "liba stands twice for amd64"),
        (text.replace('"gone"', '"late"'), "a name stands twice"),
        ("[]", "it is not of ben's form"),
        ('{"0": {"aa": "bad"}}', "it is not of ben's form"),
    ]:
        expect(not expect_status(1, rebuild(folder, found), message), "something was said")
    for words in (["a\nb"], ["x" * 1001], ["m", "--packages", "amd64=b"], ["m", "--packages", "b"]):
        expect_status(2, rebuild(folder, LEVELS, "--message", *words), "usage:")
    module = loaded("rebuild-from-ben")
    for end in range(len(text)):
        (folder / "found").write_text(text[:end])
        expect(
            refuses(module.read_answer, folder / "found", {"bad"}),
            f"an answer that was cut off after {end} bytes is read",
        )


TESTS = [
    helps_and_refuses_words,
    reads_versions,
    reads_control_data,
    matches_architectures, matches_architectures_as_dpkg_does,
    prepares_priorities_and_sections,
    keeps_all_else,
    prepares_words,
    prepares_builds_of_all,
    refuses_malformed_lists,
    needs_little_memory,
    fetches_and_joins,
    asks_apt_for_the_archive,
    puts_nothing_in_place_if_a_fetch_fails,
    reports_what_dose_says,
    asks_about_what_waits,
    refuses_answers_that_do_not_fit,
    refuses_what_waits_and_lists,
    rebuilds_what_is_bad,
    refuses_answers_of_ben,
]

if __name__ == "__main__":
    sys.exit(main(TESTS))

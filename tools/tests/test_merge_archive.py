#!/usr/bin/env python3
"""Tests of tools/bin/merge-archive, over offices whose service tools/bin/office starts, each test in a folder of its
own.

    tools/tests/test_merge_archive.py [NAME..]     these tests, or all

No network is asked, and apt does not have to be there: a stub stands for it. From the environment: WB is the program;
if it is not set, a stub stands for it too, which keeps records of versions, merges them and answers requests. All lists
were written by hand after Debian's.
"""
import contextlib
import fcntl
import gzip
import lzma
import os
import signal
import stat
import subprocess
import sys
from pathlib import Path

from harness import BIN, expect, main, program
from package_runs import Trial, lives, wait_until
from list_cases import APT_CONFIG, APT_GET, DOSE, WB, answer
from list_runs import expect_status, expect_text, loaded, stub, tables, tool


def source(name: str, version: str = "1.0", archs: str = "any", more: str = "") -> str:
    """A paragraph of a Sources list."""
    text = (
        f"Package: {name}\nBinary: {name}\nVersion: {version}\nMaintainer: Ä <a@a.example>\n"
        f"{more}Architecture: {archs}\nFormat: 3.0 (quilt)\n"
    )
    return text + f"Files:\n 0123 45 {name}.dsc\nDirectory: pool/{name}\nPriority: optional\nSection: misc\n\n"


def package(name: str, arch: str = "amd64", version: str = "1.0") -> str:
    """A paragraph of a Packages list."""
    text = (
        f"Package: {name}\nVersion: {version}\nArchitecture: {arch}\nMaintainer: Ä <a@a.example>\nDescription: d\n"
        "Section: misc\n"
    )
    return text + f"Filename: pool/{name}_{arch}.deb\nSize: 45\nSHA256: 0123\n\n"


def many(one, count: int) -> str:
    return "".join(one(f"s{at}") for at in range(count))


SOURCES = source("hello") + source("new") + source("zz")
PACKAGES = package("hello") + package("hello-doc", "all") + package("zz")
COUNTS = "Packages-amd64 3\nSources 3\n"
LISTS = (
    "list            paragraphs  last time\nSources                  3          {0}\n"
    "Packages-amd64           3          {0}\n"
)
TABLE = "\npart   added  changed  kept  removed\n"


class Porter(Trial):
    """An office that runs, and its porter, whose lists are in the folder `lists`."""

    def __init__(self, folder: Path, **more: object) -> None:
        if "WB" in os.environ:
            wb = program()
        else:
            wb = folder / "wb"
            wb.write_text(WB)
            wb.chmod(0o755)
        super().__init__(folder, wb, WAIT=20, **more)
        self.base, self.lists = folder, folder / "lists"
        self.lists.mkdir()
        self.put()

    def __enter__(self) -> "Porter":
        self.fill()
        self.do("start")
        return self

    def put(self, sources: str | bytes = SOURCES, packages: str | bytes = PACKAGES) -> None:
        for name, text in (("Sources", sources), ("Packages-amd64", packages)):
            (self.lists / name).write_bytes(text if isinstance(text, bytes) else text.encode())

    def words(self, *words: object) -> list[object]:
        return [
            "merge-archive", "--settings", self.conf, "--tables", tables(self.base), "--arch", "amd64", *words, "lists",
        ]

    def merge(self, *words: object, **environment: str) -> tuple[int, str, str]:
        """A merge of the lists that lie there."""
        return tool(self.base, *self.words("--no-fetch", *words), **environment)

    def fetch(self, *words: object, **environment: str) -> tuple[int, str, str]:
        """A merge of lists that are fetched."""
        return tool(self.base, *self.words("--suite", "sid", "--mirror", "file:/d", *words), **environment)

    def merged(self) -> dict[str, str]:
        place = self.lists / "merged"
        return {path.name: path.read_text() for path in place.iterdir()} if place.exists() else {}

    def refuses(self, message: str, *words: object, status: int = 1) -> str:
        """That a merge is refused with this message before the office was stopped, and that nothing changed. Gives all
        that was said."""
        before = self.tree(), self.merged(), self.keeper()
        done = self.merge(*words)
        expect_status(status, done, message)
        expect("stop the service" not in done[2] and lives(self.keeper()), f"the service was stopped: {done[2]}")
        expect((self.tree(), self.merged(), self.keeper()) == before, f"after {message!r} something changed")
        return done[2]

    def takes(self, *words: object) -> None:
        """That the lists may be merged."""
        done = self.merge("--dry-run", *words)
        expect_status(0, done, "would give the office")


def make_archive(folder: Path, sources: str = SOURCES) -> None:
    """What a stub of apt fetches."""
    stub(folder, "apt-get", APT_GET)
    stub(folder, "apt-config", APT_CONFIG)
    (folder / "archive").mkdir(exist_ok=True)
    texts = {
        "Sources|sid|main|": sources, "Packages|sid|main|amd64": PACKAGES, "Udebs|sid|main|amd64": package("zz-udeb"),
    }
    rows = [(target, f"_{target.replace('|', '_')}") for target in texts]
    for target, name in rows:
        (folder / "archive" / name).write_text(texts[target])
    (folder / "targets").write_text("".join(f"{target}|{name}\n" for target, name in rows))


def has_help_and_refuses_words(folder):
    said = expect_status(0, tool(folder, "merge-archive", "--help"))
    expect(
        "example:\n  tools/bin/merge-archive " in said and "Status: 0" in said, "its help has no example or no statuses"
    )
    expect((BIN / "merge-archive").stat().st_mode & stat.S_IXUSR, "it cannot be executed")
    for words, message in [
        (["--suite", "sid", "--arch", "amd64"], "required: FOLDER"),
        (["--suite", "sid", "lists"], "required: --arch"),
        (["--arch", "amd64", "lists"], "give --suite"),
        (["--no-fetch", "--arch", "amd64", "--arch", "amd64", "lists"], "--arch amd64 is given twice"),
        (["--no-fetch", "--arch", "all", "lists"], "'all' is no name of an architecture"),
        (["--no-fetch", "--arch", "amd64", "--least-share", "101", "lists"], "'101' is no number from 0 to 100"),
        (["--no-fetch", "--arch", "amd64", "--most-removed", "-1", "lists"], "--most-removed"),
    ]:
        expect_status(2, tool(folder, "merge-archive", *words), message)
    expect(not os.listdir(folder), f"there is {os.listdir(folder)}")


def fetches_prepares_looks_and_merges(folder):
    """In this order, and shows the counts; the lists of the merge are kept, with their paragraphs."""
    make_archive(folder)
    with Porter(folder) as office:
        for path in office.lists.iterdir():
            path.unlink()
        done = office.fetch()
        wanted = LISTS.format("-") + TABLE + "amd64      2        1     0        1\n"
        expect_text(expect_status(0, done), wanted, "what was said")
        steps = [
            "fetch the lists", "Get:1 all", "look at", "prepare", "stop the service", "copy ", "give the office",
            "start the service",
        ]
        order = [done[2].index(text) for text in steps]
        expect(order == sorted(order), f"the steps are {done[2]}")
        expect(office.runs() and len(office.saved()) == 1, "the service does not run, or there is no backup")
        expect(office.has("new") and not office.has("tar"), "the merge was not carried out")
        wanted = {"Sources-amd64": SOURCES, "Packages-amd64": PACKAGES, "counts": COUNTS}
        expect(office.merged() == wanted, f"what was merged is {office.merged()}")
        make_archive(folder, SOURCES.replace("1.0", "1.1"))
        said = expect_status(0, office.fetch("--udebs"))
        wanted = (
            LISTS.format("3").replace("amd64           3", "amd64           4")
            + TABLE
            + "amd64      0        3     0        0\n"
        )
        expect_text(said, wanted, "what was said of the second merge")
        said = expect_status(0, office.merge())
        expect(
            "amd64      0        0     3        0\n" in said and "fetch" not in said, f"the same lists again: {said}"
        )
        expect("zz-udeb" in office.merged()["Packages-amd64"], "the lists that lie there were not merged")


def prepares_lists(folder):
    """What is merged has the priorities that its packages have, by dpkg's tables."""
    with Porter(folder) as office:
        office.put(source("hello", more="Package-List:\n hello deb libs required arch=any\n"))
        done = office.merge()
        expect_status(
            0, done, f"give the office: merge {office.lists}/ready/Sources-amd64 amd64={office.lists}/Packages-amd64\n"
        )
        expect("Priority: required\nSection: libs\n" in office.merged()["Sources-amd64"], f"{office.merged()}")
        office.refuses("none/cputable: No such file or directory", "--tables", folder / "none", status=3)


def refuses_swapped_lists(folder):
    with Porter(folder) as office:
        office.put(PACKAGES, SOURCES)
        said = office.refuses(
            "lists/Sources: paragraph 1 is one of a Packages list, since it has the field description; were Sources "
            "and Packages"
        )
        expect(
            "lists/Packages-amd64: paragraph 1 is one of a Sources list, since it has the field binary; were" in said,
            f"it says {said}",
        )
        office.put(PACKAGES)
        office.refuses("swapped? Put a Sources list there")
        office.put(packages=SOURCES)
        office.refuses("swapped? Put a Packages list there")
        office.put(SOURCES + PACKAGES)
        office.refuses("lists/Sources: paragraph 4 is one of a Packages list")
        office.put(packages=PACKAGES + SOURCES)
        office.refuses("lists/Packages-amd64: paragraph 4 is one of a Sources list")
        office.put(
            source("hello", archs="amd64", more="Description: d\nSize: 3\n"),
            package("hello").replace("Size", "Binary: b\nSize"),
        )
        office.takes()


def refuses_lists_of_another_architecture(folder):
    foreign = (
        "lists/Packages-amd64: {} paragraphs are neither of amd64 nor of all, the first is paragraph {} with the "
        "Architecture 'arm64'"
    )
    with Porter(folder) as office:
        office.put(packages=PACKAGES.replace("amd64", "arm64"))
        office.refuses(foreign.format("2 of 3", 1) + "; fetch the list of amd64")
        office.put(packages=PACKAGES + package("last", "arm64"))
        office.refuses(foreign.format("1 of 4", 4))
        office.put(packages=PACKAGES.replace("Architecture: amd64", "Architecture: any"))
        office.refuses("with the Architecture 'any'")
        office.put(packages=PACKAGES.replace("Architecture: amd64\n", ""))
        office.refuses("with the Architecture ''")
        office.put(packages=PACKAGES.replace("amd64", "all"))
        office.refuses("lists/Packages-amd64: no paragraph of it is of amd64; fetch the list of amd64")
        office.put(packages=package("hello-doc", "all") + package("hello"))
        office.takes()


def refuses_far_fewer_paragraphs(folder):
    """Than the list of the last merge, at the share that is asked for."""
    fewer = (
        "lists/{}: it has {} paragraphs, fewer than {} of 100 of the {} that were merged last; fetch it again, or give "
        "a smaller --least-share"
    )
    with Porter(folder) as office:
        office.put(many(source, 100), many(package, 40))
        expect_status(0, office.merge())
        for sources, packages, share, message in [
            (94, 40, 95, fewer.format("Sources", 94, 95, 100)),
            (100, 37, 95, fewer.format("Packages-amd64", 37, 95, 40)),
            (89, 40, 90, fewer.format("Sources", 89, 90, 100)),
            (99, 40, 100, fewer.format("Sources", 99, 100, 100)),
        ]:
            words = [] if share == 95 else ["--least-share", share]
            office.put(many(source, sources), many(package, packages))
            office.refuses(message, *words)
            least = -(-100 * share // 100), -(-40 * share // 100)
            office.put(many(source, least[0]), many(package, least[1]))
            office.takes(*words)
        office.put(many(source, 1), many(package, 1))
        office.takes("--least-share", 0)
        office.put(many(source, 90), many(package, 40))
        expect_status(0, office.merge("--least-share", 90))
        expect_text(office.merged()["counts"], "Packages-amd64 40\nSources 90\n", "the counts")
        office.put(many(source, 86), many(package, 40))
        office.takes()
        (office.lists / "merged/counts").write_text("Sources 90\nmany\n")
        office.refuses("lists/merged/counts, line 2: it is no name and number; look at the lists, and remove this file")
        (office.lists / "merged/counts").unlink()
        office.put(many(source, 1), many(package, 1))
        office.takes()


def refuses_lists_that_were_cut_off(folder):
    """Wherever the last paragraph was cut, also if an empty line was put after it, as long as it lacks a field."""
    cut = "no empty line ends it, so the list was cut off there; fetch it again"
    with Porter(folder) as office:
        for sources, packages, message in [
            (SOURCES[:-1], PACKAGES, f"lists/Sources: paragraph 3, the last: {cut}"),
            (SOURCES[:-2], PACKAGES, f"lists/Sources: paragraph 3, the last: {cut}"),
            (SOURCES, PACKAGES[:-1], f"lists/Packages-amd64: paragraph 3, the last: {cut}"),
            (
                SOURCES, PACKAGES[: PACKAGES.rindex("Size") + 2],
                f"paragraph 3, line 28: it is no field, which has a name and a colon; {cut}",
            ),
            (
                SOURCES[: SOURCES.rindex("Priority")] + "\n", PACKAGES,
                "paragraph 3, the last, lacks what all others have (priority, section)",
            ),
            (
                SOURCES, PACKAGES[: PACKAGES.rindex("Size")] + "\n",
                "paragraph 3, the last, lacks what all others have (sha256, size), so the",
            ),
        ]:
            office.put(sources, packages)
            expect("fetch it again" in office.refuses(message), "it is not said what to do")
        office.put(
            source("hello", more="Homepage: h\n") + source("zz"),
            package("hello").replace("SHA256", "MD5sum") + package("zz"),
        )
        office.takes()
        office.put(SOURCES[: SOURCES.rindex("Package:")], PACKAGES[: PACKAGES.rindex("Package:")])
        office.takes()
    look_at = loaded("merge-archive").look_at
    for text, arch in ((SOURCES, ""), (PACKAGES, "amd64")):
        last = text.rindex("Package:")
        ends = [at for at in range(last + 1, len(text)) if text[at - 1] == "\n" and text[at] not in " \n"]
        for end in range(last + 1, len(text)):
            (folder / "list").write_text(text[:end])
            expect(
                list(look_at(folder / "list", arch).faults(0, 95)),
                f"a list that was cut off after {end} bytes is taken",
            )
        for end in ends:
            (folder / "list").write_text(text[:end] + "\n")
            expect(
                list(look_at(folder / "list", arch).faults(0, 95)),
                f"a list that was cut off after {end} bytes, with an empty line, is taken",
            )
        (folder / "list").write_text(text)
        expect(not list(look_at(folder / "list", arch).faults(0, 95)), "the whole list is not taken")
    return f"{len(SOURCES + PACKAGES) - SOURCES.rindex('Package:') - PACKAGES.rindex('Package:') - 2} cuts"


def refuses_what_is_no_text(folder):
    """Compressed lists, empty ones, and those that are not UTF-8."""
    with Porter(folder) as office:
        for name, whole in (("Sources", SOURCES), ("Packages-amd64", PACKAGES)):
            data = whole.encode()
            key = name.split("-")[0].lower()
            for text, message in [
                (gzip.compress(data), "it is compressed by gzip; uncompress it"),
                (lzma.compress(data), "it is compressed by xz; uncompress it"),
                (b"\x28\xb5\x2f\xfd\x04\x00" + data, "it is compressed by zstd; uncompress it"),
                (b"", "it has no paragraph, and a merge takes what it lacks for lost; fetch it again"),
                (b"\n \n\n", "it has no paragraph"),
            ]:
                office.put(**{key: text})
                office.refuses(f"lists/{name}: {message}")
            office.put(**{key: whole.encode("latin-1")})
            office.refuses(f"lists/{name}: paragraph 1: it is not UTF-8; fetch the list again, or convert it")
            office.put(**{key: b"\n\n" + data})
            office.takes()
            (office.lists / name).unlink()
            office.refuses(f"lists/{name}: No such file or directory", status=3)
            office.put()


def merges_all_the_same_if_forced(folder):
    """And says what was found; what prepare-lists refuses stays refused."""
    with Porter(folder) as office:
        expect_status(0, office.merge())
        office.put(source("hello"), package("hello", "arm64"))
        said = office.refuses("1 of 1 paragraphs are neither")
        expect(
            "Sources: it has 1 paragraphs, fewer than 95" in said and "give --no-fetch --force" in said,
            f"it says {said}",
        )
        done = office.merge("--force")
        expect(
            "amd64      0        1     0        2\n" in expect_status(0, done, "1 of 1 paragraphs are neither"),
            f"the merge says {done}",
        )
        expect("nothing was merged" not in done[2] and office.runs(), f"it says {done[2]}")
        expect_text(office.merged()["counts"], "Packages-amd64 1\nSources 1\n", "the counts")
        office.put(packages=PACKAGES[:-1])
        expect_status(0, office.merge("--force"), "Packages-amd64: paragraph 3, the last")
        expect_text(
            office.merged()["counts"], "Packages-amd64 1\nSources 3\n", "the counts, of a list whose end was not read,"
        )
        office.put(SOURCES[:-1])
        office.refuses("prepare-lists ended with status 1, for the reason above; nothing was merged", "--force")
        office.put(b"")
        office.refuses("prepare-lists: lists/Sources: it has no paragraph", "--force")


def dry_run_does_all_but_the_merge(folder):
    make_archive(folder)
    with Porter(folder) as office:
        office.put("", "")
        before, keeper = office.tree(), office.keeper()
        done = office.fetch("--dry-run")
        expect_text(expect_status(0, done), LISTS.format("-"), "what was said")
        for text in ("would stop the service", "would copy", "would give the office: merge", "would start the service"):
            expect(text in done[2], f"it does not say {text!r}: {done[2]}")
        expect(
            (office.tree(), office.keeper()) == (before, keeper) and office.runs(), "the office was changed or stopped"
        )
        expect(
            not office.merged() and (office.lists / "ready/Sources-amd64").exists(),
            "a list was put in place, or none was prepared",
        )
        expect_status(0, office.merge())
        make_archive(folder, source("hello"))
        expect_status(1, office.fetch("--dry-run"), "Sources: it has 1 paragraphs")
        expect_status(0, office.fetch("--dry-run", "--force"), "Sources: it has 1 paragraphs")
        expect(office.has("new"), "a dry run with --force merges")
        office.settings["BACKUPS"] = ""
        office.write_settings()
        expect_status(2, office.fetch("--dry-run", "--force"), "BACKUPS is missing")


class Failing:
    """What has to be so after each merge that fails: what was merged stays, and the office runs, and was only stopped
    if it says so."""

    def __init__(self, office: Porter) -> None:
        expect_status(0, office.fetch())
        self.office, self.before = office, office.merged()

    def check(self, status: int, message: str, done: tuple[int, str, str], is_stopped: bool) -> None:
        said = expect_status(status, done, message)
        expect(
            "part" not in said and self.office.merged() == self.before,
            f"after {message!r} there is {self.office.merged()}, and it says {said}",
        )
        expect(
            self.office.runs() and self.office.has("new"),
            f"after {message!r} the service does not run, or it was merged",
        )
        expect(("stop the service" in done[2]) == is_stopped, f"with {message!r} it says {done[2]}")


def changes_nothing_if_a_step_before_the_office_fails(folder):
    """The office is not stopped."""
    make_archive(folder)
    with Porter(folder) as office:
        failing = Failing(office)
        failing.check(
            3, "fetch-lists ended with status 3, for the reason above; nothing was merged", office.fetch(UPDATE="100"),
            False,
        )
        make_archive(folder, SOURCES.replace("Directory", "Package-List: aa\nDirectory"))
        failing.check(
            1, "prepare-lists ended with status 1, for the reason above; nothing was merged", office.fetch(), False
        )
        make_archive(folder, SOURCES[: SOURCES.index("Package: new")])
        failing.check(1, "it has 1 paragraphs, fewer than 95 of 100", office.fetch(), False)
        (office.lists / "ready").rename(office.lists / "aside")
        (office.lists / "ready").write_text("")
        failing.check(3, "prepare-lists ended with status 3", office.fetch("--force"), False)
        (office.lists / "ready").unlink()
        (office.lists / "merged").rename(office.lists / "gone")
        (office.lists / "merged").write_text("")
        expect_status(3, office.fetch("--force"), "lists/merged/counts: Not a directory")
        (office.lists / "merged").unlink()
        (office.lists / "gone").rename(office.lists / "merged")
        office.settings["PORT"] = 0
        office.write_settings()
        expect_status(2, office.fetch("--force"), "office ended with status 2, for the reason above")
        office.settings["PORT"] = office.port
        office.write_settings()
        failing.check(0, "would give the office", office.fetch("--force", "--dry-run"), True)


def changes_nothing_if_the_office_fails(folder):
    """The office is started again, if it ran before."""
    make_archive(folder)
    with Porter(folder) as office:
        failing = Failing(office)
        make_archive(folder, SOURCES[: SOURCES.index("Package: new")])
        done = office.fetch("--force", "--most-removed", "1")
        failing.check(1, "the merge would remove 2 of amd64, more than 1; it was not carried out", done, True)
        office.backups.rename(office.folder / "gone")
        message = "office ended with status 1, for the reason above; no answer says that the lists of amd64 were merged"
        failing.check(1, message, office.fetch("--force"), True)
        (office.folder / "gone").rename(office.backups)
        office.fault("kill")
        failing.check(1, "the program ended with -9", office.fetch("--force"), True)
        (office.faults / "kill").unlink()
        left = [path.name for path in office.lists.rglob(".*")]
        expect(not left, f"these files are left: {left}")
        office.do("stop")
        done = office.fetch("--force", "--most-removed", "2")
        expect("amd64      0        0     1        2\n" in expect_status(0, done, "is not started"), f"it says {done}")
        expect(not office.runs(), "a service that did not run was started")


def merges_architectures_in_one_stop(folder):
    """None if the office lacks one of them, which it is asked before; those that were merged are said and kept if it
    fails with one."""
    with Porter(folder) as office:
        (office.lists / "Packages-arm64").write_text(PACKAGES.replace("amd64", "arm64"))
        office.refuses("the office has no architecture arm64 (UnknownArch); nothing was done", "--arch", "arm64")
        office.do("run", stdin=office.lines(["add-arch arm64 linux arm64"]))
        office.fault("lose")
        done = office.merge("--arch", "arm64")
        rows = "amd64      2        1     0        1\n"
        said = expect_status(3, done, "no answer says that the lists of arm64 were merged")
        expect(said.endswith(TABLE + rows) and office.runs(), f"it says {done}")
        expect(sorted(office.merged()) == ["Packages-amd64", "Sources-amd64", "counts"], f"{sorted(office.merged())}")
        expect_text(office.merged()["counts"], COUNTS, "the counts")
        (office.faults / "lose").unlink()
        saved = len(office.saved())
        done = office.merge("--arch", "arm64")
        rows = "amd64      0        0     3        0\narm64      3        0     0        0\n"
        expect(expect_status(0, done).endswith(TABLE + rows), f"it says {done[1]}")
        expect(done[2].count("stop the service") == 1 and len(office.saved()) == saved + 1, f"it says {done[2]}")
        is_after = done[2].index("start the service") < done[2].index("check the sums")
        expect(is_after, f"the backup is checked in the stop: {done[2]}")
        expect_text(office.merged()["counts"], COUNTS.replace("Sources", "Packages-arm64 3\nSources"), "the counts")
        (office.lists / "Packages-arm64").write_text("")
        office.refuses("lists/Packages-arm64: it has no paragraph", "--arch", "arm64")


def brings_all_along_and_reports(folder):
    """With --indep the builds of `all`, and with --dose what can be built, before the office starts; if dose fails, the
    office is not stopped."""
    stub(folder, "dose-builddebcheck", DOSE)
    (folder / "answer").write_text(answer([], 1))
    with Porter(folder) as office:
        office.put(SOURCES + source("docs", archs="all"))
        office.refuses("no architecture indep", "--indep", "indep")
        office.do("run", stdin=office.lines(["add-arch indep linux amd64"]))
        done = office.merge("--indep", "indep", "--dose", STATUS="0")
        rows = "amd64      2        1     0        1\nindep      1        0     0        0\n"
        expect(expect_status(0, done).endswith(TABLE + rows), f"it says {done[1]}")
        steps = ["ask which packages", "stop the service", "give the office: merge", "report amd64", "start the"]
        order = [done[2].index(text) for text in steps]
        expect(order == sorted(order) and done[2].count("stop the service") == 1, f"the steps are {done[2]}")
        reports = [(office.lists / "ready" / f"report-{arch}").read_text() for arch in ("amd64", "indep")]
        expect(reports == ["new 1.0 installable\n", "docs 1.0 installable\n"], f"the reports are {reports}")
        merged = ["Packages-amd64", "Packages-indep", "Sources-amd64", "Sources-indep", "counts"]
        expect(sorted(office.merged()) == merged, f"there is {sorted(office.merged())}")
        (folder / "answer").write_text(answer([], 7))
        office.refuses("report-from-dose ended with status 1, for the reason above; nothing was merged", "--dose")
        for words, message in [
            (["--available", "amd64"], "--available goes with --indep"),
            (["--indep", "amd64"], "--indep is none of --arch"),
            (["--indep", "indep", "--available", "arm64"], "and --available is one"),
        ]:
            expect_status(2, office.merge(*words), message)


def merges_without_a_stop(folder):
    """With a folder of lists the office serves on: the same answers, lists and counts, a backup, the report after the
    merge, and nothing is left in the folder. With --stop it is stopped."""
    stub(folder, "dose-builddebcheck", DOSE)
    (folder / "answer").write_text(answer([], 1))
    with Porter(folder, LISTS=folder / "an office" / "to merge") as office:
        place = office.settings["LISTS"]
        keeper, process = office.keeper(), office.server()
        done = office.merge("--dose", STATUS="0")
        expect(expect_status(0, done).endswith(TABLE + "amd64      2        1     0        1\n"), f"it says {done}")
        steps = ["ask which packages", "while it is served", "send 2 lines", "check the sums", "name the copy"]
        order = [done[2].index(text) for text in steps]
        expect(order == sorted(order) and "stop the service" not in done[2], f"the steps are {done[2]}")
        expect((office.keeper(), office.server()) == (keeper, process), "the service was stopped")
        expect_text(office.merged()["counts"], COUNTS, "the counts")
        expect(len(office.saved()) == 1 and not os.listdir(place), f"{office.saved()} and {os.listdir(place)}")
        done = office.merge("--most-removed", "0", "--force")
        expect("amd64      0        0     3        0\n" in expect_status(0, done), f"it says {done}")
        office.put(SOURCES[: SOURCES.index("Package: new")])
        done = office.merge("--most-removed", "1", "--force")
        expect_status(1, done, "the merge would remove 2 of amd64, more than 1; it was not carried out")
        done = office.merge("--dry-run", "--force")
        expect("would send 1 lines" in done[2] and not os.listdir(place), f"it says {done}")
        expect((office.keeper(), office.server()) == (keeper, process), "the service was stopped")
        done = office.merge("--stop", "--force")
        said = expect_status(0, done, "stop the service")
        expect("amd64      0        0     1        2\n" in said, f"it says {said}")
        expect(office.runs() and office.server() != process, "the service was not stopped, or does not run")


def says_that_the_office_did_not_start_again(folder):
    """With status 3; the merge was done, and is shown."""
    with Porter(folder) as office:
        office.fault("serve")
        done = office.merge()
        said = expect_status(
            3, done, "office ended with status 3, for the reason above; the lists of amd64 were merged"
        )
        expect(
            "NOT STARTED AGAIN" in done[2] and said.endswith("amd64      2        1     0        1\n"),
            f"it says {done}",
        )
        expect_text(office.merged()["counts"], COUNTS, "the counts")
        (office.faults / "serve").unlink()
        office.do("stop")


def merge_with_signal(office: Porter, send) -> tuple[int, str]:
    """Begins a merge, sends it a signal while the program of the office sleeps, wakes that, and gives the status and
    what was said."""
    signal.signal(
        signal.SIGINT, signal.default_int_handler
    )  # a program that is run in the background is given it ignored, and would hand that on
    asleep = office.faults / "sleep"
    asleep.write_text("")
    words = [sys.executable, BIN / "merge-archive", *office.words("--no-fetch")[1:]]
    with subprocess.Popen(
        words, cwd=office.base, stderr=subprocess.PIPE, stdout=subprocess.PIPE, start_new_session=True, text=True
    ) as run:
        wait_until(lambda: asleep.read_text().strip(), "the program is not called")
        called = int(asleep.read_text())
        asleep.unlink()
        children = Path(f"/proc/{called}/task/{called}/children")
        wait_until(lambda: children.read_text().split(), "the program does not sleep")
        sleeping = int(children.read_text().split()[0])
        send(run.pid)
        with contextlib.suppress(ProcessLookupError):
            os.kill(sleeping, signal.SIGTERM)
        said, errors = run.communicate(timeout=60)
    return run.returncode, said + errors


def ends_after_the_merge_if_it_gets_a_signal(folder):
    """A signal to it alone waits for the merge; one to the whole group, as from a terminal, breaks the merge off, and
    the office runs again."""
    with Porter(folder) as office:
        status, said = merge_with_signal(office, lambda process: os.killpg(process, signal.SIGINT))
        expect(
            status == 130 and office.runs() and not office.merged(),
            f"status {status}, and there is {office.merged()}: {said}",
        )
        status, said = merge_with_signal(office, lambda process: os.kill(process, signal.SIGTERM))
        expect(
            status == 128 + signal.SIGTERM and office.runs(), f"status {status}, or the service does not run: {said}"
        )
        expect(
            "amd64      2        1     0        1\n" in said and office.merged()["counts"] == COUNTS,
            f"the merge was not done: {said}",
        )


def works_alone_in_its_folder(folder):
    with Porter(folder) as office:
        handle = os.open(office.lists, os.O_RDONLY)
        fcntl.flock(handle, fcntl.LOCK_EX)
        office.refuses("lists: another call of this command works there; wait for its end")
        os.close(handle)
        office.takes()
        office.lists.rename(folder / "gone")
        office.refuses("lists: No such file or directory", status=3)


def needs_little_memory(folder):
    """Lists of 60 MB in 96 MB of address space, which Python has most of."""
    with Porter(folder) as office:
        with (office.lists / "Packages-amd64").open("w") as file:
            file.writelines(package(f"s{at}").replace("d\n", f"{'d' * 40000}\n", 1) for at in range(1500))
        done = tool(folder, *office.words("--no-fetch", "--dry-run"), limit=96 << 20)
        expect("Packages-amd64        1500" in expect_status(0, done), f"it says {done[1]}")


TESTS = [
    has_help_and_refuses_words,
    fetches_prepares_looks_and_merges,
    prepares_lists,
    refuses_swapped_lists,
    refuses_lists_of_another_architecture,
    refuses_far_fewer_paragraphs,
    refuses_lists_that_were_cut_off,
    refuses_what_is_no_text,
    merges_all_the_same_if_forced,
    dry_run_does_all_but_the_merge,
    changes_nothing_if_a_step_before_the_office_fails,
    changes_nothing_if_the_office_fails,
    merges_architectures_in_one_stop,
    brings_all_along_and_reports,
    merges_without_a_stop,
    says_that_the_office_did_not_start_again,
    ends_after_the_merge_if_it_gets_a_signal,
    works_alone_in_its_folder,
    needs_little_memory,
]

if __name__ == "__main__":
    sys.exit(main(TESTS))

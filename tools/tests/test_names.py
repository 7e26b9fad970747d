#!/usr/bin/env python3
"""Tests that the commands which show an office ask it for its architectures and its builders, that what a call or a
setting names is shown alone, and what is said of an office that is older than these queries: over stand-ins, and over
the program as it serves.

    tools/tests/test_names.py [NAME..]     these tests, or all

From the environment: WB is the program, ./wb of this repository where it is not set. The site wants Flask and waitress:
without them its test is left out.
"""
import shutil
import subprocess
import sys

from harness import WB, expect, main, run
from test_history import NOW, example
from test_status import EXAMPLE, WAIT, StandIn, call, expect_the_example, line, record, serving
from wanna_build_runs import Network
from web_runs import Site, odd_office, office, update

ARCHS = ("amd64", "arm64")
PAIRS = (("b1", "amd64"), ("b1", "arm64"), ("b2", "amd64"))

# ---- over stand-ins

KNOWN = {
    "/v1/archs": (200, line(accepted=25, archs=[{"arch": one, "cpu": one, "os": "linux"} for one in ARCHS])),
    "/v1/builders": (200, line(accepted=25, builders=[{"arch": arch, "builder": name} for name, arch in PAIRS])),
    "/v1/office": (200, line(accepted=25, handed=6)),
    "/v1/mine/b1": (200, line(builder="b1", records=[record("aa", "Built", take=3, holder="b1")])),
    "/v1/mine/b2": (200, line(builder="b2", records=[])),
}


def asks_the_office_for_names(folder):
    """Without names of architectures and builders the office is asked for them; those that are named are asked for
    alone."""
    with StandIn(KNOWN) as office:
        named = call(folder, "wb-status", "--url", office.url, "--arch", "amd64", "--arch", "arm64")
        expect("/v1/archs" not in office.asked, "it asks for names that it has")
        expect(call(folder, "wb-status", "--url", office.url) == named, "the page of all architectures is another")
        alone = call(folder, "wb-status", "--url", office.url, "--arch", "arm64")
        expect(alone == call(folder, "wb-status", "--arch", "arm64", EXAMPLE / "answers"), "one that is named")
        for query, words in (("summary", ["amd64", "arm64"]), ("queue", ["amd64", "arm64"]), ("mine", ["b1", "b2"])):
            wanted = call(folder, "wb-table", "--url", office.url, query, *words)
            expect(call(folder, "wb-table", "--url", office.url, query) == wanted, f"all of {query}")
        expect(wanted.startswith("b1 holds one package") and wanted.endswith("b2 holds no packages\n"), wanted)
        for query in ("office", "archs", "builders"):
            met = call(folder, "wb-table", "--url", office.url, query)
            expect(met == call(folder, "wb-table", said=KNOWN[f"/v1/{query}"][1]) and met, f"{query}: {met}")
        met = call(folder, "wb-table", "--url", office.url, "--plain", "builder,arch", "--join", " ", "builders")
        expect(met == "b1 amd64\nb1 arm64\nb2 amd64\n", met)
        others = {"/v1/archs": (200, line(accepted=0, archs=[]))}
        with StandIn(others) as empty:
            call(folder, "wb-status", "--url", empty.url, status=1, message="the office has no architecture")
            expect(call(folder, "wb-table", "--url", empty.url, "summary") == "", "a summary of nothing")
            urls = ["--url", f"sid={office.url}", "--url", f"none={empty.url}"]
            call(folder, "wb-status", *urls, status=1, message="the office has no architecture")


def says_that_an_office_is_older(folder):
    """An office that does not know these queries is named as older; what can be named instead is said, and works."""
    with StandIn() as office:
        for words in (["wb-status"], ["wb-table", "summary"], ["wb-table", "archs"], ["wb-table", "mine"]):
            name, *query = words
            said = 'the office answers {"http":"NoRoute"}; it is older than the query'
            call(folder, name, "--url", office.url, *query, status=1, message=said)
        more = "which wb 0.1.0 has; for this one name each architecture by --arch"
        call(folder, "wb-status", "--url", office.url, "--to", "page", status=1, message=more)
        expect(list(folder.iterdir()) == [], "a page was made")
        expect_the_example(call(folder, "wb-status", "--url", office.url, "--arch", "amd64", "--arch", "arm64"))


# ---- over the program


def asks_the_program_for_names(folder):
    """The tables of what the program answers, by words and while it serves, and the page without a name."""
    for path in EXAMPLE.iterdir():
        shutil.copy(path, folder)
    commands = (folder / "lines").read_text().partition("summary amd64\n")[0]
    expect(run(folder, commands.splitlines())[0] == 0, "the commands")
    words = [WB, "--store", "store"]
    said = {
        query: subprocess.run([*words, query], cwd=folder, capture_output=True, timeout=WAIT, check=True).stdout
        for query in ("office", "archs", "builders")
    }
    with serving(folder) as url:
        for query, answer in said.items():
            expect(call(folder, "wb-table", "--url", url, query) == call(folder, "wb-table", said=answer), query)
        archs = call(folder, "wb-table", "--url", url, "--plain", "arch", "archs").split()
        expect(archs == ["amd64", "arm64"], f"{archs}")
        expect_the_example(call(folder, "wb-status", "--url", url))
        builders = call(folder, "wb-table", "--url", url, "--plain", "builder", "builders").split()
        held = call(folder, "wb-table", "--url", url, "mine")
        expect(held.count(" holds ") == len(set(builders)) > 1, f"{builders}: {held}")


def takes_the_only_architecture(folder):
    """wanna-build without --arch and without ARCH: an office of one architecture besides that of `all` is asked about
    that one, and of one with more the message names them."""
    words, has = ("--user=b3", "--list=needs-build"), "the settings have none: the office has amd64, arm64"
    with Network(folder) as net:
        net.refuses(has, *words, user=None, wanted=2)
        net.refuses(has, "--give-back", "hello_1.0-1", user=None, wanted=2)
        named, _ = net.call("--arch=arm64", *words, user=None)
        net.settings["ALL"] = "amd64"
        net.write_settings()
        expect(net.call(*words, user=None)[0] == named != "", "the list of the only one is another")
        net.settings["ARCH"] = "amd64"
        net.write_settings()
        expect(net.call(*words, user=None)[0] != named, "the setting does not count")
    with StandIn() as older:
        net.settings |= {"SUITES": f"sid={older.server_port}"}
        del net.settings["ARCH"]
        net.write_settings()
        net.refuses("does not know GET /v1/archs: is it an office, and new enough?", *words, user=None, wanted=2)


def means_all_by_request_lines(folder):
    """Without --arch ANY and ALL of request lines stand for what the office of the line's suite has, which is asked for
    once; of an older one each has to be named, and of one that does not answer nothing is sent."""
    def said(lines, *words, status=0, message=""):
        return call(folder, "wb-requests", "--wait", "0", *words, said=lines.encode(), status=status, message=message)

    waiting = {f"/v1/item/{arch}/aa": (200, line(**record("aa", "Failed", arch=arch))) for arch in (*ARCHS, "indep")}
    of_three = {"/v1/archs": (200, line(accepted=1, archs=[
        {"arch": one, "cpu": "x", "os": "linux"} for one in (*ARCHS, "indep")
    ]))}
    with StandIn(waiting | of_three) as office, StandIn() as older:
        urls = ["--simulate", "--url", f"sid={office.url}", "--url", f"old={older.url}"]
        # the second and the third line find what the first left
        met = said("gb aa . ANY . sid\ngb aa . ALL . sid\ngb aa . ANY -arm64 . sid\n", *urls, status=1)
        rows = [row.split()[:4] for row in met.splitlines()[1:-1]]
        wanted = [["1", "gb", "sid", arch] for arch in ARCHS] + [["2", "gb", "sid", arch] for arch in (*ARCHS, "indep")]
        expect(rows == [*wanted, ["3", "gb", "sid", "amd64"]], f"{rows}")
        expect(office.asked.count("/v1/archs") == 1, f"{office.asked}")
        alone = said("gb aa . ANY . sid\n", *urls, "--arch", "arm64")
        expect([row.split()[3] for row in alone.splitlines()[1:-1]] == ["arm64"], alone)
        older_said = "line 1: name each architecture by --arch: what serves on"
        said("gb aa . ANY . old\n", *urls, status=2, message=older_said)
        said("gb aa . ANY . none\n", *urls, status=2, message="no --url names the office of none")
        said("gb aa . ANY\n", status=2, message="ANY stands for the architectures of the office: name each by --arch")
    said("gb aa . ANY\n", "--url", office.url, status=3, message="nothing was sent")


def shows_all_on_the_site(folder):
    """Without ARCHS and BUILDERS the site shows what the office has, each of them asked for once a page; with them what
    they name alone."""
    lines = [f"add-arch {arch} linux {arch}" for arch in ARCHS] + [f"add-builder {name} {arch}" for name, arch in PAIRS]
    given = {"INDEXES": f"sid={folder}/office.journal.index"}
    with office(folder, [*lines, "enter arm64 hello 1.0 optional devel"]) as served:
        given |= {"SUITES": f"sid={served.port}"}
        with Site(folder, **given) as site:
            page = site.page("/")
            expect([row["Architecture"] for row in page.tables["Packages in each state"]] == list(ARCHS), "all")
            silent = [table for caption, table in page.tables.items() if caption.startswith("Builders without")]
            expect([row["Builder"] for row in silent[0]] == ["b1", "b2"], f"{silent}")
            expect(len(site.page("/package/hello").tables["Where it stands"]) == 1, "a package")
            site.page("/arch/arm64/Needs-Build")
            site.page("/builder/b2")
            site.page("/arch/riscv64", 404)
        with Site(folder, **given, ARCHS="sid=arm64", BUILDERS="sid=b2") as site:
            page = site.page("/")
            expect([row["Architecture"] for row in page.tables["Packages in each state"]] == ["arm64"], "one")
            silent = [table for caption, table in page.tables.items() if caption.startswith("Builders without")]
            expect([row["Builder"] for row in silent[0]] == ["b2"], f"{silent}")
    with odd_office(b'{"http":"NoRoute"}', 404) as port, Site(folder, SUITES=f"sid={port}") as site:
        for path in ("/", "/arch/amd64", "/arch/amd64/Failed", "/package/hello", "/?q=hello"):
            text = site.page(path, 502).text
            expect(text.count("does not say its architectures: name them in ARCHS") == 1, f"{path}: {text}")


def shows_builders_that_an_older_office_had(folder):
    """If the office does not say its builders, and the settings name none, those are called silent of which the journal
    has a word and had none for long."""
    (folder / "office.journal").write_bytes(example().data())
    update(folder)
    with StandIn() as older:
        given = {"SUITES": f"sid={older.server_port}", "INDEXES": f"sid={folder}/office.journal.index"}
        with Site(folder, now=NOW + 10**6, **given, ARCHS="sid=amd64,arm64") as site:
            tables = site.page("/").tables
            [silent] = [table for caption, table in tables.items() if caption.startswith("Builders without")]
            expect([row["Builder"] for row in silent] == ["b1", "b2", "a1"], f"{silent}")


TESTS = [
    asks_the_office_for_names, says_that_an_office_is_older, asks_the_program_for_names, takes_the_only_architecture,
    means_all_by_request_lines, shows_all_on_the_site, shows_builders_that_an_older_office_had,
]

if __name__ == "__main__":
    sys.exit(main(TESTS))

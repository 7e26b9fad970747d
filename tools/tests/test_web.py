#!/usr/bin/env python3
"""Tests of the site (tools/bin/wb-web) over offices that the program serves, and over stand-ins: what stands on each
page and in its JSON, how lists are sorted and parted, what is said if an office or a history is missing, slow or
behind, that texts stay texts, and what each answer says of itself.

    tools/tests/test_web.py [NAME..]     these tests, or all

From the environment: WB is the program, ./wb of this repository where it is not set. Flask and waitress have to be
installed: without them nearly all are left out. All that is wanted was written by hand.
"""
import json
import re
import subprocess
import sys
import time
import urllib.parse
import xml.etree.ElementTree as ElementTree

import form_cases
from harness import BIN, ROOT, expect, expect_none, free_port, main
from serve_runs import Server
from test_history import record
from test_page import contrast
from web_runs import Site, dribbling_office, interpreter, odd_office, office, silent_office, update
from wb_tools.style import STYLE

ARCHS = ["add-arch amd64 linux amd64", "add-arch arm64 linux arm64", "add-builder b1 amd64", "add-builder a1 arm64"]
LONG = "l" + "o" * 198 + "g"
WAITS = "libfoo-dev (>= 2), bar | baz-dev"
ODD = '<script>alert(1)</script> "both" \'quotes\' &amp; \u202eturned \x1b[31m'
SOURCES = "Package: {}\nVersion: {}\nArchitecture: any\nBuild-Depends: {}\n\n"
PATHS = ["/", "/package/hello", "/arch/amd64", "/arch/amd64/Failed", "/builder/b1", "/history", "/?q=hello"]
PATHS.append("/?q=hello+zlib")
MANY = 250  # packages of a list with three pages


def lines_of_day():
    """Two packages on two architectures: one builds and failed elsewhere, one waits; and one with odd texts."""
    return [
        *ARCHS, "merge Sources amd64=Packages arm64=Packages", "next amd64 b1", "next arm64 a1", "built 1",
        "attempted 2 cc died", "give-back arm64 hello 1.0-1", "next arm64 a1", f"waits 3 {WAITS}",
        f"fail amd64 {LONG} 1 {ODD}", "next amd64 b1",
    ]


def lines_of_failure():
    """A package that failed twice, and one that a porter failed before any build."""
    return [
        *ARCHS, "enter amd64 hello 1.0 optional devel", "enter amd64 zlib 2 optional devel", "next amd64 b1",
        "attempted 1 cc died", "give-back amd64 hello 1.0", "next amd64 b1", "attempted 2 ld died",
        "fail amd64 zlib 2 no",
    ]


def day(folder):
    """An office with the lines above, and the settings of a site over it."""
    texts = [("hello", "1.0-1", "debhelper"), (LONG, "1", "cmake"), ("zlib", "1:1.3-1", "tcl <script>")]
    (folder / "Sources").write_text("".join(SOURCES.format(*one) for one in texts))
    (folder / "Packages").write_text("")
    return office(folder, lines_of_day())


def settings(folder, port, **others):
    given = {"SUITES": f"sid={port}", "ARCHS": "sid=amd64,arm64", "INDEXES": f"sid={folder}/office.journal.index"}
    given |= {"LOG": "https://logs.example.org/{source}_{build}_{arch}", "BUILDERS": "sid=b1,a1,quiet"}
    given |= {"TRACKER": "https://tracker.example.org/{source}", "BUGS": "https://bugs.example.org/src:{source}"}
    return given | others


def of_day(test):
    """A test of the site over the office of the day."""

    def tried(folder):
        with day(folder) as served, Site(folder, **settings(folder, served.port)) as site:
            return test(site)

    tried.__name__ = test.__name__
    return tried


# ---- what stands on pages


@of_day
def shows_a_package(site):
    """Where it stands and since when, its builds with their logs, what it needs, its history, and links elsewhere."""
    page = site.page("/package/hello")
    amd64, arm64 = page.tables["Where it stands"]
    expect((amd64["State"], amd64["Builder"], amd64["Version"]) == ("Built", "b1", "1.0-1"), f"{amd64}")
    expect(re.match(r"\d{4}-\d\d-\d\d \d\d:\d\d ", amd64["Since"]), f"since when: {amd64}")
    expect((arm64["State"], arm64["Waits for"]) == ("Dep-Wait", WAITS), f"{arm64}")
    expect(page.links["libfoo-dev"] == "/?q=libfoo-dev" and page.links["baz-dev"] == "/?q=baz-dev", f"{page.links}")
    met = [(row["Architecture"], row["Result"], row["Text"]) for row in page.tables["Builds"]]
    wanted = [("amd64", "built", ""), ("arm64", "failed", "cc died"), ("arm64", "waited", WAITS)]
    expect(sorted(met) == wanted, f"{met}")
    expect(page.links["log of hello 1.0-1 on amd64"] == "https://logs.example.org/hello_1.0-1_amd64", f"{page.links}")
    expect(page.links["Tracker"] == "https://tracker.example.org/hello", f"{page.links}")
    expect(page.links["Bugs"] == "https://bugs.example.org/src:hello", f"{page.links}")
    expect("What it needs to be built amd64, arm64 debhelper" in page.text, page.text)
    commands = sorted(row["Command"] for row in page.tables["History"])
    wanted = ["attempted", "built", "give-back", "merge", "merge", "next", "next", "next", "waits"]
    expect(commands == wanted, f"{commands}")
    row = site.page("/package/zlib").tables["Where it stands"][1]
    expect((row["State"], row["Place"]) == ("Needs-Build", "2 of 2"), f"{row}")
    found = site.json("/package/hello.json")["records"]["rows"]
    met = [(one["arch"], one["state"], one["take"], one["waits"]) for one in found]
    expect(met == [("amd64", "Built", 1, ""), ("arm64", "Dep-Wait", None, WAITS)], f"{met}")
    merged = site.json("/package/zlib.json")["records"]["rows"][1]["since"]
    expect(found[0]["since"]["is_exact"] and merged["is_exact"], f"what a merge moved has no time: {merged}")


@of_day
def shows_where_all_stands(site):
    """Counts and a bar of each architecture, builds of each day, what has waited longest, and silent builders."""
    page = site.page("/")
    row = page.tables["Packages in each state"][0]
    states = {"Built": "1", "Building": "1", "Failed": "1", "Needs-Build": "0", "Dep-Wait": "0"}
    expect({key: row[key] for key in states} == states and row["Architecture"] == "amd64", f"{row}")
    expect('aria-label="Building 1, Built 1, Failed 1"' in page.source, "the bar")
    rows = page.tables["Built and failed on each of the last 28 days"]
    figures = [(row["Architecture"], row["Built"], row["Failed"]) for row in rows]
    expect(figures == [("amd64", "1", "0"), ("arm64", "0", "1")], f"{figures}")
    expect("1 built and 0 failed in 28 days" in page.source, "the chart")
    silent = page.tables["Builders without a word for 24 hours"]
    expect([row["Builder"] for row in silent] == ["quiet"], f"silent builders: {silent}")
    found = site.json("/index.json")
    expect([row["counts"]["Built"] for row in found["archs"]["rows"]] == [1, 0], f"{found['archs']}")
    expect(found["days"]["rows"][0]["days"][-1]["built"] == 1, f"{found['days']}")


@of_day
def shows_a_builder(site):
    """What it holds, and what became of what it built."""
    page = site.page("/builder/a1")
    expect("What it holds: nothing." in page.text, page.text)
    [row] = page.tables["What became of its builds"]
    expect([row[key] for key in ("Taken", "Built", "Failed", "Waited")] == ["2", "0", "1", "1"], f"{row}")
    expect([row["Package"] for row in page.tables["Builds"]] == ["hello", "hello"], "its builds")
    held = site.page("/builder/b1").tables["What it holds"]
    expect([(row["Package"], row["State"]) for row in held] == [("zlib", "Building"), ("hello", "Built")], f"{held}")


@of_day
def finds_packages(site):
    """One word in names and notes, with the package of that name first; several names at once, and those of which there
    is no record."""
    wanted = {
        "hello": {"Package": "hello", "amd64": "Built", "arm64": "Dep-Wait"},
        "Zli": {"Package": "zlib", "amd64": "Building", "arm64": "Needs-Build"},
        "baz-dev": {"Package": "hello", "amd64": "Built", "arm64": "Dep-Wait", "Text": WAITS},
        "looo": {"Package": LONG, "amd64": "Failed", "arm64": "Needs-Build"},
    }
    for word, row in wanted.items():
        met = site.page(f"/?q={word}").tables[f"Packages with {word}"]
        expect(met == [row], f"{word}: {met}")
    [row] = site.page("/?q=QUOTES").tables["Packages with QUOTES"]
    expect(row["Package"] == LONG and "'quotes'" in row["Text"], f"a word of a note: {row}")
    page = site.page("/?q=zlib,+hello%0d%0anone+zlib")
    rows = page.tables["2 of 3 packages"]
    wanted = {"Package": "zlib", "amd64": "Building", "arm64": "Needs-Build"}
    expect(rows[0] == wanted and "No office has a record of none." in page.text, f"{rows}")
    expect("none." in site.page("/?q=nothing-of-it").text, "a word that is nowhere")


@of_day
def reads_lists_as_they_are_pasted(site):
    """The names of a list with sources, versions, architectures, suites, brackets and commas, each once; one name with
    its version; and words of notes as they are."""
    lists = [
        "src:hello,zlib_1:1.3-1_amd64", "hello_1.0-1\r\nzlib_1:1.3-1\r\nhello\r\n", "Hello/sid; zlib:amd64,",
        "hello (>= 1.0-1) [amd64 arm64], zlib (1:1.3-1)", "src:zlib src:hello hello=1.0-1",
    ]
    for text in lists:
        found = site.json(f"/index.json?q={urllib.parse.quote(text)}")
        names = [row["source"] for row in found["found"]["rows"]]
        expect(sorted(names) == ["hello", "zlib"] and found["missing"] == [], f"{text!r}: {found}")
        expect(found["q"] == " ".join(names), f"{text!r} is {found['q']!r} in the field")
    for word, caption in {"src:zlib": "zlib", "hello_1.0-1": "hello", "x86_64": "x86_64", "r_x:y": "r_x:y"}.items():
        text = site.page(f"/?q={word}").text
        expect(f"Packages with {caption}" in text, f"{word}: {text}")
    text = site.page("/?q=" + "+".join(f"n{at}" for at in range(201))).text
    expect("201 names are asked for: the first 200 are shown" in text, text)


@of_day
def counts_what_is_left(site):
    """Of several packages, how many are in each state and left to do on each architecture; only these, if asked."""
    page = site.page(f"/?q=hello+zlib+{LONG}")
    wanted = [
        {"Architecture": "amd64", "Left to do": "3", "Needs-Build": "0", "Building": "1", "Built": "1", "Dep-Wait": "0",
         "Failed": "1"},
        {"Architecture": "arm64", "Left to do": "3", "Needs-Build": "2", "Building": "0", "Built": "0", "Dep-Wait": "1",
         "Failed": "0"},
    ]
    expect(page.tables["What is left to do"] == wanted, f"{page.tables}")
    expect(page.links["Left to do: 3"] == f"?q=hello+zlib+{LONG}&left=1", f"{page.links}")


def leaves_out_what_is_done(folder):
    """What is uploaded, installed or not for an architecture is not left to do."""
    lines = [*ARCHS, *(f"enter {arch} {name} 1 optional libs" for arch in ("amd64", "arm64") for name in ("a0", "b0"))]
    lines += ["enter amd64 c0 1 optional libs", "not-for-us arm64 a0 1 no", "take amd64 b1 a0 1", "built 1"]
    with office(folder, [*lines, "uploaded 1"]) as served, Site(folder, **settings(folder, served.port)) as site:
        found = site.json("/index.json?q=a0+b0+c0+d0&left=1")
        expect([row["source"] for row in found["found"]["rows"]] == ["b0", "c0"], f"{found}")
        expect((found["missing"], found["count"]) == (["d0"], 2), f"{found}")
        met = [(row["arch"], row["left"], row["absent"]) for row in found["left"]["rows"]]
        expect(met == [("amd64", 2, 0), ("arm64", 1, 1)], f"{met}")
        page = site.page("/?q=a0+b0+c0+d0&left=1")
        expect(len(page.tables["2 of 4 packages are left to do"]) == 2, f"{page.tables}")


@of_day
def proposes_names(site):
    """For a name with a typing error, and for that of a library, those that are like it, with their states."""
    row = {"Package": "hello", "amd64": "Built", "arm64": "Dep-Wait"}
    for word in ("hllo", "helo", "hellp", "helllo", "ehllo", "HELLP", "hello-dev", "hello-data-2"):
        [met] = site.page(f"/?q={word}").tables["Packages of similar names"]
        expect(met == row | {"Text": f"in place of {word}"}, f"{word}: {met}")
    page = site.page("/?q=zlib+hllo+none")
    expect([one["Package"] for one in page.tables["Packages of similar names"]] == ["hello"], f"{page.tables}")
    expect("No office has a record of hllo, none." in page.text, page.text)
    for word in ("hello", "zzz", "xhellox", "baz-dev+hello", "%22%27%3C"):
        expect("Packages of similar names" not in site.page(f"/?q={word}").tables, word)


@of_day
def tells_what_happened(site):
    """The last events first, chosen by package, architecture, builder, command and day; and the feeds."""
    rows = site.page("/history").tables["Events, the last first"]
    expect([row["Command"] for row in rows[:2]] == ["next", "fail"] and len(rows) == 15, f"{rows[:2]}")
    for words, count in {"source=hello": 9, "arch=amd64": 7, "builder=a1": 4, "command=built": 1, "day=1999-01-01": 0,
                         f"day={time.strftime('%Y-%m-%d', time.gmtime())}&source=zlib": 3, "by=nobody": 0,
                         "command=merge&arch=arm64": 3}.items():
        met = len(site.page(f"/history?{words}").tables.get("Events, the last first", []))
        expect(met == count, f"{words}: {met} events")
    merged = [f"zlib 1:1.3-1 on {arch}: Needs-Build" for arch in ("arm64", "amd64")]
    for path, titles in {"/feed/package/zlib": ["zlib 1:1.3-1 on amd64: Building", *merged],
                         "/feed/arch/arm64": ["hello 1.0-1 on arm64: Build-Attempted"]}.items():
        fields, text = site.ask(path)
        feed = ElementTree.fromstring(text)
        space = "{http://www.w3.org/2005/Atom}"
        expect(fields["Content-Type"].startswith("application/atom+xml") and feed.tag == f"{space}feed", path)
        expect([one.text for one in feed.iterfind(f"{space}entry/{space}title")] == titles, text)
        expect(all(feed.find(f"{space}{name}") is not None for name in ("id", "updated", "author")), text)


def leads_to_the_logs_of_failures(folder):
    """The lists of what failed have the log of each last build, and none of what was never built."""
    with office(folder, lines_of_failure()) as served, Site(folder, **settings(folder, served.port)) as site:
        page = site.page("/arch/amd64/Build-Attempted")
        logs = [row["Log"] for row in page.tables["Build-Attempted on amd64"]]
        expect(logs == ["log of hello 1.0 on amd64"], f"{logs}")
        expect(page.links["log of hello 1.0 on amd64"] == "https://logs.example.org/hello_1.0_amd64", f"{page.links}")
        expect("Log" not in site.page("/arch/amd64/Failed").tables["Failed on amd64"][0], "a log of no build")


def shows_a_porter_what_failed(folder):
    """The last builder of each that failed, how often this version failed, the reasons that several have, and those
    that failed since a day; the first click on Since has the last first."""
    lines = [*ARCHS, "add-builder b2 amd64", *(f"enter amd64 {name} 1 optional libs" for name in ("a0", "b0", "c0"))]
    lines += ["take amd64 b1 a0 1", "attempted 1 no memory", "give-back amd64 a0 1", "take amd64 b2 a0 1"]
    lines += ["attempted 2 ld died", "take amd64 b1 b0 1", "attempted 3 ld died", "take amd64 b1 c0 1"]
    with office(folder, [*lines, "attempted 4 no memory"]) as served:
        days = {1: "2026-04-09", 2: "2026-04-09", 3: "2026-04-11", 4: "2026-04-10"}
        journal = folder / "office.journal"
        texts = []
        for line in journal.read_text().splitlines():
            found = json.loads(line)
            day_of_line = days.get(found["command"].get("take"), "2026-04-08")
            texts.append(json.dumps(found | {"time": f"{day_of_line}T12:00:00Z"}) + "\n")
        journal.write_text("".join(texts))
        (folder / "office.journal.index").unlink()
        update(folder)
        with Site(folder, **settings(folder, served.port)) as site:
            page = site.page("/arch/amd64/Build-Attempted")
            met = [tuple(row[key] for key in ("Package", "Builder", "Failed builds", "Note"))
                   for row in page.tables["Build-Attempted on amd64"]]
            wanted = [("a0", "b2", "2", "ld died"), ("b0", "b1", "1", "ld died"), ("c0", "b1", "1", "no memory")]
            expect(met == wanted, f"{met}")
            expect(page.tables["The same reason"] == [{"Reason": "ld died", "Packages": "2"}], f"{page.tables}")
            expect(page.links["ld died"] == "?q=ld+died" and page.links["Since"] == "?sort=-since", f"{page.links}")
            expect("Its build failed, and no porter has looked at it yet" in page.text, page.text)
            for words, names in {"q=ld+died": ["a0", "b0"], "sort=-since": ["b0", "c0", "a0"],
                                 "sort=builder": ["b0", "c0", "a0"], "sort=-failures": ["a0", "b0", "c0"],
                                 "from=2026-04-10": ["b0", "c0"], "from=2026-04-12": [], "from=x": ["a0", "b0", "c0"],
                                 "from=2026-04-10&q=memory": ["c0"]}.items():
                found = site.json(f"/arch/amd64/Build-Attempted.json?{words}")
                met = [row["source"] for row in found["records"]["rows"]]
                expect(met == names, f"{words}: {met}")
            expect(found["reasons"]["rows"] == [{"text": "ld died", "count": 2}], f"{found['reasons']}")


def says_why_there_is_nothing(folder):
    """An architecture without a record of a package is named, a place in the queue says of how many, each state what it
    means; and what is not known leads to a search."""
    lines = [*ARCHS, *(f"enter amd64 s{at:03} 1 optional libs" for at in range(MANY))]
    with office(folder, lines) as served, Site(folder, **settings(folder, served.port)) as site:
        page = site.page("/package/s149")
        expect(page.tables["Where it stands"][0]["Place"] == "150 of 250", f"{page.tables}")
        expect(page.links["150"] == "/arch/amd64/Needs-Build?suite=sid&page=2", f"{page.links}")
        said = "No record on arm64: no merge found it listed there, or it was removed."
        expect(said in page.text, page.text)
        expect("Needs-Build It waits in the queue for a builder." in page.text, page.text)
        expect(page.links["What names it"] == "/?q=s149", f"{page.links}")
        expect(site.json("/package/s149.json")["absent"] == [{"arch": "arm64", "suite": "sid"}], "its JSON")
        page = site.page("/package/s999", 404)
        expect(page.links["Search for it"] == "/?q=s999", f"{page.links}")


def shows_what_was_removed(folder):
    """A record that was forgotten, and an architecture and a builder that were removed: that stands in the history of
    each package and in its feed, and they are on no list; a builder that was removed keeps its builds and is not called
    silent."""
    lines = [*ARCHS, "add-builder a2 arm64", "enter amd64 hello 1.0 optional devel", "enter amd64 tar 3 optional libs"]
    lines += [f"enter arm64 {name} 1.0 optional devel" for name in ("hello", "harp")]
    lines += ["next arm64 a1", "attempted 1 cc died", "remove-builder a2 arm64", "forget amd64 hello 1.0"]
    with office(folder, [*lines, "remove-arch arm64"]) as served:
        given = {"SUITES": f"sid={served.port}", "INDEXES": f"sid={folder}/office.journal.index"}
        with Site(folder, now=int(time.time()) + 10**6, **given) as site:
            page = site.page("/package/hello")
            met = [(row["Architecture"], row["Command"], row["State"]) for row in page.tables["History"]]
            expect(met[:2] == [("arm64", "remove-arch", "removed"), ("amd64", "forget", "removed")], f"{met}")
            expect("Where it stands: no office has a record of it now." in page.text, page.text)
            titles = re.findall("<title>(hello [^<]*)</title>", site.ask("/feed/package/hello")[1])
            expect(titles[:2] == ["hello 1.0 on arm64: removed", "hello 1.0 on amd64: removed"], f"{titles}")
            page = site.page("/")
            expect([row["Architecture"] for row in page.tables["Packages in each state"]] == ["amd64"], "architectures")
            [silent] = [table for caption, table in page.tables.items() if caption.startswith("Builders without")]
            expect([row["Builder"] for row in silent] == ["b1"], f"{silent}")
            for path in ("/arch/arm64", "/arch/arm64/Needs-Build", "/builder/a2"):
                site.ask(path, 404)
            expect([row["Package"] for row in site.page("/builder/a1").tables["Builds"]] == ["harp"], "its builds")
            for word, names in {"h": [], "har": [], "a": ["tar"]}.items():
                found = site.json(f"/index.json?q={word}")["found"]
                met = [row["source"] for row in found["rows"]]
                expect((met, found["total"]) == (names, len(names)), f"{word}: {found}")
            rows = site.page("/history?command=remove-arch").tables["Events, the last first"]
            expect(sorted(row["Package"] for row in rows) == ["harp", "hello"], f"{rows}")
            served.post("/v1/remove-builder", name="b1", arch="amd64")
            expect("Builders without a word for 24 hours" not in site.page("/").tables, "an office without builders")


def sorts_and_parts_lists(folder):
    """All of a list is reached by its pages, in the order that the address says; the queue in its own."""
    lines = [*ARCHS, *(f"enter amd64 s{at:03} 1.0 optional {'libs' if at % 2 else 'games'}" for at in range(MANY))]
    with office(folder, lines) as served, Site(folder, **settings(folder, served.port)) as site:
        for words, key in (("sort=source", "Package"), ("sort=-source", "Package"), ("sort=place", "Place"),
                           ("sort=since", "Package")):
            pages = [site.page(f"/arch/amd64/Needs-Build?{words}&page={at}") for at in (1, 2, 3)]
            rows = [row for page in pages for row in page.tables[f"Needs-Build on amd64: {MANY}"]]
            expect(len({row["Package"] for row in rows}) == MANY == len(rows), f"{words}: rows are lost or twice there")
            met = [int(row[key]) if key == "Place" else row[key] for row in rows]
            expect(met == sorted(met, reverse="-" in words) or words == "sort=since", f"{words}: {met}")
            expect({"Page 1", "Page 2", "Page 3"} <= pages[0].links.keys(), f"{pages[0].links}")
        first = site.page("/arch/amd64/Needs-Build").tables[f"Needs-Build on amd64: {MANY}"][0]
        expect((first["Place"], first["Package"]) == ("1", "s001"), f"{first}")
        page = site.page("/arch/amd64/Needs-Build?q=s24&sort=-source")
        met = [row["Package"] for row in page.tables["Needs-Build on amd64"]]
        expect(met == [f"s24{at}" for at in range(9, -1, -1)], f"records with a word: {met}")
        expect('aria-sort="descending"' in page.source and page.links["Package"] == "?q=s24&sort=source", "the head")
        served.post("/v1/next", arch="amd64", builder="b1")
        for at in range(MANY - 1):
            served.post("/v1/fail", arch="amd64", source=f"s{at:03}", version="1.0", note=f"no {at % 7}")
        for words in ("", "sort=-source"):
            rows = []
            for at in (1, 2, 3):
                found = site.json(f"/arch/amd64/Failed.json?page={at}&{words}")["records"]
                rows += [row["source"] for row in found["rows"]]
            expect(rows == sorted(rows, reverse=bool(words)) and len(rows) == MANY - 1, f"failures: {rows}")
        for words in ("page=0", "page=x", "page=99999999", "sort=what", "sort=--source", "page=4"):
            site.page(f"/arch/amd64/Needs-Build?{words}")


# ---- texts and answers


@of_day
def keeps_texts_texts(site):
    """Markup, quotes, marks that turn writing round, control characters and long names are shown as they are."""
    known = [f"/package/{LONG}", "/arch/amd64/Failed", "/history", "/?q=alert", f"/package/{LONG}.json"]
    known += ["/feed/arch/amd64", "/?q=%3Cscript%3E&sort=%22%3E", "/history?source=%3Cscript%3E&day=%22"]
    unknown = ["/package/%3Cscript%3E", "/builder/%3Cimg%20src=x%3E", "/arch/%22x/%3Cb%3E"]
    for path in (*known, *unknown):
        text = site.ask(path, 404 if path in unknown else 200)[1]
        is_json = path.endswith(".json")
        expect(is_json or not re.search("<script|<img|<b>", text), f"{path}: markup: {text[:300]}")
        expect("\u202e" not in text and "\x1b" not in text, f"{path}: characters that a reader does not see")
    page = site.page(f"/package/{LONG}")
    note = page.tables["Where it stands"][0]["Note"]
    expect(note == ODD.replace("\u202e", "\\u202e").replace("\x1b", "\\u001b"), note)
    expect(LONG in page.text, "the long name")


@of_day
def says_what_its_answers_are(site):
    """Each answer has a strict policy; no page has a script, a style of its own, or a link to another host but those of
    the settings; nothing but GET and HEAD is answered."""
    others = re.compile(r"https://(logs|tracker|bugs)\.example\.org/")
    for path in (*PATHS, "/style.css", "/package/hello.json", "/feed/arch/arm64", "/nowhere", "/package/none"):
        fields, text = site.ask(path, 404 if path in ("/nowhere", "/package/none") else 200)
        policy = fields["Content-Security-Policy"]
        expect("default-src 'none'" in policy and "unsafe" not in policy and "frame-ancestors 'none'" in policy, policy)
        expect(fields["X-Content-Type-Options"] == "nosniff", f"{fields}")
        expect(fields["Referrer-Policy"] == "no-referrer", f"{fields}")
        expect("Set-Cookie" not in fields and "waitress" not in f"{fields}", f"{fields}")
        if fields["Content-Type"].startswith("text/html"):
            expect(not re.search(r"<script|<style|\sstyle=|\son[a-z]+=|javascript:", text), f"{path} has code in it")
            links = re.findall(r'(?:href|src|action)="([^"]*)"', text)
            expect_none(link for link in links if not (re.match("[/?#](?!/)", link) or others.match(link)))
            expect(text.count("<caption>") == text.count("<table") and text.count("<h1>") == 1, f"{path}: its captions")
            expect('<html lang="en">' in text and text.count('scope="col"') == text.count('role="columnheader"'), path)
    expect(site.ask("/package/hello", method="HEAD")[1] == "", "HEAD")
    for method in ("POST", "PUT", "DELETE"):
        site.ask("/package/hello", 405, method)
    site.ask("/?q=" + "x" * 9000, 414)


@of_day
def has_links_that_lead_somewhere(site):
    """Each link of each page that is reached from the first one, but those elsewhere, has a page."""
    seen, left = set(), ["/"]
    while left and len(seen) < 400:
        path = left.pop()
        seen.add(path)
        fields, text = site.ask(path)
        if "html" in fields["Content-Type"]:
            for link in re.findall(r'href="([^"]*)"', text):
                whole = (path.partition("?")[0] + link if link.startswith("?") else link).replace("&amp;", "&")
                if whole.startswith("/") and whole not in seen and "sort=" not in whole:
                    left.append(whole)
    return f"{len(seen)} pages"


# ---- what is missing


def says_what_is_missing(folder):
    """A stopped office, a slow one, one that answers what it should not; a package, an architecture, a state and a
    builder that are not known; each has its page and its status."""
    with Site(folder, **settings(folder, free_port())) as site:
        for path in (*(path for path in PATHS if path != "/history"), "/package/hello.json"):
            expect("the office does not answer: Connection refused" in site.ask(path, 503)[1], path)
    with day(folder) as served:
        served.process.kill()
        with Site(folder, **settings(folder, served.port)) as site:
            expect(len(site.page("/package/hello", 503).tables["History"]) == 9, "a history without an office")
            expect(len(site.page("/history").tables["Events, the last first"]) == 15, "all events without an office")
            site.ask("/builder/b1", 503)
    with silent_office() as port, Site(folder, **settings(folder, port, WAIT="1")) as site:
        begun = time.monotonic()
        expect("does not answer within 1 seconds" in site.page("/package/hello", 504).text, "a slow office")
        expect(time.monotonic() - begun < 20, "the site is as slow as its office")
    odd = json.dumps(record("hello", "Failed") | {"take": "x"}).encode()
    for body in (b"{}", b"[]", b"<html>", b'{"http":"NoRoute"}', b'{"refused":"Store"}', b'{"counts":{}}', odd):
        with odd_office(body) as port, Site(folder, **settings(folder, port)) as site:
            status = 503 if b"Store" in body else 502
            for path in ("/", "/package/hello", "/arch/amd64/Failed", "/builder/b1"):
                expect("sid: " in site.page(path, status).text, f"{body}: {path}")
    with day(folder) as served, Site(folder, **settings(folder, served.port)) as site:
        unknown = ["/package/none", "/package/none.json", "/package/a/b", "/arch/sparc", "/arch/sparc/Failed"]
        for path in (*unknown, "/arch/amd64/Broken", "/builder/none", "/what"):
            site.ask(path, 404)
        expect("No office and no history knows none." in site.page("/package/none", 404).text, "an unknown package")


def shows_what_it_has(folder):
    """Without an index, or with one that is behind, a page says so, and has all else; so it is if one of two offices
    does not answer; and an empty office has no packages."""
    with day(folder) as served:
        with Site(folder, **settings(folder, served.port, INDEXES="sid=/nowhere/index")) as site:
            page = site.page("/package/hello")
            expect("sid: there is no history: No such file" in page.text, page.text)
            expect("Since" not in page.tables["Where it stands"][0], "since when")
            site.ask("/history", 503)
        served.post("/v1/give-back", arch="amd64", source="hello", version="1.0-1")
        two = {"SUITES": f"sid={served.port} old={free_port()}", "ARCHS": "sid=amd64,arm64 old=amd64"}
        with Site(folder, **settings(folder, served.port, **two)) as site:
            page = site.page("/package/hello")
            for said in ("sid: the history ends 1 command ago", "old: the office does not answer"):
                expect(said in page.text, page.text)
            rows = page.tables["Where it stands"]
            met = [(row["Suite"], row["State"]) for row in rows]
            expect(met == [("sid", "Needs-Build"), ("sid", "Dep-Wait")], f"{met}")
            expect(not rows[0]["Since"] and rows[1]["Since"], "the old history is taken for true")
            expect(len(site.page("/").tables["Packages in each state"]) == 2, "the office that answers")
            site.ask("/package/hello?suite=old", 503)
    empty = folder / "empty"
    empty.mkdir()
    with office(empty, ARCHS) as served, Site(empty, **settings(empty, served.port)) as site:
        expect(site.page("/").tables["Packages in each state"][0]["Installed"] == "0", "an empty office")
        expect("none." in site.page("/arch/amd64/Failed").text and "none." in site.page("/history").text, "no lists")


def shows_an_office_without_architectures(folder):
    """An office that was just made has a first page that says so, and no page of an architecture."""
    with Server(folder, "office.db") as served, Site(folder, SUITES=f"sid={served.port}") as site:
        text = site.page("/").text
        expect("Packages in each state: the office has no architecture." in text, text)
        expect("no office answers" not in text, text)
        for path in ("/arch/amd64", "/arch/amd64/Failed", "/package/hello", "/builder/b1"):
            site.ask(path, 404)
        expect("none." in site.page("/?q=hello").text, "a search in nothing")
        expect(site.json("/index.json")["archs"]["rows"] == [], "its JSON")


def waits_no_longer_than_it_says(folder):
    """An office whose answer comes byte by byte, or never ends, gets no more than the time of a page."""
    for body in (b'{"accepted":1,"arch":"amd64","counts":{}}', None):
        with dribbling_office(body) as port, Site(folder, **settings(folder, port, WAIT="1")) as site:
            begun = time.monotonic()
            expect("does not answer within 1 seconds" in site.page("/arch/amd64", 504).text, f"{body}")
            expect(time.monotonic() - begun < 20, "the site waits as long as its office likes")


def says_before_when(folder):
    """If the journal begins later than the office, or is cut off at its front, a page says before when a package came
    into its state, and guesses no age."""
    with day(folder) as served:
        lines = (folder / "office.journal").read_text().splitlines(keepends=True)
        late = next(at for at, line in enumerate(lines) if '"command":"give-back"' in line)
        (folder / "late.journal").write_text("".join(lines[late:]))
        update(folder, "late")
        given = settings(folder, served.port, INDEXES=f"sid={folder}/late.journal.index")
        with Site(folder, **given) as site:
            amd64, arm64 = site.page("/package/hello").tables["Where it stands"]
            expect(amd64["Since"].startswith("before 20") and re.match(r"\d{4}-", arm64["Since"]), f"{amd64} {arm64}")
            rows = site.json("/package/hello.json")["records"]["rows"]
            expect([row["since"]["is_exact"] for row in rows] == [False, True], f"{rows}")
            expect(rows[0]["since"]["age"] is None, f"{rows[0]}")
            listed = site.page("/arch/amd64/Built").tables["Built on amd64"]
            expect(listed[0]["Since"] == amd64["Since"], f"{listed}")


def says_before_a_merge_that_names_nothing(folder):
    """If the line of a merge does not say what it changed on an architecture, what has waited there since came into its
    state before a time; what a later line names has its own, and so has all elsewhere."""
    with day(folder) as served:
        texts = []
        for line in (folder / "office.journal").read_text().splitlines():
            entry = json.loads(line)
            for part in entry["command"].get("parts", [])[1:]:
                del part["changes"]
            texts.append(json.dumps(entry) + "\n")
        (folder / "other.journal").write_text("".join(texts))
        update(folder, "other")
        given = settings(folder, served.port, INDEXES=f"sid={folder}/other.journal.index")
        with Site(folder, **given) as site:
            for name, is_exact in {"zlib": False, "hello": True, LONG: False}.items():
                rows = site.json(f"/package/{name}.json")["records"]["rows"]
                met = {row["arch"]: row["since"]["is_exact"] for row in rows}
                expect(met == {"amd64": True, "arm64": is_exact}, f"{name}: {met}")


def follows_its_index(folder):
    """What happens while the site serves stands on its pages once the index has it."""
    with day(folder) as served, Site(folder, **settings(folder, served.port)) as site:
        before = len(site.page("/history").tables["Events, the last first"])
        line = json.loads((folder / "office.journal").read_text().splitlines()[-1])
        line |= {"accepted": line["accepted"] + 1, "by": "porter"}
        line["command"] = {"command": "fail", "arch": "amd64", "source": "zlib", "version": "1:1.3-1", "note": "no"}
        with open(folder / "office.journal", "a", encoding="utf-8") as journal:
            journal.write(json.dumps(line) + "\n")
        update(folder)
        rows = site.page("/history?by=porter").tables["Events, the last first"]
        expect([(row["Package"], row["Command"], row["By"]) for row in rows] == [("zlib", "fail", "porter")], f"{rows}")
        expect(len(site.page("/history").tables["Events, the last first"]) == before + 1, "all events")


def takes_the_settings_that_it_says(folder):
    """Others are refused with their place and status 2; a port that is in use ends it with 3."""
    good = settings(folder, 8080)
    wrong = [
        {"SUITES": ""}, {"SUITES": "sid"}, {"SUITES": "sid=x"}, {"SUITES": "sid=1 sid=2"}, {"ARCHS": "sid=all"},
        {"ARCHS": "sid=,"}, {"ARCHS": "sid=amd64 old=amd64"}, {"PORT": "0"}, {"WAIT": "x"}, {"LOG": "{source"},
        {"LOG": "https://x/{0}"}, {"LOG": "https://x/{source.__class__}"}, {"TRACKER": "javascript:alert(1)"},
        {"BUGS": "https://x/{arch}"}, {"LOG": "https://x/{source!r}"}, {"WHAT": "1"},
        {"FORMS": "yes"}, {"FORMS": "http://builds.example.org"}, {"FORMS": "https://x.example/"}, {"FORGET": "0"},
        {"FORMS": "https://X.example"}, {"FORMS": "https://x.example:443"}, {"FORMS": "http://localhost.example"},
    ]
    for others in wrong:
        (folder / "web.conf").write_text("".join(f'{key}="{value}"\n' for key, value in (good | others).items()))
        done = subprocess.run([BIN / "wb-web", "--settings", folder / "web.conf"], capture_output=True, check=False)
        said = done.stderr.decode()
        expect(done.returncode == 2 and said.startswith("wb-web: ") and "Traceback" not in said, f"{others}: {said}")
    with silent_office() as port:
        (folder / "web.conf").write_text("".join(f'{key}="{value}"\n' for key, value in good.items()))
        words = [interpreter(), BIN / "wb-web", "--settings", folder / "web.conf", "--port", str(port)]
        done = subprocess.run(words, capture_output=True, timeout=30, check=False)
        expect(done.returncode == 3 and b"in use" in done.stderr, f"{done}")
    return f"{len(wrong)} settings"


def lists_its_settings(folder):
    """The help, the page of the manual and the settings of the package name the same settings."""
    said = subprocess.run([BIN / "wb-web", "--help"], capture_output=True, text=True, check=True).stdout
    page = (ROOT / "docs/wb-web.1").read_text(encoding="utf-8")
    keys = set(re.findall("^#?([A-Z_]+)=", (ROOT / "packaging/web.conf").read_text(encoding="utf-8"), re.M))
    from wb_tools.web.settings import READERS

    expect(keys == {key.upper() for key in READERS}, f"packaging/web.conf has {keys}")
    for key in keys:
        expect(re.search(rf"\b{key}\b", said) and re.search(rf"^\.B {key}$", page, re.M), f"{key} is not described")


# ---- colors


def has_texts_that_are_seen():
    """Texts and links differ by 4.5:1 also from the ground of heads, notes and fields, in light and dark."""
    schemes = [dict(re.findall("--([a-z-]+): #([0-9a-f]+)", part)) for part in STYLE.split("@media", 2)[:2]]
    for colors in schemes:
        for name in ("text", "quiet", "link"):
            for ground in ("back", "head"):
                met = contrast(colors[name], colors[ground])
                expect(met >= 4.5, f"{name} differs from {ground} by {met:.1f}")


TESTS = [
    shows_a_package, shows_where_all_stands, shows_a_builder, finds_packages, reads_lists_as_they_are_pasted,
    counts_what_is_left, leaves_out_what_is_done, proposes_names, tells_what_happened, leads_to_the_logs_of_failures,
    shows_a_porter_what_failed, says_why_there_is_nothing, shows_what_was_removed, sorts_and_parts_lists,
    keeps_texts_texts, says_what_its_answers_are, has_links_that_lead_somewhere, says_what_is_missing,
    shows_what_it_has, shows_an_office_without_architectures, waits_no_longer_than_it_says, says_before_when,
    says_before_a_merge_that_names_nothing, follows_its_index, takes_the_settings_that_it_says, lists_its_settings,
    has_texts_that_are_seen, *form_cases.TESTS,
]

if __name__ == "__main__":
    sys.exit(main(TESTS))

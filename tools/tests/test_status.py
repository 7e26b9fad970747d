#!/usr/bin/env python3
"""Tests of what a person looks at: the tables of tools/bin/wb-table and the page of tools/bin/wb-status, made of the
answers of examples/, of odd texts, and of what a stand-in for a serving office and the program itself answer. Each test
has a folder of its own.

    tools/tests/test_status.py [NAME..]     these tests, or all

From the environment: WB is the program, ./wb of this repository where it is not set. All that is wanted was written by
hand.
"""
import contextlib
import html.parser
import http.server
import json
import os
import shutil
import socket
import stat
import subprocess
import sys
import threading
import time
import urllib.parse

from harness import BIN, ROOT, WB, expect, free_port, main, run
from look_runs import in_terminal
from wb_tools import answers as office_answers
from wb_tools.columns import LEAST_READ
from wb_tools.style import AGE, AGE_HASH

EXAMPLE = ROOT / "examples" / "status"
WAIT = 30


def call(folder, *words, said=b"", status=0, message="", **environment):
    """What a script writes on standard output, if it ends with this status and its messages have this text."""
    variables = {**os.environ, "SOURCE_DATE_EPOCH": "1776000000", **environment}
    command = [BIN / words[0], *map(str, words[1:])]
    done = subprocess.run(
        command, cwd=folder, input=said, env=variables, capture_output=True, timeout=WAIT, check=False
    )
    errors = done.stderr.decode()
    met = (done.returncode == status, message in errors, "Traceback" not in errors, bool(errors) == bool(message))
    expect(all(met), f"{words} ends with {done.returncode} and {errors!r}, not {status} and {message!r}")
    return done.stdout.decode()


def record(source, state, **others):
    fields = {
        "arch": "amd64", "build": "1.0", "build_priority": 0, "earlier": False, "holder": None, "message": "",
        "note": "", "number": 0,
    }
    fields |= {
        "priority": "optional", "section": "devel", "source": source, "state": state, "take": None, "version": "1.0",
        "waits": "",
    }
    return fields | others


def line(**found):
    return json.dumps(found, ensure_ascii=False).encode() + b"\n"


def counts(**others):
    """The counts of a summary; an underscore stands for a hyphen."""
    return {state: others.get(state.replace("-", "_"), 0) for state in office_answers.STATES}


# ---- tables

# Answers, and the tables that they make.
TABLES = [
    (
        line(
            arch="amd64", queue=[{"build": "1.0-1+b2", "source": "hello"}, {"build": "2:1", "source": "libsigc++-2.0"}]
        ),
        "amd64: the queue has 2 packages\nPLACE  SOURCE         BUILD\n    1  hello          1.0-1+b2\n"
        "    2  libsigc++-2.0  2:1\n",
    ),
    (line(arch="amd64", queue=[]), "amd64: the queue has no packages\n"),
    (
        line(
            arch="amd64", records=[record("aa", "Failed", note="no space", build="1.0+b1"), record("bb", "Failed")],
            state="Failed",
        ),
        "amd64: 2 packages in Failed\n"
        "SOURCE  BUILD   PRIORITY  SECTION  NOTE\n"
        "aa      1.0+b1  optional  devel    no space\n"
        "bb      1.0     optional  devel\n",
    ),
    (
        line(
            builder="b1",
            records=[
                record("aa", "Building", holder="b1", take=9),
                record("zz", "Built", holder="b1", take=10, arch="arm64"),
            ],
        ),
        "b1 holds 2 packages\nARCH   SOURCE  BUILD  STATE     TAKE\namd64  aa      1.0    Building     9\n"
        "arm64  zz      1.0    Built       10\n",
    ),
    (
        line(
            **record(
                "aa", "Dep-Wait", waits="libx-dev (>= 2)", build_priority=-5, earlier=True, number=3, build="1.0+b3",
                message="new libz",
            )
        ),
        "aa on amd64\nSTATE           Dep-Wait\nVERSION         1.0\nBUILD           1.0+b3\nBUILD PRIORITY  -5\n"
        "BUILT BEFORE    yes\n"
        "PRIORITY        optional\nSECTION         devel\nWAITS           libx-dev (>= 2)\nMESSAGE         new libz\n",
    ),
    (
        line(arch="amd64", depends="libx-dev, libz-dev (>= 1) | libz2-dev", source="aa"),
        "aa on amd64 needs\n  libx-dev\n  libz-dev (>= 1) | libz2-dev\n",
    ),
    (line(arch="amd64", depends="", source="aa"), "aa on amd64 needs nothing that is stated\n"),
    (line(arch="amd64", depends=None, source="aa"), "what aa on amd64 needs cannot be read\n"),
    (line(accepted=12345, handed=7), "the office\nCOMMANDS ACCEPTED  12,345\nLAST TAKE NUMBER   7\n"),
    (
        line(accepted=2, archs=[{"arch": "amd64", "cpu": "amd64", "os": "linux"},
                                {"arch": "armhf", "cpu": "arm", "os": "linux"}]),
        "the office has 2 architectures\nARCH   OS     CPU\namd64  linux  amd64\narmhf  linux  arm\n",
    ),
    (line(accepted=0, archs=[]), "the office has no architectures\n"),
    (
        line(accepted=3, builders=[{"arch": "amd64", "builder": "b1"}, {"arch": "armhf", "builder": "b1"}]),
        "the office has one builder\nBUILDER  ARCH\nb1       amd64\nb1       armhf\n",
    ),
    (
        line(accepted=7, arch="amd64", counts=counts(Needs_Build=2, Installed=12345))
        + line(accepted=7, arch="arm64", counts=counts(Not_For_Us=1)),
        "STATE              amd64  arm64\nNeeds-Build            2      0\nBuilding               0      0\n"
        "Built                  0      0\n"
        "Uploaded               0      0\nInstalled         12,345      0\nDep-Wait               0      0\n"
        "BD-Uninstallable       0      0\n"
        "Build-Attempted        0      0\nFailed                 0      0\nNot-For-Us             0      1\n"
        "all               12,347      1\n",
    ),
]

# Keys, and what they are of some of these answers.
PLAIN = [
    ("source,build", "hello\t1.0-1+b2\nlibsigc++-2.0\t2:1\n"),
    ("source,version,note", "aa\t1.0\tno space\nbb\t1.0\t\n"),
]
PLAIN += [("take,arch", "9\tamd64\n10\tarm64\n"), ("holder,earlier,build_priority", "\ttrue\t-5\n")]
PLAIN += [("arch,os,cpu", "amd64\tlinux\tamd64\narmhf\tlinux\tarm\n"), ("builder,arch", "b1\tamd64\nb1\tarmhf\n")]
PLACES = [0, 2, 3, 4, 9, 11]


def shows_each_answer(folder):
    """Each answer as its table, from standard input and from a file, and all in a row."""
    for said, wanted in TABLES:
        met = call(folder, "wb-table", said=said)
        expect(met == wanted, f"{said}: {met!r} in place of {wanted!r}")
    (folder / "answers").write_bytes(b"\n".join(said for said, _ in TABLES))
    met = call(folder, "wb-table", "answers")
    expect(met == "\n".join(wanted for _, wanted in TABLES), f"in a row: {met!r}")
    expect(call(folder, "wb-table", "-", said=TABLES[0][0]) == TABLES[0][1], "- is not standard input")
    expect(
        call(folder, "wb-table", said=b'{"accepted":1,"ok":"add-arch"}\n \n') == "", "the answer to a command is shown"
    )
    for at, (keys, wanted) in enumerate(PLAIN):
        met = call(folder, "wb-table", "--plain", keys, said=TABLES[PLACES[at]][0])
        expect(met == wanted, f"--plain {keys}: {met!r}")
    met = call(folder, "wb-table", "--plain", "source,version", "--join", "_", said=TABLES[2][0])
    expect(met == "aa_1.0\nbb_1.0\n", f"--join: {met!r}")
    call(
        folder, "wb-table", "--plain", "version", said=TABLES[0][0], status=1,
        message="there is an answer whose packages do not have version",
    )
    call(
        folder, "wb-table", "--plain", "source", said=TABLES[-1][0], status=1,
        message="there is an answer whose packages do not have source",
    )
    more = call(folder, "wb-table", "--first", "1", said=TABLES[0][0])
    expect(
        more == "amd64: the queue has 2 packages\nPLACE  SOURCE  BUILD\n    1  hello   1.0-1+b2\nand 1 more\n",
        f"--first 1: {more!r}",
    )
    return f"{len(TABLES)} answers"


# Texts as the office may have them, and how they are shown.
ODD = [
    ("a\nb\tc\rd", r"a\nb\tc\rd"),
    ("\x1b[31m\x07\x00\x7f", r"\u001b[31m\u0007\u0000\u007f"),
    ("\u202egnp.exe\u2028\u00a0\ufeff", r"\u202egnp.exe\u2028\u00a0\ufeff"),
    ("\U000e0041\ue000", r"\U000e0041\ue000"),
    ("grün 中文 \U0001f600 e\u0301", "grün 中文 \U0001f600 e\u0301"),
    ("<script>alert('1')</script>&lt;\"", "<script>alert('1')</script>&lt;\""),
]


def shows_odd_texts_as_text(folder):
    """No text moves a cursor or turns the writing round; columns stay aligned after wide characters, and a terminal of
    ASCII takes all."""
    records = [record(f"s{at}", "Failed", note=text) for at, (text, _) in enumerate(ODD)]
    said = line(arch="amd64", records=records, state="Failed")
    met = call(folder, "wb-table", said=said).split("\n")[2:-1]
    expect(met == [f"s{at}      1.0    optional  devel    {shown}" for at, (_, shown) in enumerate(ODD)], f"{met}")
    met = call(folder, "wb-table", said=said, LC_ALL="C", PYTHONUTF8="0", PYTHONIOENCODING="ascii")
    expect(r"gr\xfcn \u4e2d\u6587 \U0001f600" in met, f"in ASCII: {met}")
    wide = [record("aa", "Building", holder="中", take=1), record("bb", "Building", holder="b1", take=2)]
    met = call(folder, "wb-table", said=line(arch="amd64", records=wide, state="Building")).split("\n")[1:3]
    expect(
        met == ["SOURCE  BUILD  HOLDER  TAKE  PRIORITY  SECTION", "aa      1.0    中         1  optional  devel"],
        f"{met}",
    )


def fits_a_terminal(folder):
    """A table is no wider than its terminal: what orders the queue is left out first and named, then messages are cut,
    the reason after them, and names last. With --wide, and where there is no terminal, all is whole."""
    records = [
        record("golang-github-containernetworking-plugin-dnsname", "Build-Attempted", note="x" * 200,
               build="1.1.1+ds-2+b3", earlier=True, message="Rebuild against libfoo2"),
        record("bb", "Build-Attempted", note="y" * 10),
    ]
    said = line(arch="amd64", records=records, state="Build-Attempted")
    left_out = "left out here: BUILT BEFORE, PRIORITY, SECTION, MESSAGE; --wide shows all"
    for columns in (200, 120, 100, 80, 60, 44):
        rows = in_terminal(["wb-table"], said, columns).splitlines()
        expect(max(map(len, rows[1:4])) <= columns, f"at {columns}: {rows}")
        expect(("SECTION" in rows[1]) == (columns == 200), f"at {columns}: {rows[1]}")
        expect((rows[2].split()[0] == records[0]["source"]) == (columns >= 100), f"at {columns}: {rows[2]}")
        expect(rows[3].endswith("y" * 10) and "x" * 9 in rows[2], f"at {columns}: {rows}")
        expect(rows[4:] == [left_out] * (columns <= 100) + [left_out] * (columns == 120) or columns == 200, f"{rows}")
    expect(in_terminal(["wb-table"], said, 80).splitlines()[2].count("x") >= LEAST_READ - 3, "the reason at 80")
    short = line(arch="amd64", records=[record("aa", "Failed", note="z" * 40)], state="Failed")
    met = in_terminal(["wb-table"], short, 80).splitlines()
    expect(met[1:] == ["SOURCE  BUILD  PRIORITY  SECTION  NOTE", f"aa      1.0    optional  devel    {'z' * 40}"], met)
    met = in_terminal(["wb-table"], short, 70).splitlines()
    expect(met[1:3] == ["SOURCE  BUILD  PRIORITY  NOTE", f"aa      1.0    optional  {'z' * 40}"], f"at 70: {met}")
    expect("x" * 200 in in_terminal(["wb-table", "--wide"], said, 60), "--wide cuts")
    expect("x" * 200 in call(folder, "wb-table", said=said, COLUMNS="60"), "cut where there is no terminal")
    many = b"".join(line(accepted=1, arch=f"arch{at}", counts=counts(Installed=12345)) for at in range(10))
    rows = in_terminal(["wb-table"], many, 80).splitlines()
    heads = [row.split()[1:] for row in rows if row.startswith("STATE")]
    expect(max(map(len, rows)) <= 80 and sum(heads, []) == [f"arch{at}" for at in range(10)], f"{heads}")


MALFORMED = [
    b"{", b"[]", b"7", b"null", b"\xff", b'{"arch":"amd64"}', b'{"arch":"amd64","queue":[{"build":1,"source":"x"}]}',
    b"[" * 100000,
]
MALFORMED += [
    b'{"arch":"amd64","queue":{}}', b'{"accepted":1,"arch":"amd64","counts":{"Failed":"1"}}',
    b'{"accepted":true,"arch":"amd64","counts":{}}',
]
MALFORMED += [json.dumps({"builder": "b1", "records": [record("aa", "Building", take=1.5)]}).encode()]
MALFORMED += [json.dumps({"arch": "a", "records": [record("aa", "Building", note=None)], "state": "Building"}).encode()]


def refuses_what_is_no_answer(folder):
    """Refusals and faults of the office and malformed lines are said with their place, and what else there is is
    shown."""
    good, shown = TABLES[1]
    for said in (
        b'{"code":1,"refused":"UnknownArch"}', b'{"fault":"line"}', b'{"http":"NoRoute"}',
        b'{"fault":"store","store":"InUse"}',
    ):
        met = call(
            folder, "wb-table", said=good + said + b"\n" + good, status=1,
            message=f"standard input, line 2: the office answers {said.decode()}",
        )
        expect(met == f"{shown}\n{shown}", f"{said}: {met!r}")
        expect(
            call(folder, "wb-status", said=said, status=1, message="standard input, line 1: the office answers") == "",
            f"a page of {said}",
        )
    places = [f"wb-table: standard input, line {2 * at + 1}: this is no " for at in range(len(MALFORMED))]
    done = subprocess.run(
        [BIN / "wb-table"], input=b"".join(said + b"\n" + good for said in MALFORMED), capture_output=True, check=False
    )
    messages = done.stderr.decode().splitlines()
    expect(len(messages) == len(places) and all(map(str.startswith, messages, places)), f"{messages}")
    expect(
        done.returncode == 1 and done.stdout.decode() == "\n".join([shown] * len(MALFORMED)),
        f"{done.returncode}, {done.stdout}",
    )
    for said in MALFORMED[:1] + MALFORMED[-1:]:
        expect(
            call(folder, "wb-status", said=said, status=1, message="standard input, line 1: this is no ") == "",
            f"a page of {said}",
        )
    (folder / "good").write_bytes(good)
    met = call(folder, "wb-table", "nowhere", "good", status=3, message="wb-table: nowhere: No such file")
    expect(met == shown, f"after a file that is not there: {met!r}")
    return f"{len(MALFORMED)} lines"


def takes_the_words_that_it_says(folder):
    """Each has a help with an example and its statuses, and ends with 2 for other words."""
    for name in ("wb-table", "wb-status"):
        said = call(folder, name, "--help")
        expect(
            "example:\n" in said and f"tools/bin/{name} " in said and "Status: 0" in said,
            f"{name} --help has no example or no statuses",
        )
        expect((BIN / name).stat().st_mode & stat.S_IXUSR, f"{name} cannot be executed")
        for words in (
            ["--no-such-option"], ["--first", "x"], ["--plain", "x"], ["--url", "http://example.org"],
            ["--url", "https://127.0.0.1"], ["--url", "127.0.0.1:80"],
        ):
            call(folder, name, *words, status=2, message="usage:")
    url = "http://127.0.0.1:1"
    for words in (
        [], ["run"], ["item", "amd64"], ["by-state", "amd64", "Failed", "x"], ["depends"], ["archs", "amd64"],
        ["office", "x"],
    ):
        call(folder, "wb-table", "--url", url, *words, status=2, message="usage:")
    for words in (
        ["--queries"], ["--url", url, "--arch", "amd64", "file"], ["--arch", "all"], ["--rows", "0"],
        ["--first", "-1"],
    ):
        call(folder, "wb-status", *words, status=2, message="usage:")
    call(folder, "wb-status", "x", status=2, message="SOURCE_DATE_EPOCH", SOURCE_DATE_EPOCH="now")


# ---- the page


class Page(html.parser.HTMLParser):
    """A page, of which each element is closed in its order: its tables by their captions, its ids and links, and the
    text that it shows."""

    EMPTY = ("meta", "br", "col", "link", "img", "input", "hr")

    def __init__(self, text):
        super().__init__(convert_charrefs=True)
        self.stack, self.ids, self.links, self.tables, self.bars, self.text = [], [], [], {}, [], ""
        self.rows = None
        self.feed(text)
        self.close()
        expect(not self.stack, f"{self.stack} is not closed")

    def handle_starttag(self, tag, attributes):
        found = dict(attributes)
        expect(tag not in ("img", "link", "iframe", "object", "form", "base"), f"the page has a {tag}")
        expect(tag != "script" or not attributes, f"a script has {attributes}")
        for name, value in found.items():
            expect(not name.startswith("on") and name not in ("src", "srcset", "action"), f"{tag} has {name}")
            expect(name != "href" or value.startswith("#"), f"a link leads to {value}")
        self.ids += [found["id"]] if "id" in found else []
        self.links += [found["href"][1:]] if "href" in found else []
        if tag == "table":
            self.rows = []
        elif tag == "tr":
            self.rows.append([])
        elif tag in ("td", "th"):
            self.rows[-1].append("")
        elif found.get("role") == "img":
            self.bars.append(found["aria-label"])
        if tag not in self.EMPTY:
            self.stack.append(tag)

    def handle_endtag(self, tag):
        expect(self.stack and self.stack.pop() == tag, f"</{tag}> closes something else")
        if tag == "table":
            self.rows = None

    def handle_data(self, data):
        if "style" in self.stack:
            return
        if "script" in self.stack:
            expect(data == AGE, f"another script: {data[:80]}")
            return
        self.text += data
        if self.stack and self.stack[-1] == "caption":
            expect(self.rows == [], "a caption is not the first in its table")
            self.tables.setdefault(data, []).append(self.rows)
        elif "td" in self.stack or "th" in self.stack:
            self.rows[-1][-1] = f"{self.rows[-1][-1]}{data}"


def page_of(text):
    """A page, whose ids differ and whose links lead to one of them."""
    found = Page(text)
    expect(text.startswith("<!DOCTYPE html>\n"), "it has no document type")
    expect(len(set(found.ids)) == len(found.ids), f"an id stands twice: {sorted(found.ids)}")
    expect(set(found.links) <= set(found.ids), f"links lead nowhere: {set(found.links) - set(found.ids)}")
    expect(
        text.count("<table") == text.count("<caption") == sum(map(len, found.tables.values())), "a table has no caption"
    )
    expect(text.count("<script") == 1 and f"script-src '{AGE_HASH}'" in text, "the scripts of the page")
    for known in (
        '<html lang="en">', '<meta charset="utf-8">', 'name="viewport"', "prefers-color-scheme: dark",
        "default-src 'none'",
    ):
        expect(known in text, f"it lacks {known}")
    return found


# The tables of the page of examples/status, by their captions: for each architecture that has one the rows below the
# heads.
WANTED = {
    "All architectures": [[["amd64", "", "1", "2", "2", "2", "6"], ["arm64", "", "7", "1", "0", "0", "6"]]],
    "The queue: one package": [[["1", "nodejs 20.19.2+dfsg-1"]]],
    "The queue: 7 packages": [
        [
            ["1", "libsigc++-2.0 2.12.1-3"],
            ["2", "binutils 2.44-3"],
            ["3", "curl 8.14.1-2"],
            ["4", "firefox-esr 128.11.0esr-1"],
            ["5", "git 1:2.47.2-0.2"],
            ["6", "nodejs 20.19.2+dfsg-1"],
            ["7", "rustc 1.85.0+dfsg3-1"],
        ]
    ],
    "Who builds what": [
        [
            ["curl 8.14.1-2+b1 against libssl3t64", "x86-1", "4"],
            ["firefox-esr 128.11.0esr-1", "x86-2", "5"],
        ],
        [["gcc-14 14.2.0-19", "arm-1", "6"]],
    ],
    "What is built, and not uploaded": [[["perl 5.40.1-6+b2 against libdb5.3t64", "x86-2", "2"]]],
    "What is uploaded, and not yet seen in the archive": [[["zlib 1:1.3.1-1+b1", "x86-2", "1"]]],
    "What failed, and nobody has looked at yet": [
        [["glibc 2.41-9+b1", 'nptl/tst-cancel24 failed: expected <0>, got <1> & "no more"']]
    ],
    "What has to be mended before it is built again": [
        [["hello 2.10-5+b1", "hello.c:1: error: <stdio.h> was not found"]]
    ],
    "What waits for what": [[["libreoffice 4:25.2.3-2", "libclucene-dev (>= 3), liborcus-dev | liborcus-compat-dev"]]],
    "What needs something that cannot be installed": [
        [["rustc 1.85.0+dfsg3-1", "libssl-dev (>= 3.5) is missing, on which cargo depends"]]
    ],
}
STATES = [[1, 2, 1, 1, 6, 1, 1, 1, 1, 0, 15], [7, 1, 0, 0, 6, 0, 0, 0, 0, 1, 15]]
BARS = [
    "Needs-Build 1, Building 2, Built 1, Uploaded 1, Installed 6, Dep-Wait 1, BD-Uninstallable 1, Build-Attempted 1, "
    "Failed 1",
    "Needs-Build 7, Building 1, Installed 6, Not-For-Us 1",
]


def expect_the_example(text):
    found = page_of(text)
    for caption, wanted in WANTED.items():
        met = [rows[1:] for rows in found.tables.pop(caption, [])]
        expect(met == wanted, f"{caption}: {met} in place of {wanted}")
    wanted = [
        [[state, f"{count}"] for state, count in zip([*office_answers.STATES, "all"], one, strict=True)]
        for one in STATES
    ]
    met = [rows[1:] for rows in found.tables.pop("Packages in each state")]
    expect(met == wanted, f"the states: {met}")
    expect(not found.tables, f"other tables: {found.tables}")
    expect(found.bars == BARS + BARS, f"the bars: {found.bars}")
    expect("As of 2026-04-12 13:20 UTC, after 25 accepted commands." in found.text, f"{found.text[:200]}")


def makes_the_page_of_the_example(folder):
    """Every table of the page with all its rows, and what its bars say; from a file, from standard input, and put in
    place as a file."""
    made = call(folder, "wb-status", EXAMPLE / "answers")
    expect_the_example(made)
    expect(
        call(folder, "wb-status", said=(EXAMPLE / "answers").read_bytes()) == made, "from standard input it is another"
    )
    (folder / "page").write_text("what was there")
    call(folder, "wb-status", "--arch", "amd64", "--arch", "arm64", "--to", "page", EXAMPLE / "answers")
    expect(
        (folder / "page").read_text() == made and [path.name for path in folder.iterdir()] == ["page"],
        "the file is another",
    )
    expect((folder / "page").stat().st_mode & 0o777 == 0o666 & ~umask(), "its mode is another")
    call(folder, "wb-status", "--to", "page", said=b"x", status=1, message="no JSON")
    call(
        folder, "wb-status", "--arch", "s390x", "--to", "page", EXAMPLE / "answers", status=1,
        message="no answer to `summary s390x`",
    )
    call(folder, "wb-status", "--to", "page", said=b"", status=1, message="no answer to `summary`")
    call(folder, "wb-status", "--to", "nowhere/page", EXAMPLE / "answers", status=3, message="No such file")
    expect(
        (folder / "page").read_text() == made and [path.name for path in folder.iterdir()] == ["page"],
        "a failure changed the page",
    )
    one = page_of(call(folder, "wb-status", "--arch", "arm64", "--title", "Ports <3", EXAMPLE / "answers"))
    expect("amd64" not in one.text and one.text.count("Ports <3") == 2, f"{one.text}")
    return f"{len(WANTED) + 1} captions"


def umask():
    mask = os.umask(0)
    os.umask(mask)
    return mask


def asks_for_what_it_shows(folder):
    """The queries that it prints are those whose answers are in the example."""
    said = call(folder, "wb-status", "--arch", "amd64", "--arch", "arm64", "--queries")
    lines = (EXAMPLE / "lines").read_text()
    expect(lines.endswith(said) and said.startswith("summary amd64\nqueue amd64\nby-state amd64 Building\n"), f"{said}")


def escapes_each_text(folder):
    """Texts with tags, entities and control bytes are shown as they are, wherever they stand, and the page stays
    well-formed."""
    texts = [shown for _, shown in ODD] + ["</td></table></body>", '" onclick="x', "]]><!--"]
    raw = [text for text, _ in ODD] + texts[-3:]
    said = line(accepted=1, arch="amd64", counts=counts(Failed=len(raw), Building=1, Dep_Wait=1) | {"<b>Odd</b>": 3})
    said += line(arch="amd64", records=[record("aa", "Failed", note=text) for text in raw], state="Failed")
    said += line(
        arch="amd64", records=[record("a<b", "Building", holder="<h1>", take=1, message="<i>")], state="Building"
    )
    said += line(arch="amd64", records=[record("aa", "Dep-Wait", waits="aa (<< 2) & <bb>")], state="Dep-Wait")
    said += line(arch="amd64", queue=[{"build": "<u>", "source": "x&amp;y"}])
    found = page_of(call(folder, "wb-status", "--title", "</title><script>", said=said))
    notes = [row[1] for row in found.tables["What has to be mended before it is built again"][0][1:]]
    expect(notes == texts, f"{notes}")
    expect(
        found.tables["Who builds what"][0][1:] == [["a<b 1.0 <i>", "<h1>", "1"]],
        f"{found.tables['Who builds what']}",
    )
    expect(
        found.tables["What waits for what"][0][1] == ["aa 1.0", "aa (<< 2) & <bb>"],
        f"{found.tables['What waits for what']}",
    )
    expect(
        found.tables["The queue: one package"][0][1] == ["1", "x&amp;y <u>"],
        f"{found.tables['The queue: one package']}",
    )
    expect(["<b>Odd</b>", "3"] in found.tables["Packages in each state"][0], "a state that it does not know")
    return f"{len(texts)} texts"


def shortens_long_tables(folder):
    """A queue shows its first packages and the other tables their first rows, and say how many more there are; an empty
    office is one too."""
    names = [f"s{at}" for at in range(1, 1236)]
    said = line(accepted=1, arch="amd64", counts=counts(Needs_Build=1235, Failed=1235, Installed=9000, Not_For_Us=10))
    said += line(arch="amd64", queue=[{"build": "1", "source": name} for name in names])
    said += line(arch="amd64", records=[record(name, "Failed") for name in names], state="Failed")
    found = page_of(call(folder, "wb-status", said=said))
    expect(found.tables["The queue: 1,235 packages"][0][10:] == [["10", "s10 1"], ["and 1,225 more"]], "the queue")
    expect(
        found.tables["What has to be mended before it is built again"][0][100:]
        == [["s100 1.0", ""], ["and 1,135 more"]],
        "the table",
    )
    expect(
        found.bars
        == ["Needs-Build 1,235, Installed 9,000, Failed 1,235, Not-For-Us 10", "Needs-Build 1,235, Failed 1,235"],
        f"{found.bars}",
    )
    found = page_of(call(folder, "wb-status", "--first", "1235", "--rows", "2", said=said))
    expect(found.tables["The queue: 1,235 packages"][0][-1] == ["1,235", "s1235 1"], "the whole queue")
    expect(len(found.tables["What has to be mended before it is built again"][0]) == 4, "two rows")
    found = page_of(call(folder, "wb-status", said=line(accepted=1, arch="amd64", counts=counts())))
    expect("It has no packages." in found.text and not found.tables, f"{found.text}")
    found = page_of(
        call(
            folder, "wb-status",
            said=line(accepted=1, arch="amd64", counts=counts(Installed=1)) + line(arch="amd64", queue=[]),
        )
    )
    expect(
        "The queue is empty." in found.text and "One package; installed: 1 (100\u00a0%)." in found.text, f"{found.text}"
    )


# ---- a serving office


class StandIn(http.server.ThreadingHTTPServer):
    """What stands for a serving office: it answers the queries of examples/status, and other paths as it is told."""

    def __init__(self, others=None, port=0):
        answers = {}
        for query, said in zip(
            (EXAMPLE / "lines").read_text().splitlines(), (EXAMPLE / "answers").read_bytes().splitlines(), strict=True
        ):
            name, *words = query.split()
            answers["/".join(["/v1", {"by-state": "state"}.get(name, name), *map(urllib.parse.quote, words)])] = (
                200, said,
            )
        answers |= others or {}
        self.asked = []
        asked = self.asked

        class Handler(http.server.BaseHTTPRequestHandler):
            def do_GET(self):
                asked.append(self.path)
                status, said = answers.get(self.path, (404, b'{"http":"NoRoute"}'))
                self.send_response(status)
                self.send_header("Content-Length", str(len(said)))
                self.end_headers()
                self.wfile.write(said)

            def log_message(self, *_):
                pass

        super().__init__(("127.0.0.1", port), Handler)
        self.url = f"http://127.0.0.1:{self.server_port}"
        threading.Thread(target=self.serve_forever, args=(0.01,), daemon=True).start()

    def __exit__(self, *_):
        self.shutdown()
        self.server_close()


def asks_a_serving_office(folder):
    """The page and tables of a stand-in are those of the same answers from a file; a state without packages is not
    asked for, and no proxy is."""
    said = (EXAMPLE / "answers").read_bytes()
    proxy = {"http_proxy": "http://127.0.0.1:1", "HTTP_PROXY": "http://127.0.0.1:1"}
    with StandIn({"/v1/item/amd64/libsigc%2B%2B-2.0": (200, line(**record("libsigc++-2.0", "Failed")))}) as office:
        made = call(folder, "wb-status", "--url", office.url, "--arch", "amd64", "--arch", "arm64", **proxy)
        expect_the_example(made)
        paths = [f"/v1/{path}" for path in ("summary/arm64", "queue/arm64", "state/arm64/Building")]
        expect(office.asked[-3:] == paths and len(office.asked) == 12, f"it asked {office.asked}")
        wanted = call(folder, "wb-table", said=b"".join(one + b"\n" for one in said.splitlines() if b'"counts"' in one))
        expect(call(folder, "wb-table", "--url", office.url, "summary", "amd64", "arm64") == wanted, "two summaries")
        met = call(
            folder, "wb-table", "--url", office.url.replace("127.0.0.1", "localhost") + "/", "by-state", "amd64",
            "Failed",
        )
        expect("hello.c:1: error: <stdio.h> was not found" in met, f"{met}")
        expect(
            "libsigc++-2.0 on amd64" in call(folder, "wb-table", "--url", office.url, "item", "amd64", "libsigc++-2.0"),
            "a plus sign",
        )
        met = call(
            folder, "wb-table", "--url", office.url, "queue", "s390x", "amd64", status=1,
            message=f"{office.url}, queue s390x: the office answers",
        )
        expect("nodejs" in met, f"{met}")


def says_what_a_refused_query_means(folder):
    for refused, query, words, meaning in (
        ("BadName", "by-state", ("amd64", "failed"), "; there is no state 'failed', and the states are Needs-Build,"),
        ("BadName", "by-state", ("AMD64", "Failed"), "; 'AMD64' or 'Failed' is malformed"),
        ("UnknownSource", "item", ("amd64", "hello2"), "; amd64 has no record of hello2"),
        ("UnknownBuilder", "mine", ("b77",), "; it has no builder b77"),
    ):
        body = json.dumps({"code": 1, "refused": refused}).encode()
        met = office_answers.meaning_of(body, query, words)
        expect(met.startswith(meaning), met)
    for body in (b"", b"[]", b'{"http":"NoRoute"}', b'{"code":20,"refused":"Memory"}', b"\xff"):
        expect(office_answers.meaning_of(body, "summary", ("amd64",)) == "", f"{body} means something")


def says_what_an_office_did_not_answer(folder):
    """A refusal, an answer that is none or that was cut off, and an office that is not there; no page is put in place
    then."""
    wrong = [
        (
            (404, b'{"code":1,"refused":"UnknownArch"}'), 1,
            'summary amd64: the office answers {"code":1,"refused":"UnknownArch"}; it has no architecture amd64',
        ),
        ((503, b'{"code":20,"refused":"Memory"}'), 1, "Memory"),
        ((200, b"<html>"), 1, "summary amd64: this is no JSON"),
        ((200, b'{"accepted":1,"ok":"next"}'), 1, "summary amd64: this is the answer to a command"),
        ((200, b'{"arch":"amd64"}'), 1, "summary amd64: this is no answer to a query"),
        ((404, b'{"http":"NoRoute"}'), 1, 'summary amd64: the office answers {"http":"NoRoute"}'),
    ]
    for answer, status, message in wrong:
        with StandIn({"/v1/summary/amd64": answer}) as office:
            call(
                folder, "wb-status", "--url", office.url, "--arch", "amd64", "--to", "page", status=status,
                message=message,
            )
            call(folder, "wb-table", "--url", office.url, "summary", "amd64", status=status, message=message)
    for data in (b"", b"HTTP/1.1 200 OK\r\nContent-Length: 99\r\n\r\n{", b"nonsense\r\n\r\n"):
        with socket.create_server(("127.0.0.1", 0)) as server:
            threading.Thread(target=answer_twice, args=(server, data), daemon=True).start()
            url = f"http://127.0.0.1:{server.getsockname()[1]}"
            for words in (
                ["wb-status", "--wait", "0", "--url", url, "--arch", "amd64", "--to", "page"],
                ["wb-table", "--wait", "0", "--url", url, "mine", "b1"],
            ):
                call(folder, *words, status=3 if not data else 1, message=url)
    refused = "it does not answer: Connection refused"
    call(folder, "wb-table", "--wait", "0", "--url", url, "mine", "b1", status=3, message=refused)
    call(
        folder, "wb-status", "--wait", "1", "--url", url, "--arch", "amd64", "--to", "page", status=3,
        message=refused,
    )
    expect(list(folder.iterdir()) == [], "a page was made")


def waits_for_an_office_that_starts(folder):
    """An office that does not serve yet is asked again, which is said at a terminal alone; after --wait it is given up.
    """
    port = free_port()
    url = f"http://127.0.0.1:{port}"
    for words in (["wb-table", "--url", url, "summary", "amd64"], ["wb-status", "--url", url, "--arch", "amd64"]):
        begun, offices = time.monotonic(), []
        starting = threading.Timer(1.5, lambda: offices.append(StandIn(port=port)))
        starting.start()
        try:
            met = call(folder, *words)
        finally:
            starting.join()
            offices[0].__exit__()
        expect(time.monotonic() - begun > 1 and "amd64" in met, f"{words}: {met[:80]}")
    begun = time.monotonic()
    said = in_terminal(["wb-table", "--wait", "1", "--url", url, "mine", "b1"], b"", 200, status=3)
    wanted = [f"wb-table: {url}: no office answers yet; it is asked again for 1 s"]
    wanted.append(f"wb-table: {url}, mine b1: it does not answer: Connection refused")
    expect(said.splitlines() == wanted and time.monotonic() - begun < WAIT / 2, said)
    for name in ("wb-table", "wb-status"):
        call(folder, name, "--wait", "x", status=2, message="usage:")


def answer_twice(server, data):
    """Takes two connections one after another, reads what is asked, and writes these bytes."""
    with contextlib.suppress(OSError):
        for _ in range(2):
            link, _ = server.accept()
            with link:
                link.recv(65536)
                link.sendall(data)


# ---- the program


def shows_what_the_program_answers(folder):
    """The page and the tables of what the program answers, by lines, by its words and while it serves."""
    for path in EXAMPLE.iterdir():
        shutil.copy(path, folder)
    commands, queries = (folder / "lines").read_text().partition("summary amd64\n")[::2]
    queries = "summary amd64\n" + queries
    expect(run(folder, commands.splitlines())[0] == 0, "the commands")
    said = run(folder, queries.splitlines())[1]
    expect_the_example(call(folder, "wb-status", said=said))
    words = [WB, "--store", "store", "by-state", "amd64", "Failed"]
    one = subprocess.run(words, cwd=folder, capture_output=True, timeout=WAIT, check=True).stdout
    wanted = call(folder, "wb-table", said=one)
    expect(
        "hello   2.10-5+b1  yes           optional  devel    hello.c:1: error: <stdio.h> was not found" in wanted,
        f"{wanted}",
    )
    with serving(folder) as url:
        expect(
            call(folder, "wb-table", "--url", url, "by-state", "amd64", "Failed") == wanted,
            "the table of the serving program",
        )
        expect_the_example(call(folder, "wb-status", "--url", url, "--arch", "amd64", "--arch", "arm64"))
        call(
            folder, "wb-table", "--url", url, "item", "amd64", "bash-x", status=1,
            message='{"code":4,"refused":"UnknownSource"}',
        )


@contextlib.contextmanager
def serving(folder):
    """The address of the program, serving the store of the folder."""
    with socket.socket() as probe:
        probe.bind(("127.0.0.1", 0))
        port = probe.getsockname()[1]
    words = [WB, "--store", "store", "serve", "--port", str(port), "--requests", "1000"]
    process = subprocess.Popen(
        words, cwd=folder, stdin=subprocess.DEVNULL, stdout=subprocess.DEVNULL, stderr=subprocess.DEVNULL
    )
    with process:
        try:
            end = time.monotonic() + WAIT
            while True:
                with contextlib.suppress(OSError):
                    socket.create_connection(("127.0.0.1", port), timeout=1).close()
                    break
                expect(process.poll() is None and time.monotonic() < end, "the program does not serve")
                time.sleep(0.01)
            yield f"http://127.0.0.1:{port}"
        finally:
            process.kill()


TESTS = [
    shows_each_answer, shows_odd_texts_as_text, fits_a_terminal, refuses_what_is_no_answer,
    takes_the_words_that_it_says,
]
TESTS += [
    makes_the_page_of_the_example, asks_for_what_it_shows, escapes_each_text, shortens_long_tables,
    asks_a_serving_office,
]
TESTS += [
    waits_for_an_office_that_starts, says_what_a_refused_query_means, says_what_an_office_did_not_answer,
    shows_what_the_program_answers,
]  # fmt: skip
if __name__ == "__main__":
    sys.exit(main(TESTS))

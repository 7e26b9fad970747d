#!/usr/bin/env python3
"""Tests of single commands, which are words of the program itself, as `wb --store FILE next amd64 b1`: each subcommand
beside the same line of a run, line faults before and after the store is opened, help, what is said of refused words,
words that no line can have, and what becomes of the files.

    tools/tests/test_words.py [NAME..]     these tests, or all

From the environment: WB is the program, ./wb of this repository where it is not set.
"""
import bz2
import gzip
import json
import lzma
import os
import pty
import re
import subprocess
import sys

from harness import WAIT, WB, answers_of, expect, main, run
from store_runs import Session, rows_of

FAULT = '{"fault":"line"}\n'
NEW = "wb: store was empty or not there: a new office begins in it\n"
BAD_NAME = '{"code":11,"refused":"BadName"}\n'

SOURCES = (
    "Package: hello\nVersion: 1.0\nArchitecture: any\nPriority: optional\nSection: devel\n\nPackage: new\nVersion: 2\n"
    "Architecture: any\n"
)
BEGIN = ["add-arch amd64 linux amd64", "add-builder b1 amd64", "enter amd64 hello 1.0 optional devel"]

# Lines in a row, of which each subcommand has one that is accepted, and most one that is refused; the files stand in
# the folder.
LINES = [
    "add-arch amd64 linux amd64",
    "add-arch amd64 linux amd64",
    "add-builder b1 amd64",
    "add-builder b1 armhf",
    "enter amd64 hello 1.0 optional devel",
    "enter amd64 hello 1.0 optional devel",
    "enter amd64 bash 5.2-1 required shells",
    "queue amd64",
    "build-priority amd64 bash 5.2-1 -- -50",
    "build-priority amd64 bash 5.2-1 -60",
    "build-priority amd64 bash 5.2-1 1001",
    "next amd64 b1",
    "next amd64 b1 --after 0",
    "next --after=9 amd64 b1",
    "built 1",
    "built 7",
    "uploaded 1",
    "take amd64 b1 bash 5.2-1",
    "waits 2 libc6 (>= 2.36), gcc",
    "mine b1",
    "mine b2",
    "give-back amd64 bash 5.2-1",
    "take amd64 b1 bash 5.2-1",
    "attempted 3 no space left",
    "give-back amd64 bash 5.2-1",
    "next amd64 b1",
    "put-back 4",
    "put-back 4",
    "dep-wait amd64 bash 5.2-1 libc6 (>= 2.37)",
    "by-state amd64 Dep-Wait",
    "by-state amd64 Waiting",
    "fail amd64 bash 5.2-1 a note of -- -words",
    "item amd64 bash",
    "item amd64 dash",
    "not-for-us amd64 bash 5.2-1",
    "merge Sources amd64=Packages",
    "merge nowhere amd64=Packages",
    "merge Sources =Packages",
    "rebuild amd64 hello 1.0 1 new libc",
    "give-back amd64 hello 1.0",
    "report amd64 report",
    "report amd64 nowhere",
    "report amd64 Sources",
    "depends amd64 new",
    "depends armhf new",
    "forget amd64 new 2",
    "forget amd64 new 2",
    "remove-builder b1 amd64",
    "remove-builder b1 amd64",
    "summary amd64",
    "summary armhf",
    "office",
    "archs",
    "builders",
    "remove-arch amd64",
    "remove-arch amd64",
]

# The words of each subcommand, as they are accepted as words.
GOOD = {
    "add-arch": ["amd64", "linux", "amd64"],
    "add-builder": ["b1", "amd64"],
    "remove-arch": ["amd64"],
    "remove-builder": ["b1", "amd64"],
    "enter": ["amd64", "hello", "1.0", "optional", "devel"],
    "next": ["amd64", "b1"],
    "take": ["amd64", "b1", "hello", "1.0"],
    "built": ["1"],
    "uploaded": ["1"],
    "put-back": ["1"],
    "waits": ["1", "libc6"],
    "attempted": ["1"],
    "give-back": ["amd64", "hello", "1.0"],
    "dep-wait": ["amd64", "hello", "1.0", "libc6"],
    "fail": ["amd64", "hello", "1.0"],
    "not-for-us": ["amd64", "hello", "1.0"],
    "rebuild": ["amd64", "hello", "1.0", "1"],
    "build-priority": ["amd64", "hello", "1.0", "5"],
    "forget": ["amd64", "hello", "1.0"],
    "merge": ["Sources", "amd64=Packages"],
    "report": ["amd64", "report"],
    "queue": ["amd64"],
    "summary": ["amd64"],
    "by-state": ["amd64", "Building"],
    "item": ["amd64", "hello"],
    "depends": ["amd64", "hello"],
    "mine": ["b1"],
    "office": [],
    "archs": [],
    "builders": [],
}

# Of these the last argument takes several words.
SEVERAL = ["waits", "attempted", "dep-wait", "fail", "not-for-us", "rebuild", "merge"]

NUMBER_ALONE = ["built", "uploaded", "put-back"]
WITHOUT_WORDS = ["office", "archs", "builders"]
QUERIES = [
    "queue amd64", "summary amd64", "by-state amd64 Building", "item amd64 hello", "depends amd64 hello", "mine b1",
    *WITHOUT_WORDS,
]
REFUSED = ["queue armhf", "by-state amd64 none", "item amd64 bash", "mine b9", "mine .b"]


def words(folder, *given, output=subprocess.PIPE):
    """The status, standard output and standard error of the program with these words, which are texts or bytes."""
    done = subprocess.run(
        [WB, *given], cwd=folder, input=b"", stdout=output, stderr=subprocess.PIPE, timeout=WAIT, check=False
    )
    return done.returncode, (done.stdout or b"").decode(), done.stderr.decode()


def stored(folder, *given):
    """The same, with the records in the file `store`."""
    return words(folder, "--store", "store", *given)


def fill(folder):
    """The lists and the report that the lines name."""
    (folder / "Sources").write_text(SOURCES)
    (folder / "Packages").write_text("")
    (folder / "report").write_text("new 2 uninstallable libfoo missing\n")


def files_of(folder):
    """The files of the store with their bytes, the times of their last change and their numbers."""
    return {
        path.name: (path.read_bytes(), path.stat().st_mtime_ns, path.stat().st_ino) for path in folder.glob("store*")
    }


def records(folder):
    tables = [name for (name,) in rows_of(folder, "SELECT name FROM sqlite_schema WHERE type = 'table' ORDER BY name")]
    return {
        table: rows_of(folder, f"SELECT * FROM {table} ORDER BY 1, 2")
        for table in tables
        if not table.startswith("scratch")
    }


# ---- beside lines


def answers_as_lines(folder):
    """Each line is answered as words of the program as it is by a run of this line alone, and leaves the same
    records."""
    one, other = folder / "lines", folder / "words"
    for place in (one, other):
        place.mkdir()
        fill(place)
    for line in LINES:
        status, said = run(one, [line])
        met = stored(other, *line.split())
        expect(met[:2] == (status, said.decode()), f"{line}: {met[:2]} in place of {(status, said)}")
    expect(records(one) == records(other), "the records differ")
    names = {line.split()[0] for line in LINES}
    expect(names == set(GOOD), f"no line for {set(GOOD) - names}")
    expect({run(one, [line])[0] for line in LINES} == {0, 1, 3}, "some status is missing")
    return f"{len(LINES)} commands"


def keeps_nothing_without_a_file(folder):
    """Without a file each command has an empty office, and no file is made."""
    fill(folder)
    before = sorted(folder.iterdir())
    expect(words(folder, *LINES[0].split()) == (0, '{"accepted":1,"ok":"add-arch"}\n', ""), "the first command")
    expect(words(folder, *LINES[0].split()) == (0, '{"accepted":1,"ok":"add-arch"}\n', ""), "the first command again")
    expect(words(folder, "summary", "amd64") == (1, '{"code":1,"refused":"UnknownArch"}\n', ""), "a query")
    expect(sorted(folder.iterdir()) == before, "a file was made")


def stands_after_an_answer_that_is_not_written(folder):
    """A command whose answer cannot be written ends with 3, and stands."""
    answers_of(folder, BEGIN)
    with open("/dev/full", "wb") as full:
        status, _, more = words(folder, "--store", "store", "next", "amd64", "b1", output=full)
    expect(status == 3 and "an answer cannot be written" in more, f"{status}, {more!r}")
    held = json.loads(stored(folder, "mine", "b1")[1])["records"]
    expect([record["take"] for record in held] == [1], f"the builder holds {held}")


def is_refused_while_a_run_has_the_file(folder):
    session = Session(folder)
    session.ask(BEGIN[0])
    for line in (*QUERIES, BEGIN[1]):
        status, said, more = stored(folder, *line.split())
        expect(
            (status, said) == (3, '{"fault":"store","store":"InUse"}\n') and "another program has it" in more,
            f"{line}: {status}, {said!r}",
        )
    expect(session.end() == 0, "the run")
    expect(stored(folder, "add-builder", "b1", "amd64")[0] == 0, "a command after the run")


# ---- line faults and help


def refuses_before_the_store_is_opened(folder):
    """Words that clap refuses: too few, too many, an option that is none, and `--store` in the wrong place or twice. No
    file is made."""
    fill(folder)
    before = sorted(folder.iterdir())
    cases = [
        [], ["--"], ["--", "queue", "amd64"], ["frobnicate", "amd64"], ["queues", "amd64"], ["", "amd64"],
        ["--nothing", "queue", "amd64"],
    ]
    for name, given in GOOD.items():
        cases += [[name], [name, *given[:-1]]] * bool(given)
        cases += [[name, *given, "-x"], [name, "--store", "store", *given]]
        if name not in SEVERAL:
            cases.append([name, *given, "more"])
    cases += [
        ["next", "amd64", "b1", *more] for more in (["--after"], ["--after", "1", "--after", "2"], ["--aft", "1"])
    ]
    cases += [["--store", "other", "queue", "amd64"], ["--store=other", "queue", "amd64"]]
    for given in cases:
        status, said, more = stored(folder, *given)
        expect((status, said) == (2, FAULT) and more.startswith("error: "), f"{given}: {status}, {said!r}, {more!r}")
        expect(sorted(folder.iterdir()) == before, f"{given}: a file was made")
    for given in ([b"queue", b"amd\xff64"], [b"fail", b"amd64", b"hello", b"1.0", b"\xc3"]):
        status, said, _ = stored(folder, *given)
        expect((status, said) == (2, FAULT) and sorted(folder.iterdir()) == before, f"{given}: {status}, {said!r}")
    return f"{len(cases)} cases"


def refuses_after_the_store_was_opened(folder):
    """Words that clap takes and that are no command: numbers, parts, and too many bytes. The message names what is
    wrong."""
    number = "has to be a whole number from 0 to 18446744073709551615"
    cases = [
        ([name, "x", *GOOD[name][1:]], f"TAKE is x, and {number}")
        for name in ("built", "uploaded", "put-back", "waits", "attempted")
    ]
    cases += [(["built", *take], f"TAKE is {take[-1]}, and {number}") for take in ([""], ["1 "], ["--", "-1"])]
    afters = ("", "x", " 1", "18446744073709551616")
    cases += [
        (["next", "amd64", "b1", f"--after={after}"], f"N of --after is {after}, and {number}") for after in afters
    ]
    cases += [(["rebuild", "amd64", "hello", "1.0", "one"], f"NUMBER is one, and {number}")]
    integer = "has to be an integer from -9223372036854775808 to 9223372036854775807"
    cases += [
        (["build-priority", "amd64", "hello", "1.0", value], f"VALUE is {value}, and {integer}")
        for value in ("five", "-9223372036854775809")
    ]
    cases += [
        (["merge", "Sources", "amd64=Packages", part], f"PART is {part}, and has to be ARCH=PACKAGESFILE")
        for part in ("amd64", "", "a b")
    ]
    long = "the words have at most 65536 bytes, with a space between each two"
    begin = ["fail", "amd64", "hello", "1.0"]
    room = 65536 - len(" ".join(begin)) - 1
    cases += [
        ([*begin, "x" * (room + 1)], long), ([*begin, *["y"] * ((room + 1) // 2 + 1)], long),
        (["queue", "é" * 32766], long),
    ]
    for at, (given, message) in enumerate(cases):
        met = stored(folder, *given)
        expect(met == (2, FAULT, f"{NEW if at == 0 else ''}wb: {message}\n"), f"{str(given)[:200]}: {str(met)[:300]}")
    expect(answers_of(folder, ["summary amd64"]) == [{"code": 1, "refused": "UnknownArch"}], "something was done")
    for given in ([*begin, "x" * room], [*begin, *["y"] * (room // 2)], ["queue", "x" * (65536 - 6)]):
        status, said, _ = stored(folder, *given)
        expect(status == 1 and '"refused":' in said, f"{str(given)[:80]}: {status}, {said}")
    return f"{len(cases)} cases"


# The two subcommands of the program alone.
OWN = ["run", "serve"]

# What help says of a subcommand: its usage, and the lines under it.
ENTRY = re.compile(r"^  (wb \[--store FILE\] )?([a-z-]+)( .*)?\n( {10}.*\n)*", re.MULTILINE)


def entries_of(text):
    """What help says of each subcommand: its usage, with what stands under it; of `run` and `serve` also the paragraphs
    about them."""
    found = {match[2]: match[0] for match in ENTRY.finditer(text)}
    paragraphs = text.split("\n\n")
    for name in OWN:
        about = [part for part in paragraphs if part.startswith((f"`wb {name}`", "With --journal"))]
        found[name] += "".join(f"\n{part}\n" for part in about)
    return {name: found[name] for name in [*GOOD, *OWN]}


def helps_with_each_subcommand(folder):
    """Help on the program is one text, and help on a subcommand is what that says of it: after `help`, and for `--help`
    and `-h` in its words. It makes no file; after `--` its options are words."""
    text = words(folder, "help")
    expect(text[0] == 0 and text[2] == "" and text[1].startswith("The central office"), f"help: {text}")
    for given in (["--help"], ["-h"], ["help", "nothing"], ["--store", "store", "-h"], ["--help", "next"]):
        expect(words(folder, *given) == text, f"{given}: {words(folder, *given)}")
    entries = entries_of(text[1])
    for name, entry in entries.items():
        asked = [["help", name], ["help", name, "more"], [name, "--help"], [name, "-h"]]
        asked += [["--store", "store", name, "--help"], ["--store=store", name, "-h"]]
        asked += [[name, *GOOD[name], "-h"]] if name in GOOD else []
        for given in asked:
            expect(words(folder, *given) == (0, entry, ""), f"{given}: {words(folder, *given)} in place of {entry}")
    following = entries["next"]
    expect("Example: next amd64 b1 --after 0" in following and "take ARCH" not in following, following)
    expect(entries["run"].count("\n\n") == 2 and "Answers the commands of its input" in entries["run"], entries["run"])
    expect(list(folder.iterdir()) == [], "a file was made")
    for given in (["queue", "a", "b", "-h"], ["queue", "-x", "-h"], ["queue", "--", "a", "b", "-h"]):
        expect(words(folder, *given)[:2] == (2, FAULT), f"{given}: {words(folder, *given)}")
    expect(words(folder, "queue", "--", "-h") == (1, BAD_NAME, ""), "an option after --")
    return f"{len(entries)} subcommands"


def says_where_the_store_comes(folder):
    """Where `--store` comes after a subcommand, a second message says where it belongs; and nowhere else."""
    hint = "wb: --store FILE comes before the subcommand: wb --store FILE run\n"
    late = [["run", "--store", "f"], ["run", "--store=f"], ["serve", "--port", "1", "--store", "f"]]
    late += [["next", "--store=f", "amd64", "b1"], ["--store", "f", "queue", "amd64", "--store", "g"]]
    for given in late:
        status, said, more = words(folder, *given)
        expect((status, said) == (2, FAULT) and more.startswith("error: ") and more.endswith(hint), f"{given}: {more}")
    for given in (["--store"], ["--store", "f"], ["run", "-x"], ["--store=f", "--store=g", "run"], ["frobnicate"]):
        status, said, more = words(folder, *given)
        expect((status, said) == (2, FAULT) and "comes before" not in more, f"{given}: {more}")
    expect(list(folder.iterdir()) == [], "a file was made")


def errors_at_a_terminal(folder, *given):
    """What the program says on standard error, which is a terminal."""
    here, there = pty.openpty()
    try:
        subprocess.run(
            [WB, *given], cwd=folder, stdin=subprocess.DEVNULL, stdout=subprocess.DEVNULL, stderr=there, timeout=WAIT,
            check=False,
        )
        os.close(there)
        return os.read(here, 10000).decode().replace("\r\n", "\n")
    except OSError:  # nothing was said, and the other end is closed
        return ""
    finally:
        os.close(here)


def says_what_takes_seconds_at_a_terminal(folder):
    """A long list and a large file are named while they are read, and how far, if a person may see it, and not
    otherwise."""
    (folder / "Sources").write_bytes(b"\n" * 16_000_000)
    (folder / "Packages").write_bytes(b"\n" * 15_999_999)
    merge = ("merge", "Sources", "amd64=Packages")
    said = "wb: reading Sources, 16 MB\nwb: reading Sources, 16 of 16 MB\n"
    expect(errors_at_a_terminal(folder, *merge) == said, f"{errors_at_a_terminal(folder, *merge)}")
    expect(words(folder, *merge) == (1, '{"code":1,"refused":"UnknownArch"}\n', ""), f"{words(folder, *merge)}")
    (folder / "large").write_bytes(b"SQLite format 3\0" + bytes(33_000_000))
    said = errors_at_a_terminal(folder, "--store", "large", "summary", "amd64")
    expect(said.startswith("wb: opening large, 33 MB\n"), said)
    expect("opening" not in stored(folder, "summary", "amd64")[2], "it is said elsewhere")
    expect("opening" not in words(folder, "--store", "large", "summary", "amd64")[2], "it is said elsewhere")


# What each argument has to be.
ARCH = "1 to 40 lower-case letters, digits and -, the first no -, and not all, any or source"
OS_CPU = "1 to 20 lower-case letters and digits, and not any"
SOURCE = "2 to 200 lower-case letters, digits, +, - and ., the first a letter or a digit"
BUILDER = "1 to 64 letters, digits, ., _ and -, the first a letter or a digit"
LABEL = "1 to 64 characters from ! to ~"
STATE = (
    "Needs-Build, Building, Built, Uploaded, Installed, Dep-Wait, BD-Uninstallable, Failed, Not-For-Us or "
    "Build-Attempted"
)
NOT_A_VERSION = "the version is malformed: byte 1 may not stand in an upstream version"
EMPTY_VERSION = "the version is malformed: the version is empty"

# Words that are refused, the name of the refusal, and what is said of it at a terminal.
REFUSED_WORDS = [
    (["add-arch", "all", "linux", "amd64"], "BadName", f'NAME is "all", and has to be {ARCH}'),
    (["add-arch", "i386", "Linux", "i386"], "BadName", f'OS is "Linux", and has to be {OS_CPU}'),
    (["add-arch", "i386", "linux", "any"], "BadName", f'CPU is "any", and has to be {OS_CPU}'),
    (["add-builder", "b 1", "amd64"], "BadName", f'NAME is "b 1", and has to be {BUILDER}'),
    (["add-builder", "b1", "a_b"], "BadName", f'ARCH is "a_b", and has to be {ARCH}'),
    (["remove-arch", "all"], "BadName", f'NAME is "all", and has to be {ARCH}'),
    (["remove-builder", "b 1", "amd64"], "BadName", f'NAME is "b 1", and has to be {BUILDER}'),
    (["remove-builder", "b1", "a_b"], "BadName", f'ARCH is "a_b", and has to be {ARCH}'),
    (["enter", "-", "new", "1.0", "a", "b"], "BadName", f'ARCH is "-", and has to be {ARCH}'),
    (["enter", "amd64", "x", "1.0", "optional", "devel"], "BadName", f'SOURCE is "x", and has to be {SOURCE}'),
    (["enter", "amd64", "new", "1.0", "", "devel"], "BadName", f'PRIORITY is "", and has to be {LABEL}'),
    (["enter", "amd64", "new", "1.0", "a", "b c"], "BadName", f'SECTION is "b c", and has to be {LABEL}'),
    (["enter", "amd64", "new", "1_0", "a", "b"], "BadVersion", f'VERSION is "1_0": {NOT_A_VERSION}'),
    (["next", "AMD64", "b1"], "BadName", f'ARCH is "AMD64", and has to be {ARCH}'),
    (["next", "amd64", ".b"], "BadName", f'BUILDER is ".b", and has to be {BUILDER}'),
    (["take", "any", "b1", "hello", "1.0"], "BadName", f'ARCH is "any", and has to be {ARCH}'),
    (["take", "amd64", "b/1", "hello", "1.0"], "BadName", f'BUILDER is "b/1", and has to be {BUILDER}'),
    (["take", "amd64", "b1", "Hello", "1.0"], "BadName", f'SOURCE is "Hello", and has to be {SOURCE}'),
    (["take", "amd64", "b1", "hello", ""], "BadVersion", f'VERSION is "": {EMPTY_VERSION}'),
    (["waits", "1", "libc6 ("], "BadRelations", "RELATIONS: the relations are refused: a bracket is not closed"),
    (["attempted", "1", "x" * 1001], "TextTooLong", "REASON has 1001 bytes, and may have 1000"),
    (["give-back", "amd64", "h\x1b", "1.0"], "BadName", f'SOURCE is "h\\u{{1b}}", and has to be {SOURCE}'),
    (["give-back", "amd64", "hello", "1_0"], "BadVersion", f'VERSION is "1_0": {NOT_A_VERSION}'),
    (["dep-wait", "amd64", "h", "1.0", "libc6"], "BadName", f'SOURCE is "h", and has to be {SOURCE}'),
    (["dep-wait", "amd64", "hello", "1_0", "libc6"], "BadVersion", f'VERSION is "1_0": {NOT_A_VERSION}'),
    (
        ["dep-wait", "amd64", "hello", "1.0", "libc6 [i386]"], "BadRelations",
        "RELATIONS: nothing of the relations is left for the architecture",
    ),
    (["fail", "amd64", "h", "1.0"], "BadName", f'SOURCE is "h", and has to be {SOURCE}'),
    (["fail", "amd64", "hello", "1_0"], "BadVersion", f'VERSION is "1_0": {NOT_A_VERSION}'),
    (["fail", "amd64", "hello", "1.0", "x" * 1001], "TextTooLong", "NOTE has 1001 bytes, and may have 1000"),
    (["not-for-us", "all", "hello", "1.0"], "BadName", f'ARCH is "all", and has to be {ARCH}'),
    (["rebuild", "amd64", "h", "1.0", "1"], "BadName", f'SOURCE is "h", and has to be {SOURCE}'),
    (["rebuild", "amd64", "hello", "1_0", "1"], "BadVersion", f'VERSION is "1_0": {NOT_A_VERSION}'),
    (
        ["rebuild", "amd64", "hello", "1.0", "0"], "BadNumber",
        "NUMBER is 0, and has to be from 1 to 999, and above that of the last rebuild",
    ),
    (["rebuild", "amd64", "hello", "1.0", "1", "x" * 1001], "TextTooLong", "MESSAGE has 1001 bytes, and may have 1000"),
    (["build-priority", "all", "hello", "1.0", "1"], "BadName", f'ARCH is "all", and has to be {ARCH}'),
    (["build-priority", "amd64", "hello", "1_0", "1"], "BadVersion", f'VERSION is "1_0": {NOT_A_VERSION}'),
    (
        ["build-priority", "amd64", "hello", "1.0", "--", "-1001"], "BadNumber",
        "VALUE is -1001, and has to be from -1000 to 1000",
    ),
    (["forget", "all", "hello", "1.0"], "BadName", f'ARCH is "all", and has to be {ARCH}'),
    (["forget", "amd64", "h", "1.0"], "BadName", f'SOURCE is "h", and has to be {SOURCE}'),
    (["forget", "amd64", "hello", "1_0"], "BadVersion", f'VERSION is "1_0": {NOT_A_VERSION}'),
    (["merge", "Sources", "amd64=Packages", "all=Packages"], "BadName", f'ARCH is "all", and has to be {ARCH}'),
    (["report", "source", "report"], "BadName", f'ARCH is "source", and has to be {ARCH}'),
    (["queue", "a b"], "BadName", f'ARCH is "a b", and has to be {ARCH}'),
    (["summary", "all"], "BadName", f'ARCH is "all", and has to be {ARCH}'),
    (["by-state", "all", "Building"], "BadName", f'ARCH is "all", and has to be {ARCH}'),
    (["by-state", "amd64", "needs-build"], "BadName", f'STATE is "needs-build", and has to be {STATE}'),
    (["item", "amd64", "h"], "BadName", f'SOURCE is "h", and has to be {SOURCE}'),
    (["depends", "", "hello"], "BadName", f'ARCH is "", and has to be {ARCH}'),
    (["mine", "b=1"], "BadName", f'BUILDER is "b=1", and has to be {BUILDER}'),
]

# What is refused for another reason than a word's form: nothing is said of it.
REFUSED_OTHERWISE = [
    ["add-arch", "amd64", "linux", "amd64"], ["next", "armhf", "b1"], ["next", "amd64", "b9"], ["built", "7"],
    ["queue", "armhf"], ["item", "amd64", "none"], ["merge", "Sources", "amd64=Packages", "amd64=Packages"],
    ["remove-arch", "amd64"], ["remove-builder", "b1", "amd64"], ["forget", "amd64", "hello", "1.0"],
]


def names_refused_words_at_a_terminal(folder):
    """At a terminal standard error names the word that is refused and its form, of each command and query; elsewhere,
    and of what is refused for another reason, it says nothing. The answer is the same."""
    fill(folder)
    answers_of(folder, [*BEGIN, "next amd64 b1"])
    for given, refusal, message in REFUSED_WORDS:
        status, said, more = stored(folder, *given)
        is_refused = status == 1 and json.loads(said)["refused"] == refusal
        expect(is_refused and more == "", f"{given[:5]}: {status} {said} {more}")
        at_terminal = errors_at_a_terminal(folder, "--store", "store", *given)
        expect(at_terminal == f"wb: {given[0]}: {message}\n", f"{given[:5]}: {at_terminal!r} in place of {message!r}")
        expect(stored(folder, *given) == (status, said, more), f"{given[:5]}: another answer")
    for given in REFUSED_OTHERWISE:
        status, said, _ = stored(folder, *given)
        at_terminal = errors_at_a_terminal(folder, "--store", "store", *given)
        expect((status, at_terminal) == (1, ""), f"{given}: {status}, {said}, {at_terminal!r}")
    lines = "".join(f"{' '.join(given)}\n" for given in (["enter", "amd64", "x", "1", "a", "b"], ["summary", "all"]))
    here, there = pty.openpty()
    done = subprocess.run(
        [WB, "--store", "store", "run"], cwd=folder, input=lines.encode(), stdout=subprocess.PIPE, stderr=there,
        timeout=WAIT, check=False,
    )
    os.close(there)
    said = os.read(here, 10000).decode().replace("\r\n", "\n")
    os.close(here)
    expect((done.returncode, done.stdout.decode()) == (1, 2 * BAD_NAME), f"lines: {done}")
    wanted = f'wb: enter: SOURCE is "x", and has to be {SOURCE}\nwb: summary: ARCH is "all", and has to be {ARCH}\n'
    expect(said == wanted, f"lines: {said!r}")
    left_out = set(GOOD) - {given[0] for given, *_ in REFUSED_WORDS}
    expect(left_out == {*NUMBER_ALONE, *WITHOUT_WORDS}, f"no refused word of {left_out}")
    return f"{len(REFUSED_WORDS)} refusals"


def names_compressed_lists(folder):
    """A list or a report that xz, gzip, bzip2 or zstd compressed is named as such on standard error, and refused as
    ever."""
    fill(folder)
    answers_of(folder, BEGIN)
    text = SOURCES.encode()
    zstd = bytes.fromhex("28b52ffd2000010000")  # a frame without a byte in it
    pressed = {"xz": lzma.compress(text), "gzip": gzip.compress(text), "bzip2": bz2.compress(text), "zstd": zstd}
    for program, data in pressed.items():
        name = f"list.{program}"
        (folder / name).write_bytes(data)
        wanted = f"wb: {name} is compressed by {program}, and has to be unpacked first\n"
        for given in (["merge", name, "amd64=Packages"], ["merge", "Sources", f"amd64={name}"]):
            status, said, more = stored(folder, *given)
            refused = json.loads(said)
            ends = [refused, *refused.get("parts", [])]
            expect(
                status in (0, 1) and any(end.get("refused") == "BadListing" for end in ends) and more == wanted,
                f"{given}: {status}, {said}, {more!r}",
            )
        status, said, more = stored(folder, "report", "amd64", name)
        expect((status, said) == (3, '{"fault":"file"}\n') or status == 1, f"report of {name}: {status}, {said}")
        expect(more.startswith(wanted), f"report of {name}: {more!r}")
    for name, data in {"short": b"\x1f", "bz": b"BZh9\n", "letters": b"BZhello: 1\n"}.items():
        (folder / name).write_bytes(data)
        expect("compressed" not in stored(folder, "merge", name, "amd64=Packages")[2], f"{name} is no compressed list")
    expect(stored(folder, "merge", "Sources", "amd64=Packages")[2] == "", "a list that is not compressed is named")


# ---- words that no line can have


def takes_words_as_they_are(folder):
    """Words with blanks, line feeds and quotes, empty ones, and those that are options before `--`."""
    answers_of(folder, BEGIN)
    notes = [["two  blanks"], ["a", "b c ", "\td"], ["line\nfeed\r"], ['"quotes"\\'], ["é\x7f\x01"]]
    notes += [[""], ["", ""], ["", "x", ""], ["-"], ["a", "--", "-h"]]
    for note in notes:
        met = stored(folder, "fail", "amd64", "hello", "1.0", *note)
        expect(met[0] == 0, f"{note}: {met}")
        kept = " ".join(word for at, word in enumerate(note) if word != "--" or at != note.index("--"))
        shown = json.loads(stored(folder, "item", "amd64", "hello")[1])["note"]
        expect(shown == kept, f"{note}: {shown!r} in place of {kept!r}")
        expect(stored(folder, "give-back", "amd64", "hello", "1.0")[0] == 0, "give-back")
    for given in (
        ["add-builder", "b 1", "amd64"], ["add-builder", "", "amd64"], ["add-arch", "amd64\n", "linux", "amd64"],
        ["queue", " amd64"],
    ):
        expect(stored(folder, *given) == (1, BAD_NAME, ""), f"{given}: {stored(folder, *given)}")
    met = stored(folder, "give-back", "amd64", "hello", "")
    expect(met == (1, '{"code":12,"fault":"Empty","refused":"BadVersion"}\n', ""), f"an empty version: {met}")
    met = stored(folder, "take", "amd64", "b1", "hello", "1.0")
    expect(met[0] == 0, f"take: {met}")
    met = stored(folder, "waits", "1", "libc6 (>= 2.36),", "gcc  |  clang")
    expect(met[0] == 0, f"waits: {met}")
    shown = json.loads(stored(folder, "item", "amd64", "hello")[1])["waits"]
    expect(shown == "libc6 (>= 2.36), gcc | clang", f"waits: {shown}")


# The arguments of `build-priority` but for the last.
SUBJECT = ["amd64", "hello", "1.0"]

# Words with a hyphen that are not the last word of `build-priority`, or are no number: options, or too many.
OPTIONS = [
    ["build-priority", *SUBJECT, "-5x"], ["build-priority", *SUBJECT, "-+5"], ["build-priority", *SUBJECT, "--5"],
    ["build-priority", *SUBJECT, "-5", "-6"], ["build-priority", *SUBJECT, "-5", "6"],
    ["build-priority", *SUBJECT, "5", "-6"], ["build-priority", "amd64", "-5", "1.0", "5"],
    ["build-priority", "-x", "hello", "1.0", "-5"], ["build-priority", "-5", *SUBJECT], ["rebuild", *SUBJECT, "-1"],
    ["fail", *SUBJECT, "-1"], ["built", "-1"],
]


def expect_build_priority(folder, status, value, given):
    """That these words gave the source package this build priority. It gets another one then."""
    shown = json.loads(stored(folder, "item", "amd64", "hello")[1])["build_priority"]
    expect((status, shown) == (0, int(value)), f"{given}: {status}, {shown}")
    expect(stored(folder, "build-priority", *SUBJECT, "7")[0] == 0, "another build priority")


def takes_negative_build_priorities(folder):
    """A negative build priority that is the last word needs no `--`, as words of the program and in a line; other words
    with a hyphen are options, as of other subcommands."""
    answers_of(folder, BEGIN)
    for value in ("-50", "-1000", "-0", "-007"):
        for named in ([*SUBJECT, value], [*SUBJECT, "--", value], ["amd64", "--", *SUBJECT[1:], value]):
            given = ["build-priority", *named]
            expect_build_priority(folder, stored(folder, *given)[0], value, given)
            expect_build_priority(folder, words(folder, "--store=store", *given)[0], value, given)
            expect_build_priority(folder, run(folder, [" ".join(given)])[0], value, given)
    for given in OPTIONS:
        for met in (stored(folder, *given), words(folder, *given)):
            expect(met[:2] == (2, FAULT) and met[2].startswith("error: "), f"{given}: {met}")
        expect(run(folder, [" ".join(given)]) == (2, FAULT.encode()), f"{given}: a line")
    met = words(folder, "build-priority", *SUBJECT, "-1001")
    expect(met == (1, '{"code":14,"refused":"BadNumber"}\n', ""), f"below the least: {met}")


def reads_files_of_any_name(folder):
    """Names of files with blanks, and with further equals signs."""
    fill(folder)
    answers_of(folder, BEGIN)
    for name, copy in (("Sources", "the sources"), ("Packages", "a=b c"), ("report", " report")):
        (folder / name).rename(folder / copy)
    met = stored(folder, "merge", "the sources", "amd64=a=b c")
    expect(met[0] == 0 and json.loads(met[1])["parts"][0]["added"] == 1, f"merge: {met}")
    met = stored(folder, "report", "amd64", " report")
    expect(met[0] == 0 and json.loads(met[1])["changed"] == 1, f"report: {met}")


# ---- the files


def writes_nothing_for_queries(folder):
    """After an end, and after a kill that leaves commits in the log, no query changes a byte or a time of a file; and
    it is answered by the log."""
    answers_of(folder, BEGIN)
    session = Session(folder)
    session.ask("next amd64 b1")
    session.kill()
    expect((folder / "store-wal").stat().st_size > 4096, "the log has no commits")
    for state in ("killed", "ended"):
        before = files_of(folder)
        for line in (*QUERIES, *REFUSED):
            status, said, more = stored(folder, *line.split())
            expect((status, more) == (1 if line in REFUSED else 0, ""), f"{state}, {line}: {status}, {said}, {more}")
            expect(files_of(folder) == before, f"{state}, {line}: a file is another")
        held = json.loads(stored(folder, "mine", "b1")[1])["records"]
        expect([record["take"] for record in held] == [1], f"{state}: {held}")
        for given in (["queue", "x" * 65536], ["built", "x"]):
            expect(stored(folder, *given)[0] == 2, f"{given}")
            if given[0] == "queue":
                expect(files_of(folder) == before, f"{state}: a query that is too long changes a file")
        answers_of(folder, [])
        before = files_of(folder)
    (folder / "store-wal").unlink()
    expect(stored(folder, "mine", "b1")[0] == 0, "a store without its log")
    expect(files_of(folder)["store"] == before["store"], "without the log the file is another")


def begins_an_office_for_a_query(folder):
    """A query of a file that is not there begins an office, as a command does, and is refused by it."""
    expect(
        stored(folder, "queue", "amd64") == (1, '{"code":1,"refused":"UnknownArch"}\n', NEW), "a file that is not there"
    )
    expect(stored(folder, "queue", "amd64") == (1, '{"code":1,"refused":"UnknownArch"}\n', ""), "the same again")
    (folder / "empty").write_bytes(b"")
    status, said, more = words(folder, "--store=empty", "mine", "b1")
    expect(
        (status, said) == (1, '{"code":2,"refused":"UnknownBuilder"}\n') and "a new office begins" in more,
        f"{status}, {said}, {more}",
    )


def names_the_fault_of_a_store(folder):
    """A file that is no office is refused, for a query as for a command, and stays as it was."""
    (folder / "store").write_text("this is no database\n" * 500)
    before = (folder / "store").read_bytes()
    for line in ("queue amd64", "add-arch amd64 linux amd64"):
        status, said, more = stored(folder, *line.split())
        expect(
            (status, said) == (3, '{"fault":"store","store":"NotOffice"}\n') and more.count("\n") == 1,
            f"{line}: {status}, {said}, {more}",
        )
    expect((folder / "store").read_bytes() == before, "the file is another")
    (folder / "folder").mkdir()
    for line in ("queue amd64", "add-arch amd64 linux amd64"):
        status, said, _ = words(folder, "--store", "folder", *line.split())
        expect((status, said) == (3, '{"fault":"store","store":"Device"}\n'), f"a folder, {line}: {status}, {said}")


TESTS = [
    answers_as_lines, keeps_nothing_without_a_file, stands_after_an_answer_that_is_not_written,
    is_refused_while_a_run_has_the_file,
]
TESTS += [
    refuses_before_the_store_is_opened, refuses_after_the_store_was_opened, helps_with_each_subcommand,
    says_where_the_store_comes, says_what_takes_seconds_at_a_terminal,
    names_refused_words_at_a_terminal, names_compressed_lists,
]
TESTS += [takes_words_as_they_are, takes_negative_build_priorities]
TESTS += [reads_files_of_any_name, writes_nothing_for_queries, begins_an_office_for_a_query, names_the_fault_of_a_store]
if __name__ == "__main__":
    sys.exit(main(TESTS))

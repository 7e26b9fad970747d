#!/usr/bin/env python3
"""Tests of tools/bin/wb-requests: how request lines are read, what is sent for them to an office that is served, what
comes of them, and that simulating says the same and sends nothing. Each test has a folder of its own.

    tools/tests/test_request_lines.py [NAME..]     these tests, or all

From the environment: WB is the program, crates/wb/out/wb of this repository where it is not set.
"""
import re
import subprocess
import sys

from harness import BIN, answers_of, expect, expect_none, main, program
from look_runs import in_terminal
from wanna_build_runs import Network, Program, ask, free_port
from wb_tools.moves import MOVES
from wb_tools.requests.lines import KINDS, Archs, Malformed, Package, Request, read_requests
from wb_tools.requests.relations import are_relations

COMMAND = BIN / "wb-requests"
ARCHS = Archs(("amd64", "arm64", "i386", "indep"), "indep")
NAMED = {"amd64": True}
LISTED = {
    (arch, source): ("1-1", "optional", "devel", installed)
    for arch in ("amd64", "arm64")
    for source, installed in (("foo", True), ("bar", True), ("baz", False))
} | {("amd64", "only"): ("2:1.0-1", "optional", "devel", False)}


# ---- lines


def request(word, packages, archs, *rest, **more):
    found = tuple(Package(*part.partition("_")[::2]) for part in packages.split())
    return Request(1, word, found, archs, *rest, **more)


ANY = {"amd64": False, "arm64": False, "i386": False}
READ = {
    'nmu foo_1-1 bar_2-3 . ANY -i386 . -m "Rebuild against libfoo2"':
        request("nmu", "foo_1-1 bar_2-3", {"amd64": False, "arm64": False}, text="Rebuild against libfoo2"),
    "gb foo_1 . armhf": request("gb", "foo_1", {"armhf": True}),
    'dw foo_1 . ANY . -m "libbar-dev (>= 2)"': request("dw", "foo_1", ANY, text="libbar-dev (>= 2)"),
    "nmu 3 foo_1 . amd64 . -m x": request("nmu", "foo_1", NAMED, text="x", number=3),
    "nmu foo_1-1 . amd64 . unstable . -m x": request("nmu", "foo_1-1", NAMED, "unstable", "x"),
    "gb foo_1 . amd64 . -d experimental": request("gb", "foo_1", NAMED, "experimental"),
    "gb -d sid foo_1 . amd64 . sid": request("gb", "foo_1", NAMED, "sid"),
    "gb foo . amd64 .": request("gb", "foo", NAMED),
    "  gb\tfoo_1:2.0~rc1-1+b2 . amd64   # why": request("gb", "foo_1:2.0~rc1-1+b2", NAMED),
    "bp -50 foo_1 . ALL": request("bp", "foo_1", {**ANY, "indep": False}, number=-50),
    "bp 10 foo . all i386 -i386": request("bp", "foo", {"indep": True}, number=10),
    "gb foo foo bar . ANY i386 -amd64": request("gb", "foo bar", {"arm64": False, "i386": True}),
    "fail foo_1 . amd64 . -m 'it'\\''s  \"so\" #1'": request("fail", "foo_1", NAMED, text="it's \"so\" #1"),
    'fail foo_1 . amd64 . -m "a \\"b\\" \\\\"': request("fail", "foo_1", NAMED, text='a "b" \\'),
    "nfu foo_1 . amd64 . -m needs\\ x86": request("nfu", "foo_1", NAMED, text="needs x86"),
    "nfu libsigc++-2.0_2.12.0-1 . amd64": request("nfu", "libsigc++-2.0_2.12.0-1", NAMED),
    "gb foo_1 . amd64 . -o": request("gb", "foo_1", NAMED, ends_holds=True),
    "gb foo#1_1 . amd64": "no package",
    "gb foo_1 . ANY -m68k": "-m68k leaves out",
    "": None,
    "   \t ": None,
    "# gb foo_1 . amd64": None,
    "rb foo_1 . amd64": "'rb' is no request, which are nmu, gb, dw, bp, fail, nfu",
    "gb": "are missing",
    "gb foo_1": "are missing",
    "gb foo_1 amd64": "are missing",
    "gb . amd64": "are missing",
    "gb foo_1 . . sid": "are missing",
    "nmu 3 . amd64 . -m x": "the packages are missing",
    "gb Foo_1 . amd64": "'Foo_1' is no package",
    "gb foo_ . amd64": "'foo_' is no package",
    "gb foo_1_2 . amd64": "is no package",
    "gb 3 foo_1 . amd64": "'3' is no package",
    'gb "" . amd64': "'' is no package",
    "gb foo_1 . AMD64": "'AMD64' is no architecture",
    "gb foo_1 . source": "'source' is no architecture",
    "gb foo_1 . ANY -i368": "-i368 leaves out",
    "gb foo_1 . amd64 -amd64": "no architecture is left",
    "gb foo_1 . -amd64": "-amd64 leaves out",
    "gb foo_1 . amd64 . sid . experimental": "more than one suite",
    "gb foo_1 . amd64 . sid experimental": "more than one suite",
    "gb foo_1 . amd64 . sid . -d experimental": "more than one suite",
    "gb foo_1 . amd64 . -d ../sid": "is no suite",
    "gb foo_1 . amd64 . -m x": "gb has no -m",
    "bp 5 foo_1 . amd64 . -m x": "bp has no -m",
    "nmu foo_1 . amd64": "the message of nmu is missing",
    "nmu foo_1 . amd64 . -m": "nothing stands after -m",
    "nmu foo_1 . amd64 . -m ' '": "the message of nmu is missing",
    "nmu foo_1 . amd64 . -m x -m y": "-m stands there twice",
    "dw foo_1 . amd64": "the relations of dw is missing",
    "dw foo_1 . amd64 . -m 'libbar-dev (>= 2'": "are no relations",
    "fail foo_1 . amd64": "the note of fail is missing",
    "nmu 0 foo_1 . amd64 . -m x": "0 is not from 1 to 999",
    "nmu 1000 foo_1 . amd64 . -m x": "1000 is not from 1 to 999",
    "bp 1001 foo_1 . amd64": "1001 is not from -1000 to 1000",
    "bp foo_1 . amd64": "a number from -1000 to 1000 has to stand after bp",
    "nmu foo_1 . amd64 . -m 'x": "a quote is not closed",
    'nmu foo_1 . amd64 . -m "x': "a quote is not closed",
    "gb foo_1 . amd64 \\": "ends with a backslash",
    "nmu foo_1 . amd64 . -m x --extra-depends 'libbar (>= 1)'": "say dw in a line after it",
    "gb foo_1 . amd64 . --override": "--override is no option of a line",
    "fail foo_1 . amd64 . -m 'a\x1b[31mb'": "a character that is not printed",
    f"nmu foo_1 . amd64 . -m {'x' * 1001}": "more than 1000 bytes",
    f"gb {'x' * 65536} . amd64": "more than 65536 bytes",
}


def are_read():
    amiss = []
    for line, wanted in READ.items():
        found = next(read_requests([f"{line}\n".encode()], ARCHS), None)
        said = str(found[1]) if isinstance(found, tuple) else found
        if said != wanted and not (isinstance(found, tuple) and isinstance(wanted, str) and wanted in said):
            amiss.append(f"{line[:80]!r} is {str(said)[:300]}")
    expect_none(amiss)
    for line in (b"gb foo_1 . amd64\r\n", b"gb foo_1 . amd64"):
        expect(list(read_requests([line], ARCHS)) == [request("gb", "foo_1", NAMED)], f"{line} is read otherwise")
    expect("not UTF-8" in str(next(read_requests([b"gb \xff . amd64\n"], ARCHS))[1]), "what is not UTF-8 is read")
    packed = [str(one[1]) for one in read_requests([b"\xfd7zXZ\0\0\n", b"\xff\n"], ARCHS)]
    expect(packed == ["it is compressed by xz; uncompress it"], f"{packed}")
    alone = next(read_requests([b"gb foo . ANY\n"], Archs((), "indep")))
    expect(isinstance(alone[1], Malformed) and "--arch" in str(alone[1]), f"ANY without --arch is {alone}")


RELATIONS = {
    "libz": True, "libbar-dev (>= 2), bar | baz": True, "debhelper (>= 13)": True, "foo:any": True, "foo:": False,
    "foo(>=1)": True, "foo ( >= 1:2.0~rc1-1 )": True, "foo (> 1)": True, "foo (== 1)": False, "foo (>=)": False,
    "foo (1)": False, "foo (>= 1": False, "foo (>= 1 2)": False, "foo (>= a_b)": False, "foo []": False,
    "foo [amd64]": True, "foo [!i386 !armhf]": True, "foo [amd64 !i386]": False, "foo [linux-any]": True,
    "foo [-x]": False, "foo <!nocheck>": True, "foo <>": False, "foo <!stage1> <a.b c>": True, "foo <a b": False,
    "foo | ": False, "| foo": False, "foo, , bar,": True, "foo bar": False, "Foo": False, "f": False, "foo) x": False,
    "foo [amd64] (>= 1)": False, "foo <!x> [amd64]": False, "foo (>= 1) [amd64] <!x>": True, "foo <!!x>": False,
}  # fmt: skip


def relations_are_those_that_an_office_reads(folder):
    """What is said of relations before anything is sent is what an office says of them."""
    lines = ["add-arch amd64 linux amd64"]
    lines += [f"enter amd64 p{at} 1.0 optional devel" for at in range(len(RELATIONS))]
    lines += [f"dep-wait amd64 p{at} 1.0 {text}" for at, text in enumerate(RELATIONS)]
    answers = answers_of(folder, lines, store=None)[-len(RELATIONS) :]
    for (text, wanted), answer in zip(RELATIONS.items(), answers):
        expect(are_relations(text) == wanted, f"{text!r} are relations, or are not")
        expect((answer.get("refused") != "BadRelations") == wanted, f"of {text!r} an office answers {answer}")


# ---- calls


def call(net, lines, *words, status=0, url=True):
    """What a call with these lines prints, and says on standard error; the lines are a text, or on standard input."""
    front = [COMMAND, *(["--url", f"http://127.0.0.1:{net.gate.port}", "--wait", "5"] if url else [])]
    done = subprocess.run(
        [*front, *words], input=lines, capture_output=True, text=True, timeout=120, cwd=net.folder, check=False
    )
    said = f"{done.stdout[-2000:]}{done.stderr[-1000:]}"
    expect(done.returncode == status, f"{words}: status {done.returncode} in place of {status}: {said}")
    return done.stdout, done.stderr


def rows_of(said):
    """The rows of a table: the cells of each, and the last line, which counts them."""
    head, *rows, counts = said.splitlines()
    expect(head.startswith("LINE"), f"there is no table: {said}")
    return [re.split("  +", row.strip(), maxsplit=5) for row in rows], counts


def is_accepted(net):
    """How many commands the office has accepted."""
    return ask(net.office.port, "GET", "/v1/summary/amd64")["accepted"]


BOTH = ("--arch", "amd64", "--arch", "arm64")


def are_sent_for_each_architecture(folder):
    """Each word changes the records of what is named, and of no other package and architecture."""
    with Network(folder, LISTED) as net:
        before = {key: net.item(key[1], key[0]) for key in LISTED}
        lines = """# a transition
nmu foo_1-1 bar . ANY . -m "Rebuild against libfoo2, it's new"

dw foo_1-1 . ANY -arm64 . -m "libbar-dev (>= 2)"
bp 50 bar_1-1 . arm64
fail baz_1-1 . amd64 . -m 'needs "x" # 1'
nfu baz_1-1 . arm64
gb bar . amd64
"""
        rows, counts = rows_of(call(net, lines, *BOTH, status=1)[0])
        expect(rows == [
            ["2", "nmu 1", "amd64", "foo_1-1", "accepted", "Installed becomes Needs-Build as 1-1+b1"],
            ["2", "nmu 1", "arm64", "foo_1-1", "accepted", "Installed becomes Needs-Build as 1-1+b1"],
            ["2", "nmu 1", "amd64", "bar", "accepted", "Installed becomes Needs-Build as 1-1+b1"],
            ["2", "nmu 1", "arm64", "bar", "accepted", "Installed becomes Needs-Build as 1-1+b1"],
            ["4", "dw", "amd64", "foo_1-1", "accepted", "Needs-Build becomes Dep-Wait"],
            ["5", "bp 50", "arm64", "bar_1-1", "accepted", "build priority 0 becomes 50"],
            ["6", "fail", "amd64", "baz_1-1", "accepted", "Needs-Build becomes Failed"],
            ["7", "nfu", "arm64", "baz_1-1", "accepted", "Needs-Build becomes Not-For-Us"],
            ["8", "gb", "amd64", "bar", "refused", "it is Needs-Build"],
        ], f"the rows are {rows}")
        expect(counts == "8 accepted, 1 refused", f"the counts are {counts}")
        message, wanted = "Rebuild against libfoo2, it's new", {"number": 1, "build": "1-1+b1"}
        changed = {
            ("amd64", "foo"): {"state": "Dep-Wait", "waits": "libbar-dev (>= 2)", "message": message, **wanted},
            ("arm64", "foo"): {"state": "Needs-Build", "message": message, **wanted},
            ("amd64", "bar"): {"state": "Needs-Build", "message": message, **wanted},
            ("arm64", "bar"): {"state": "Needs-Build", "message": message, "build_priority": 50, **wanted},
            ("amd64", "baz"): {"state": "Failed", "note": 'needs "x" # 1'},
            ("arm64", "baz"): {"state": "Not-For-Us"},
        }
        for key, was in before.items():
            now = net.item(key[1], key[0])
            expect(now == {**was, **changed.get(key, {})}, f"{key} is {now}")


def words_in_a_file_or_on_standard_input(folder):
    with Network(folder, LISTED) as net:
        (folder / "some requests").write_text("gb baz_1-1 . amd64\n")
        _, noted = call(net, "", "none", status=3)
        expect("none: No such file" in noted, f"it says {noted}")
        for words in (["some requests"], ["-"], []):
            rows, _ = rows_of(call(net, "gb baz_1-1 . amd64\n", *words, status=1)[0])
            expect(rows == [["1", "gb", "amd64", "baz_1-1", "refused", "it is Needs-Build"]], f"{words}: {rows}")
        said, noted = call(net, "# nothing\n\n")
        expect(not said and not noted, f"of no line it says {said}{noted}")
        for words in (
            ["--url", "http://example.org:80"], ["--url", "http://127.0.0.1:1"], ["--arch", "ANY"], ["--no-such"],
            ["--url", "sid=http://127.0.0.1:1"], ["--wait", "x"], ["a", "b"],
        ):
            _, noted = call(net, "", *words, status=2)
            expect("error: " in noted, f"{words}: {noted}")
        _, noted = call(net, "", "--simulate", url=False, status=2)
        expect("--url" in noted, f"it says {noted}")


def one_that_is_malformed_stops_all(folder):
    """Each malformed line is named with its number, and nothing is sent."""
    with Network(folder, LISTED) as net:
        lines = "gb foo_1-1 . amd64\nrb foo\n\nnmu foo_1-1 . ANY . -m 'x\nbp 5 baz . amd64\ngb foo . amd64 . sid\n"
        said, noted = call(net, lines, status=2)
        named = re.findall("(?m)^wb-requests: standard input, line ([0-9]+): ", noted)
        expect(not said and named == ["2", "4", "6"] and "nothing was sent" in noted, f"it says {said}{noted}")
        expect(not net.gate.asked, f"it asks {net.gate.asked}")


def say_which_suite(folder):
    """A line goes to the office of its suite, and a line for which there is no office is refused before all."""
    with Network(folder, LISTED) as net:
        other = Program(program(), folder / "experimental", free_port(), LISTED)
        other.start()
        try:
            urls = ["--url", f"sid=http://127.0.0.1:{net.office.port}"]
            urls += ["--url", f"experimental=http://localhost:{other.port}"]
            lines = "nfu baz_1-1 . amd64 . sid\nfail baz_1-1 . amd64 . experimental . -m x\n"
            rows, _ = rows_of(call(net, lines, *urls, url=False)[0])
            expect([row[2] for row in rows] == ["sid", "experimental"], f"the rows are {rows}")
            states = [ask(port, "GET", "/v1/item/amd64/baz")["state"] for port in (net.office.port, other.port)]
            expect(states == ["Not-For-Us", "Failed"], f"the states are {states}")
            for lines, words, wanted in (
                ("gb baz . amd64\n", urls, "line 1: it names no suite"),
                ("gb baz . amd64 . stable\n", urls, "line 1: no --url names the office of stable"),
                ("gb baz . amd64 . sid\n", ["--url", f"http://127.0.0.1:{other.port}"], "names the office of sid"),
                ("gb baz . amd64\n", [*urls, "--url", "http://127.0.0.1:1"], "has to have its suite"),
                ("gb baz . amd64\n", [*urls, *urls], "has to have its suite"),
            ):
                _, noted = call(net, lines, *words, url=False, status=2)
                expect(wanted in noted, f"{lines!r}: it says {noted}")
            rows, _ = rows_of(call(net, "gb baz . amd64\n", *urls[:2], url=False)[0])
            expect(rows[0][4] == "accepted" and net.state_of("baz") == "Needs-Build", f"the only office: {rows}")
        finally:
            other.stop()


def leave_what_is_held(folder):
    """What a builder holds is left to it, unless the line says -o; a rebuild and a build priority end no hold."""
    with Network(folder, LISTED) as net:
        net.post("take", arch="amd64", builder="b1", source="baz", version="1-1")
        for word, text in (("gb", ""), ("dw", ". -m liby"), ("fail", ". -m x"), ("nfu", ". -m x")):
            rows, _ = rows_of(call(net, f"{word} baz_1-1 . amd64 {text}\n", status=1)[0])
            expect(rows[0][5] == "it is Building, held by b1; -o in the line ends the hold", f"{word}: {rows}")
        rows, _ = rows_of(call(net, "bp 5 baz . amd64\n")[0])
        expect(net.state_of("baz") == "Building b1 1", f"it is {net.state_of('baz')}")
        posted = [path for method, path, _ in net.gate.asked if method == "POST"]
        expect(posted == ["/v1/build-priority"], f"sent was {posted}")
        rows, _ = rows_of(call(net, "gb baz_1-1 . amd64 . -o\n")[0])
        expect(rows[0][5] == "Building, held by b1, becomes Needs-Build", f"the rows are {rows}")
        net.expect_state("baz", "Needs-Build")


def name_versions_and_packages_that_are_there(folder):
    """What ANY stands for may lack the package, and what is named may not; other versions are refused."""
    with Network(folder, LISTED) as net:
        lines = "gb only . ANY\ngb only . arm64 amd64\ngb none . ANY\ngb only_1.0-1 . amd64\ngb only_2:1.00-1 . amd64\n"
        lines += "gb foo . mips\nnmu foo_1-1+b1 . amd64 . -m x\n"
        rows, counts = rows_of(call(net, lines, *BOTH, status=1)[0])
        absent = ["refused", "the office has no such package"]
        expect([row[4:] for row in rows] == [
            ["refused", "it is Needs-Build"], ["not there"], absent, ["refused", "it is Needs-Build"], absent, absent,
            ["refused", "the office has version 2:1.0-1"], ["refused", "it is Needs-Build"],
            ["refused", "the office has no such architecture"], ["refused", "the office has version 1-1"],
        ], f"the rows are {rows}")
        expect(counts == "0 accepted, 9 refused, 1 not there", f"the counts are {counts}")


def rebuild_alike_on_all_architectures(folder):
    """Without a number a rebuild has the one after the greatest of the line's architectures."""
    with Network(folder, LISTED) as net:
        call(net, "nmu 7 foo_1-1 . arm64 . -m x\n")
        net.office.merge("arm64", {"foo": ("1-1", 7)})
        rows, _ = rows_of(call(net, "nmu foo_1-1 bar . ANY . -m y\n", *BOTH)[0])
        expect([row[1] for row in rows] == ["nmu 8", "nmu 8", "nmu 1", "nmu 1"], f"the rows are {rows}")
        net.office.merge("amd64", {"foo": ("1-1", 8)})
        rows, _ = rows_of(call(net, "nmu 8 foo . amd64 . -m y\nnmu foo . amd64 . -m y\n", status=1)[0])
        expect(rows[0][4:] == ["refused", "the office answered BadNumber"], f"the rows are {rows}")
        expect(rows[1][1] == "nmu 9" and net.item("foo")["build"] == "1-1+b9", f"the rows are {rows}")


# ---- simulating


STATES = [
    "Needs-Build", "Building", "Built", "Uploaded", "Installed", "Dep-Wait", "BD-Uninstallable", "Failed", "Not-For-Us",
    "Build-Attempted",
]
TEXTS = {"nmu": ". -m x", "dw": ". -m 'libz (>= 1)'", "fail": ". -m x", "nfu": ". -m x"}


def lines_into(name, state, take):
    """The lines after which a record that is Needs-Build is in a state."""
    taken = [f"take amd64 b1 {name} 1.0"]
    return {
        "Building": taken, "Built": [*taken, f"built {take}"], "Uploaded": [*taken, f"uploaded {take}"],
        "Build-Attempted": [*taken, f"attempted {take}"], "Dep-Wait": [f"dep-wait amd64 {name} 1.0 libx"],
        "Failed": [f"fail amd64 {name} 1.0 why"], "Not-For-Us": [f"not-for-us amd64 {name} 1.0"],
        "BD-Uninstallable": ["report amd64 report"],
    }.get(state, [])


def in_each_state(folder, names):
    """An office in which there is a package of each name in each state."""
    listed = {("amd64", f"{name}-{state.lower()}"): ("1.0", "extra", "misc", state == "Installed")
              for name in names for state in STATES}
    net = Network(folder, listed | {("amd64", "hello"): ("1.0", "extra", "misc", True)})
    lines, take = [], 0
    for _, name in listed:
        state = next(state for state in STATES if name.split("-", 1)[1] == state.lower())
        take += state in ("Building", "Built", "Uploaded", "Build-Attempted")
        lines += lines_into(name, state, take)
    report = "".join(f"{name} 1.0 uninstallable x\n" for _, name in listed if name.endswith("-bd-uninstallable"))
    (net.office.folder / "report").write_text(report)
    net.office.run(lines)
    return net


def simulated_are_as_they_are_sent(folder):
    """What is simulated in each state, and after the lines before, is what then comes of it, and nothing is sent."""
    names = [*KINDS, "several"]
    with in_each_state(folder, names) as net:
        for name in names:
            for state in STATES:
                found = net.item(f"{name}-{state.lower()}")["state"]
                expect(found == state, f"{name} is {found} in place of {state}")
        lines = [f"{word} {'-7 ' * (word == 'bp')}{word}-{state.lower()}_1.0 . amd64 {TEXTS.get(word, '')} . -o"
                 for word in KINDS for state in STATES]
        lines += ["gb gb-building . amd64", "nmu 1000 hello . amd64 . -m x", "nmu 999 hello . amd64 . -m x"][::2]
        for state in STATES:
            for word in ("nmu", "dw", "nmu", "gb", "fail", "bp", "gb", "nfu", "dw", "gb"):
                value = "5 " if word == "bp" else ""
                lines.append(f"{word} {value}several-{state.lower()} . amd64 {TEXTS.get(word, '')}")
        text, before = "".join(f"{line}\n" for line in lines), is_accepted(net)
        simulated, counts = rows_of(call(net, text, "--simulate", status=1)[0])
        posted = [path for method, path, _ in net.gate.asked if method != "GET"]
        expect(not posted and is_accepted(net) == before, f"sent was {posted}")
        expect(counts.startswith("simulated, and nothing sent: "), f"the counts are {counts}")
        sent, said = rows_of(call(net, text, status=1)[0])
        expect_none(f"simulated is {one}, and sent {other}" for one, other in zip(simulated, sent) if one != other)
        accepted = sum(row[4] == "accepted" for row in sent)
        expect(counts.endswith(said) and f"{accepted} accepted" in said, f"the counts are {counts} and {said}")
        expect(is_accepted(net) == before + accepted, "more or less was accepted than is shown")
        moves = {(row[1].split()[0], state) for row in sent[: 10 * len(KINDS)] for state in STATES
                 if row[4] == "accepted" and row[3].endswith(f"-{state.lower()}_1.0")}
        wanted = {(word, state) for word, kind in KINDS.items() for state in STATES
                  if word == "bp" or state in MOVES[kind.command][0]}
        expect(moves == wanted, f"the moves differ in {moves ^ wanted}")
    return f"{len(lines)} lines"


# ---- lines of a run


def are_printed_as_lines_of_a_run(folder):
    """Without --url the lines of a run are printed, which an office accepts."""
    with Network(folder, LISTED) as net:
        lines = "nmu 1 foo_1-1 bar_1-1 . ANY . -m 'against -x -- libfoo2'\n"
        lines += "dw foo_1-1 . arm64 . -m 'liba (>= 2), libb | libc'\n"
        lines += "bp -50 bar_1-1 . amd64\nfail baz_1-1 . ANY . sid . -m no\nnfu only_2:1.0-1 . amd64\ngb baz_1-1 . ANY"
        said, noted = call(net, lines, *BOTH, url=False)
        expect(said == """rebuild amd64 foo 1-1 -- 1 against -x -- libfoo2
rebuild arm64 foo 1-1 -- 1 against -x -- libfoo2
rebuild amd64 bar 1-1 -- 1 against -x -- libfoo2
rebuild arm64 bar 1-1 -- 1 against -x -- libfoo2
dep-wait arm64 foo 1-1 liba (>= 2), libb | libc
build-priority amd64 bar 1-1 -- -50
fail amd64 baz 1-1 no
fail arm64 baz 1-1 no
not-for-us amd64 only 2:1.0-1
give-back amd64 baz 1-1
give-back arm64 baz 1-1
""" and not noted, f"it prints {said}{noted}")
        expect(not net.gate.asked, "an office is asked")
        net.office.stop()
        net.office.run(said.splitlines())
        net.office.start()
        expect(net.item("foo")["message"] == "against -x -- libfoo2", f"the message is {net.item('foo')['message']}")
        for line, wanted in (
            ("gb foo . amd64", "needs its version"), ("nmu foo_1 . amd64 . -m x", "needs its number"),
            ("gb foo_1 . amd64 . sid\ngb foo_1 . amd64 . experimental", "line 2: experimental"),
        ):
            said, noted = call(net, f"{line}\n", url=False, status=2)
            expect(wanted in noted and not said, f"{line!r}: it says {said}{noted}")


# ---- answers that are lost


def are_sent_once_if_answers_are_lost(folder):
    """An order whose answer is lost is sent again only if it was not carried out."""
    paths = ["rebuild", "dep-wait", "give-back", "fail", "build-priority", "give-back", "not-for-us"]
    lines = """nmu foo_1-1 . {0} . -m x\ndw foo . {0} . -m liby\ngb foo . {0}\nfail foo . {0} . -m no\nbp 5 foo . {0}
gb foo_1-1 . {0}\nnfu foo . {0} . -m x\n"""
    with Network(folder, LISTED) as net:
        for kind, arch in (("answer", "amd64"), ("request", "arm64")):
            net.gate.lose = [(f"/v1/{path}", kind) for path in paths] * 2 + [("/v1/item/", "half")]
            before = is_accepted(net)
            rows, counts = rows_of(call(net, lines.format(arch))[0])
            expect(counts == "7 accepted", f"of {kind}s that are lost: {rows}")
            more = ask(net.office.port, "GET", f"/v1/summary/{arch}")["accepted"] - before
            expect(more == 7, f"of 7 orders, of which {kind}s are lost, {more} are carried out")
            record = net.item("foo", arch)
            expect((record["state"], record["build_priority"]) == ("Not-For-Us", 5), f"it is {record}")


def end_no_hold_that_began_meanwhile(folder):
    """A give-back that was carried out, and whose answer was lost, is not sent again to who took the package since."""
    with Network(folder, LISTED) as net:

        class Asked(list):
            """What the gate was asked. Another builder takes the package before the record is looked at again."""

            def append(self, entry):
                if self and self[-1][1] == "/v1/give-back":
                    net.post("take", arch="amd64", builder="b3", source="baz", version="1-1")
                super().append(entry)

        net.post("take", arch="amd64", builder="b1", source="baz", version="1-1")
        net.gate.lose, net.gate.asked = [("/v1/give-back", "answer")], Asked()
        rows, _ = rows_of(call(net, "gb baz . amd64 . -o\n", status=1)[0])
        net.expect_state("baz", "Building b3 2")
        expect(rows[0][5] == "its answer was lost, and now it is Building, held by b3", f"the rows are {rows}")


def wait_for_an_office_that_starts(folder):
    """An office that is stopped is asked again; if it does not come back, nothing more is sent."""
    with Network(folder, LISTED) as net:
        net.office.stop()

        class Asked(list):
            """What the gate was asked. The office comes back before the fourth request."""

            def append(self, entry):
                super().append(entry)
                if len(self) == 4:
                    net.office.start()

        net.gate.asked = Asked()
        rows, _ = rows_of(call(net, "nfu baz . amd64\n", "--wait", "30")[0])
        expect(rows[0][4] == "accepted", f"the rows are {rows}")
        net.gate.lose = [("/v1/fail", "request")] * 99
        lines = "bp 5 foo . ANY\nfail bar baz -o . ANY . -m x\nbp 7 baz . amd64\n"
        said, noted = call(net, lines, *BOTH, "--wait", "0", status=3)
        rows, counts = rows_of(said)
        answers = [row[4] for row in rows]
        expect(answers == ["accepted", "accepted", "no answer", *["not sent"] * 4], f"the rows are {rows}")
        expect(counts == "2 accepted, 1 no answer, 4 not sent", f"the counts are {counts}")
        expect("no answer, or a part of one" in noted and net.item("foo")["build_priority"] == 5, f"it says {noted}")
        net.office.stop()
        rows, _ = rows_of(call(net, "bp 5 foo . ANY\n", *BOTH, "--wait", "0", status=3)[0])
        expect([row[4] for row in rows] == ["not sent", "not sent"], f"the rows are {rows}")


# ---- a terminal


def are_shown_in_eighty_columns(folder):
    with Network(folder, LISTED) as net:
        name = f"{'long' * 40}_1-1"
        lines = f"gb {name} foo . ANY . unstable\n".encode()
        url = ["--url", f"unstable=http://127.0.0.1:{net.office.port}"]
        shown = in_terminal(["wb-requests", *url, *BOTH], lines, 80, status=1)
        expect(all(len(line) <= 80 for line in shown.splitlines()) and "..." in shown, f"it shows {shown}")
        wide = in_terminal(["wb-requests", *url, *BOTH, "--wide"], lines, 80, status=1)
        expect(name in wide, f"it shows {wide}")


TESTS = [
    are_read, relations_are_those_that_an_office_reads, are_sent_for_each_architecture,
    words_in_a_file_or_on_standard_input, one_that_is_malformed_stops_all, say_which_suite, leave_what_is_held,
    name_versions_and_packages_that_are_there, rebuild_alike_on_all_architectures, simulated_are_as_they_are_sent,
    are_printed_as_lines_of_a_run, are_sent_once_if_answers_are_lost, end_no_hold_that_began_meanwhile,
    wait_for_an_office_that_starts, are_shown_in_eighty_columns,
]  # fmt: skip

if __name__ == "__main__":
    sys.exit(main(TESTS))

#!/usr/bin/env python3
"""Tests of merges over HTTP, `wb serve --lists FOLDER`, each in a folder of its own: the answers and the tables of a
merge as a line, what is opened and what is not, the order of the faults, lists that break off, cut requests, other
clients, and kills.

    tools/tests/test_merge_requests.py [NAME..]     these tests, or all

From the environment: WB is the program, ./wb of this repository where it is not set; KILLS is how often it is killed
within a merge, 20 where it is not set; SEED is added to the number of each random choice.
"""
import asyncio
import collections
import contextlib
import json
import os
import random
import re
import shutil
import signal
import socket
import sys
import time

from client_runs import asked, beside, shown
from harness import SEED, WAIT, answers_of, expect, main, run
from request_reading import FAULTS, NO_LIST as LAST_FAULT, Fault, request_of
from serve_runs import Server, answer_bytes, received, request_bytes
from store_runs import OFFICE_TABLES, TWO_ARCHS, rows_of

KILLS = int(os.environ.get("KILLS", "20"))
LATE = float(os.environ.get("LATE", "1"))
SOURCE = "Package: {}\nVersion: {}\nArchitecture: any\nPriority: optional\nSection: devel\n\n"
BINARY = "Package: {0}-bin\nSource: {0}\nVersion: {1}\nArchitecture: {2}\n\n"
OFFICE = b"GET /v1/office HTTP/1.1\r\n\r\n"


def fault(status, name):
    return answer_bytes(status, f'{{"http":"{name}"}}')


NO_LIST, BAD_BODY, NO_ROUTE = fault(404, "NoList"), fault(400, "BadBody"), fault(404, "NoRoute")
UNKNOWN = answer_bytes(404, '{"code":1,"refused":"UnknownArch"}')


# ---- lists and requests


def write_lists(folder, **texts):
    """Lists of these names in a folder `lists`, whose underscores stand for hyphens."""
    place = folder / "lists"
    place.mkdir(exist_ok=True)
    for name, text in texts.items():
        (place / name.replace("_", "-")).write_bytes(text if isinstance(text, bytes) else text.encode())
    return place


def lists_of(folder):
    """An office of two architectures in the file `store`, and the lists of ONES."""
    answers_of(folder, TWO_ARCHS)
    aa, bb = (SOURCE.format(name, "1.0") for name in ("aa", "bb"))
    return write_lists(
        folder, sources=aa + bb, fewer=aa, none="", newer=aa.replace("1.0", "2.0") + bb,
        packages=BINARY.format("aa", "1.0", "amd64"), others=BINARY.format("bb", "1.0", "arm64"),
        bad=aa + "Package: bb\nArchitecture: any\n\n", orphan=" aa\n\n", latin=b"Package: a\xe9\n\n", cut=aa[:-2],
    )


def merge(sources, *parts, **more):
    """The request for a merge of these lists."""
    named = [dict(zip(("arch", "packages"), part.split("="))) for part in parts]
    return request_bytes("/v1/merge", json.dumps({"parts": named, "sources": sources, **more}))


def serving(folder, lists="lists", **options):
    return Server(folder, more=["--lists", str(lists)], **options)


def tables(folder):
    """All rows of the office."""
    return {name: rows_of(folder, f"SELECT * FROM {name}") for name in OFFICE_TABLES}


def body_of(answer):
    return json.loads(answer.partition(b"\r\n\r\n")[2])


def accepted(server):
    """How many commands were accepted."""
    return body_of(server.says(OFFICE))["accepted"]


# ---- as a line

# Merges one after another, each the words of a line, with the status of the answer over HTTP.
ONES = [
    ("sources amd64=packages", 200),
    ("sources amd64=packages", 200),
    ("newer amd64=packages arm64=others", 200),
    ("fewer arm64=others", 200),
    ("sources arm64=none amd64=none", 200),
    ("cut amd64=packages", 200),
    ("none amd64=packages", 200),
    ("sources amd64=packages armhf=none", 200),
    ("sources amd64=bad arm64=others", 200),
    ("sources armhf=packages", 404),
    ("sources armhf=packages riscv64=packages", 404),
    ("bad amd64=packages", 422),
    ("orphan amd64=packages", 422),
    ("latin amd64=packages", 422),
    ("sources amd64=latin", 422),
    ("sources amd64=packages amd64=packages", 422),
    ("sources all=packages", 422),
    ("sources Amd64=packages", 422),
    ("sources =packages", 422),
    ("packages amd64=sources", 200),
    ("sources amd64=packages arm64=others", 200),
]


def answers_as_a_line(folder):
    """The same JSON as that of a line of a run, without its line feed, and then the same tables."""
    for name in ("lines", "http"):
        (folder / name).mkdir()
        lists_of(folder / name)
    lines = []
    for words, _ in ONES:
        sources, *parts = words.split()
        lines.append(" ".join([f"merge lists/{sources}", *(part.replace("=", "=lists/") for part in parts)]))
    status, said = run(folder / "lines", lines)
    expect(status == 1, f"the run ends with {status}")
    with serving(folder / "http") as server:
        for (words, wanted), answer in zip(ONES, said.splitlines(), strict=True):
            met = server.says(merge(*words.split()))
            expect(met == answer_bytes(wanted, answer), f"{words}: {met} in place of {wanted} {answer}")
    one, other = tables(folder / "lines"), tables(folder / "http")
    expect(one == other, f"the tables are {other} in place of {one}")
    return f"{len(ONES)} merges"


def keeps_a_journal(folder):
    """An accepted merge has the entry of one that is a line."""
    for name in ("lines", "http"):
        (folder / name).mkdir()
        lists_of(folder / name)
    words = ["sources amd64=packages", "sources armhf=packages", "newer amd64=packages armhf=none arm64=others"]
    journal = folder / "http" / "journal"
    with Server(folder / "http", more=["--lists", "lists", "--journal", "journal"]) as server:
        for one in words:
            server.says(merge(*one.split()))
    found = [json.loads(line) for line in journal.read_text().splitlines()]
    archs = [[part["arch"] for part in entry["command"]["parts"]] for entry in found]
    expect(archs == [["amd64"], ["amd64", "armhf", "arm64"]], f"{found}")
    expect([entry["answer"]["ok"] for entry in found] == ["merge", "merge"], f"{found}")


# ---- what a body may be

PART = {"arch": "amd64", "packages": "packages"}
LONG = "x" * 255
# Bodies that are none of a merge, as JSON or as values.
BAD = [
    {"parts": [PART]}, {"sources": "sources"}, {"parts": [], "sources": "sources"}, {"parts": PART, "sources": "x"},
    {"parts": [[]], "sources": "sources"}, {"parts": [PART, 1], "sources": "sources"}, {"parts": None, "sources": "x"},
    {"parts": [{"arch": "amd64"}], "sources": "sources"}, {"parts": [{"packages": "packages"}], "sources": "sources"},
    {"parts": [{"arch": 1, "packages": "packages"}], "sources": "sources"}, {"parts": [PART], "sources": None},
    {"parts": [{"arch": "amd64", "packages": None}], "sources": "sources"}, {"parts": [PART], "sources": ["sources"]},
    [PART], "merge", 1, None,
]  # fmt: skip
# Names that no list may have: of its own folder only names without a slash, and none that is hidden.
BAD_NAMES = ["", ".", "..", ".sources", "/etc/passwd", "../sources", "a/b", "lists/sources", "sources/", "/"]
BAD_NAMES += ["\u00e4" * 128, "x" * 256, "./sources"]


def refuses_bodies_that_name_no_list(folder):
    """BadBody, before any list is opened, for each name of a list that is no name of a file of the folder."""
    lists_of(folder)
    (folder / "lists" / ".sources").write_text("")
    with serving(folder) as server:
        for body in BAD:
            met = server.says(request_bytes("/v1/merge", json.dumps(body)))
            expect(met == BAD_BODY, f"{body}: {met}")
        half = b'{"sources":"a","parts":[{"arch":"a","packages":"\\ud800"}]}'
        for text in (b"", b"{", b'{"parts":[],', b"\xff", half):
            met = server.says(request_bytes("/v1/merge", text))
            expect(met == BAD_BODY, f"{text}: {met}")
        for name in BAD_NAMES:
            for request in (
                merge(name, "amd64=packages"), merge("sources", f"amd64={name}"),
                merge("nowhere", "amd64=packages", f"arm64={name}"),
            ):
                met = server.says(request)
                expect(met == BAD_BODY, f"{name!r}: {met}")
        expect(accepted(server) == 4, "something was merged")
    return f"{len(BAD)} bodies, {len(BAD_NAMES)} names"


def takes_names_and_keys_as_they_come(folder):
    """Names of 255 bytes, with blanks and other letters; keys that nobody asks for; and of a key that stands twice the
    last."""
    place = lists_of(folder)
    names = [LONG, "\u00e4" * 127 + "x", "a b\n'\"\\=~", "-rf", "Packages.amd64..", "\u20ac"]
    for name in names:
        shutil.copy(place / "sources", place / name)
    with serving(folder) as server:
        for at, name in enumerate(names):
            met = body_of(server.says(merge(name, "amd64=packages", more={"x": [1]}, version=1)))
            expect(met.get("accepted") == 5 + at, f"{name!r}: {met}")
        parts = '"parts":[{"packages":"x","arch":"amd64","packages":"packages","a":{}}]'
        text = f'{{"sources":1,{parts},"sources":"sources"}}'
        met = body_of(server.says(request_bytes("/v1/merge", text)))
        expect(met.get("accepted") == 5 + len(names), f"{met}")


def has_no_route_without_lists(folder):
    """Without --lists there is no such path, whatever the method and the body; with it another method is wrong."""
    lists_of(folder)
    good = merge("sources", "amd64=packages")
    requests = [
        good, b"GET /v1/merge HTTP/1.1\r\n\r\n", b"PUT /v1/merge HTTP/1.1\r\n\r\n",
        request_bytes("/v1/merge", "", "Transfer-Encoding: chunked"), request_bytes("/v1/merge", "{", length="none"),
    ]  # fmt: skip
    with Server(folder) as server:
        for request in requests:
            expect(server.says(request) == NO_ROUTE, f"{request} has a route")
    with serving(folder) as server:
        for path in ("merge/", "merge?x", "merges", "Merge", "merge/sources"):
            expect(server.says(good.replace(b"/merge ", f"/{path} ".encode())) == NO_ROUTE, f"{path} is a path")
        wrong = fault(405, "WrongMethod")
        expect([server.says(one) for one in requests[1:3]] == [wrong] * 2, "another method is taken")
        expect(body_of(server.says(good)).get("accepted") == 5, "it is not merged")


def has_its_faults_in_their_order(folder):
    """Each fault comes before all that stand under it; a list that cannot be opened is the last, and comes before each
    refusal of the office."""
    lists_of(folder)
    no_list, bad = merge("nowhere", "amd64=packages"), request_bytes("/v1/merge", '{"parts":[]}')
    cases = [
        (bad.replace(b"\r\n\r\n", b"\r\nOrigin: null\r\n\r\n"), 403, "FromBrowser"),
        (bad.replace(b"POST", b"PUT").replace(b"Content-Length", b"Transfer-Encoding: x\r\nA"), 405, "WrongMethod"),
        (bad.replace(b"Content-Length", b"Transfer-Encoding: x\r\nContent-Length: y\r\nA"), 501, "NotSupported"),
        (bad.replace(b"Content-Length", b"A"), 411, "NoLength"),
        (bad.replace(b"Content-Length: ", b"Content-Length: x"), 400, "BadLength"),
        (bad.replace(b"Content-Length: ", b"Content-Length: 99999999"), 413, "BodyTooLarge"),
        (no_list[:-1], 400, "BodyCut"), (bad, 400, "BadBody"), (no_list, 404, "NoList"),
        (merge("nowhere", "AMD64=packages"), 404, "NoList"), (merge("sources", "armhf=nowhere"), 404, "NoList"),
        (merge("sources", "amd64=packages", "amd64=nowhere"), 404, "NoList"),
        (merge("bad", "amd64=nowhere"), 404, "NoList"), (merge("nowhere", "armhf=nowhere"), 404, "NoList"),
    ]  # fmt: skip
    with serving(folder) as server:
        for request, status, name in cases:
            met = server.says(request)
            expect(met == fault(status, name), f"{name}: {request} is answered {met}")
        expect(accepted(server) == 4, "something was merged")
    return f"{len(cases)} requests"


# What may stand in the place of a name, an architecture, a part or all parts, and what is put into a text.
NAMES = ["sources", "packages", "none", "fewer", "nowhere", "folder", "\u00e4", "a b", "..", ".x", "a/b", "", LONG]
NAMES += ["y" * 256]
ARCHS = ["amd64", "arm64", "armhf", "AMD64", "all", ""]
VALUES = ["null", "1", "[]", "{}", "true", '"sources"', "1e400", '"\\ud800"', '"\\u0000"', "[[]]"]


def random_body(chance):
    """The body of a merge, which most often is none of them alone for one reason."""
    def name():
        return chance.choice(NAMES[: chance.choice([4, 4, 14])])

    count = chance.choice([0, 1, 1, 1, 2, 2, 3])
    parts = [{"arch": chance.choice(ARCHS[: chance.choice([2, 2, 2, 6])]), "packages": name()} for _ in range(count)]
    text = json.dumps({"parts": parts, "sources": name()})
    at = chance.randrange(len(text) + 1)
    return chance.choice([
        text, text, text, text[:at] + chance.choice('{}[]",:0 \n') + text[at:], text[:at] + text[at + 1 :],
        re.sub('"[a-z0-9]*"(?=[,}])', lambda found: chance.choice([found[0], chance.choice(VALUES)]), text),
        text.replace('"sources"', chance.choice(['"source"', '"sources":1,"sources"']), 1),
        text.replace('"packages"', chance.choice(['"Packages"', '"packages":1,"packages"', '"x":[],"packages"']), 1),
    ])  # fmt: skip


def reads_random_bodies_as_the_page_says(folder):
    """Bodies at random, by a second reading of docs/HTTP.md: which fault it is, or that it is merged or refused."""
    place = lists_of(folder)
    (place / "folder").mkdir()
    lists = {path.name for path in place.iterdir() if path.is_file()}
    chance, met = random.Random(SEED), collections.Counter()
    with serving(folder) as server:
        for _ in range(1500):
            request = request_bytes("/v1/merge", random_body(chance))
            answer = server.says(request)
            try:
                request_of(request, lists)
            except Fault as name:
                wanted = fault((FAULTS | LAST_FAULT)[str(name)], str(name))
                expect(answer == wanted, f"{request}: {answer}, and not {name}")
                met[str(name)] += 1
                continue
            said = body_of(answer)
            expect("ok" in said or "refused" in said, f"{request}: {answer}")
            met[said.get("refused", "merged")] += 1
    lacking = {"merged", "BadBody", "NoList", "UnknownArch", "RepeatedArch", "BadName"} - met.keys()
    expect(not lacking, f"none came to {lacking}: {met}")
    return ", ".join(f"{count} {name}" for name, count in met.most_common())


# ---- what is opened


def make_others(place):
    """Whatever is no regular file of the folder, by its name, and what is said of it."""
    (place / "folder").mkdir()
    os.mkfifo(place / "pipe")
    (place.parent / "outside").write_text("")
    (place / "out").symlink_to(place.parent / "outside")
    (place / "in").symlink_to("sources")
    (place / "nothing").symlink_to("nowhere")
    (place / "device").symlink_to("/dev/null")
    with socket.socket(socket.AF_UNIX) as link:
        link.bind(str(place / "socket"))
    found = {name: "it is a link" for name in ("out", "in", "nothing", "device")}
    found |= {"folder": "it is a folder", "pipe": "it is a pipe", "socket": "it is a socket"}
    found |= {"nowhere": "No such file", "nul\0": "NUL", "sources\n": "No such file"}
    with contextlib.suppress(PermissionError):
        os.mknod(place / "null", 0o666 | 0o020000, os.makedev(1, 3))
        found["null"] = "it is a device"
    return found


def opens_regular_files_of_its_folder_alone(folder):
    """A folder, a pipe, a socket, a device and any link are no list, nor is what is not there; that is said at once,
    and nothing is merged. A file with a second name is one."""
    place = lists_of(folder)
    others = make_others(place)
    os.link(place / "sources", place / "second")
    with serving(folder) as server:
        for at, name in enumerate(others):
            if at % 9 == 8:
                time.sleep(1.1)  # so that each line is printed
            for request in (merge(name, "amd64=packages"), merge("sources", "amd64=packages", f"arm64={name}")):
                begun = time.monotonic()
                met = server.says(request)
                expect(met == NO_LIST, f"{name!r}: {met}")
                expect(time.monotonic() - begun < 5, f"{name!r} was waited for")
        met = body_of(server.says(merge("second", "amd64=packages")))
        expect(met.get("accepted") == 5, f"{met}")
        server.process.kill()
        said = server.process.communicate()[1].decode().splitlines()
    for name, why in others.items():
        shown_name = json.dumps(name).replace("\\u0000", "\\0")
        found = [line for line in said if f"the list {shown_name} of a request" in line]
        expect(len(found) == 2 and all(why in line for line in found), f"of {name!r} it says {found or said}")
    return f"{len(others)} names"


def opens_all_before_it_merges(folder):
    """The Sources list first and then each part in its order, of which the first that cannot be opened is named; no
    part is merged, and no office is asked."""
    lists_of(folder)
    with serving(folder) as server:
        for request in (
            merge("one", "amd64=two"), merge("sources", "amd64=three", "arm64=four"),
            merge("sources", "amd64=packages", "arm64=five"), merge("six", "armhf=packages"),
        ):
            expect(server.says(request) == NO_LIST, f"{request}")
        expect(server.says(merge("sources", "armhf=packages")) == UNKNOWN, "another answer")
        server.process.kill()
        said = server.process.communicate()[1].decode()
    named = re.findall('the list "([a-z]+)" of', said)
    expect(named == ["one", "three", "five", "six"], said)
    expect(not tables(folder)["source_record"], "a part was merged")


def serves_on_without_its_folder(folder):
    """A folder that is not there, or is none, has no list; one that is made later has."""
    lists_of(folder)
    (folder / "lists").rename(folder / "away")
    with serving(folder, folder / "lists") as server, serving(folder / "away", "/dev/null", store=None) as other:
        for one in (server, other):
            expect(one.says(merge("sources", "amd64=packages")) == NO_LIST, "a list is found")
            expect(one.says(OFFICE).startswith(b"HTTP/1.1 200 "), "no answer")
        (folder / "away").rename(folder / "lists")
        expect(body_of(server.says(merge("sources", "amd64=packages"))).get("accepted") == 5, "it is not merged")


def refuses_lists_that_break_off(folder):
    """A list of which a read fails is BadListing with Read, as in a run: files of /proc of which one is empty, and of
    the other no byte can be read."""
    answers_of(folder, TWO_ARCHS)
    wanted = '{"code":15,"fault":"Read","paragraph":1,"refused":"BadListing","which":"%s"}'
    with serving(folder, "/proc/self") as server:
        for request, which in (
            (merge("mem", "amd64=timers"), "Sources"), (merge("timers", "amd64=mem"), "Packages"),
            (merge("mem", "amd64=mem"), "Sources"),
        ):
            met = server.says(request)
            expect(met == answer_bytes(422, wanted % which), f"{met} in place of {which}")
        met = body_of(server.says(merge("timers", "amd64=mem", "arm64=timers")))
        parts = [json.loads(wanted % "Packages") | {"arch": "amd64"}]
        parts.append({"added": 0, "arch": "arm64", "changed": 0, "kept": 0, "removed": 0})
        expect(met == {"accepted": 5, "ok": "merge", "parts": parts}, f"{met}")


def says_little_of_lists(folder):
    """Of many lists that cannot be opened 20 lines are printed in a second, and then how many were left out."""
    lists_of(folder)
    count = 150
    with open(folder / "errors", "wb") as errors, serving(folder, requests=count + 1, errors=errors) as server:
        begun = time.monotonic()
        for _ in range(count):
            expect(server.says(merge("nowhere", "amd64=packages")) == NO_LIST, "another answer")
        took = time.monotonic() - begun
        server.says(b"")
        expect(server.process.wait(WAIT) == 0, "it does not end")
    said = (folder / "errors").read_text()
    printed = said.count("of a request cannot be opened")
    left_out = sum(map(int, re.findall("wb: ([0-9]+) lines about lists were left out", said)))
    expect(printed + left_out == count, f"{printed} lines, {left_out} left out, of {count}")
    expect(20 <= printed <= 20 * (int(took) + 2), f"{printed} lines in {took:.1f} s")


# ---- clients


def answers_a_cut_request_as_whole(folder):
    """A merge that comes in two parts, cut anywhere, with another's between: both are answered as each is alone."""
    place = lists_of(folder)
    request, other = merge("sources", "amd64=packages", "arm64=others"), merge("fewer", "amd64=none")
    for cut in range(1, len(request)):
        copy = folder / str(cut)
        copy.mkdir()
        for file in folder.glob("store*"):
            shutil.copy(file, copy)
        with serving(copy, place) as server, server.connect() as first, server.connect() as second:
            first.sendall(request[:cut])
            second.sendall(other)
            early = received(second)
            first.sendall(request[cut:])
            late = received(first)
        expect(body_of(early)["parts"][0]["added"] == 1 and body_of(early)["accepted"] == 5, f"{cut}: {early}")
        added = [part["added"] for part in body_of(late)["parts"]]
        expect(added == [1, 2] and body_of(late)["accepted"] == 6, f"{cut}: {late}")
    return f"{len(request) - 1} cuts"


def large_lists(folder, count=4000):
    """An office with so many records of two architectures, of lists `one`, and lists `other` of as many others."""
    answers_of(folder, TWO_ARCHS)
    lists = {
        name: "".join(SOURCE.format(f"{name}{at:05d}", "1.0") for at in range(count)) for name in ("one", "other")
    }
    write_lists(folder, **lists, none="")
    answers_of(folder, ["merge lists/one amd64=lists/none arm64=lists/none"])
    return merge("other", "amd64=none", "arm64=none")


def answers_others_after_it(folder):
    """Clients that ask during a merge are answered after it, and whoever asks afterwards sees the merge."""
    request = large_lists(folder)

    async def merged(port):
        begun = time.monotonic()
        answer = await asked(port, request)
        return time.monotonic() - begun, answer, await asked(port, b"GET /v1/summary/amd64 HTTP/1.1\r\n\r\n")

    with serving(folder) as server:
        (took, answer, later), times = asyncio.run(beside(server.port, merged(server.port)))
    expect([part["added"] for part in body_of(answer)["parts"]] == [4000, 4000], f"{answer}")
    expect(body_of(later)["counts"]["Needs-Build"] == 4000 and body_of(later)["accepted"] == 6, f"{later}")
    expect(times[-1] < took + LATE, f"another client waited longer than the merge: {shown(times)}, {took:.1f} s")
    return f"a merge in {took:.1f} s; {shown(times)}"


def answers_after_longer_than_a_client_has(folder):
    """A merge that takes longer than the 30 seconds that a client has is answered all the same, and so are those who
    asked meanwhile. The program is stopped within it, in the place of lists that are longer."""
    request = large_lists(folder)
    with serving(folder) as server, server.connect() as first, server.connect() as second:
        first.sendall(request)
        time.sleep(0.1)
        server.process.send_signal(signal.SIGSTOP)
        second.sendall(OFFICE)
        time.sleep(32)
        server.process.send_signal(signal.SIGCONT)
        met, later = received(first), received(second)
    expect(met and body_of(met).get("accepted") == 6, f"the merge is answered {met}")
    expect(later and body_of(later)["accepted"] in (5, 6), f"another client is answered {later}")


# ---- kills


def killed_within(folder, name, request, seconds=None):
    """The answer to a merge in a copy of the office, which is killed after so many seconds if a number is given; how
    long it took, and what the tables are then."""
    copy = folder / name
    copy.mkdir()
    for file in folder.glob("store*"):
        shutil.copy(file, copy)
    with serving(copy, folder / "lists") as server, server.connect() as link:
        begun = time.monotonic()
        link.sendall(request)
        if seconds is not None:
            time.sleep(seconds)
            server.process.kill()
        answer = received(link)
        took = time.monotonic() - begun
    answers_of(copy, [])
    found = tables(copy)
    shutil.rmtree(copy)
    return answer, took, found


def stands_whole_or_not_at_all_after_a_kill(folder):
    """Killed at any moment within a merge: the tables are those of before or of after it, and of after it if it was
    answered."""
    request, chance = large_lists(folder, 1500), random.Random(SEED)
    before = tables(folder)
    answer, took, after = killed_within(folder, "whole", request)
    expect(after != before and body_of(answer)["accepted"] == 6, f"{answer}")
    stood = 0
    for number in range(KILLS):
        answer, _, found = killed_within(folder, f"copy{number}", request, chance.uniform(0, 1.1 * took))
        expect(found == after if answer else found in (before, after), f"kill {number}: half a merge, or {answer}")
        stood += found == after
    return f"{KILLS} kills, after {stood} of them the merge stands; it takes {took:.2f} s"


TESTS = [
    answers_as_a_line, keeps_a_journal, refuses_bodies_that_name_no_list, takes_names_and_keys_as_they_come,
    has_no_route_without_lists, has_its_faults_in_their_order, reads_random_bodies_as_the_page_says,
    opens_regular_files_of_its_folder_alone,
    opens_all_before_it_merges, serves_on_without_its_folder, refuses_lists_that_break_off, says_little_of_lists,
    answers_a_cut_request_as_whole, answers_others_after_it, answers_after_longer_than_a_client_has,
    stands_whole_or_not_at_all_after_a_kill,
]  # fmt: skip
if __name__ == "__main__":
    sys.exit(main(TESTS))

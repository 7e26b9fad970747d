#!/usr/bin/env python3
"""Tests of the program as builders see it, `wb [--store FILE] serve --port P --requests N`, each in a folder of its
own: every path by curl beside the same command as a line of a run, every fault by its bytes, clients that break off or
say nothing, and kills under load.

    tools/tests/test_serve.py [NAME..]     these tests, or all

From the environment: WB is the program, ./wb of this repository where it is not set; KILLS is how often the serving
program is killed, 100 where it is not set; SEED is added to the number of each random choice.
"""
import contextlib
import http.client
import json
import os
import random
import select
import shlex
import shutil
import socket
import struct
import subprocess
import sys
import threading
import time

import query_cases
from harness import ROOT, SEED, WAIT, WB, answers_of, expect, listens, main, run
from serve_runs import Server, answer_bytes, received, request_bytes, with_lists_of_page
from store_runs import TWO_ARCHS, edit, rows_of

KILLS = int(os.environ.get("KILLS", "100"))
ENTERED = (
    TWO_ARCHS
    + [f"enter amd64 s{at} 1.{at} optional devel" for at in range(9)]
    + ["enter amd64 libsigc++-2.0 2.0-1 optional libs"]
)


# ---- paths

S8 = {"arch": "amd64", "source": "s8", "version": "1.8"}
# Commands by HTTP and as lines, with the status that is answered.
COMMANDS = [
    ("next", {"arch": "amd64", "builder": "b1"}, "next amd64 b1", 200),
    ("next", {"arch": "amd64", "builder": "b1", "after": 0}, "next amd64 b1 --after 0", 200),
    ("next", {"arch": "amd64", "builder": "b1", "after": None}, "next amd64 b1", 200),
    ("next", {"arch": "amd64", "builder": "b1", "after": 9}, "next amd64 b1 --after 9", 409),
    ("next", {"arch": "armhf", "builder": "b1"}, "next armhf b1", 404),
    ("next", {"arch": "amd64", "builder": "b9"}, "next amd64 b9", 404),
    ("next", {"arch": "amd64", "builder": "b2"}, "next amd64 b2", 409),
    ("next", {"arch": "arm64", "builder": "b2"}, "next arm64 b2", 409),
    ("next", {"arch": "AMD64", "builder": "b1"}, "next AMD64 b1", 422),
    ("take", {"arch": "amd64", "builder": "b1", "source": "s5", "version": "1.5"}, "take amd64 b1 s5 1.5", 200),
    ("take", {"arch": "amd64", "builder": "b1", "source": "s6", "version": "2"}, "take amd64 b1 s6 2", 409),
    ("take", {"arch": "amd64", "builder": "b1", "source": "zz", "version": "2"}, "take amd64 b1 zz 2", 404),
    ("take", {"arch": "amd64", "builder": "b1", "source": "s6", "version": ":"}, "take amd64 b1 s6 :", 422),
    ("built", {"take": 1}, "built 1", 200),
    ("built", {"take": 1}, "built 1", 409),
    ("uploaded", {"take": 1}, "uploaded 1", 200),
    ("uploaded", {"take": 77}, "uploaded 77", 409),
    ("waits", {"take": 2, "relations": "liba (>= 2), libb"}, "waits 2 liba (>= 2), libb", 200),
    ("waits", {"take": 3, "relations": "a b c"}, "waits 3 a b c", 422),
    ("attempted", {"take": 3, "reason": "it did not compile"}, "attempted 3 it did not compile", 200),
    ("next", {"arch": "amd64", "builder": "b1"}, "next amd64 b1", 200),
    ("put-back", {"take": 4}, "put-back 4", 200),
    ("fail", {"arch": "amd64", "source": "s6", "version": "1.6", "note": "no"}, "fail amd64 s6 1.6 no", 200),
    ("give-back", {"arch": "amd64", "source": "s6", "version": "1.6"}, "give-back amd64 s6 1.6", 200),
    (
        "dep-wait", {"arch": "amd64", "source": "s6", "version": "1.6", "relations": "libz"},
        "dep-wait amd64 s6 1.6 libz", 200,
    ),
    ("not-for-us", {"arch": "amd64", "source": "s7", "version": "1.7", "note": ""}, "not-for-us amd64 s7 1.7", 200),
    ("fail", {**S8, "note": "x" * 1001}, f"fail amd64 s8 1.8 {'x' * 1001}", 422),
    ("rebuild", {**S8, "number": 0, "message": ""}, "rebuild amd64 s8 1.8 0", 422),
    ("rebuild", {**S8, "number": 1, "message": "m"}, "rebuild amd64 s8 1.8 1 m", 409),
    ("build-priority", {**S8, "value": -7}, "build-priority amd64 s8 1.8 -- -7", 200),
    ("build-priority", {**S8, "value": 1001}, "build-priority amd64 s8 1.8 1001", 422),
    (
        "report",
        {"arch": "amd64", "text": "s6 1.6 installable\ns7 1.7 installable\ns8 1.8 uninstallable libz missing\n"},
        "report amd64 s8", 200,
    ),
    ("report", {"arch": "armhf", "text": "s8 1.8 installable"}, "report armhf good", 404),
    ("report", {"arch": "amd64", "text": "\ns8 1.8\n"}, "report amd64 bad", 422),
    ("report", {"arch": "amd64", "text": ""}, "report amd64 none", 200),
    ("add-arch", {"name": "armhf", "os": "linux", "cpu": "arm"}, "add-arch armhf linux arm", 200),
    ("add-arch", {"name": "armhf", "os": "linux", "cpu": "arm"}, "add-arch armhf linux arm", 409),
    ("add-arch", {"name": "source", "os": "linux", "cpu": "arm"}, "add-arch source linux arm", 422),
    ("add-builder", {"name": "b4", "arch": "armhf"}, "add-builder b4 armhf", 200),
    ("add-builder", {"name": "b4", "arch": "s390x"}, "add-builder b4 s390x", 404),
    (
        "enter", {"arch": "armhf", "source": "s0", "version": "1.0", "priority": "extra", "section": "libs"},
        "enter armhf s0 1.0 extra libs", 200,
    ),
    (
        "enter", {"arch": "armhf", "source": "s0", "version": "2.0", "priority": "extra", "section": "libs"},
        "enter armhf s0 2.0 extra libs", 409,
    ),
    (
        "enter", {"arch": "armhf", "source": "s1", "version": ":", "priority": "extra", "section": "libs"},
        "enter armhf s1 : extra libs", 422,
    ),
    ("next", {"arch": "armhf", "builder": "b4"}, "next armhf b4", 200),
]
# Each is refused while the package is held, then accepted, and refused again.
REMOVALS = [
    ("forget", {"arch": "armhf", "source": "s0", "version": "1.0"}, "forget armhf s0 1.0"),
    ("remove-builder", {"name": "b4", "arch": "armhf"}, "remove-builder b4 armhf"),
    ("remove-arch", {"name": "armhf"}, "remove-arch armhf"),
]
COMMANDS += [(*one, 409) for one in REMOVALS]
COMMANDS.append(("give-back", {"arch": "armhf", "source": "s0", "version": "1.0"}, "give-back armhf s0 1.0", 200))
COMMANDS += [(*one, status) for one in REMOVALS for status in (200, 404)]


def curl(server, path, *words, body=None):
    """The status and the body that curl is given."""
    data = [] if body is None else ["--data-binary", "@-"]
    command = [
        "curl", "-sS", "--max-time", "20", "-w", "\n%{http_code}", *words, *data,
        f"http://127.0.0.1:{server.port}{path}",
    ]
    done = subprocess.run(command, input=body, capture_output=True, check=False)
    expect(done.returncode == 0, f"curl {path}: {done.stderr}")
    said, status = done.stdout.rsplit(b"\n", 1)
    return int(status), said


def answers_each_path_as_a_line(folder):
    """A command by HTTP is answered by the JSON that a line of a run gives, without its line feed, and the store is
    then the same."""
    answers_of(folder, ENTERED)
    for name in ("lines", "http"):
        (folder / name).mkdir()
        for file in folder.glob("store*"):
            shutil.copy(file, folder / name)
    for name, body, line, _ in COMMANDS:
        if name == "report":
            (folder / "lines" / line.split()[2]).write_text(body["text"])
    status, said = run(folder / "lines", [line for _, _, line, _ in COMMANDS])
    expect(status == 1, f"the run ends with {status}")
    with Server(folder / "http") as server:
        for (name, body, line, wanted), answer in zip(COMMANDS, said.splitlines(), strict=True):
            met = curl(server, f"/v1/{name}", body=json.dumps(body).encode())
            expect(met == (wanted, answer), f"{line}: {met} in place of {(wanted, answer)}")
    looks = [f"enter amd64 s{at} 1 optional devel" for at in range(9)] + ["next amd64 b1", "next amd64 b1"]
    expect(run(folder / "http", looks) == run(folder / "lines", looks), "the stores differ")
    return f"{len(COMMANDS)} commands"


def answers_the_examples_of_its_page(folder):
    """The examples of docs/HTTP.md, by curl as they stand there but for the port."""
    page = (ROOT / "docs" / "HTTP.md").read_text(encoding="utf-8").split("## Examples")[1]
    lines, examples = page.split("```")[1], page.split("```")[3]
    answers_of(folder, lines.splitlines()[1:])
    said = examples.splitlines()[1:]
    with Server(folder, more=with_lists_of_page(folder)) as server:
        for command, wanted in zip(said[::2], said[1::2], strict=True):
            words = shlex.split(command.removeprefix("$ ").replace(":8080", f":{server.port}"))
            done = subprocess.run([*words, "-sS"], capture_output=True, timeout=WAIT, check=False)
            met = done.stdout.decode()
            expect(met == wanted, f"{command}: {met} {done.stderr}")
    return f"{len(said) // 2} examples"


def answers_queries(folder):
    """A record and what a builder holds, byte for byte, and the refusals of both."""
    answers_of(folder, [*ENTERED, "take amd64 b1 libsigc++-2.0 2.0-1"])
    record = (
        b'{"arch":"amd64","build":"2.0-1","build_priority":0,"earlier":false,"holder":"b1","message":"","note":"",'
        b'"number":0,"priority":"optional",'
        b'"section":"libs","source":"libsigc++-2.0","state":"Building","take":1,"version":"2.0-1","waits":""}'
    )
    refused = '{"code":%d,"refused":"%s"}'
    with Server(folder) as server:
        for path, wanted in {
            "item/amd64/libsigc%2B%2B-2.0": (200, record),
            "item/amd64/libsigc++-2.0": (200, record),
            "mine/b1": (200, b'{"builder":"b1","records":[' + record + b"]}"),
            "mine/b2": (200, b'{"builder":"b2","records":[]}'),
            "item/amd64/zz": (404, (refused % (4, "UnknownSource")).encode()),
            "item/armhf/zz": (404, (refused % (1, "UnknownArch")).encode()),
            "item/amd64/Z": (422, (refused % (11, "BadName")).encode()),
            "mine/b9": (404, (refused % (2, "UnknownBuilder")).encode()),
            "mine/-": (422, (refused % (11, "BadName")).encode()),
            "item/amd64/%ff": (400, b'{"http":"BadPath"}'),
        }.items():
            met = curl(server, f"/v1/{path}")
            expect(met == wanted, f"{path}: {met} in place of {wanted}")
        expect(server.post("/v1/built", take=1)[0] == 200, "a query changed something")


def answers_each_query(folder):
    """Each query and each report by its path, byte for byte."""
    for name, lines in (
        ("asked", query_cases.FIVE), ("reported", query_cases.FIVE[:3]),
        ("merged", [*BEGIN, "merge sources amd64=none"]),
    ):
        (folder / name).mkdir()
        (folder / name / "sources").write_text(query_cases.SOURCES)
        (folder / name / "none").write_text("")
        answers_of(folder / name, lines)
    with Server(folder / "asked") as server:
        for _, path, status, answer in query_cases.QUERIES:
            met = curl(server, f"/v1/{path}")
            expect(met == (status, answer.encode()), f"{path}: {met} in place of {answer}")
    with Server(folder / "reported") as server:
        for arch, text, status, answer, item in query_cases.REPORTS:
            met = server.post("/v1/report", arch=arch, text=text)
            expect(met == (status, answer.encode()), f"{text!r}: {met} in place of {answer}")
            met = server.ask("GET", "/v1/item/amd64/hello")
            expect(met == (200, item.encode()), f"after {text!r}: {met} in place of {item}")
        met = server.ask("GET", "/v1/summary/amd64")
        expect(met == (200, query_cases.COUNTED.encode()), f"summary: {met}")
    with Server(folder / "merged") as server:
        for _, path, answer in query_cases.DEPENDS:
            met = server.ask("GET", f"/v1/{path}")
            expect(met == (200, answer.encode()), f"{path}: {met} in place of {answer}")
    return f"{len(query_cases.QUERIES)} queries, {len(query_cases.REPORTS)} reports"


# Lines in a row, and what a query is answered after them: what `b1` holds by take number, and the record of `hello`.
RECORD = (
    '{"arch":"%s","build":"%s","build_priority":%d,"earlier":false,"holder":%s,"message":"","note":"%s","number":0,'
    '"priority":"%s","section":"%s",'
    '"source":"%s","state":"%s","take":%s,"version":"%s","waits":"%s"}'
)
BEGIN = ["add-arch amd64 linux amd64", "add-builder b1 amd64"]
HELLO = RECORD % ("amd64", "1.0", 0, '"b1"', "", "optional", "devel", "hello", "Building", "1", "1.0", "")
HELD = [
    (BEGIN, '{"builder":"b1","records":[]}'),
    (["enter amd64 hello 1.0 optional devel", "next amd64 b1"], '{"builder":"b1","records":[' + HELLO + "]}"),
    (
        [
            "add-arch alpha linux alpha", "add-builder b1 alpha", "enter alpha aa 2.0 extra net",
            "build-priority alpha aa 2.0 -- -7", "next alpha b1",
        ],
        '{"builder":"b1","records":['
        + HELLO
        + ","
        + RECORD % ("alpha", "2.0", -7, '"b1"', "", "extra", "net", "aa", "Building", "2", "2.0", "")
        + "]}",
    ),
]
KEPT = [
    (
        [*BEGIN, "enter amd64 hello 1.0-1 optional devel"],
        RECORD % ("amd64", "1.0-1", 0, "null", "", "optional", "devel", "hello", "Needs-Build", "null", "1.0-1", ""),
    ),
    (
        ["next amd64 b1", "waits 1 libc6 (>= 2)"],
        RECORD
        % ("amd64", "1.0-1", 0, "null", "", "optional", "devel", "hello", "Dep-Wait", "null", "1.0-1", "libc6 (>= 2)"),
    ),
    (
        ["give-back amd64 hello 1.0-1", "next amd64 b1", 'attempted 2 no "cc"'],
        RECORD
        % (
            "amd64", "1.0-1", 0, "null", r"no \"cc\"", "optional", "devel", "hello", "Build-Attempted", "null", "1.0-1",
            "",
        ),
    ),
]


def answers_queries_after_lines(folder):
    """What a builder holds and what a record is, byte for byte, after each few lines of runs over one store."""
    for name, path, cases in (("held", "mine/b1", HELD), ("kept", "item/amd64/hello", KEPT)):
        (folder / name).mkdir()
        for lines, wanted in cases:
            status, said = run(folder / name, lines)
            expect(status == 0, f"{lines}: status {status} with {said}")
            with Server(folder / name) as server:
                met = curl(server, f"/v1/{path}")
            expect(met == (200, wanted.encode()), f"{lines}: {met} in place of {wanted}")


# Each byte that JSON escapes in its own way, some that it does not, and how they are written.
TOLD = '\b\t\n\f\r\x01\x1f\x7fé€😀/"\\'
WRITTEN = r"\b\t\n\f\r\u0001\u001f" + "\x7fé€😀/" + r"\"\\"


def answers_odd_texts(folder):
    """A record of which each key has a value of its own, with texts that JSON escapes, the greatest numbers, and a
    state that no command makes."""
    (folder / "sources").write_text(
        'Package: hello\nVersion: 1:2.0-1\nArchitecture: any\nPriority: p"\nSection: s/\\\n', encoding="utf-8"
    )
    (folder / "packages").write_text("Package: hello\nVersion: 1:2.0-1\nArchitecture: amd64\n", encoding="utf-8")
    answers = answers_of(folder, [*BEGIN, "merge sources amd64=packages"])
    expect(answers[2].get("accepted") == 3, f"{answers}")
    edit(folder / "store", "UPDATE office SET handed = 999999999999")
    named = {"arch": "amd64", "source": "hello", "version": "1:2.0-1"}
    record = (
        r'{"arch":"amd64","build":"1:2.0-1+b12","build_priority":-1000,"earlier":true,"holder":%s,"message":"m\u0000",'
        r'"note":"%s","number":12,'
        r'"priority":"p\"","section":"s/\\","source":"hello","state":"%s","take":%s,"version":"1:2.0-1","waits":""}'
    )
    held = (record % ('"b1"', "", "Building", "1000000000000")).encode()
    noted = (record % ("null", WRITTEN, "Build-Attempted", "null")).encode()
    handed = (
        r'{"accepted":6,"arch":"amd64","build":"1:2.0-1+b12","message":"m\u0000","number":12,"ok":"next",'
        r'"source":"hello",'
    )
    handed += '"take":1000000000000,"version":"1:2.0-1"}'
    with Server(folder) as server:
        for path, body, wanted in (
            ("rebuild", {**named, "number": 12, "message": "m\0"}, b'{"accepted":4,"ok":"rebuild"}'),
            ("build-priority", {**named, "value": -1000}, b'{"accepted":5,"ok":"build-priority"}'),
            ("next", {"arch": "amd64", "builder": "b1"}, handed.encode()),
            ("item/amd64/hello", None, held),
            ("mine/b1", None, b'{"builder":"b1","records":[' + held + b"]}"),
            ("attempted", {"take": 1000000000000, "reason": TOLD}, b'{"accepted":7,"ok":"attempted"}'),
            ("item/amd64/hello", None, noted),
        ):
            met = server.ask("GET", f"/v1/{path}") if body is None else server.post(f"/v1/{path}", **body)
            expect(met == (200, wanted), f"{path}: {met} in place of {wanted}")
    expect(answers_of(folder, []) == [], "answers to nothing")  # which puts the log into the file
    edit(folder / "store", "UPDATE source_record SET state = 6")
    unmet = noted.replace(b"Build-Attempted", b"BD-Uninstallable")
    with Server(folder) as server:
        met = server.ask("GET", "/v1/item/amd64/hello")
        expect(met == (200, unmet), f"{met} in place of {unmet}")


def answers_queries_of_two_architectures(folder):
    """What each builder holds, on which architecture it may be, by take number, and the first refusal of queries that
    find nothing."""
    lines = [
        "add-arch amd64 linux amd64", "add-arch arm64 linux arm64", "add-builder b1 amd64", "add-builder b1 arm64",
        "add-builder b2 amd64",
    ]
    lines += [
        "add-builder b3 arm64", "enter arm64 yy 2.0 optional devel", "enter amd64 xx 1.0 optional devel",
        "enter amd64 zz 1.0 optional devel",
    ]
    lines += ["take arm64 b1 yy 2.0", "take amd64 b2 zz 1.0", "take amd64 b1 xx 1.0"]
    expect(len(answers_of(folder, lines)) == 12, "the setup")
    rows = {"xx": ("amd64", "1.0", "b1", 3), "yy": ("arm64", "2.0", "b1", 1), "zz": ("amd64", "1.0", "b2", 2)}
    found = {}
    for source, (arch, version, holder, take) in rows.items():
        found[source] = RECORD % (
            arch, version, 0, f'"{holder}"', "", "optional", "devel", source, "Building", take, version, "",
        )
    wanted = {f"item/{rows[source][0]}/{source}": (200, record) for source, record in found.items()}
    for builder, sources in (("b1", ["yy", "xx"]), ("b2", ["zz"]), ("b3", [])):
        wanted[f"mine/{builder}"] = (
            200, '{"builder":"%s","records":[%s]}' % (builder, ",".join(found[source] for source in sources)),
        )
    for path in ("item/AMD64/xx", "item/nowhere/X", "mine/b%204"):
        wanted[path] = (422, '{"code":11,"refused":"BadName"}')
    for path in ("item/nowhere/xx", "item/nowhere/nothing"):
        wanted[path] = (404, '{"code":1,"refused":"UnknownArch"}')
    wanted["item/amd64/yy"] = (404, '{"code":4,"refused":"UnknownSource"}')
    wanted["mine/b4"] = (404, '{"code":2,"refused":"UnknownBuilder"}')
    with Server(folder) as server:
        for path, (status, said) in wanted.items():
            met = curl(server, f"/v1/{path}")
            expect(met == (status, said.encode()), f"{path}: {met} in place of {(status, said)}")
    expect(rows_of(folder, "SELECT accepted FROM office") == [(12,)], "a query was counted")


def answers_faults(folder):
    """Each fault of a request by the bytes of its answer."""
    good = '{"arch":"amd64","builder":"b1"}'
    field = "x: " + "y" * 300
    faults = {
        "HeadTooLarge": (
            431, [request_bytes("/v1/next", good, *[field] * 40), request_bytes("/v1/next", good, *["a: b"] * 31)],
        ),
        "BadHead": (
            400, [b"x", b"POST /v1/next", b"POST  /v1/next HTTP/1.1\r\n\r\n", b"POST /v1/next HTTP/2.5\r\n\r\n"],
        ),
        "FromBrowser": (
            403,
            [
                request_bytes("/v1/next", good, field)
                for field in ("Origin: http://127.0.0.1", "Sec-Fetch-Site: same-origin")
            ],
        ),
        "NoRoute": (
            404,
            [
                request_bytes(path, good)
                for path in ("/", "/v1", "/v1/nexts", "/v1/next/", "/v1/next?x", "/v1/item/a", "/v1/mine/")
            ],
        ),
        "WrongMethod": (
            405,
            [
                request_bytes("/v1/next", good, method="GET"), request_bytes("/v1/mine/b1", good),
                request_bytes("/v1/next", "", method="HEAD"),
            ],
        ),
        "BadPath": (400, [request_bytes("/v1/mine/%fe", "", method="GET")]),
        "NotSupported": (501, [request_bytes("/v1/next", "0\r\n\r\n", "Transfer-Encoding: chunked", length="none")]),
        "NoLength": (411, [request_bytes("/v1/next", good, length="none")]),
        "BadLength": (
            400,
            [
                request_bytes("/v1/next", good, f"Content-Length: {value}", length=value)
                for value in ("+31", "", "-1", "31 31", "0x1f")
            ],
        ),
        "BodyTooLarge": (
            413,
            [
                request_bytes("/v1/next", good, f"content-length: {value}", length=value)
                for value in ("16777217", "9" * 26)
            ],
        ),
        "BodyCut": (400, [request_bytes("/v1/next", good, "Content-Length: 32", length="32")]),
        "BadBody": (
            400,
            [
                request_bytes("/v1/next", body)
                for body in (
                    "", "[]", "{}", "[" * 16000, good[:-1] + ',"after":-1}', good[:-1] + ',"after":1.0}',
                    '{"arch":1,"builder":"b"}', b"\xff",
                )
            ],
        ),
    }
    two = request_bytes("/v1/next", good, "Content-Length: 31", "Content-Length: 32", length="two")
    faults["BadLength"][1].append(two)
    with Server(folder, store=None) as server:
        for name, (status, requests) in faults.items():
            for data in requests:
                met = server.says(data)
                expect(met == answer_bytes(status, f'{{"http":"{name}"}}'), f"{name}: {data[:80]} is answered {met}")
        for length in ("0031", "31"):
            met = server.says(
                request_bytes("/v1/next", good, f"Content-Length: {length}", "CONTENT-LENGTH: 31", length="two")
                + b"what follows"
            )
            expect(met == answer_bytes(404, '{"code":1,"refused":"UnknownArch"}'), f"length {length}: {met}")
        expect(server.says(b"") == b"", "an answer to nothing")


def answers_a_request_cut_anywhere(folder):
    """A request of which the client sends a front and then no more, and one that comes byte by byte."""
    answers_of(folder, TWO_ARCHS + ["enter amd64 hello 1.0 optional devel"])
    request = request_bytes("/v1/next", '{"arch":"amd64","builder":"b1"}')
    expect(len(request) == 94, f"{len(request)} bytes")
    with Server(folder) as server:
        for at in range(94):
            wanted = b"" if at == 0 else answer_bytes(400, '{"http":"BadHead"}' if at < 63 else '{"http":"BodyCut"}')
            expect(server.says(request[:at]) == wanted, f"cut at {at}")
        with server.connect() as link:
            link.setsockopt(socket.IPPROTO_TCP, socket.TCP_NODELAY, 1)
            for byte in request:
                link.sendall(bytes([byte]))
                time.sleep(0.005)
            met = received(link)
        job = (
            '{"accepted":6,"arch":"amd64","build":"1.0","message":"","number":0,"ok":"next","source":"hello","take":1,'
            '"version":"1.0"}'
        )
        expect(met == answer_bytes(200, job), f"{met}")


def closes_after_each_answer(folder):
    """One request for each connection: a client that asks to keep it is told that it is closed, and what follows is not
    read."""
    with Server(folder, store=None) as server:
        request = request_bytes("/v1/mine/b1", "", "Connection: keep-alive", method="GET")
        met = server.says(request + request, end=False)
        expect(met == answer_bytes(404, '{"code":2,"refused":"UnknownBuilder"}'), f"{met}")


def meets_expectations_of_curl(folder):
    """A large body for which curl waits for a word that does not come, and sends it then; one of the greatest length,
    and one more."""
    with Server(folder, store=None) as server:
        front, back = b'{"take":1,"x":"', b'"}'
        for length, wanted in (
            (16777216, (409, b'{"code":8,"refused":"NotHeld"}')), (2000000, (409, b'{"code":8,"refused":"NotHeld"}')),
        ):
            body = front + b"a" * (length - len(front) - len(back)) + back
            met = curl(server, "/v1/built", "-H", "Expect: 100-continue", body=body)
            expect(met == wanted, f"{length}: {met}")
        met = server.says(request_bytes("/v1/built", b"", "Content-Length: 16777217", length="given"))
        expect(met == answer_bytes(413, '{"http":"BodyTooLarge"}'), f"one more: {met}")
        met = curl(server, "/v1/built", "-H", "Transfer-Encoding: chunked", body=b'{"take":1}')
        expect(met == (501, b'{"http":"NotSupported"}'), f"chunked: {met}")


def goes_on_after_clients_that_break_off(folder):
    """Clients that close after half a head, after half a body and before they read, or reset the connection then; the
    next one is served, and no command is lost or doubled."""
    answers_of(folder, ENTERED)
    request = request_bytes("/v1/next", '{"arch":"amd64","builder":"b1"}')
    with Server(folder) as server:
        for at in (20, 80):
            for _ in range(5):
                with server.connect() as link:
                    link.sendall(request[:at])
        with server.connect() as link:
            link.sendall(request)
        for _ in range(5):
            with server.connect() as link:
                link.sendall(request_bytes("/v1/next", '{"arch":"amd64","builder":"b1","after":0}'))
                link.setsockopt(socket.SOL_SOCKET, socket.SO_LINGER, struct.pack("ii", 1, 0))  # closing it resets it
        status, said = server.post("/v1/next", arch="amd64", builder="b1", after=0)
        expect(status == 200 and json.loads(said)["take"] == 1, f"after a lost answer: {status} {said}")


def lets_a_silent_client_go(folder):
    """While a client sends a byte now and then, and at last nothing, others are answered at once; it is let go 30
    seconds after it came, without an answer. One that sends its request in six seconds is answered."""
    request = b"GET /v1/mine/b1 HTTP/1.1\r\n\r\n"
    with Server(folder, store=None) as server, server.connect() as silent, server.connect() as slow:
        begun = time.monotonic()
        for link, parts, seconds in (
            (silent, [b"G", b"E", b"T", b" "], 5), (slow, [request[at : at + 4] for at in range(0, 28, 4)], 1),
        ):
            threading.Thread(target=send_slowly, args=(link, parts, seconds), daemon=True).start()
        while not select.select([silent], [], [], 0.5)[0]:
            asked = time.monotonic()
            expect(server.ask("GET", "/v1/mine/b1")[0] == 404, "no answer")
            expect(time.monotonic() - asked < 2, f"another client waited {time.monotonic() - asked:.1f} s")
            expect(asked - begun < 36, "a silent client is not let go")
        took = time.monotonic() - begun
        expect(received(silent) == b"" and took > 28, f"it is let go after {took:.1f} s, or answered")
        met = received(slow)
        expect(met == answer_bytes(404, '{"code":2,"refused":"UnknownBuilder"}'), f"{met}")


def send_slowly(link, parts, seconds):
    """Sends the parts one by one, with so many seconds after each."""
    for part in parts:
        link.sendall(part)
        time.sleep(seconds)


def says_what_was_not_answered(folder):
    """A client that resets the connection within its request gets no answer; a line on standard error says so, and the
    next one is served."""
    with Server(folder, store=None, requests=2) as server:
        with server.connect() as link:
            link.sendall(b"GET /v1/mi")
            link.setsockopt(socket.SOL_SOCKET, socket.SO_LINGER, struct.pack("ii", 1, 0))
        expect(server.ask("GET", "/v1/mine/b1")[0] == 404, "no answer")
        met = server.end()
        expect(met == (0, b"", b"wb: a request was not read to its end, and nothing was done for it\n"), f"{met}")


def ends_after_its_requests(folder):
    """Each connection counts, also one that says nothing; after the last the program ends with 0 and has printed
    nothing."""
    with Server(folder, store=None, requests=3) as server:
        expect(server.says(b"") == b"", "an answer to nothing")
        expect(server.says(b"x") != b"", "no answer")
        expect(server.ask("GET", "/v1/mine/b1")[0] == 404, "no answer")
        met = server.end()
        expect(met == (0, b"", b""), f"{met}")


def says_that_the_port_is_in_use(folder):
    """A second program on the port ends with 3, says why on standard error alone, and makes no office in the file that
    it names."""
    with Server(folder, store=None) as server:
        words = [WB, "--store", "other", "serve", "--port", str(server.port), "--requests", "1"]
        done = subprocess.run(words, cwd=folder, capture_output=True, timeout=WAIT, check=False)
        expect(done.returncode == 3 and done.stdout == b"", f"{done}")
        expect(done.stderr.count(b"\n") == 1 and str(server.port).encode() in done.stderr, f"{done.stderr}")
        expect(not os.listdir(folder), f"files were made: {os.listdir(folder)}")


def served_with(folder, port, words):
    """Whether the program answers a query with these words, among them the port. It may also say that this port cannot
    be had: one below 1024 takes rights, and another program may have it."""
    process = subprocess.Popen(
        [WB, *words], cwd=folder, stdin=subprocess.DEVNULL, stdout=subprocess.PIPE, stderr=subprocess.PIPE
    )
    with process:
        try:
            end = time.monotonic() + WAIT
            while process.poll() is None and not listens(port):
                expect(time.monotonic() < end, f"{words}: nothing listens")
                time.sleep(0.002)
            if process.poll() is not None:
                said = process.communicate()
                expect(
                    process.returncode == 3 and said[0] == b"" and f"port {port} ".encode() in said[1],
                    f"{words}: {process.returncode} {said}",
                )
                return False
            for _ in range(int(words[words.index("--requests") + 1] == "1") or 3):
                link = http.client.HTTPConnection("127.0.0.1", port, timeout=WAIT)
                with contextlib.closing(link):
                    link.request("GET", "/v1/mine/b1")
                    expect(link.getresponse().status == 404, f"{words}: no answer")
            if words[-1] == "1":
                expect(process.wait(timeout=WAIT) == 0, f"{words}: status {process.returncode}")
            else:
                expect(process.poll() is None, f"{words}: it ended")
            return True
        finally:
            process.kill()


def serves_within_the_limits_of_its_words(folder):
    """The greatest port and count, in another order and form, the least of both, and those beyond, of another form or
    missing."""
    greatest = served_with(folder, 65535, ["serve", "--requests", "1000000", "--port=+65535"])
    expect(list(folder.iterdir()) == [], "without a store a file is made")
    least = served_with(folder, 1, ["--store", "wb.db", "serve", "--port", "1", "--requests", "1"])
    expect((folder / "wb.db").exists(), "no store is made")
    for port, count in [
        ("0", "1"),
        ("65536", "1"),
        ("1", "0"),
        ("1", "1000001"),
        ("-1", "1"),
        ("1.0", "1"),
        ("", "1"),
        ("18446744073709551617", "1"),
    ]:
        words = [WB, "serve", "--port", port, "--requests", count]
        done = subprocess.run(
            words, cwd=folder, stdin=subprocess.DEVNULL, capture_output=True, timeout=WAIT, check=False
        )
        met = (done.returncode, done.stdout, done.stderr[:7])
        expect(met == (2, b'{"fault":"line"}\n', b"error: "), f"{words}: {met}")
    return f"served on port 65535: {greatest}, on port 1: {least}"


def serves_clients_at_once(folder):
    """Eight clients at once take packages, each is handed to one, and the take numbers are 1, 2, ..."""
    count = 80
    answers_of(folder, TWO_ARCHS + [f"enter amd64 s{at} 1 optional devel" for at in range(count)])
    takes, sources = [], []
    with Server(folder) as server:

        def take():
            for _ in range(count // 8):
                status, said = server.post("/v1/next", arch="amd64", builder="b1")
                job = json.loads(said)
                takes.append(job["take"] if status == 200 else said)
                sources.append(job.get("source"))

        clients = [threading.Thread(target=take) for _ in range(8)]
        for client in clients:
            client.start()
        for client in clients:
            client.join()
    expect(sorted(takes) == list(range(1, count + 1)), f"takes {sorted(map(str, takes))}")
    expect(len(set(sources)) == count, "a package was handed out twice")


class Client(threading.Thread):
    """A builder that takes and reports until its server is gone; it notes each answered acceptance."""

    def __init__(self, server, name, seed):
        super().__init__(daemon=True)
        self.server, self.name_of, self.choice, self.told = server, name, random.Random(seed), []

    def run(self):
        with contextlib.suppress(OSError, http.client.HTTPException):
            while True:
                body = {"arch": "amd64", "builder": self.name_of}
                job = self.tell("/v1/next", body)
                if job and self.choice.random() < 0.7:
                    self.tell(
                        self.choice.choice(["/v1/built", "/v1/put-back", "/v1/attempted"]),
                        {"take": job["take"], "reason": ""},
                    )

    def tell(self, path, body):
        status, said = self.server.post(path, **body)
        if not said:
            raise http.client.IncompleteRead(said)  # the head was cut before it gave the length of the body
        answer = json.loads(said)
        if status == 200:
            self.told.append((answer["accepted"], answer.get("take"), path))
            return answer
        expect(status in (404, 409), f"{path}: {status} {said}")
        return None


def keeps_what_was_answered_when_killed(folder):
    """Killed under the load of four clients, again and again: what was answered is there, at most one command a client
    more, no take number twice."""
    answers_of(folder, ["add-arch amd64 linux amd64", *[f"add-builder b{at} amd64" for at in range(4)]])
    answers_of(folder, [f"enter amd64 s{at} 1 optional devel" for at in range(3000)])
    takes, accepted, tells = set(), 3005, 0
    for number in range(KILLS):
        with Server(folder) as server:
            clients = [Client(server, f"b{at}", SEED + 4 * number + at) for at in range(4)]
            for client in clients:
                client.start()
            time.sleep(random.Random(SEED + number).uniform(0.005, 0.08))
        for client in clients:
            client.join(WAIT)
        told = sorted(answer for client in clients for answer in client.told)
        given = [take for _, take, path in told if path == "/v1/next"]
        expect(len({count for count, _, _ in told}) == len(told), f"kill {number}: a count twice")
        expect(not takes.intersection(given) and len(set(given)) == len(given), f"kill {number}: a take number twice")
        expect(all(count > accepted for count, _, _ in told), f"kill {number}: a count from before")
        takes.update(given)
        tells += len(told)
        with Server(folder) as server:
            found = probe(server)
        last = max([count for count, _, _ in told], default=accepted)
        expect(last < found <= last + 2, f"kill {number}: {last} was answered, {found} found")
        accepted = found
    return f"{KILLS} kills, {tells} answered acceptances"


def probe(server):
    """The count of an acceptance that changes no hold."""
    status, said = server.post("/v1/build-priority", arch="amd64", source="s0", version="1", value=0)
    expect(status == 200, f"{status} {said}")
    return json.loads(said)["accepted"]


def loops_through_stops(folder):
    """The loop of examples/builder_loop against a server that is killed and started again: each package is built and
    uploaded once."""
    count = 12
    answers_of(folder, TWO_ARCHS[:1] + TWO_ARCHS[2:3] + [f"enter amd64 s{at} 1 optional devel" for at in range(count)])
    build = folder / "build"
    build.write_text('#!/bin/sh\necho "$*" >>log\ntest "$1 $2" != "build s5"\n', encoding="utf-8")
    build.chmod(0o755)
    server = Server(folder)
    words = [ROOT / "examples" / "builder_loop", f"http://127.0.0.1:{server.port}", "amd64", "b1", "seen", "./build"]
    pipe = subprocess.PIPE
    loop = subprocess.Popen(words, cwd=folder, stdout=pipe, stderr=pipe, env={**os.environ, "PAUSE": "0.1"})
    stops = 0
    end = time.monotonic() + 6 * WAIT
    while loop.poll() is None:
        expect(time.monotonic() < end, "the loop does not end")
        time.sleep(random.Random(SEED + stops).uniform(0.05, 0.4))
        with server:
            stops += 1
        server = Server(folder, port=server.port)
    with server:
        said = loop.communicate()
        expect(loop.returncode == 0, f"status {loop.returncode}: {said}")
        done = (folder / "log").read_text(encoding="utf-8").split("\n")[:-1]
        wanted = [f"build s{at} 1 0" for at in range(count)] + [f"upload s{at} 1" for at in range(count) if at != 5]
        expect(sorted(done) == sorted(wanted), f"done: {done}")
        for at in range(count):
            state = json.loads(server.ask("GET", f"/v1/item/amd64/s{at}")[1])["state"]
            expect(state == ("Build-Attempted" if at == 5 else "Uploaded"), f"s{at} is {state}")
    return f"{stops} stops"


def throws_a_build_away_whose_hold_ended(folder):
    """The loop of examples/builder_loop uploads nothing that an operator took from it while it built."""
    answers_of(folder, TWO_ARCHS[:1] + TWO_ARCHS[2:3] + ["enter amd64 s0 1 optional devel"])
    build = folder / "build"
    with Server(folder) as server:
        url = f"http://127.0.0.1:{server.port}"
        named = '"arch":"amd64","source":"s0","version":"1"'
        posts = [
            f"curl -s -d '{{{body}}}' {url}/v1/{name}"
            for name, body in (("give-back", named), ("fail", named + ',"note":"x"'))
        ]
        build.write_text('#!/bin/sh\necho "$*" >>log\n' + "\n".join(posts) + "\n", encoding="utf-8")
        build.chmod(0o755)
        words = [ROOT / "examples" / "builder_loop", url, "amd64", "b1", "seen", "./build"]
        loop = subprocess.run(words, cwd=folder, capture_output=True, timeout=WAIT, check=False)
        expect(loop.returncode == 0, f"status {loop.returncode}: {loop}")
        done = (folder / "log").read_text(encoding="utf-8")
        expect(done == "build s0 1 0\n", f"done: {done}")
        state = json.loads(server.ask("GET", "/v1/item/amd64/s0")[1])["state"]
        expect(state == "Failed", f"s0 is {state}")
    return "nothing uploaded"


TESTS = [answers_each_path_as_a_line, answers_the_examples_of_its_page, answers_queries, answers_queries_after_lines]
TESTS += [answers_each_query, answers_odd_texts]
TESTS += [
    answers_queries_of_two_architectures, answers_faults, answers_a_request_cut_anywhere, closes_after_each_answer,
]
TESTS += [
    meets_expectations_of_curl, goes_on_after_clients_that_break_off, lets_a_silent_client_go, ends_after_its_requests,
]
TESTS += [
    says_that_the_port_is_in_use, says_what_was_not_answered, serves_within_the_limits_of_its_words,
    serves_clients_at_once, loops_through_stops, throws_a_build_away_whose_hold_ended,
    keeps_what_was_answered_when_killed,
]
if __name__ == "__main__":
    sys.exit(main(TESTS))

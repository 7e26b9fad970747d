#!/usr/bin/env python3
"""Tests of the serving program with keys (`wb serve --keys FILE`): each request by each right, what a request shows of
a key, the order of faults, files that change or are malformed, the journal, and requests at random. A second reading of
the pages, key_model.py, says which are let through. Each test has a folder of its own; those that want keys are left
out if the program has none.

    tools/tests/test_keys.py [NAME..]     these tests, or all

From the environment: WB is the program, ./wb of this repository where it is not set; SEED picks the random requests.
"""
import functools
import json
import random
import re
import subprocess
import sys
import time

from harness import BIN, ROOT, SEED, WAIT, WB, LeftOut, call, expect, free_port, listens, main, run
from key_model import BY_TAKE, Keys, Malformed, digest, may, may_by_path
from key_runs import BAD, HASH, OPEN_MODES, hash_of, key, lines_of, put
from serve_runs import Server, received, request_bytes

PHRASES = {401: "Unauthorized", 403: "Forbidden"}
MOST_BODY = 16777216
LINES = [
    "add-arch amd64 linux amd64", "add-arch arm64 linux arm64", "add-builder b1 amd64", "add-builder b1 arm64",
    "add-builder b2 amd64", *(f"enter amd64 s{at} 1.0 optional devel" for at in range(8)),
    "enter arm64 s0 1.0 optional devel", "next amd64 b1", "next amd64 b2", "next arm64 b1",
]
RIGHTS = {
    "operator": "operate", "reader": "read", "b1": "build=b1", "b2": "build=b2", "b9": "build=b9",
    "amd64": "port=amd64", "arm64": "port=arm64", "both": "build=b2 port=arm64", "two": "port=amd64 port=arm64 read",
}
SUBJECT = {"arch": "amd64", "source": "none", "version": "1.0"}
# Each request, of which none that is let through moves what another one is about.
COMMANDS = [
    ("add-arch", {"name": "any", "os": "linux", "cpu": "x"}), ("add-builder", {"name": "b1", "arch": "none"}),
    ("remove-arch", {"name": "none"}), ("remove-builder", {"name": "b1", "arch": "none"}),
    ("enter", {**SUBJECT, "arch": "none", "priority": "optional", "section": "devel"}),
    *(("next", {"arch": "none", "builder": name}) for name in ("b1", "b2")),
    *(("take", {**SUBJECT, "builder": name}) for name in ("b1", "b2")),
    *(("give-back", {**SUBJECT, "arch": arch}) for arch in ("amd64", "arm64", "none")),
    *(("dep-wait", {**SUBJECT, "arch": arch, "relations": "x"}) for arch in ("amd64", "arm64")),
    *((name, {**SUBJECT, "arch": arch, "note": ""}) for name in ("fail", "not-for-us") for arch in ("amd64", "arm64")),
    *(("rebuild", {**SUBJECT, "arch": arch, "number": 1, "message": ""}) for arch in ("amd64", "arm64")),
    *(("build-priority", {**SUBJECT, "arch": arch, "value": 1}) for arch in ("amd64", "arm64")),
    ("forget", SUBJECT), *(("report", {"arch": arch, "text": "x"}) for arch in ("amd64", "arm64", "none")),
    ("merge", {"sources": "none", "parts": [{"arch": "amd64", "packages": "none"}]}),
    *((name, {"take": take, **more}) for take in (1, 2, 3, 9) for name, more in (
        ("waits", {"relations": "("}), ("attempted", {"reason": "x" * 1001}),
    )),
    *((name, {"take": take}) for take in (1, 2, 3, 9) for name in ("built", "uploaded", "put-back")),
]
PATHS = [
    "queue/amd64", "state/amd64/Building", "item/amd64/s0", "mine/b1", "depends/amd64/s0", "summary/amd64", "office",
    "archs", "builders",
]


@functools.cache
def has_keys():
    return "--keys" in subprocess.run([WB, "help"], capture_output=True, text=True, timeout=3600, check=False).stdout


def with_keys(test):
    """The test, which is left out if the program has no keys."""

    @functools.wraps(test)
    def tried(folder):
        if not has_keys():
            raise LeftOut("the program has no keys: its help does not name --keys")
        return test(folder)

    return tried


def write_keys(file, anyone="read", names=None, **others):
    """A file of keys with these names, and what a request without one may do; put in place as a whole."""
    given = {name: (RIGHTS | others)[name] for name in (RIGHTS if names is None else names)} | others
    put(file, lines_of(given, anyone))


class Keyed(Server):
    """The program over an office, with the keys of a file."""

    def __init__(self, folder, *more, anyone="read", lines=LINES, **options):
        self.file = folder / "keys"
        self.errors = folder / "errors"
        if not self.file.exists():
            write_keys(self.file, anyone)
        if lines:
            expect(run(folder, lines)[0] == 0, "the lines")
        with open(self.errors, "wb") as errors:
            super().__init__(folder, errors=errors, more=["--keys", str(self.file), *more], **options)

    def keys(self):
        return Keys(self.file.read_bytes())

    def sends(self, method, path, values, body=None, *more):
        """The status and the object that are answered to a request with these values of the field Authorization."""
        fields = [f"Authorization: {value}" for value in values]
        text = "" if body is None else body if isinstance(body, str) else json.dumps(body)
        said = self.says(request_bytes(f"/v1/{path}", text, *fields, *more, method=method))
        return parsed(said)

    def accepted(self):
        return self.sends("GET", "office", [f"Bearer {key('operator')}"])[1]["accepted"]

    def holder_of(self, take):
        for name in ("b1", "b2"):
            _, found = self.sends("GET", f"mine/{name}", [f"Bearer {key('operator')}"])
            if any(record["take"] == take for record in found["records"]):
                return name
        return None


def parsed(said):
    """The status and the object of an answer, whose head is as the page says it."""
    head, _, body = said.partition(b"\r\n\r\n")
    status = int(head.split()[1]) if head.startswith(b"HTTP/1.1 ") else 0
    expect(status, f"no answer: {said[:200]}")
    field = head.count(b"\r\nWWW-Authenticate: Bearer") == 1
    expect(field == (status == 401) and head.lower().count(b"www-authenticate") == field, f"the head is {head}")
    if status in PHRASES and b"FromBrowser" not in body:
        name = {401: "NoKey", 403: "NotAllowed"}[status]
        more = "\r\nWWW-Authenticate: Bearer" if status == 401 else ""
        wanted = f'HTTP/1.1 {status} {PHRASES[status]}\r\nContent-Type: application/json\r\nContent-Length: ' \
            f'{len(name) + 11}\r\nConnection: close{more}\r\n\r\n{{"http":"{name}"}}'
        expect(said == wanted.encode(), f"{said} in place of {wanted}")
    return status, json.loads(body)


def wanted_of(server, word, body, values):
    """The status with which a request is refused for its key, by the second reading; 0 if it is let through."""
    rights = server.keys().rights([value.encode() for value in values])
    if rights is None:
        return 401
    is_let = may_by_path(rights, word) and (body is None or may(rights, word, body, server.holder_of))
    return 0 if is_let else 403


def expect_judged(server, method, path, body, values):
    """That a request is let through or refused as the second reading has it, and that a refused one leaves the office
    as it was."""
    before = server.accepted()
    wanted = wanted_of(server, path.split("/")[0], body, values)
    status, found = server.sends(method, path, values, body)
    asked = f"{method} {path} {body} by {values}"
    if wanted:
        expect(status == wanted, f"{asked}: {status} {found} in place of {wanted}")
        expect(server.accepted() == before, f"{asked} was carried out")
    else:
        expect(status not in (401, 403), f"{asked}: {status} {found}, and it is let through")
    return wanted


SHOWN = [*([f"Bearer {key(name)}"] for name in RIGHTS), [], [f"Bearer {key('stranger')}"], ["Bearer x"],
         [f"Bearer {key('operator')}"] * 2]


# ---- rights


def are_tried_with_each_request(_folder):
    """The tables above have each request of the page."""
    rows = re.findall(r"(?m)^\| `(GET|POST) /v1/([a-z-]+)", (ROOT / "docs/HTTP.md").read_text(encoding="utf-8"))
    wanted = {(method, name) for method, name in rows}
    met = {("GET", path.split("/")[0]) for path in PATHS} | {("POST", name) for name, _ in COMMANDS}
    expect(len(wanted) > 20 and met == wanted, f"they differ in {sorted(met ^ wanted)}")
    return f"{len(wanted)} requests"


@with_keys
def let_each_request_through_by_its_right(folder):
    """Each request of the table by each right, without a key, and by a wrong one; with each line `*` and without it."""
    count = 0
    (folder / "lists").mkdir()
    with Keyed(folder, "--lists", str(folder / "lists")) as server:
        for anyone in ("read", None, "build=b1", "operate"):
            write_keys(server.file, anyone)
            for values in SHOWN if anyone == "read" else ([], ["Bearer x"]):
                for path in PATHS:
                    expect_judged(server, "GET", path, None, values)
                for word, body in COMMANDS:
                    expect_judged(server, "POST", word, body, values)
                count += len(PATHS) + len(COMMANDS)
    return f"{count} requests"


@with_keys
def build_in_one_name_alone(folder):
    """What a builder's key lets through, to its end: it takes, reports, and cannot touch what another one holds."""
    with Keyed(folder) as server:
        shown = {name: [f"Bearer {key(name)}"] for name in RIGHTS}
        status, job = server.sends("POST", "next", shown["b1"], {"arch": "amd64", "builder": "b1"})
        expect(status == 200 and job["ok"] == "next", f"{status} {job}")
        take = {"take": job["take"]}
        for name in ("b2", "b9", "both", "amd64", "reader"):
            expect(server.sends("POST", "built", shown[name], take)[0] == 403, f"{name} reports it")
        expect(server.sends("POST", "built", shown["b1"], take)[0] == 200, "its builder does not")
        expect(server.sends("POST", "give-back", shown["b1"], SUBJECT | {"source": job["source"]})[0] == 403, "by name")
        given = SUBJECT | {"source": job["source"]}
        expect(server.sends("POST", "give-back", shown["amd64"], given)[0] == 200, "a porter does not give it back")
        status, found = server.sends("POST", "uploaded", shown["b1"], take)
        expect((status, found.get("refused")) == (409, "NotHeld"), f"{status} {found}")
        status, found = server.sends("POST", "uploaded", shown["b9"], take)  # nobody holds it any more
        expect((status, found.get("refused")) == (409, "NotHeld"), f"{status} {found}")


@with_keys
def answer_requests_at_random(folder):
    """Requests of any kind by any key, against the second reading; most are let through or not by what they say."""
    choice, refused = random.Random(SEED + 41), 0
    with Keyed(folder) as server:
        for _ in range(300):
            values = choice.choice(SHOWN)
            if choice.random() < 0.3:
                refused += bool(expect_judged(server, "GET", choice.choice(PATHS), None, values))
                continue
            source = {"source": f"s{choice.randrange(8)}", "version": "1.0"}
            word, body = choice.choice(COMMANDS)
            body = {**body, **{name: value for name, value in source.items() if name in body and "text" not in body}}
            body |= {"arch": choice.choice(("amd64", "arm64"))} if "arch" in body and word != "add-builder" else {}
            body |= {"take": choice.randrange(12)} if "take" in body else {}
            body |= {"relations": "libx"} if "relations" in body else {}
            if word == "merge":  # without --lists there is no such path
                continue
            refused += bool(expect_judged(server, "POST", word, body, values))
    expect(50 < refused < 250, f"{refused} of 300 were refused")
    return f"{refused} of 300 were refused"


# ---- what a request shows

K = key("operator")
FIELDS = [
    (f"Bearer {K}", True), (f"bearer {K}", True), (f"bEARER    {K}", True), (f"  Bearer {K} \t ", True),
    (f"Bearer\t{K}", False), (f"Bearer{K}", False), (f"Bearer {K} x", False), (f"Bearer {K},", False), ("", False),
    (f"Basic {K}", False), ("Bearer", False), ("Bearer ", False), (K, False), (f'Bearer "{K}"', False),
    (f"Bearer {K}=", False), (f"Bearer {K[:-1]}", False), (f"Bearer ={K}", False), (f"Bearer {K.upper()}", False),
    ("Bearer " + "x" * 19, False), ("Bearer " + "x" * 201, False), (f"Bearer \u00e4{K}", False),
]


@with_keys
def show_a_key_in_one_form(folder):
    """The field in each form; one that is malformed is NoKey, also if everybody may do everything without one."""
    with Keyed(folder, anyone="operate") as server:
        for value, is_key in FIELDS:
            data = b"GET /v1/office HTTP/1.1\r\nAuthorization:%s\r\n\r\n" % value.encode()
            status, _ = parsed(server.says(data))
            expect(status == (200 if is_key else 401), f"{value!r}: {status}")
            model = server.keys().rights([value.strip(" \t").encode()])
            expect((model is not None) == is_key, f"{value!r}: the second reading has {model}")
        two = [f"Bearer {K}"] * 2
        expect(server.sends("GET", "office", two)[0] == server.sends("GET", "office", two[:1] + [""])[0] == 401, "two")
        expect(server.sends("GET", "office", [])[0] == 200, "none")
        long = "x" * 200
        put(server.file, f"long operate {digest(long.encode()).decode()}\nshort read {digest(b's' * 20).decode()}\n")
        expect(server.sends("POST", "add-arch", [f"Bearer {long}"], COMMANDS[0][1])[0] == 422, "200 bytes")
        expect(server.sends("GET", "office", ["Bearer " + "s" * 20])[0] == 200, "20 bytes")
        expect(server.sends("GET", "office", [])[0] == 401, "without a line *")


@with_keys
def find_faults_in_their_order(folder):
    """FromBrowser, NoKey, NoRoute, WrongMethod, NotAllowed by the path, those of the length and the body, and
    NotAllowed by the body."""
    reader, porter = [f"Bearer {key('reader')}"], [f"Bearer {key('amd64')}"]
    other = {"arch": "arm64", "source": "s0", "version": "1.0"}
    with Keyed(folder) as server:
        cases = [
            ("FromBrowser", ("GET", "none", ["Bearer x"], None, "Origin: null")),
            ("NoKey", ("GET", "none", ["Bearer x"], None)), ("NoKey", ("PUT", "office", ["Bearer x"], "")),
            ("NoRoute", ("GET", "none", reader, None)), ("NoRoute", ("POST", "merge", reader, {})),
            ("WrongMethod", ("GET", "add-arch", reader, None)), ("WrongMethod", ("POST", "office", reader, "")),
            ("NotAllowed", ("POST", "give-back", reader, "{", "Transfer-Encoding: chunked")),
            ("NotAllowed", ("POST", "built", porter, "x")),
            ("NotSupported", ("POST", "give-back", porter, "{", "Transfer-Encoding: chunked")),
            ("BadLength", ("POST", "give-back", porter, "{}", "Content-Length: 3")),
            ("BadBody", ("POST", "give-back", porter, "{")),
            ("BadBody", ("POST", "give-back", porter, {"arch": "arm64"})),
            ("NotAllowed", ("POST", "give-back", porter, other)),
            ("NotAllowed", ("POST", "give-back", porter, other | {"arch": "x" * 999})),
        ]
        for fault, (method, path, values, body, *more) in cases:
            _, found = server.sends(method, path, values, body, *more)
            expect(found == {"http": fault}, f"{method} {path} {body} by {values} {more}: {found}, not {fault}")
        status, found = server.sends("POST", "give-back", porter, other | {"arch": "amd64", "version": "1:"})
        expect("refused" in found, f"{status} {found}")


@with_keys
def refuse_before_a_body_comes(folder):
    """By the head alone, of a client that waits for 100, or announces 16 MiB and sends none of it, or sends it all."""
    with Keyed(folder) as server:
        server.accepted()  # the office is open
        for name, status in (("stranger", 401), ("reader", 403)):
            for more in (["Expect: 100-continue"], []):
                head = request_bytes("/v1/give-back", b"", f"Authorization: Bearer {key(name)}", *more, length=0)
                head = head[:-2] + b"Content-Length: %d\r\n\r\n" % MOST_BODY
                with server.connect() as link:
                    began = time.monotonic()
                    link.sendall(head)
                    met, _ = parsed(received(link))
                    took = time.monotonic() - began
                expect(met == status and took < 10, f"{name} {more}: {met} after {took:.1f} s")
            head = request_bytes("/v1/give-back", b" " * MOST_BODY, f"Authorization: Bearer {key(name)}")
            expect(parsed(server.says(head, end=False))[0] == status, f"{name}: one that sends it all")
        expect(server.accepted() == len(LINES), "something was carried out")


# ---- the file


@with_keys
def take_the_file_over(folder):
    """A key that is taken away, added or given other rights counts at once; a file that is not read leaves those before
    in force, and is said once."""
    shown = [f"Bearer {key('b1')}"]
    take = {"arch": "amd64", "builder": "b1", "after": 9}
    with Keyed(folder) as server:
        def next_of():
            return server.sends("POST", "next", shown, take)[0]

        expect(next_of() not in (401, 403), "its key")
        write_keys(server.file, names=["operator"])
        expect(next_of() == 401, "a key that was taken away")
        write_keys(server.file, names=["operator"], b1="read")
        expect(next_of() == 403, "other rights")
        write_keys(server.file)
        expect(next_of() not in (401, 403), "its key again")
        text = server.file.read_bytes()
        said = f"wb: the keys in {server.file} are not read, and those before stay in force: "
        changes = [
            (lambda: put(server.file, "x read\n"), "line 1: the line does not end with a hash"),
            (lambda: put(server.file, ""), "it is empty"),
            (lambda: put(server.file, text, 0o640), "its group or others may read or write it (mode 0640)"),
            (lambda: server.file.chmod(0o602), "its group or others may read or write it (mode 0602)"),
            (server.file.unlink, ""), (server.file.mkdir, "it is no regular file"),
        ]
        for at, (change, why) in enumerate(changes, 1):
            change()
            for _ in range(3):
                expect(next_of() not in (401, 403), f"the keys before are not in force: {why}")
            errors = server.errors.read_text()
            expect(errors.count(said) == at and f"{said}{why}" in errors, f"{at}, {why}: {errors}")
        server.file.rmdir()
        write_keys(server.file, None, names=["operator"])
        expect(next_of() == 401, "the mended file")
        expect(server.errors.read_text().count("are not read") == len(changes), "it is said again")


@with_keys
def count_for_requests_that_are_under_way(folder):
    """Clients stay connected while the file changes, and a request that comes to its end then is judged by the new
    keys."""
    request = request_bytes("/v1/office", b"", f"Authorization: Bearer {key('b1')}", method="GET", length=0)
    with Keyed(folder) as server:
        for names, wanted in ((["operator"], 401), (["operator", "b1"], 200)):
            with server.connect() as link:
                link.sendall(request[:20])
                server.accepted()
                write_keys(server.file, names=names)
                server.accepted()
                link.sendall(request[20:])
                met, _ = parsed(received(link))
            expect(met == wanted, f"with the keys of {names}: {met}")


@with_keys
def refuse_files_at_the_start(folder):
    """Status 3 before anything is served or made, and a message that names the file, the line and what is wrong."""
    file, cases = folder / "keys", []
    for text in BAD:
        data = text if isinstance(text, bytes) else text.encode()
        try:
            Keys(data)
        except Malformed as why:
            cases.append((data, 0o600, str(why)))
        else:
            expect(False, f"the second reading takes {text!r}")
    good = f"* read\nx read {HASH}\n".encode()
    said = "its group or others may read or write it (mode {}): give it the mode 0600"
    cases += [(good, mode, said.format(f"{mode:04o}")) for mode in OPEN_MODES]
    for data, mode, why in cases:
        put(file, data, mode)
        expect_no_start(folder, file, f"wb: the keys in {file} are not read: {why}\n")
    file.unlink()
    expect_no_start(folder, file, f"wb: the keys in {file} are not read: ")
    file.mkdir()
    expect_no_start(folder, file, f"wb: the keys in {file} are not read: ")
    expect(not (folder / "store").exists(), "a store was made")
    return f"{len(cases) + 2} files"


def expect_no_start(folder, file, message):
    port = free_port()
    words = [WB, "--store", "store", "serve", "--port", str(port), "--keys", str(file)]
    done = subprocess.run(words, cwd=folder, stdin=subprocess.DEVNULL, capture_output=True, timeout=WAIT, check=False)
    said = done.stderr.decode()
    expect((done.returncode, done.stdout) == (3, b"") and said.startswith(message), f"{done.returncode}: {said!r}, not "
           f"{message!r}")
    expect(not listens(port), "it serves")


@with_keys
def know_a_thousand_keys(folder):
    """The last of 1000 lines counts, with comments and blanks among them; by a file that is empty at the start nobody
    is let through."""
    lines = [f"k{at}\tbuild=k{at} \t{hash_of(f'k{at}')}" for at in range(1000)]
    put(folder / "keys", "")
    with Keyed(folder, lines=None) as server:
        for values in ([], [f"Bearer {key('k0')}"]):
            expect(server.sends("GET", "office", values)[0] == 401, f"by an empty file {values}")
        put(folder / "keys", "# keys\n\n \t\n" + "\n#\n".join(lines))
        for at in (0, 999):
            expect(server.sends("GET", "office", [f"Bearer {key(f'k{at}')}"])[0] == 200, f"line {at}")
        expect(server.sends("GET", "office", [f"Bearer {key('k1000')}"])[0] == 401, "a key of no line")


@with_keys
def compare_whole_hashes(folder):
    """A hash on a line that differs from that of a key in one digit is that of another key, wherever the digit is."""
    whole = hash_of("b1")
    near = [f"{whole[:at]}{(int(whole[at], 16) ^ 1):x}{whole[at + 1:]}" for at in range(len(whole))]
    put(folder / "keys", "".join(f"n{at} operate {text}\n" for at, text in enumerate(near)))
    with Keyed(folder, lines=None) as server:
        expect(server.sends("GET", "office", [f"Bearer {key('b1')}"])[0] == 401, "a key of no line")
        put(folder / "keys", "".join(f"n{at} operate {text}\n" for at, text in enumerate(near)) + f"b1 read {whole}\n")
        expect(server.sends("GET", "office", [f"Bearer {key('b1')}"])[0] == 200, "its own line")
        expect(server.sends("POST", "add-arch", [f"Bearer {key('b1')}"], COMMANDS[0][1])[0] == 403, "another's right")


# ---- the journal, and an office without keys


@with_keys
def name_who_gave_a_command(folder):
    """The journal has `by` of a request that showed a key, and none of others; the key itself stands nowhere."""
    lists = folder / "lists"
    lists.mkdir()
    for name in ("Sources", "Packages"):
        (lists / name).write_text("")
    with Keyed(folder, "--journal", "journal", "--lists", str(lists), anyone="read port=amd64") as server:
        shown = {name: [f"Bearer {key(name)}"] for name in RIGHTS}
        note = {"arch": "amd64", "source": "s5", "version": "1.0", "note": "no"}
        for name in ("two", None, "operator"):
            server.sends("POST", "fail", shown.get(name, []), note)
            server.sends("POST", "give-back", shown.get(name, []), SUBJECT | {"source": "s5"})
        server.sends("POST", "next", shown["b2"], {"arch": "amd64", "builder": "b2"})
        server.sends("POST", "fail", shown["reader"], note)
        merge = {"sources": "Sources", "parts": [{"arch": "arm64", "packages": "Packages"}]}
        for name in ("amd64", "operator"):
            server.sends("POST", "merge", shown[name], merge)
        errors = server.errors.read_text()
    text = (folder / "journal").read_text()
    entries = [json.loads(line) for line in text.splitlines()]
    met = [entry.get("by") for entry in entries]
    expect(met == ["two", "two", None, None, "operator", "operator", "b2", "operator"], f"{met}")
    for line, entry in zip(text.splitlines(), entries):
        expect(line == json.dumps(entry, separators=(",", ":"), sort_keys=True), f"the line is {line}")
    expect(not any(key(name) in text + errors or hash_of(name) in text + errors for name in RIGHTS), "a key is told")
    said, _ = call([BIN / "wb-history", folder / "journal", "package", "amd64", "s5"])
    expect(re.search(r"fail +Failed .* two ", said) and said.count("operator") == 2, said)


def look_at_no_field_without_keys(folder):
    """Without --keys everybody may do everything, whatever a request shows."""
    expect(run(folder, LINES)[0] == 0, "the lines")
    with Server(folder) as server:
        for fields in ([], ["Authorization: x"], ["Authorization: Bearer x"] * 2):
            body = json.dumps(SUBJECT)
            status, _ = parsed(server.says(request_bytes("/v1/give-back", body, *fields)))
            expect(status == 404, f"{fields}: {status}")


def are_read_a_second_time(_folder):
    """The second reading itself, by hand: what it takes for a key, a line and a right."""
    keys = Keys(f"# x\n* read\n\tb1 build=b1  port=amd64\t{hash_of('b1')}".encode())
    shown = [f"bearer  {key('b1')}".encode()]
    expect(keys.name(shown) == "b1" and keys.rights(shown) == [("build", "b1"), ("port", "amd64")], f"{keys.by_hash}")
    expect(keys.rights([]) == [("read", "")] and keys.rights(shown * 2) is None, "without a key, and by two")
    held = {1: "b1", 2: "b2"}.get
    for word in BY_TAKE:
        met = [may([("build", "b1")], word, {"take": take}, held) for take in (1, 2, 3)]
        expect(met == [True, False, True] and not may([("read", "")], word, {"take": 3}, held), f"{word}: {met}")
    expect(not may_by_path([("build", "b1")], "merge") and may_by_path([("operate", "")], "merge"), "a merge")
    expect(not may_by_path([("read", "")], "next") and may_by_path([("port", "amd64")], "queue"), "a path")
    expect(may([("port", "amd64")], "report", {"arch": "amd64"}, held), "a report")
    expect(not may([("port", "amd64")], "report", {"arch": "arm64"}, held), "a report of another architecture")


TESTS = [
    are_tried_with_each_request, let_each_request_through_by_its_right, build_in_one_name_alone,
    answer_requests_at_random, show_a_key_in_one_form, find_faults_in_their_order, refuse_before_a_body_comes,
    take_the_file_over, count_for_requests_that_are_under_way, refuse_files_at_the_start, know_a_thousand_keys,
    compare_whole_hashes, name_who_gave_a_command, look_at_no_field_without_keys, are_read_a_second_time,
]

if __name__ == "__main__":
    sys.exit(main(TESTS))

#!/usr/bin/env python3
"""Tests of what requests are answered, over memory: valid requests, and what mutation makes of them, go to the program
of crates/trials, which gives each to `serve_one` as all that a client sends. A second reader, written from
docs/HTTP.md, reads each answer, and so does Python's http.client; a second reading of the rules, in request_reading.py
for requests and in office_model.py for commands, says what each has to be, byte for byte. The cases of
request_cases.py are answered as stated there by hand too, also if a read gives few bytes at a time.

    tools/tests/test_requests.py [NAME..]     these tests, or all

From the environment: TRIALS is the program, that of crates/trials where it is not set, which is then built if need be;
REQUESTS is how many requests are made by mutation, 100000 where it is not set; SEED picks them, 0 where it is not set.

Where the standards leave a choice, the page says what is done: which JSON is refused (RFC 8259, sections 6, 8.2 and 9),
that a line may end in a line feed alone, and that empty lines may come before a request (RFC 9112, section 2.2).
"""
import collections
import json
import os
import random
import subprocess
import sys
import threading
import urllib.parse

import request_cases as by_hand
import request_queries
from harness import SEED, Failure, expect, main, trial_program
from request_reading import BODY_LIMIT, FAULTS, FORMS, HEAD_LIMIT, PHRASES, QUERIES, judge
from office_model import ADDED, ARCHS, BUILDERS, HELD, MOVES, PRIORITIES, RELATIONS, REMOVALS, STATES, STATUSES
from office_model import Office, Record
from request_parts import ARCH_NAMES, ARCH_WORDS, BYTES, FIELDS, LABELS, NEEDED, ODD_LINES, OTHERS, REASONS
from request_parts import TARGET_PARTS, TARGETS, VERSIONS

REQUESTS, BATCH = int(os.environ.get("REQUESTS", "100000")), 50


# ---- the program


class Exchanges:
    """The running program, over an office that begins with these lists."""

    def __init__(self, *lists):
        self.process = subprocess.Popen([trial_program()], stdin=subprocess.PIPE, stdout=subprocess.PIPE)
        self.process.stdin.write(b"requests\n" + b"".join(map(frame, lists)))

    def __enter__(self):
        return self

    def __exit__(self, *_):
        self.process.kill()
        self.process.communicate()

    def ask(self, requests, *limits):
        """How the exchange of each request ended, its status, and the bytes that are answered. The limits say how many
        bytes a read gives and a write takes at most, and how many reads give bytes, and how many writes take bytes,
        before one fails."""
        sender = threading.Thread(target=self.send, args=(b"".join(frame(data, *limits) for data in requests),))
        sender.start()
        answers = [self.answer() for _ in requests]
        sender.join()
        return answers

    def send(self, data):
        self.process.stdin.write(data)
        self.process.stdin.flush()

    def answer(self):
        words = self.process.stdout.readline().split()
        expect(len(words) == 3, "the program ended")
        return words[0].decode(), int(words[1]), self.process.stdout.read(int(words[2]))


def frame(data, *limits):
    return b" ".join(b"%d" % number for number in (len(data), *limits)) + b"\n" + data


# ---- valid requests

SOURCES = [(f"src{at}" if at % 3 else f"lib+{at}.0", f"{at % 2}:1.{at}-1" if at % 4 else f"1.{at}") for at in range(24)]


def lists():
    """The lists that the office begins with, of which a quarter of the source packages is built, and its records."""
    sources, packages, records = [], {arch: [] for arch in ARCHS}, []
    for at, (name, version) in enumerate(SOURCES):
        priority, section = PRIORITIES[at % 5], ("libs", "non-free/devel", "doc", "unknown")[at % 4]
        sources.append(
            f"Package: {name}\nVersion: {version}\nArchitecture: any\nPriority: {priority}\nSection: {section}\n\n"
        )
        needed, depends = NEEDED[at % 5]
        sources[-1] = sources[-1].replace("\n\n", f"\nBuild-Depends: {needed}\n\n") if needed else sources[-1]
        for arch in ARCHS:
            is_built = at % 4 == 1
            records.append(
                Record(
                    arch, name, version, priority, section, "Installed" if is_built else "Needs-Build",
                    depends=depends.get(arch),
                )
            )
            if is_built:
                packages[arch].append(
                    f"Package: {name}-bin\nSource: {name}\nVersion: {version}\nArchitecture: {arch}\n\n"
                )
    return ["".join(part).encode() for part in (sources, *packages.values())], records


class Maker:
    """Makes requests: valid ones, of which the most are accepted, and mutated ones."""

    def __init__(self, office, choice):
        self.office, self.choice = office, choice

    def body(self, name):
        """A body for this command, most often one that is accepted."""
        pick, records = self.choice, list(self.office.records.values())
        if name == "forget":
            records = self.forgettable(records)
        fitting = [record for record in records if name in MOVES and record.state in MOVES[name][0].split()] or records
        record = pick.choice(fitting if pick.random() < 0.9 else records)
        version = (
            record.version
            if pick.random() < 0.9
            else pick.choice(["0:" + record.version, record.version + "~", "1-", "a:1", "2:3_", ""])
        )
        arch = pick.choice([*self.office.archs]) if name == "next" and pick.random() < 0.1 else record.arch
        known = [builder for builder, archs in self.office.builders.items() if arch in archs]
        builders = known if known and pick.random() < 0.95 else [*self.office.builders, "b9", "-"]
        values = {"arch": arch, "source": record.source, "version": version, "builder": pick.choice(builders)}
        if name in ADDED:
            values |= self.added(name, record)
        if name in ("remove-arch", "remove-builder"):
            values |= self.removed(name)
        if pick.random() < 0.06:
            values[pick.choice(["arch", "source"])] = pick.choice(["armhf", "nosuch", "all", "x" * 40, "_", ""])
        values |= {
            "take": record.take if record.state in HELD else pick.choice([0, 1, self.office.handed, 2**64 - 1])
        }
        values |= {
            "after": pick.choice(
                [None, 0, 0, max(0, self.office.handed - 20), self.office.handed, self.office.handed + 1000]
            )
        }
        values |= {
            "relations": pick.choice([*RELATIONS, "a b c", "libq (= 1.0-1) <!nocheck>", ""]),
            "value": pick.choice([0, 5, -1000, 1000, 1001]),
        }
        text = pick.choice(
            ["", "no space left", "g\u00fcltig \u4e2d \U0001f600", 'a "b" \\ \t\n\x01\x7f', "x" * 1000, "\u00e4" * 501]
        )
        values |= {
            "note": text, "reason": text, "message": text,
            "number": pick.choice([record.number + 1, record.number, 1, 0, 999, 1000]),
        }
        values |= {"text": self.report(record.arch) if name == "report" else ""}
        return {key: values[key] for key in FORMS[name] if key != "after" or pick.random() < 0.4}

    def added(self, name, record):
        """What an architecture, a builder for an architecture or a source package is added with."""
        pick = self.choice
        return {
            "arch": pick.choice([record.arch, *self.office.archs]), "source": f"new{pick.randrange(12)}",
            "name": pick.choice(ARCH_NAMES if name == "add-arch" else [*self.office.builders, "b4", "b5", "-"]),
            "os": pick.choice(ARCH_WORDS[:5] if pick.random() < 0.8 else ARCH_WORDS),
            "cpu": pick.choice(ARCH_WORDS[:5] if pick.random() < 0.8 else ARCH_WORDS),
            "priority": pick.choice(LABELS[:8] if pick.random() < 0.8 else LABELS),
            "section": pick.choice(LABELS[:8] if pick.random() < 0.8 else LABELS),
        }

    def forgettable(self, records):
        """The records that may be forgotten. Of those with which the office began these are the held ones alone, which
        are refused: others need them."""
        found = [record for record in records if record.holder or record.source.startswith("new")]
        return found or [Record(ARCHS[0], "nosuch", "1.0", "", "", "Needs-Build")]

    def removed(self, name):
        """Which architecture, or which builder from which architecture, is removed: so too."""
        office = self.office
        held = sorted({(record.holder, record.arch) for record in office.records.values() if record.holder})
        pairs = [(builder, arch) for builder, archs in office.builders.items() for arch in sorted(archs)]
        later = [(builder, arch) for builder, arch in pairs if arch not in BUILDERS.get(builder, ())]
        groups = [later, later, held, [("b9", ARCHS[0]), ("b1", "s390x"), ("-", ARCHS[0])]]
        if name == "remove-arch":
            later = [arch for arch in office.archs if arch not in ARCHS]
            groups = [later, later, [arch for _, arch in held], ["s390x", "all"]]
        one = self.choice.choice(self.choice.choice([group for group in groups if group]))
        return {"name": one} if name == "remove-arch" else dict(zip(("name", "arch"), one))

    def report(self, arch):
        """Some lines of a report, of which most can be read."""
        pick, lines = self.choice, []
        records = [record for record in self.office.records.values() if record.arch == arch]
        for record in pick.sample(records, min(len(records), pick.choice([0, 1, 2, 5]))):
            version = (
                record.version
                if pick.random() < 0.9
                else pick.choice([record.version + "~", "0:" + record.version, "1-", "9"])
            )
            words = [
                record.source, version,
                pick.choice(["installable", "uninstallable", f"uninstallable {pick.choice(REASONS)}"]),
            ]
            lines.append(pick.choice([" ", " ", "\t", " \t "]).join(words) + pick.choice(["", "", "", " ", "\t"]))
        if pick.random() < 0.3:
            lines.insert(pick.randrange(len(lines) + 1), pick.choice([*lines, *ODD_LINES]))
        return "\n".join(lines) + pick.choice(["", "\n"])

    def path(self, record):
        """The path of a query about this record, or what it belongs to."""
        pick = self.choice
        parts = {
            "item": [record.arch, record.source], "mine": [pick.choice([*self.office.builders, "b9"])],
            "state": [record.arch, pick.choice(STATES)],
        }
        parts |= {"queue": [record.arch], "depends": [record.arch, record.source], "summary": [record.arch]}
        parts |= {"office": [], "archs": [], "builders": []}
        word = pick.choice([*QUERIES, "item", "mine"])
        quote = pick.choice([urllib.parse.quote, str])
        return "/".join([word, *map(quote, parts[word])])

    def valid(self):
        """The parts of a request: method, target, version, fields and body."""
        pick = self.choice
        if pick.random() < 0.15:
            path = self.path(pick.choice(list(self.office.records.values())))
            return [b"GET", b"/v1/" + path.encode(), b"HTTP/1.1", [b"Host: localhost"], b""]
        name = pick.choice([*FORMS, "next", "built", "uploaded", "give-back"])
        body = json.dumps(self.body(name), ensure_ascii=pick.random() < 0.5).encode()
        fields = [b"Host: localhost", b"Content-Length: %d" % len(body)]
        return [b"POST", b"/v1/" + name.encode(), pick.choice([b"HTTP/1.1", b"HTTP/1.1", b"HTTP/1.0"]), fields, body]

    def request(self):
        """The bytes of a request, which is mutated in none, one or some of its parts, and then perhaps in its bytes."""
        pick, parts = self.choice, self.valid()
        while pick.random() < 0.5:
            change = pick.choice(
                [
                    self.change_line, self.change_fields, self.change_length, self.change_json, self.change_json,
                    self.change_body,
                ]
            )
            change(parts)
        data = bytes_of(parts)
        while pick.random() < 0.15:
            data = self.change_bytes(data)
        return data

    # -- mutations

    def change_line(self, parts):
        """Another method, target or version."""
        pick, at = self.choice, self.choice.randrange(3)
        if at == 0:
            parts[0] = pick.choice(
                [
                    b"GET", b"POST", b"PUT", b"HEAD", b"get", b"Post", b"OPTIONS", b"", b"PO ST", b"P@ST", b"POST\t",
                    b"!#$%",
                ]
            )
        elif at == 2:
            parts[2] = pick.choice(VERSIONS)
        else:
            parts[1] = self.changed_target(parts[1])

    def changed_target(self, target):
        pick = self.choice
        at = pick.randrange(len(target) + 1)
        if target and pick.random() < 0.3:
            at = pick.randrange(len(target))
            return target[:at] + b"%%%02X" % target[at] + target[at + 1 :]
        return target[:at] + pick.choice(TARGET_PARTS) + target[at:] if pick.random() < 0.7 else pick.choice(TARGETS)

    def change_fields(self, parts):
        """A field twice, a field less, another order, a field more, a field of another form, many fields or a long
        one."""
        pick, fields = self.choice, list(parts[3])
        at = pick.randrange(len(fields) + 1)
        how = pick.randrange(6)
        if how == 0 and fields:
            fields.insert(at, pick.choice(fields))
        elif how == 1 and fields:
            del fields[at % len(fields)]
        elif how == 2:
            pick.shuffle(fields)
        elif how == 3:
            fields[at:at] = [b"F%d: v" % number for number in range(pick.choice([3, 29, 30, 31, 32]))]
        elif how == 4 and pick.random() < 0.1:
            room = HEAD_LIMIT - len(bytes_of(parts)) + len(parts[4])
            fields.insert(at, b"X: ".ljust(room - 2 + pick.choice([-1, 0, 0, 1, 5000]), b"y"))
        else:
            fields.insert(at, pick.choice(FIELDS))
        parts[3] = fields

    def change_length(self, parts):
        """Another length of the body, or several."""
        pick, length = self.choice, len(parts[4])
        values = [
            length + 1, length - 1, 0, BODY_LIMIT, BODY_LIMIT + 1, 2**64 + length, f"+{length}", f"-{length}",
            f"00{length}", f"{length} ",
        ]
        values += [
            f"\t{length}", f"{length},{length}", f"{length} {length}", f"0x{length:x}", f"{length}.0", "", "\u0663",
            "9" * 400, f"{length:050}",
        ]
        value = b": " + str(pick.choice(values)).encode()
        name = pick.choice([b"Content-Length", b"content-length", b"CONTENT-LENGTH", b"Content_Length"])
        kept = (
            parts[3]
            if pick.random() < 0.4
            else [field for field in parts[3] if not field.lower().startswith(b"content-length")]
        )
        parts[3] = [*kept, name + value]

    def change_json(self, parts):
        """A body whose keys or values differ, with its length; of a request without a body, another target."""
        pick = self.choice
        if not parts[4]:
            parts[1] = self.changed_target(parts[1])
        try:
            body = json.loads(parts[4])
        except (ValueError, RecursionError):
            return
        if not isinstance(body, dict) or not body:
            return
        key, how = pick.choice(list(body)), pick.randrange(6)
        members = [(json.dumps(name), json.dumps(value)) for name, value in body.items() if how != 0 or name != key]
        other = pick.choice(OTHERS)
        if how == 1:
            members = [(name, other if name == json.dumps(key) else value) for name, value in members]
        elif how == 2:
            members.insert(pick.randrange(len(members) + 1), (json.dumps(key), other))
        elif how == 3:
            name = pick.choice(['"x"', '""', '"\\u0061rch"', '"Arch"', '"after"', '"\\ud800"', "x", "1"])
            members.insert(pick.randrange(len(members) + 1), (name, other))
        elif how == 4:
            members = [("".join(f"\\u{ord(c):04x}" for c in name[1:-1]).join('""'), value) for name, value in members]
        elif how == 5:
            pick.shuffle(members)
        blank = pick.choice(["", "", " ", "\n\t\r "])
        self.set_body(
            parts,
            (
                "{" + blank + ",".join(f"{blank}{name}{blank}:{value}{blank}" for name, value in members) + "}" + blank
            ).encode(),
        )

    def change_body(self, parts):
        """A body of other bytes, with its length."""
        pick = self.choice
        body = parts[4]
        wholes = [
            b"", b"{}", b"[]", b"null", b"{", b"}", b"\xef\xbb\xbf" + body, body * 2, b"[" + body + b"]", b"\x00",
            body + b"\x00",
        ]
        self.set_body(parts, pick.choice(wholes) if pick.random() < 0.3 else self.change_bytes(body))

    def set_body(self, parts, body):
        parts[4] = body
        parts[3] = [
            b"Content-Length: %d" % len(body) if field.startswith(b"Content-Length: ") else field for field in parts[3]
        ]

    def change_bytes(self, data):
        """Bits flipped, bytes put in, taken out or doubled, a line end cut down, or the end cut off."""
        pick, at = self.choice, self.choice.randrange(len(data) + 1)
        end = min(len(data), at + pick.choice([1, 1, 1, 2, 5, 30]))
        how = pick.randrange(7)
        if how == 0 and at < len(data):
            return data[:at] + bytes([data[at] ^ 1 << pick.randrange(8)]) + data[at + 1 :]
        if how == 1:
            return data[:at] + pick.choice([bytes([pick.randrange(256)]), *BYTES]) + data[at:]
        if how == 2:
            return data[:at] + data[end:]
        if how == 3:
            return data[:end] + data[at:]
        if how == 4:
            return data[:at]
        if how == 5:
            return data.replace(b"\r\n", b"\n", pick.choice([1, 2, -1]))
        return pick.choice([b"\r\n", b"\n", b"\r\n\n", b"\r", b" ", b"\x00"]) + data


def bytes_of(parts):
    method, target, version, fields, body = parts
    return (
        b" ".join([method, target, version]) + b"\r\n" + b"".join(field + b"\r\n" for field in fields) + b"\r\n" + body
    )


# ---- tests


def shortened(data):
    return repr(data) if len(data) <= 3000 else f"{data[:1500]!r} .. {data[-1500:]!r}, {len(data)} bytes"


def judged(office, requests, answers, first=0):
    """For what the answers to the requests stand, counted."""
    stands = collections.Counter()
    for number, (data, answered) in enumerate(zip(requests, answers, strict=True), first):
        try:
            stands[judge(office, data, answered)] += 1
        except Exception as why:
            what = f"{type(why).__name__}: {why}; it is {shortened(data)}, and is answered {shortened(answered[2])}"
            raise Failure(f"request {number}: {what}") from None
    return stands


def answers_mutated_requests():
    """Each request is answered as the second reading of the rules says, and each fault and each refusal that requests
    can reach comes."""
    begins, records = lists()
    office, stands, removals = Office(records), collections.Counter(), set()
    maker = Maker(office, random.Random(SEED))
    with Exchanges(*begins) as exchanges:
        for first in range(0, REQUESTS, BATCH):
            requests = [maker.request() for _ in range(min(BATCH, REQUESTS - first))]
            answers = exchanges.ask(requests)
            stands += judged(office, requests, answers, first)
            removals |= set(filter(None, map(removal_of, requests, answers)))
    if REQUESTS >= 50000:
        missing = {(name, way) for name, ways in REMOVALS.items() for way in ways.split()} - removals
        expect(not missing, f"no removal was {sorted(missing)}")
        wanted = {
            f"{status} {name}"
            for name, status in {**FAULTS, **STATUSES, **dict.fromkeys([*FORMS, "again", *QUERIES], 200)}.items()
        }
        expect(wanted <= stands.keys(), f"no answer was {sorted(wanted - stands.keys())}")
    return f"SEED={SEED}, {REQUESTS} requests: " + ", ".join(
        f"{count} {name}" for name, count in sorted(stands.items())
    )


def removal_of(data, answered):
    """The name of a command that removes, and how it was answered; none of another request."""
    name = data.partition(b" HTTP/")[0].removeprefix(b"POST /v1/").decode(errors="replace")
    if name not in REMOVALS or not answered[2]:
        return None
    said = json.loads(answered[2].partition(b"\r\n\r\n")[2])
    return name, said.get("refused", "ok" if "ok" in said else "")


def answers_at_the_limits():
    """Heads and bodies at their limits, and one above."""
    begins, records = lists()
    requests = []
    for room in (HEAD_LIMIT - 1, HEAD_LIMIT, HEAD_LIMIT + 1, HEAD_LIMIT + 100):
        for end in (b"\r\n\r\n", b"\n\n", b"\r\n\x00\r\n", b"\r"):
            requests.append(b"GET /v1/mine/b1 HTTP/1.1\r\nX: ".ljust(room - len(end), b"y") + end)
            requests.append(b"GET /v1/mine/" + b"\xc3\xa4" * (room // 2) + end)
    for count in (31, 32, 33, 34):
        fields = [b"X: y"] * (count - 1)
        requests.append(bytes_of([b"POST", b"/v1/built", b"HTTP/1.1", [b"Content-Length: 10", *fields], b'{"take":1}']))
        requests.append(bytes_of([b"GET", b"/v1/mine/b1", b"HTTP/1.0", [*fields, b"\x00"], b""]))
    for length in (BODY_LIMIT - 1, BODY_LIMIT, BODY_LIMIT + 1):
        body = b'{"take":1,"x":"'.ljust(length - 2, b"a") + b'"}'
        requests.append(bytes_of([b"POST", b"/v1/built", b"HTTP/1.1", [b"Content-Length: %d" % length], body]))
        requests.append(bytes_of([b"POST", b"/v1/built", b"HTTP/1.1", [b"Content-Length: %d" % length], body[:-1]]))
    with Exchanges(*begins) as exchanges:
        stands = judged(Office(records), requests, exchanges.ask(requests))
    wanted = {"431 HeadTooLarge", "400 BadHead", "413 BodyTooLarge", "400 BodyCut", "409 NotHeld", "200 mine"}
    expect(wanted <= stands.keys(), f"no answer was {sorted(wanted - stands.keys())}")
    return ", ".join(f"{count} {name}" for name, count in sorted(stands.items()))


# -- the cases that are stated by hand


def answer_to(outcome):
    """The answer for which an outcome stands, as the program gives it."""
    word, _, what = outcome.partition(" ")
    if not what:
        return word, 0, b""
    body = what if what.startswith("{") else f'{{"http":"{what}"}}'
    return "answered", int(word), answer_bytes(f"{word} {PHRASES[int(word)]}".encode(), body.encode())


def answered_as_stated(cases, *steps):
    """Tests that the cases are answered as they state, one after another, and as the second reading says, if a read
    gives at most `step` bytes."""
    requests = [data for data, _ in cases]
    for step in steps:
        begins, records = by_hand.lists()
        with Exchanges(*begins) as exchanges:
            answers = exchanges.ask(requests, step)
        for number, ((data, outcome), answered) in enumerate(zip(cases, answers, strict=True)):
            what = (
                f"{shortened(data)}, read by {step}, is stated to be {outcome}, and is answered {answered[0]} "
                f"{shortened(answered[2])}"
            )
            expect(answered == answer_to(outcome), f"case {number}: {what}")
        judged(Office(records), requests, answers)
    return f"{len(cases)} cases, read by {', '.join(map(str, steps))}"


def changing_nothing(*tables):
    """The cases of these tables, of which none changes the office, and the one that shows it."""
    return [*sum(tables, []), by_hand.LAST]


def answers_each_head():
    """Heads, and bodies that play no part."""
    return answered_as_stated(changing_nothing(by_hand.HEADS), 100_000, 1, 7)


def answers_no_web_page():
    """Requests that a web page had its browser send, and such as a person has it send."""
    return answered_as_stated(changing_nothing(by_hand.PAGES), 100_000, 9)


def answers_heads_of_each_size():
    """Heads with as many fields and bytes as they may have, and with more."""
    return answered_as_stated(changing_nothing(by_hand.LIMITS), 100, 100_000)


def answers_each_length():
    """What fields state as the length of a body."""
    return answered_as_stated(changing_nothing(by_hand.LENGTHS), 10)


def answers_requests_cut_anywhere():
    """A request is read however it comes, is not carried out if its end is missing, and ends where its body ends."""
    cut = answered_as_stated(changing_nothing(by_hand.CUTS), 1, 60, 70, 100_000)
    return f"{cut}; {answered_as_stated(changing_nothing(by_hand.FOLLOWED), 1, 95, 100_000)}"


def answers_each_body():
    """Bodies are the command of their path, or BadBody."""
    refused = answered_as_stated(changing_nothing(by_hand.BODIES), 100_000)
    return f"{refused}; {answered_as_stated(by_hand.COMMANDS, 100_000)}"


def answers_each_number():
    """Take numbers to go on after, and build priorities."""
    afters = answered_as_stated(changing_nothing(by_hand.AFTERS), 100_000)
    return f"{afters}; {answered_as_stated(by_hand.VALUES, 100_000)}"


def answers_each_query():
    """Queries of an office in which nothing happened yet, and of one with records in each state."""
    return (
        f"{answered_as_stated(changing_nothing(request_queries.QUERIES), 100_000)}; "
        f"{answered_as_stated(request_queries.STATES_AND_QUERIES, 100_000)}"
    )


def answers_each_report():
    """Reports, with the records after them, and those that cannot be read, which change nothing."""
    refused = answered_as_stated(changing_nothing(by_hand.BAD_REPORTS), 100_000)
    return f"{refused}; {answered_as_stated(by_hand.REPORTS, 100_000)}"


def takes_texts_as_they_are():
    """Texts and numbers reach the office as they stand in the path, once it is decoded, and in the body."""
    return answered_as_stated(by_hand.TEXTS, 3)


def writes_each_answer():
    """The bytes of answers: each fault with its status, its phrase and its name, and an answer without a fault."""
    with Exchanges(*by_hand.lists()[0]) as exchanges:
        answers = exchanges.ask([data for data, _, _ in by_hand.WRITTEN])
        whole = exchanges.ask([b"\x01"])
    for (_, line, body), answered in zip(by_hand.WRITTEN, answers, strict=True):
        head = b"%s\r\nContent-Type: application/json\r\nContent-Length: %d\r\nConnection: close\r\n\r\n" % (
            line, len(body),
        )
        expect(answered == ("answered", int(line.split()[1]), head + body), f"{answered} in place of {line} and {body}")
    expect(whole == [("answered", 400, by_hand.WHOLE)], f"{whole} in place of {by_hand.WHOLE}")
    return f"{len(answers) + 1} answers"


def answers_nothing_if_a_read_fails():
    """A request of which any read fails is neither answered nor carried out."""
    data, outcome = by_hand.LAST
    with Exchanges(*by_hand.lists()[0]) as exchanges:
        for reads in range(len(data)):
            expect(exchanges.ask([data], 1, reads) == [("read-failed", 0, b"")], f"the read after {reads} fails")
        expect(exchanges.ask([data], 1, len(data)) == [answer_to(outcome)], f"after {len(data)} reads")
    return f"{len(data)} reads"


def keeps_what_was_accepted_if_a_write_fails():
    """Of an answer of which any write fails a front is written. What was accepted stands, and a retry is given it
    again."""
    data, outcome = by_hand.LAST
    again, repeated = by_hand.LAST_AGAIN
    _, _, answer = answer_to(outcome)
    for writes in range(len(answer)):
        with Exchanges(*by_hand.lists()[0]) as exchanges:
            met = exchanges.ask([data], 1, len(data), writes)
            expect(met == [("write-failed", 200, answer[:writes])], f"the write after {writes} fails: {met}")
            met = exchanges.ask([again])
            expect(met == [answer_to(repeated)], f"after {writes} writes: {met}")
    return f"{len(answer)} writes"


# -- the tests of the judge


def refuses_answers_that_are_wrong():
    """The second reader and the second reading refuse each of these answers to a request, one byte of which is wrong,
    and take the right one."""
    data = bytes_of([b"POST", b"/v1/built", b"HTTP/1.1", [b"Content-Length: 10"], b'{"take":1}'])
    body = b'{"code":8,"refused":"NotHeld"}'
    right = answer_bytes(b"409 Conflict", body)
    judged(Office([]), [data], [("answered", 409, right)])
    for at in range(len(right)):
        for middle in (bytes([right[at] ^ 1]), 2 * right[at : at + 1], b""):
            expect_refused(data, ("answered", 409, right[:at] + middle + right[at + 1 :]))
        expect_refused(data, ("answered", 409, right[:at]))
    expect_refused(data, ("answered", 200, answer_bytes(b"200 OK", b'{"accepted":8,"ok":"built"}')))
    for answered in (
        ("mute", 0, b""), ("nothing", 0, b""), ("answered", 200, right), ("write-failed", 409, right),
        ("answered", 409, right + b"\n"),
    ):
        expect_refused(data, answered)
    good = bytes_of([b"GET", b"/v1/mine/b1", b"HTTP/1.1", [], b""])
    expect_refused(good, ("answered", 409, right))
    return f"{4 * len(right)} answers"


def answer_bytes(status, body):
    return b"HTTP/1.1 %s\r\nContent-Type: application/json\r\nContent-Length: %d\r\nConnection: close\r\n\r\n%s" % (
        status, len(body), body,
    )


def expect_refused(data, answered):
    try:
        judged(Office([]), [data], [answered])
    except Failure:
        return
    raise Failure(f"{answered} to {data} is taken for right")


TESTS = [
    refuses_answers_that_are_wrong, answers_each_head, answers_no_web_page, answers_heads_of_each_size,
    answers_each_length, answers_requests_cut_anywhere, answers_each_body, answers_each_number, answers_each_query,
    answers_each_report, takes_texts_as_they_are, writes_each_answer, answers_nothing_if_a_read_fails,
    keeps_what_was_accepted_if_a_write_fails, answers_at_the_limits, answers_mutated_requests,
]

if __name__ == "__main__":
    sys.exit(main(TESTS))

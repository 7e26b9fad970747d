"""The load of tools/dev/soak: builders, a porter, an operator, and clients that mean no good, each in a thread of its
own, and what they were answered."""
import contextlib
import http.client
import json
import random
import re
import socket
import struct
import threading
import time
import urllib.parse
from collections import Counter
from dataclasses import dataclass, field
from typing import Any

from office_model import ARCHS, BUILDERS
from soak_audit import MET, Sent, Soaked

WAIT = 60  # seconds for one answer
FREE = ("Memory", "Closed", "Store")  # the refusals that may come in place of any other
REPORTS = ["built", "built", "uploaded", "uploaded", "uploaded", "attempted", "waits", "put-back"]
WORDS = {"queue": "queue", "state": "state", "item": "item", "mine": "mine", "depends": "depends", "summary": "summary"}
WHOLE = ("office", "archs", "builders")  # the queries without a key
THIRD = "armhf"  # the architecture that comes and goes
KEPT = [f"p{at}" for at in range(10)]  # the packages of which no record is forgotten
WORDS |= {name: name for name in WHOLE}


@dataclass
class Board:
    """What all clients of one life of the program share: its port, what was sent, the greatest count that was seen, and
    faults."""

    port: int
    sent: list[Sent] = field(default_factory=list)
    faults: list[str] = field(default_factory=list)
    counts: Counter[str] = field(default_factory=Counter)
    seen: int = 0
    in_flight: int = 0
    abandoned: int = 0
    ends: threading.Event = field(default_factory=threading.Event)
    lock: threading.Lock = field(default_factory=threading.Lock)

    def begin(self, name: str, body: dict[str, Any] | list[str]) -> Sent:
        with self.lock:
            self.in_flight += 1
            one = Sent(name, body, self.seen)
            self.sent.append(one)
            return one

    def finish(self, one: Sent, status: int | None, said: Any) -> None:
        """Notes an answer, or none. When it was given the office had passed no count beyond what was seen and what was
        then under way."""
        with self.lock:
            self.in_flight -= 1
            if said is None:
                one.begun = status
                self.counts[
                    "requests without an answer" if status is None else "requests of which the answer broke off"
                ] += 1
                self.abandoned += 1
                return
            one.before = self.seen + self.in_flight + self.abandoned
            one.status, one.said = status, said
            self.counts["requests that were answered"] += 1
            refused = said.get("refused") if isinstance(said, dict) else None
            if refused in FREE:
                self.counts[f"answers {refused}"] += 1
            if isinstance(said, dict) and status == 200 and one.is_command:
                self.seen = max(self.seen, said.get("accepted", 0))

    def count(self, what: str) -> None:
        with self.lock:
            self.counts[what] += 1

    def fail(self, why: str) -> None:
        with self.lock:
            self.faults.append(why)


class Client:
    """A client that sends whole requests and reads the answers."""

    def __init__(self, board: Board, chance: random.Random) -> None:
        self.board, self.chance = board, chance

    def command(self, path: str, /, **body: Any) -> Sent:
        one = self.board.begin(path, body)
        self.board.finish(one, *self.ask("POST", f"/v1/{path}", json.dumps(body).encode()))
        return one

    def query(self, name: str, *parts: str) -> Sent:
        one = self.board.begin(name, list(parts))
        self.board.finish(
            one,
            *self.ask("GET", "/".join(["/v1", WORDS[name], *(urllib.parse.quote(part, safe="") for part in parts)])),
        )
        return one

    def ask(self, method: str, path: str, body: bytes | None = None) -> tuple[int | None, Any]:
        """The status and the object of an answer; no object if it did not come whole, and no status if its first line
        did not."""
        link, status = http.client.HTTPConnection("127.0.0.1", self.board.port, timeout=WAIT), None
        with contextlib.closing(link):
            try:
                link.request(method, path, body)
                answer = link.getresponse()
                status = answer.status
                data = answer.read()
            except (OSError, http.client.HTTPException):
                time.sleep(0.01)
                return status, None
        if not answer.getheader("Content-Length"):
            return status, None  # the head broke off: http.client takes the end of the input for that of the head
        try:
            return status, json.loads(data)
        except ValueError:
            self.board.fail(f"{method} {path} is answered {status} with {data[:200]!r}")
            return None, None

    def goes_on(self) -> bool:
        return not self.board.ends.is_set()


class Builder(Client):
    """A builder, which remembers from one life of the program to the next what it holds, and the greatest take number
    that it has seen."""

    def __init__(self, name: str, archs: list[str], chance: random.Random) -> None:
        self.name, self.archs, self.chance = name, archs, chance
        self.seen_take, self.holds, self.old = dict.fromkeys(archs, 0), {}, [0]  # type: ignore[var-annotated]

    def work(self, board: Board) -> None:
        self.board = board
        while self.goes_on():
            if not self.holds or (len(self.holds) < 4 and self.chance.random() < 0.4):
                self.take_next()
            elif self.chance.random() < 0.05:
                self.report(self.chance.choice(self.old))  # late, under a take number whose hold ended
            else:
                self.report(self.chance.choice(list(self.holds)))
            if self.chance.random() < 0.05:
                self.query("mine", self.name)
            time.sleep(self.chance.choice((0, 0, 0.002, 0.01)))

    def take_next(self) -> None:
        """Asks for a package, so that one of which the answer was lost is handed to it again."""
        arch = self.chance.choice(self.archs)
        one = self.command("next", arch=arch, builder=self.name, after=self.seen_take[arch])
        if one.status == 200 and one.said:
            take = one.said["take"]
            self.seen_take[arch] = max(take, self.seen_take[arch])
            self.holds[take] = arch
        elif one.said:
            time.sleep(0.02)

    def report(self, take: int) -> None:
        name = self.chance.choice(REPORTS)
        reason, relations = self.chance.choice(["", "it broke", 'no "cc"\n\t\\ é']), self.chance.choice(list(MET))
        one = self.command(
            name, take=take, **{"attempted": {"reason": reason}, "waits": {"relations": relations}}.get(name, {})
        )
        ended = one.status == 200 and name != "built" or (one.said and one.said.get("refused") == "NotHeld")
        if ended and take in self.holds:
            del self.holds[take]
            self.old = [*self.old[-50:], take]


class Porter(Client):
    """A person who moves packages, sends reports and looks at what is there. Versions change in merges alone, between
    two lives of the program: what the operator enters again has the one that it had."""

    def __init__(self, board: Board, chance: random.Random, office: Soaked) -> None:
        super().__init__(board, chance)
        self.versions = {key: record.version for key, record in office.records.items()}

    def work(self) -> None:
        while self.goes_on() and self.versions:
            (arch, source), version = self.chance.choice(list(self.versions.items()))
            version = version if self.chance.random() < 0.95 else "99.0-1"
            named = {"arch": arch, "source": source, "version": version}
            act = self.chance.choice([self.move, self.move, self.look, self.tell, self.prefer])
            act(named)
            time.sleep(self.chance.choice((0, 0.005, 0.02)))

    def move(self, named: dict[str, str]) -> None:
        name = self.chance.choice(["give-back"] * 4 + ["dep-wait", "fail", "not-for-us", "rebuild", "take"])
        words: dict[str, Any] = {"note": "a note"} if name in ("fail", "not-for-us") else {}
        if name == "dep-wait":
            words = {"relations": self.chance.choice(list(MET))}
        elif name == "rebuild":
            words = {"number": self.chance.randrange(1, 30), "message": "against libz2"}
        elif name == "take":
            words = {"builder": self.chance.choice(("b1", "b2", "b3"))}
        self.command(name, **named, **words)

    def prefer(self, named: dict[str, str]) -> None:
        self.command("build-priority", **named, value=self.chance.choice((0, 50, -50, 1000, 1001)))

    def tell(self, named: dict[str, str]) -> None:
        lines = [
            f"{source} {version} "
            for (arch, source), version in self.versions.items()
            if arch == named["arch"] and self.chance.random() < 0.05
        ]
        text = "".join(
            line + self.chance.choice(["installable", "installable", "uninstallable libx (>= 3) is missing"]) + "\n"
            for line in lines
        )
        self.command("report", arch=named["arch"], text=text + ("malformed\n" if self.chance.random() < 0.1 else ""))

    def look(self, named: dict[str, str]) -> None:
        name = self.chance.choice(("summary", "item", "queue", "state", "office", "archs", "builders"))
        words = {"item": [named["source"]], "state": [self.chance.choice(["Building", "Needs-Build", "Dep-Wait"])]}.get(
            name, []
        )
        self.query(name, *([] if name in WHOLE else [named["arch"], *words]))


class Operator(Client):
    """A person who adds and removes, of three kinds: an architecture that has a builder and packages of its own, pairs
    of builders, and records of what these build. Merges bring the records back too."""

    def __init__(self, board: Board, chance: random.Random, office: Soaked) -> None:
        super().__init__(board, chance)
        self.versions = {key: one.version for key, one in office.records.items() if key[1] not in KEPT}

    def work(self) -> None:
        while self.goes_on():
            self.chance.choice([self.change_arch, self.change_arch, self.change_pair, self.change_record])()
            time.sleep(self.chance.choice((0, 0.005, 0.02)))

    def change_arch(self) -> None:
        """Adds or removes the architecture, its builder or a package of it, or gives one out or back."""
        pair, name = {"name": "b4", "arch": THIRD}, f"q{self.chance.randrange(5)}"
        named = {"arch": THIRD, "source": name, "version": "1.0-1"}
        requests: list[tuple[int, str, dict[str, str]]] = [
            (2, "add-arch", {"name": THIRD, "os": "linux", "cpu": "arm"}), (2, "add-builder", pair),
            (4, "enter", {**named, "priority": "optional", "section": "devel"}), (3, "give-back", named),
            (2, "next", {"arch": THIRD, "builder": "b4"}), (2, "forget", named), (1, "remove-builder", pair),
            (2, "remove-arch", {"name": THIRD}),
        ]
        [(_, command, body)] = self.chance.choices(requests, [weight for weight, _, _ in requests])
        self.command(command, **body)

    def change_pair(self) -> None:
        """Adds or removes a pair, most often one whose builder holds something, or one that is never at work."""
        pairs = [(name, arch) for name, archs in BUILDERS.items() for arch in sorted(archs)]
        name, arch = self.chance.choice([*pairs, *(("b4", arch) for arch in ARCHS)])
        self.command(self.chance.choice(("remove-builder", "add-builder")), name=name, arch=arch)

    def change_record(self) -> None:
        if self.versions:
            (arch, source), version = self.chance.choice(list(self.versions.items()))
            labels = {"priority": "extra", "section": "misc"}
            command, more = self.chance.choice([("forget", {}), ("enter", labels), ("enter", labels)])
            self.command(command, arch=arch, source=source, version=version, **more)


# ---- clients that mean no good


def request(path: str, body: bytes, *fields: str, method: str = "POST", length: int | None = None) -> bytes:
    lines = [
        f"{method} {path} HTTP/1.1", "Host: localhost", *fields,
        f"Content-Length: {len(body) if length is None else length}",
    ]
    return "".join(f"{line}\r\n" for line in lines).encode() + b"\r\n" + body


class Nuisance(Client):
    """Clients that dribble, hold the connection, break off, send heads and bodies at their limits, and forms of web
    pages. None of them is to change anything, but for one that breaks off after a whole request."""

    def __init__(self, board: Board, chance: random.Random, office: Soaked) -> None:
        super().__init__(board, chance)
        self.keys = [(record.arch, record.source, record.version) for record in office.records.values()]
        self.broken_off = 0

    def work(self) -> None:
        acts = [self.dribble, self.hold, self.reset, self.break_off, self.heads, self.bodies, self.forms, self.garbage]
        while self.goes_on():
            act = self.chance.choice(acts)
            self.board.count(f"clients that {NUISANCES[act.__name__]}")
            with contextlib.suppress(OSError):
                act()
            self.board.ends.wait(self.chance.uniform(0, 0.4))

    def connect(self) -> socket.socket:
        return socket.create_connection(("127.0.0.1", self.board.port), timeout=WAIT)

    def expect(self, data: bytes, *wanted: tuple[int, str]) -> None:
        """Sends a request and reads its answer, which has to be one of these, or a lack of memory, or none at all."""
        with self.connect() as link:
            with contextlib.suppress(ConnectionError):
                link.sendall(data)
                link.shutdown(socket.SHUT_WR)
            said = received(link)
        head, _, body = said.partition(b"\r\n\r\n")
        name = re.search(rb'"(?:http|refused)":"(\w+)"', body)
        self.board.count(
            f"hostile requests that are answered {name[1].decode()}" if name else "hostile requests without an answer"
        )
        if not body or any(
            head.startswith(f"HTTP/1.1 {status} ".encode()) and text.encode() in body for status, text in wanted
        ):
            return
        if not any(f'"{name}"'.encode() in body for name in FREE):
            self.board.fail(f"{data[:120]!r} ({len(data)} bytes) is answered {said[:300]!r} in place of {wanted}")

    def dribble(self) -> None:
        """A request byte by byte, some of which stop before it is whole."""
        data = request("/v1/built", b'{"take":999999999999}')
        with self.connect() as link:
            for byte in data[: self.chance.choice((len(data), self.chance.randrange(len(data))))]:
                link.sendall(bytes([byte]))
                time.sleep(self.chance.choice((0, 0, 0.01)))
                if self.board.ends.is_set():
                    return
            link.shutdown(socket.SHUT_WR)
            received(link)

    def hold(self) -> None:
        """A connection on which nothing comes, or a part of a request."""
        with self.connect() as link:
            link.sendall(self.chance.choice((b"", b"POST /v1/ne", request("/v1/next", b"", length=10))))
            self.board.ends.wait(self.chance.choice((0.05, 0.1, 0.2, 0.4, self.chance.uniform(0, 5))))

    def reset(self) -> None:
        """A part of a request, and a reset of the connection."""
        data = request("/v1/next", b'{"arch":"amd64","builder":"b1"}')
        with self.connect() as link:
            link.sendall(data[: self.chance.randrange(len(data))])
            link.setsockopt(socket.SOL_SOCKET, socket.SO_LINGER, struct.pack("ii", 1, 0))

    def break_off(self) -> None:
        """A whole command, of which the client does not read the answer: it may stand."""
        if self.broken_off < 3 and self.keys:
            self.broken_off += 1
            arch, source, version = self.chance.choice(self.keys)
            body = {"arch": arch, "source": source, "version": version, "value": 100 + self.broken_off}
            one = self.board.begin("build-priority", body)
            try:
                with self.connect() as link:
                    link.sendall(request("/v1/build-priority", json.dumps(body).encode()))
            finally:
                self.board.finish(one, None, None)

    def heads(self) -> None:
        """Heads of the greatest size and number of fields, and beyond."""
        for size, wanted in ((8192, (409, "NotHeld")), (8193, (431, "HeadTooLarge")), (20000, (431, "HeadTooLarge"))):
            body = b'{"take":999999999999}'
            empty = request("/v1/built", body, "x: ")
            self.expect(request("/v1/built", body, "x: " + "y" * (size - len(empty) + len(body))), wanted)
        for count, wanted in ((30, (409, "NotHeld")), (31, (431, "HeadTooLarge"))):
            self.expect(request("/v1/built", b'{"take":999999999999}', *[f"f{at}: v" for at in range(count)]), wanted)

    def bodies(self) -> None:
        """Bodies of up to the greatest length, of one text and of many small objects, one that is too large and one
        that is cut off."""
        front, back = b'{"take":999999999999,"x":', b"}"
        length = self.chance.choice((16777216, 100000, 1000000))
        text = front + b'"' + b"a" * (length - len(front) - len(back) - 2) + b'"' + back
        deep = front + b"[" + b'{"":0},' * (length // 80) + b"0]" + back
        self.expect(request("/v1/built", self.chance.choice((text, deep))), (409, "NotHeld"))
        self.expect(request("/v1/built", b"", length=16777217), (413, "BodyTooLarge"))
        self.expect(request("/v1/built", b'{"take":', length=100), (400, "BodyCut"))

    def forms(self) -> None:
        """What a web page has its browser send: a command that would be accepted otherwise."""
        if self.keys:
            arch, source, version = self.chance.choice(self.keys)
            body = json.dumps({"arch": arch, "source": source, "version": version, "value": 999}).encode()
            field = self.chance.choice(
                (
                    "Origin: https://example.org", "origin: null", "Sec-Fetch-Site: cross-site",
                    "SEC-FETCH-SITE: same-origin",
                )
            )
            self.expect(request("/v1/build-priority", body, "Content-Type: text/plain", field), (403, "FromBrowser"))

    def garbage(self) -> None:
        data = self.chance.randbytes(self.chance.randrange(1, 9000))
        self.expect(data, (400, "BadHead"), (431, "HeadTooLarge"))


NUISANCES = {
    "dribble": "dribble",
    "hold": "hold the connection",
    "reset": "reset the connection",
    "break_off": "break off",
    "heads": "send heads at their limits",
    "bodies": "send bodies at their limits",
    "forms": "send forms of web pages",
    "garbage": "send garbage",
}


def received(link: socket.socket) -> bytes:
    parts = []
    with contextlib.suppress(ConnectionError):
        while part := link.recv(65536):
            parts.append(part)
    return b"".join(parts)


def begin(board: Board, office: Soaked, builders: list[Builder], chance: random.Random) -> list[threading.Thread]:
    """Starts all clients of a life of the program."""
    board.seen = office.accepted
    works = [lambda one=one: one.work(board) for one in builders]
    works += [
        Porter(board, random.Random(chance.random()), office).work,
        Operator(board, random.Random(chance.random()), office).work,
        Nuisance(board, random.Random(chance.random()), office).work,
    ]
    threads = [threading.Thread(target=reported, args=(work, board), daemon=True) for work in works]
    for thread in threads:
        thread.start()
    return threads


def reported(work: Any, board: Board) -> None:
    """Does the work of a client; what it was not ready for is a fault of the trial, and is reported."""
    try:
        work()
    except Exception as why:  # noqa: BLE001
        board.fail(f"a client ended: {type(why).__name__}: {why}")


def first_queries(client: Client, office: Soaked) -> None:
    """What is asked of a program that has just been started, so that its own answers are compared too."""
    for arch in ARCHS:
        client.query("summary", arch)
        client.query("queue", arch)
    client.query("summary", THIRD)
    for builder in (*BUILDERS, "b4"):
        client.query("mine", builder)
    for name in ("office", "archs", "builders"):
        client.query(name)

"""What clients ask an office at once, and whether their answers are those of one order of the commands, for
tools/tests/test_many_clients.py. Architectures, builders and records come and go meanwhile.

An accepted command has its place by its count. The model of office_model.py carries them out in that order, and has to
give the answer of each. A refusal, a repeated assignment and an answer to a query have to be the model's between two of
them, with nothing before them that was sent after they were answered, nor after them that was answered before they were
sent. Of commands without an answer, as after a kill, those stand that the counts and the records of the office show.
"""
import asyncio
import contextlib
import json
import random
from dataclasses import dataclass, field

from client_runs import connected, rest, send
from harness import WAIT, Failure, answers_of, expect, expect_none
from line_model import LineOffice
from office_model import MOVES, STATES
from request_reading import read_answer
from serve_runs import request_bytes
from soak_audit import History, Sent, Wrong, asked, losses, removals, would_answer

ARCHS = ("amd64", "arm64", "riscv64", "s390x")
PAIRS = [("b1", "amd64"), ("b2", "arm64"), ("b3", "amd64"), ("b3", "arm64"), ("b4", "riscv64"), ("b5", "s390x")]
PAIRS += [("b5", "riscv64"), ("b5", "amd64")]
LATER = ("b6", "armhf")  # an architecture that is added later and removed again, and its builder
SOURCES = [(f"src{at}" if at % 3 else f"lib+{at}.0", f"{at % 2}:1.{at}-1" if at % 4 else f"1.{at}") for at in range(40)]
RELATIONS = ["libz", "debhelper (>= 13)", "liba (>= 2), libb", "gcc-13 | clang", "libz [armhf]"]
TEXTS = ["", "no space left", 'a "b" \\ \t\n g\u00fcltig', "x" * 1000, "x" * 1001]
REPORTS = ["built", "built", "uploaded", "uploaded", "attempted", "waits", "put-back"]
OPERATIONS = ["give-back"] * 4 + ["take", "take", "dep-wait", "fail", "not-for-us", "rebuild", "build-priority"]
CHANGES = ["add-arch", "add-builder", "add-builder", "enter", "enter", "enter", "next", "give-back"]
CHANGES += ["remove-arch", "remove-builder", "forget", "forget"]
CHECKED = ("summary", "queue", "state", "item", "mine", "depends", "office", "archs", "builders")
WHOLE = ("office", "archs", "builders")  # the queries without a key
SERVED = ["--lists", "."]  # further words of a program that serves a folder with the office of these requests


# ---- the office at its beginning


def begun(folder):
    """Makes an office of four architectures in the file `store`, of whose source packages a quarter is built. Gives the
    model of it."""
    files = {"sources": "", "fewer": "", "empty": "", "bad": "Package: aa\nArchitecture: any\n\n"}
    for at, (name, version) in enumerate(SOURCES):
        text = f"Package: {name}\nVersion: {version}\nArchitecture: any\nPriority: optional\n"
        text += f"Section: {('libs', 'devel', 'doc')[at % 3]}\nBuild-Depends: cc, libz [arm64]\n\n"
        files["sources"] += text
        files["fewer"] += text * (at % 5 > 0)
    for arch in ARCHS:
        files[arch] = "".join(
            f"Package: {name}-bin\nSource: {name} ({version})\nVersion: {version}\nArchitecture: {arch}\n\n"
            for name, version in SOURCES[1::4]
        )
    for name, text in files.items():
        (folder / name).write_text(text)
    lines = [f"add-arch {arch} linux {arch}" for arch in ARCHS] + [f"add-builder {name} {arch}" for name, arch in PAIRS]
    lines.append("merge sources " + " ".join(f"{arch}={arch}" for arch in ARCHS))
    office = LineOffice(files)
    wanted, met = office.answers(lines), answers_of(folder, lines)
    expect(met == wanted, f"the office begins with {met[-1]} in place of {wanted[-1]}")
    return office


# ---- what is sent


@dataclass
class Exchange(Sent):
    """A request and its answer, with the moments at which it was sent and was answered, as numbers that grow."""

    sent: int = 0
    got: int | None = None


@dataclass
class Load:
    """What the clients of one life of the program share: its port, how many requests they have to send, what was sent,
    and which take numbers are held, as far as was answered."""

    port: int
    left: int
    held: dict = field(default_factory=dict)
    exchanges: list = field(default_factory=list)
    moment: int = 0

    def now(self):
        self.moment += 1
        return self.moment

    async def ask(self, one, chance):
        """Sends a request, in parts now and then, and notes its answer. A client that cannot connect sent nothing."""
        async with connected(self.port) as link:
            one.sent = self.now()
            self.exchanges.append(one)
            with contextlib.suppress(ConnectionError):  # what was answered before a reset can still be read
                for part in parts_of(bytes_of(one), chance):
                    await send(link, part)
                    await asyncio.sleep(0)
            answer = await asyncio.wait_for(rest(link), WAIT)
        one.begun = int(answer[9:12]) if len(answer) > 11 else None
        head, _, body = answer.partition(b"\r\n\r\n")
        length = head.partition(b"Content-Length: ")[2].partition(b"\r\n")[0]
        if length and len(body) == int(length):
            one.status, one.said = read_answer(("answered", one.begun, answer))
            one.got = self.now()

    def note(self, one):
        """Takes in what an answer says of what is held."""
        if one.name in ("next", "take") and one.status == 200:
            self.held[one.said["take"]] = one.said["arch"]
        elif "take" in one.body and one.said and (one.status == 200 or one.said.get("refused") == "NotHeld"):
            if one.name != "built":
                self.held.pop(one.body["take"], None)


def bytes_of(one):
    if one.is_command:
        return request_bytes(f"/v1/{one.name}", json.dumps(one.body))
    return request_bytes("/".join(["/v1", one.name, *one.body]), "", method="GET")


def parts_of(data, chance):
    """The parts in which a request is sent: most often one, and now and then followed by what no office may read."""
    if chance.random() < 0.1:
        data += request_bytes("/v1/next", '{"arch":"amd64","builder":"b1"}')
    if chance.random() < 0.7:
        return [data]
    cuts = sorted(chance.randrange(len(data)) for _ in range(chance.randrange(1, 4)))
    return [data[begin:end] for begin, end in zip([0, *cuts], [*cuts, None])]


class Client:
    """A client that sends requests at random, most of them such that they would be accepted if no other client were
    there."""

    def __init__(self, load, chance):
        self.load, self.chance, self.seen = load, chance, {}

    async def work(self):
        """Sends until the requests are used up. Gives whether the program was there all the while."""
        while self.load.left > 0:
            self.load.left -= 1
            one = Exchange(*self.request(), 0)
            try:
                await self.load.ask(one, self.chance)
            except ConnectionError:
                return False
            if one.said is None:
                return False
            self.load.note(one)
        return True

    def request(self):
        """The name of a request, and its body, or its parts if it is a query."""
        pick, number = self.chance, self.chance.random()
        builder, arch = pick.choice(PAIRS) if pick.random() < 0.97 else pick.choice([("b1", "s390x"), ("b9", "amd64")])
        if number < 0.28:
            after = pick.choice([None, 0, max(self.load.held, default=0), 10**9]) if pick.random() < 0.2 else ()
            return "next", {"arch": arch, "builder": builder, **({} if after == () else {"after": after})}
        if number < 0.57:
            take = pick.choice(list(self.load.held)) if self.load.held else 0
            return self.with_texts(pick.choice(REPORTS), {"take": take if pick.random() < 0.97 else take + 1})
        source, version = pick.choice(SOURCES)
        if number < 0.75:
            name, named = pick.choice(OPERATIONS), {"arch": arch, "source": source, "version": version}
            return self.with_texts(name, {**named, "builder": builder} if name == "take" else named)
        if number < 0.79:
            lines = [f"{name} {of} {pick.choice(['installable', 'uninstallable no cc'])}" for name, of in SOURCES]
            return "report", {"arch": arch, "text": "\n".join(pick.sample(lines, 3) + ["odd"] * (pick.random() < 0.1))}
        if number < 0.8:
            name = pick.choice(["add-builder", "add-builder", "remove-builder"])
            return name, {"name": f"b{pick.randrange(6, 10)}", "arch": pick.choice(ARCHS)}
        if number < 0.87:
            if pick.random() < 0.6:
                return self.change(*LATER, *pick.choice(SOURCES[:4]))
            return self.change(builder, arch, source, version)
        if number < 0.88:
            odd = [pick.choice(["s390y", "all", ARCHS[0]])] if pick.random() < 0.1 else []
            archs = pick.sample(ARCHS, pick.choice([1, 1, 2])) + odd
            parts = [{"arch": one, "packages": pick.choice([one if one in ARCHS else "bad", "empty"])} for one in archs]
            return "merge", {"parts": parts, "sources": pick.choice(["sources", "sources", "fewer", "bad"])}
        word = pick.choice(CHECKED)
        words = {"state": [pick.choice(STATES)], "item": [source], "depends": [source]}.get(word, [])
        return word, [] if word in WHOLE else [builder if word == "mine" else arch, *words]

    def change(self, builder, arch, source, version):
        """What adds or removes an architecture, a builder or a record, or ends what stands against that. An
        architecture of the beginning is removed only if something of it is held, as far as was answered."""
        pick, named = self.chance, {"arch": arch, "source": source, "version": version}
        name = pick.choice(CHANGES)
        if name == "remove-arch" and arch in ARCHS:
            arch = pick.choice([*self.load.held.values(), LATER[1]])
        bodies = {"add-arch": {"name": arch, "os": "linux", "cpu": arch}, "remove-arch": {"name": arch}}
        bodies |= dict.fromkeys(("add-builder", "remove-builder"), {"name": builder, "arch": arch})
        bodies["next"] = {"arch": arch, "builder": builder}
        bodies["enter"] = {**named, "priority": "extra", "section": "doc"}
        return name, bodies.get(name, named)

    def with_texts(self, name, body):
        """The body with the further keys that a command of this name needs."""
        text, relations = self.chance.choice(TEXTS), self.chance.choice(RELATIONS)
        more = {"waits": {"relations": relations}, "dep-wait": {"relations": relations}, "attempted": {"reason": text}}
        more |= {"fail": {"note": text}, "not-for-us": {"note": text}}
        more |= {"rebuild": {"number": self.chance.randrange(1, 30), "message": text}}
        more |= {"build-priority": {"value": self.chance.randrange(-9, 9)}}
        return name, {**body, **more.get(name, {})}


async def under_load(port, count, clients, seed, stop=None):
    """What so many clients sent until they had sent so many requests, or until `stop` ended the program."""
    load, chance = Load(port, count), random.Random(seed)
    working = [Client(load, random.Random(chance.random())).work() for _ in range(clients)]
    went_on = await asyncio.gather(*working, *([stop] if stop else []))
    expect(stop or all(went_on), "some client was not answered")
    return load.exchanges


# ---- whether it can be


class Looked:
    """What a serving office shows by queries: how many commands it accepted, all records, and whom it knows."""

    def __init__(self, server):
        def found(*parts):
            return json.loads(server.ask("GET", "/".join(["/v1", *parts]))[1])

        self.accepted = found("office")["accepted"]
        asked = [("state", arch, state) for arch in (*ARCHS, LATER[1]) for state in STATES]
        self.found = {parts: found(*parts) for parts in [*asked, ("archs",), ("builders",)]}

    def keys(self):
        """The architecture and the source package of each record."""
        lists = (answer.get("records", ()) for answer in self.found.values())
        return {(record["arch"], record["source"]) for records in lists for record in records}

    def differences(self, office):
        wanted = {(name, *parts): office.query(name, parts, None)[1] for name, *parts in self.found}
        found = [
            f"{' '.join(parts)}: {met} in place of {wanted[parts]}"
            for parts, met in self.found.items()
            if met != wanted[parts]
        ]
        return found + ([f"{self.accepted} accepted"] if self.accepted != office.accepted else [])


def bound(exchanges, first, last):
    """Gives each exchange the counts between which it belongs: the greatest that was answered before it was sent, and
    that before the least of those that were sent after its answer."""
    accepted = [one for one in exchanges if one.accepted is not None]
    answered = sorted(accepted, key=lambda one: one.got)
    for one in sorted(exchanges, key=lambda one: one.sent):
        while answered and answered[0].got < one.sent:
            first = max(first, answered.pop(0).accepted)
        one.after = first
    later = sorted(accepted, key=lambda one: one.sent)
    for one in sorted((one for one in exchanges if one.got), key=lambda one: -one.got):
        while later and later[-1].sent > one.got:
            last = min(last, later.pop().accepted - 1)
        one.before = last


def judge(office, exchanges, looked):
    """The model after the commands that stand, and how many of these had no answer. Fails if there is no order."""
    bound(exchanges, office.accepted, looked.accepted)
    try:
        history = History(exchanges, looked)
        commands = history.order(office.twin(), office.accepted, history.doubtful)
    except Wrong as why:
        raise Failure(why) from None
    expect(commands is not None, history.why)
    expect_none(losses(office.records, office.handed, commands, looked.keys()))
    late = [one for one in commands if one.got and one.accepted > one.before]
    expect_none(f"counted after a command that was sent once it was answered: {one}" for one in late)
    others = [one for one in exchanges if one.got and one.accepted is None]
    expect_none(unexplained(office, commands, others))
    return sum(one.got is None for one in commands)


def unexplained(office, commands, others):
    """Carries out the commands, and gives what was answered to the others and cannot have its place between them."""
    pending = sorted(others, key=lambda one: one.sent)
    waiting = []
    for command in [*commands, None]:
        while pending and pending[0].after <= office.accepted:
            waiting.append(pending.pop(0))
        waiting = left_at(office, waiting)
        for one in (one for one in waiting if one.before <= office.accepted):
            yield f"at no count from {one.after} to {one.before}: {one}"
        waiting = [one for one in waiting if one.before > office.accepted]
        if command:
            asked(office, command)


def left_at(office, waiting):
    """Those in the order of sending that cannot have their place at this state: the model answers otherwise, or one
    that was answered before they were sent has no place yet."""
    left, first = [], float("inf")
    for one in waiting:
        if one.sent > first or would_answer(office, one) != (one.status, one.said):
            left.append(one)
            first = min(first, one.got)
    return left


def kinds(exchanges):
    """How many were answered how, for a reader."""
    accepted = sum(one.accepted is not None for one in exchanges)
    queries = sum(not one.is_command for one in exchanges)
    removed = ", ".join(f"{count} {name} {said}" for (name, said), count in sorted(removals(exchanges).items()))
    return f"{len(exchanges)} requests, {accepted} accepted, {queries} queries; {removed}"


assert set(REPORTS + OPERATIONS) - {"build-priority"} <= set(MOVES)

"""A second reading of docs/PROTOCOL.md, for tools/tests/test_requests.py: an office that begins with two architectures,
with the commands and the queries that HTTP has, and merges of lists that were read. It answers each with a status and
an object. It is written from the page and shares nothing with the program. tools/tests/line_model.py makes of it an
office that answers lines.

What it does not read is relations in general. For a text that RELATIONS does not have it takes what the program
answered of that text alone, as long as the page has such an answer, and keeps what waits are printed open until an
answer shows them.
"""
import copy
import re
from dataclasses import dataclass

ARCHS = ("amd64", "arm64")
BUILDERS = {"b1": {"amd64"}, "b2": {"arm64"}, "b3": {"amd64", "arm64"}}
PRIORITIES = "required important standard optional extra".split()
SECTIONS = (
    "libs base devel kernel shells perl python admin utils text net web mail database editors interpreters graphics "
    "sound video x11 gnome kde"
)
SECTIONS = (SECTIONS + " science math doc misc oldlibs games").split()
STATES = (
    "BD-Uninstallable Build-Attempted Building Built Dep-Wait Failed Installed Needs-Build Not-For-Us Uploaded".split()
)

# Relations that are read. Of those that name architectures: how they are printed for these, and how for all others;
# None if nothing of them is left.
BY_ARCH = {
    "libz [armhf]": ({"armhf": "libz"}, None),
    "liba [!amd64 !arm64] | libb [s390x]": ({"amd64": None, "arm64": None, "s390x": "liba | libb"}, "liba"),
}
RELATIONS = ["libz", "debhelper (>= 13)", "liba (>= 2), libb", "gcc-13 | clang", "libc6 (<< 2:3.1~rc1-2)", *BY_ARCH]
RELATION_FAULTS = {"BadName", "BadOperator", "BadVersion", "Mixed", "Unclosed", "EmptyAlternative", "Stray"}

CODES = {
    "UnknownArch": 1, "UnknownBuilder": 2, "WrongArch": 3, "UnknownSource": 4, "OtherVersion": 5, "WrongState": 6,
    "QueueEmpty": 7,
}
CODES |= {
    "NotHeld": 8, "AfterAhead": 9, "AlreadyThere": 10, "BadName": 11, "BadVersion": 12, "BadRelations": 13,
    "BadNumber": 14, "BadReport": 16, "TextTooLong": 17, "StillHeld": 23,
}
STATUSES = dict.fromkeys(("UnknownArch", "UnknownBuilder", "UnknownSource"), 404)
STATUSES |= dict.fromkeys(
    ("WrongArch", "OtherVersion", "WrongState", "QueueEmpty", "NotHeld", "AfterAhead", "AlreadyThere", "StillHeld"), 409
)
STATUSES |= dict.fromkeys(("BadName", "BadVersion", "BadRelations", "BadNumber", "BadReport", "TextTooLong"), 422)

# The states from which each command moves a record, and the state into which it moves.
MOVES = {
    "next": ("Needs-Build", "Building"),
    "take": ("Needs-Build", "Building"),
    "built": ("Building", "Built"),
    "uploaded": ("Building Built", "Uploaded"),
    "waits": ("Building", "Dep-Wait"),
    "put-back": ("Building", "Needs-Build"),
    "attempted": ("Building", "Build-Attempted"),
    "give-back": ("Building Built Uploaded Dep-Wait BD-Uninstallable Failed Not-For-Us Build-Attempted", "Needs-Build"),
    "dep-wait": ("Needs-Build Building BD-Uninstallable Failed Build-Attempted", "Dep-Wait"),
    "fail": ("Needs-Build Building Built Dep-Wait BD-Uninstallable Build-Attempted", "Failed"),
    "not-for-us": ("Needs-Build Building Dep-Wait BD-Uninstallable Failed Build-Attempted", "Not-For-Us"),
    "rebuild": ("Installed", "Needs-Build"),
}
HELD = ("Building", "Built", "Uploaded")


class Refused(Exception):
    """A refusal, with its further key."""

    def __init__(self, name, **more):
        super().__init__(name)
        self.name, self.more = name, more


def check(holds, name, **more):
    if not holds:
        raise Refused(name, **more)


# ---- names and versions

WORD, LABEL = re.compile(r"(?!any\Z)[a-z0-9]{1,20}\Z"), re.compile(r"[!-~]{1,64}\Z")
FORMS = {
    "arch": re.compile(r"(?!(?:all|any|source)\Z)[a-z0-9][a-z0-9-]{0,39}\Z"),
    "builder": re.compile(r"[A-Za-z0-9][A-Za-z0-9._-]{0,63}\Z"),
    "source": re.compile(r"[a-z0-9][a-z0-9+.-]{1,199}\Z"), "os": WORD, "cpu": WORD, "priority": LABEL, "section": LABEL,
}
ADDED = {"add-arch": "arch", "add-builder": "builder", "enter": "source"}  # what each of these commands adds
REMOVED = {"remove-arch": "arch", "remove-builder": "builder", "forget": "source"}  # what each of these removes
REMOVALS = {  # how each is answered
    "remove-arch": "ok BadName UnknownArch StillHeld",
    "remove-builder": "ok BadName UnknownArch UnknownBuilder WrongArch StillHeld",
    "forget": "ok BadName BadVersion UnknownArch UnknownSource OtherVersion StillHeld",
}


def parts_of(version):
    """The epoch, the upstream version and the revision (Debian Policy 5.6.12), or the first fault of the text."""

    def test(holds, fault):
        check(holds, "BadVersion", fault=fault)

    test(version, "Empty")
    test(len(version.encode()) <= 1000, "TooLong")
    epoch, colon, rest = version.rpartition(":") if ":" not in version else version.partition(":")
    if colon:
        test(epoch, "EpochEmpty")
        test(re.fullmatch("[0-9]+", epoch), "EpochNotNumber")
        test(int(epoch) <= 2147483647, "EpochTooLarge")
    upstream, hyphen, revision = rest.rpartition("-") if "-" in rest else (rest, "", "")
    test(upstream, "UpstreamEmpty")
    test(re.fullmatch("[A-Za-z0-9.+~:-]+", upstream), "UpstreamBad")
    test(revision or not hyphen, "RevisionEmpty")
    test(re.fullmatch("[A-Za-z0-9.+~]*", revision), "RevisionBad")
    return int(epoch or "0"), upstream, revision


def order_of(text):
    """A key by which the order of two upstream versions or revisions is that of the policy: letters and numbers in
    turn, of which the first number stays, also if it is 0."""
    key = []
    for letters, digits in re.findall(r"([^0-9]*)([0-9]*)", text):
        key.append([-1 if c == "~" else ord(c) if c.isalpha() else ord(c) + 256 for c in letters] + [0])
        key.append(int(digits or "0"))
    while len(key) > 2 and key[-2:] == [[0], 0]:
        del key[-2:]
    return [*key, [0]]


def are_equal(one, other):
    return [one[0]] + [order_of(part) for part in one[1:]] == [other[0]] + [order_of(part) for part in other[1:]]


# ---- reports

REPORT_LINE = re.compile(r"[ \t]*([^ \t]+)[ \t]+([^ \t]+)[ \t]+([^ \t]+)(.*)", re.DOTALL)


def lines_of(report):
    """What the lines of a report say: for each source its version, in parts, and why it cannot be built; None if it
    can."""
    found = {}
    for number, line in enumerate(report.split("\n"), 1):
        if line.strip(" \t"):
            source, *said = line_of(line, number)
            check(source not in found, "BadReport", line=number)
            found[source] = said
    return found


def line_of(line, number):
    match = REPORT_LINE.fullmatch(line)
    check(match and FORMS["source"].match(match[1]), "BadReport", line=number)
    try:
        version = parts_of(match[2])
    except Refused:
        raise Refused("BadReport", line=number) from None
    reason = match[4].strip(" \t")
    is_good = match[3] == "installable" and not reason or match[3] == "uninstallable" and len(reason.encode()) <= 1000
    check(is_good, "BadReport", line=number)
    return match[1], version, reason if match[3] == "uninstallable" else None


# ---- records and the office


@dataclass
class Record:
    arch: str
    source: str
    version: str
    priority: str
    section: str
    state: str
    number: int = 0
    build_priority: int = 0
    message: str = ""
    note: str = ""
    holder: str = None
    take: int = None
    waits: str = ""  # None if an answer has still to show it
    depends: str = ""  # None if they cannot be read

    @property
    def earlier(self):
        return self.state == "Installed" or self.number > 0

    @property
    def build(self):
        return self.version + (f"+b{self.number}" if self.number else "")

    def place(self):
        """The place in the queue."""
        priority = PRIORITIES.index(self.priority) if self.priority in PRIORITIES else len(PRIORITIES)
        section = self.section.partition("/")[2] if "/" in self.section else self.section
        section = SECTIONS.index(section) if section in SECTIONS else len(SECTIONS)
        return -self.build_priority, not self.earlier, priority, section, self.source.encode()

    def report(self, version, reason):
        """Takes in what a report says of a version, and answers whether anything changed."""
        before = self.state, self.note
        if are_equal(parts_of(self.version), version) and self.state in ("BD-Uninstallable", "Needs-Build"):
            if reason is not None:
                self.state, self.note = "BD-Uninstallable", reason
            elif self.state == "BD-Uninstallable":
                self.state, self.note = "Needs-Build", ""
        return (self.state, self.note) != before

    def shown(self):
        keys = (
            "arch build build_priority earlier holder message note number priority section source state take version "
            "waits"
        ).split()
        return {key: getattr(self, key) for key in keys}


@dataclass
class Kept(Record):
    """A record that remembers whether anything of it was ever built, which a merge may find out."""

    was_built: bool = False

    @property
    def earlier(self):
        return self.was_built


@dataclass(frozen=True)
class Listed:
    """What a Sources list says of a source package, for one architecture."""

    version: str
    priority: str
    section: str
    depends: str | None = ""


def order(version):
    """A key by which the order of versions is that of the policy."""
    epoch, upstream, revision = parts_of(version)
    return [epoch, order_of(upstream), order_of(revision)]


def merged(arch, name, old, listed, built, is_met):
    """The record after a merge, none if the package is not listed. What is built of it is a version and the number of a
    rebuild, or None."""
    if listed is None:
        return None
    is_built = built is not None and order(built[0]) >= order(listed.version)
    is_of_build = built is not None and order(built[0]) == order(listed.version)
    if old is None:
        new = Kept(
            arch, name, listed.version, listed.priority, listed.section, "Installed" if is_built else "Needs-Build"
        )
        new.number = built[1] if is_of_build else 0
        new.depends, new.was_built = listed.depends, built is not None
        return new
    new = copy.copy(old)
    if order(old.version) > order(listed.version):
        return new
    new.priority, new.section, new.depends = listed.priority, listed.section, listed.depends
    if order(old.version) < order(listed.version):
        new.version, new.message, new.holder, new.take, new.number = listed.version, "", None, None, 0
        if old.state != "Not-For-Us":
            new.state = "Installed" if is_built else "Needs-Build"
    elif old.state != "Not-For-Us":
        new.state = state_of_equal(old, built, is_met)
    if new.state == "Installed" and is_of_build:
        new.number = built[1]
    if new.state not in HELD:
        new.holder = new.take = None
    new.waits = new.waits if new.state == "Dep-Wait" else ""
    new.note = new.note if new.state == old.state else ""
    new.was_built = old.earlier or built is not None or new.state == "Installed"
    return new


def state_of_equal(old, built, is_met):
    """The state of a record whose version is the list's."""
    if built and (
        order(built[0]) > order(old.version) or (order(built[0]) == order(old.version) and built[1] >= old.number)
    ):
        return "Installed"
    if old.state == "Installed" or (old.state == "Dep-Wait" and is_met(old.waits)):
        return "Needs-Build"
    return old.state


class Office:
    """The office after its first commands: two architectures, four pairs of a builder and an architecture, and a
    merge."""

    def __init__(self, records):
        self.archs = {arch: (arch, "linux", arch) for arch in ARCHS}
        self.builders = {name: set(archs) for name, archs in BUILDERS.items()}
        self.accepted, self.handed = 7, 0
        self.records = {(record.arch, record.source): record for record in records}
        self.said = None

    # -- what is looked up, with its refusals in the order of the page

    def of_state(self, arch, state):
        return [record for record in self.records.values() if record.arch == arch and record.state == state]

    def held_under(self, take):
        found = [record for record in self.records.values() if record.take == take]
        check(found, "NotHeld")
        return found[0]

    def record_of(self, body, version):
        record = self.records.get((body["arch"], body["source"]))
        check(record, "UnknownSource")
        check(are_equal(parts_of(record.version), version), "OtherVersion", have=record.version)
        return record

    def check_builder(self, body):
        check(body["builder"] in self.builders, "UnknownBuilder")
        check(body["arch"] in self.builders[body["builder"]], "WrongArch")

    def relations_of(self, text, arch):
        """What is printed of the relations for this architecture; None if it is not known."""
        check(len(text.encode()) <= 65536, "BadRelations", fault="TooLong")
        if text in RELATIONS:
            named, others = BY_ARCH.get(text, ({}, text))
            return named.get(arch, others)
        met = self.said if isinstance(self.said, dict) else {}
        fault = met.get("fault") if met.get("refused") == "BadRelations" else None
        check(fault not in RELATION_FAULTS, "BadRelations", fault=fault)
        return None

    # -- commands

    def command(self, name, body, said):
        """The status and the object that are answered to a command. What the program said decides about relations that
        are not known."""
        self.said = said
        try:
            return 200, self.carry_out(name, body)
        except Refused as why:
            return STATUSES[why.name], {"code": CODES[why.name], "refused": why.name, **why.more}

    def carry_out(self, name, body):
        forms = {**FORMS, "name": FORMS[(ADDED | REMOVED).get(name, "arch")]}
        check(all(forms[key].match(text) for key, text in body.items() if key in forms), "BadName")
        version = parts_of(body["version"]) if "version" in body else None
        relations = self.relations_of(body["relations"], self.arch_of(body)) if "relations" in body else None
        check("number" not in body or 1 <= body["number"] <= 999, "BadNumber")
        check("value" not in body or -1000 <= body["value"] <= 1000, "BadNumber")
        text = next((body[key] for key in ("note", "reason", "message") if key in body), "")
        check(len(text.encode()) <= 1000, "TextTooLong")
        report = lines_of(body["text"]) if "text" in body else {}
        check("arch" not in body or body["arch"] in self.archs, "UnknownArch")
        if name in ADDED:
            return self.add(name, body)
        if name in REMOVED:
            return self.remove(name, body, version)
        if name == "report":
            return self.take_report(body["arch"], report)
        if "builder" in body:
            self.check_builder(body)
        if name == "next":
            return self.hand_out_next(body)
        record = self.held_under(body["take"]) if "take" in body else self.record_of(body, version)
        if name == "build-priority":
            record.build_priority = body["value"]
            return self.accept(name)
        check(record.state in MOVES[name][0].split(), "WrongState", state=record.state)
        if name == "take":
            return self.hand_out(name, record, body["builder"])
        if name == "rebuild":
            check(body["number"] > record.number, "BadNumber")
            record.number, record.message, text = body["number"], body["message"], ""
        if "relations" in body:
            self.check_waits(body["relations"], relations)
        self.move(record, name, text)
        record.waits = relations if "relations" in body else ""
        return self.accept(name)

    def arch_of(self, body):
        """The architecture that a command names, by a take number if need be; None if nothing is held under it."""
        held = (record.arch for record in self.records.values() if record.take == body.get("take", ()))
        return body["arch"] if "arch" in body else next(held, None)

    def add(self, name, body):
        """Adds an architecture, a builder for an architecture, or a source package, unless it is there."""
        if name == "add-arch":
            check(body["name"] not in self.archs, "AlreadyThere")
            self.archs[body["name"]] = (body["name"], body["os"], body["cpu"])
        elif name == "add-builder":
            check(body["arch"] not in self.builders.get(body["name"], ()), "AlreadyThere")
            self.builders.setdefault(body["name"], set()).add(body["arch"])
        else:
            check((body["arch"], body["source"]) not in self.records, "AlreadyThere")
            self.records[body["arch"], body["source"]] = Kept(**body, state="Needs-Build")
        return self.accept(name)

    def remove(self, name, body, version):
        """Removes an architecture, a builder from an architecture, or the record of a source package, unless it is
        held."""
        if name == "remove-arch":
            check(body["name"] in self.archs, "UnknownArch")
            self.check_held(record for record in self.records.values() if record.arch == body["name"])
            del self.archs[body["name"]]
            self.records = {key: record for key, record in self.records.items() if record.arch != body["name"]}
            for builder in [*self.builders]:
                self.drop_pair(builder, body["name"])
        elif name == "remove-builder":
            self.check_builder({"builder": body["name"], "arch": body["arch"]})
            mine = [record for record in self.records.values() if record.holder == body["name"]]
            self.check_held(record for record in mine if record.arch == body["arch"])
            self.drop_pair(body["name"], body["arch"])
        else:
            record = self.record_of(body, version)
            self.check_held([record])
            del self.records[record.arch, record.source]
        return self.accept(name)

    def check_held(self, records):
        check(all(record.holder is None for record in records), "StillHeld")

    def drop_pair(self, builder, arch):
        """Takes an architecture from a builder; one that has none any more is as one that was never added."""
        self.builders[builder].discard(arch)
        if not self.builders[builder]:
            del self.builders[builder]

    def check_waits(self, text, printed):
        met = self.said if isinstance(self.said, dict) else {}
        if text in RELATIONS or not re.search("[a-z0-9][a-z0-9+.-]", text):
            check(printed is not None, "BadRelations", fault="Nothing")
        check(met.get("fault") not in ("Nothing", "TooLong"), "BadRelations", fault=met.get("fault"))

    def move(self, record, name, note):
        record.state, record.note, record.waits = MOVES[name][1], note, ""
        if record.state not in HELD:
            record.holder = record.take = None

    def accept(self, name, **more):
        self.accepted += 1
        return {"accepted": self.accepted, "ok": name, **more}

    def hand_out(self, name, record, builder):
        self.move(record, name, "")
        self.handed += 1
        record.holder, record.take = builder, self.handed
        return self.accept(name, **assignment(record))

    def take_report(self, arch, lines):
        named = [(self.records.get((arch, source)), said) for source, said in lines.items()]
        return self.accept("report", changed=sum(record.report(*said) for record, said in named if record))

    def hand_out_next(self, body):
        after = body["after"]
        if after is not None:
            check(after <= self.handed, "AfterAhead", handed=self.handed)
            held = [
                record
                for record in self.of_state(body["arch"], "Building")
                if record.holder == body["builder"] and record.take > after
            ]
            if held:
                first = min(held, key=lambda record: record.take)
                return {"accepted": self.accepted, "ok": "again", **assignment(first)}
        waiting = self.of_state(body["arch"], "Needs-Build")
        check(waiting, "QueueEmpty")
        return self.hand_out("next", min(waiting, key=Record.place), body["builder"])

    def merge_part(self, arch, sources, built, is_met):
        """Merges what was read of the lists of an architecture, and answers with the part's counts: what the list says
        of each source package, what is built of it, and whether waits are met."""
        counts = {"added": 0, "arch": arch, "changed": 0, "kept": 0, "removed": 0}
        for name in sorted({key[1] for key in self.records if key[0] == arch} | set(sources)):
            old = self.records.pop((arch, name), None)
            new = merged(arch, name, old, sources.get(name), built.get(name), is_met)
            if new:
                self.records[arch, name] = new
            if old or new:
                counts["added" if not old else "removed" if not new else "kept" if old == new else "changed"] += 1
        return counts

    # -- queries

    def query(self, name, parts, said):
        """The status and the object that are answered to a query, by the word of its path. What was answered shows
        waits that are not known."""
        self.said = said
        try:
            return 200, getattr(self, f"query_{name}")(*parts)
        except Refused as why:
            return STATUSES[why.name], {"code": CODES[why.name], "refused": why.name, **why.more}

    def check_subject(self, arch, source=None):
        check(FORMS["arch"].match(arch) and (source is None or FORMS["source"].match(source)), "BadName")
        check(arch in self.archs, "UnknownArch")
        check(source is None or (arch, source) in self.records, "UnknownSource")

    def shown(self, records):
        """The records as they are shown; what was answered of each stands in the same place."""
        met = self.said.get("records") if isinstance(self.said, dict) else None
        met = met if isinstance(met, list) and len(met) == len(records) else [None] * len(records)
        return [self.shown_as(record, one) for record, one in zip(records, met)]

    def shown_as(self, record, met):
        if record.waits is None and isinstance(met, dict) and isinstance(met.get("waits"), str):
            record.waits = met["waits"]
        return record.shown()

    def query_item(self, arch, source):
        self.check_subject(arch, source)
        return self.shown_as(self.records[arch, source], self.said)

    def query_mine(self, builder):
        check(FORMS["builder"].match(builder), "BadName")
        check(builder in self.builders, "UnknownBuilder")
        held = sorted(
            (record for record in self.records.values() if record.holder == builder), key=lambda record: record.take
        )
        return {"builder": builder, "records": self.shown(held)}

    def query_queue(self, arch):
        self.check_subject(arch)
        waiting = sorted(self.of_state(arch, "Needs-Build"), key=Record.place)
        return {"arch": arch, "queue": [{"build": record.build, "source": record.source} for record in waiting]}

    def query_state(self, arch, state):
        check(state in STATES, "BadName")
        self.check_subject(arch)
        found = sorted(self.of_state(arch, state), key=lambda record: record.source.encode())
        return {"arch": arch, "records": self.shown(found), "state": state}

    def query_depends(self, arch, source):
        self.check_subject(arch, source)
        return {"arch": arch, "depends": self.records[arch, source].depends, "source": source}

    def query_summary(self, arch):
        self.check_subject(arch)
        return {
            "accepted": self.accepted, "arch": arch,
            "counts": {state: len(self.of_state(arch, state)) for state in STATES},
        }

    def query_office(self):
        return {"accepted": self.accepted, "handed": self.handed}

    def query_archs(self):
        found = sorted(self.archs.values(), key=lambda arch: arch[0].encode())
        return {"accepted": self.accepted, "archs": [dict(zip(("arch", "os", "cpu"), arch)) for arch in found]}

    def query_builders(self):
        pairs = sorted((name.encode(), arch.encode()) for name, archs in self.builders.items() for arch in archs)
        found = [{"arch": arch.decode(), "builder": name.decode()} for name, arch in pairs]
        return {"accepted": self.accepted, "builders": found}


def assignment(record):
    return {key: getattr(record, key) for key in ("arch", "build", "message", "number", "source", "take", "version")}

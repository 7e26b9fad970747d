"""The audit of tools/dev/soak: whether the file of an office holds what its answers said. All commands of a life of the
program that were answered are carried out anew by tools/tests/office_model.py, in the order of their counts, with those
among them that were not answered and may stand; then the rows that sqlite3 finds have to be those of that office, its
architectures, pairs of builders and records. No record may be gone that none of these commands removed, and no take
number be given twice. It shares nothing with the program.
"""
import copy
import random
from collections import Counter
from collections.abc import Collection
from dataclasses import dataclass, field
from pathlib import Path
from typing import Any

from line_model import CODE_OF_STATE, row_of
from office_model import ARCHS, MOVES, REMOVED, Kept, Listed, Office, Record, Refused, order
from store_runs import copied_database

# The columns of a record in the file.
COLUMNS = (
    "arch source state version priority section earlier number holder take waits depends note message build_priority "
    "rank"
).split()
STEPS = 50000  # how many orders of commands without an answer are tried at most
OF_RECORDS = (*MOVES, "build-priority", "forget")  # the commands that change at most records that are there
Keys = Collection[tuple[str, str]]  # of records: the architecture and the source package of each

# When what a package waits for is available, of the versions that lists of this trial have; waits for others are never
# met.
MET = {
    "libz": lambda has: "libz" in has,
    "debhelper (>= 13)": lambda has: has.get("debhelper", 0) >= 13,
    "liba (>= 2), libb": lambda has: has.get("liba", 0) >= 2 and "libb" in has,
    "gcc-13 | clang": lambda has: "gcc-13" in has or "clang" in has,
}
ARCHIVE = {"libz": (1, 2), "debhelper": (12, 13, 14), "liba": (1, 2), "libb": (1,), "gcc-13": (13,), "clang": (19,)}


# ---- merges


@dataclass
class Lists:
    """What an archive lists: the version, the priority and the section of each source package; for each architecture
    what is built of it, as a version and the number of a rebuild; and the packages that others wait for."""

    sources: dict[str, tuple[str, str, str]]
    built: dict[str, dict[str, tuple[str, int]]]
    available: dict[str, int]

    def meets(self, waits: str) -> bool:
        return MET.get(waits, lambda _: False)(self.available)

    def write(self, folder: Path) -> None:
        text = "".join(
            f"Package: {name}\nVersion: {version}\nArchitecture: any\nPriority: {priority}\nSection: {section}\n\n"
            for name, (version, priority, section) in self.sources.items()
        )
        (folder / "Sources").write_text(text)
        for arch in ARCHS:
            rows = [
                f"Package: {name}\nVersion: {version}\nArchitecture: all\n\n"
                for name, version in self.available.items()
            ]
            for name, (version, number) in self.built[arch].items():
                binary = f"{version}+b{number}" if number else version
                rows.append(
                    f"Package: {name}-bin\nSource: {name} ({version})\nVersion: {binary}\nArchitecture: {arch}\n\n"
                )
            (folder / f"Packages-{arch}").write_text("".join(rows))


def next_lists(office: "Soaked", names: list[str], chance: random.Random) -> Lists:
    """Lists of an archive after a while: most of what was uploaded is there, some packages are new, newer, gone, or
    built elsewhere."""
    sources, built = {}, {arch: {} for arch in ARCHS}
    for name in names:
        found = [office.records.get((arch, name)) for arch in ARCHS]
        version = max((one.version for one in found if one), key=order, default=f"{chance.randrange(1, 4)}.0-1")
        if chance.random() < 0.06:
            version = f"{int(version.split('.')[0]) + 1}.0-{chance.randrange(1, 4)}"
        if chance.random() < 0.95:
            priority = chance.choice(["optional", "optional", "required", "extra", "other"])
            sources[name] = (version, priority, chance.choice(["devel", "libs", "contrib/net", "misc", "zz"]))
        for arch, one in zip(ARCHS, found):
            if one and chance.random() < {"Uploaded": 0.8, "Installed": 0.97}.get(one.state, 0.04):
                built[arch][name] = (one.version, max(0, one.number - (chance.random() < 0.1)))
    available = {name: chance.choice(versions) for name, versions in ARCHIVE.items() if chance.random() < 0.5}
    return Lists(sources, built, available)


class Soaked(Office):
    """The office of the model, with merges."""

    def __init__(self) -> None:
        super().__init__([])
        self.accepted = 6  # two architectures and four pairs of a builder and an architecture

    def twin(self) -> "Soaked":
        other = copy.copy(self)
        other.records = {key: copy.copy(record) for key, record in self.records.items()}
        other.archs, other.builders = dict(self.archs), {name: set(archs) for name, archs in self.builders.items()}
        return other

    def merge(self, lists: Lists) -> dict[str, Any]:
        """The answer to a merge of all architectures, which is carried out by the table of docs/PROTOCOL.md."""
        sources = {name: Listed(*entry) for name, entry in lists.sources.items()}
        parts = [self.merge_part(arch, sources, lists.built[arch], lists.meets) for arch in ARCHS]
        self.accepted += 1
        return {"accepted": self.accepted, "ok": "merge", "parts": parts}


# ---- what was sent and answered


@dataclass
class Sent:
    """A request: what it asked for, the greatest count that anybody had seen when it was sent, and what was answered: a
    status and an object, or nothing. `before` is a count that the office had not passed when it answered, and `begun`
    the status of an answer that broke off.
    """

    name: str
    body: dict[str, Any] | list[str]
    after: int
    status: int | None = None
    said: dict[str, Any] | None = None
    before: int | None = None
    begun: int | None = None

    @property
    def is_command(self) -> bool:
        return isinstance(self.body, dict)

    @property
    def accepted(self) -> int | None:
        """The count of an accepted command; one that repeats an assignment is not one."""
        if self.is_command and self.status == 200 and self.said and self.said.get("ok") != "again":
            return self.said.get("accepted")
        return None

    @property
    def is_doubtful(self) -> bool:
        """Whether it is a command that may stand although it was not answered, or not whole: of an answer that broke
        off the status says whether it was refused."""
        if self.said is None:
            return self.is_command and (self.begun is None or not 400 <= self.begun < 500)
        return self.is_command and self.said.get("refused") == "Store"

    @property
    def must_stand(self) -> bool:
        """Whether it is a command, no repeated assignment, of whose acceptance a client read the first bytes."""
        return self.is_command and self.begun == 200 and self.name != "next"

    def __str__(self) -> str:
        return f"{self.name} {self.body} is answered {self.status} {self.said}"


@dataclass
class Audit:
    """What an audit found: the office as it stands, what is amiss, and how many commands without an answer stand."""

    office: Soaked
    faults: list[str] = field(default_factory=list)
    stood: int = 0


class Wrong(Exception):
    """What cannot be so."""


def asked(office: Office, one: Sent) -> tuple[int, dict[str, Any]]:
    """What the model answers; it may change the office."""
    if isinstance(one.body, dict):
        return office.command(one.name, {"after": None, **one.body} if one.name == "next" else one.body, one.said)
    return office.query(one.name, one.body, one.said)


def would_answer(office: Office, one: Sent) -> tuple[int, dict[str, Any]]:
    """What the model answers, without a change of the office."""
    if not isinstance(one.body, dict):
        return asked(office, one)
    if one.name not in OF_RECORDS:
        return asked(office.twin(), one)  # type: ignore[attr-defined]
    keys = [key for key, record in office.records.items() if touches(one, record)]
    saved, counts = {key: copy.copy(office.records[key]) for key in keys}, (office.accepted, office.handed)
    answer = asked(office, one)
    office.records.update(saved)
    office.accepted, office.handed = counts
    return answer


def touches(one: Sent, record: Record) -> bool:
    """Whether a command may change a record."""
    body = one.body
    assert isinstance(body, dict)
    if one.name == "next":
        return record.arch == body["arch"] and record.state == "Needs-Build"
    return (
        record.take == body["take"]
        if "take" in body
        else (record.arch, record.source) == (body.get("arch"), body.get("source"))
    )


class History:
    """The commands of one life of the program, which are put into the order of their counts."""

    def __init__(self, sent: list[Sent], rows: "Rows") -> None:
        self.rows, self.steps, self.furthest, self.why = rows, 0, -1, ""
        self.answered: dict[int, Sent] = {}
        for one in sent:
            count = one.accepted
            if count is not None:
                if count in self.answered:
                    raise Wrong(f"two commands have one count: {one}; {self.answered[count]}")
                if count <= one.after or count > rows.accepted:
                    raise Wrong(
                        f"acknowledged and lost, or counted before it was sent ({one.after}, the file has "
                        f"{rows.accepted}): {one}"
                    )
                self.answered[count] = one
        self.doubtful = sorted((one for one in sent if one.is_doubtful), key=lambda one: not one.must_stand)

    def fail(self, at: int, why: str) -> None:
        """Keeps why there is no order, of those that were tried the first that went furthest."""
        if at > self.furthest:
            self.furthest, self.why = at, why

    def order(self, office: Soaked, at: int, left: list[Sent]) -> list[Sent] | None:
        """The commands after so many, in their order, that lead from this office to the rows; none if there are
        none."""
        found: list[Sent] = []
        while at < self.rows.accepted:
            at += 1
            one = self.answered.get(at)
            if one is None:
                rest = self.choose(office, at, left)
                return None if rest is None else found + rest
            wanted = asked(office, one)
            if wanted != (one.status, one.said):
                self.fail(at, f"{one}, and the model has {wanted}")
                return None
            found.append(one)
        differences = self.rows.differences(office)
        if differences:
            self.fail(at + 1, "; ".join(differences[:3]))
            return None
        return found

    def choose(self, office: Soaked, at: int, left: list[Sent]) -> list[Sent] | None:
        """One of the commands without an answer that may have this count, and the rest after it."""
        for one in left:
            self.steps += 1
            if self.steps > STEPS:
                raise Wrong("too many commands without an answer: their order was not found")
            if one.after >= at:
                continue
            twin = office.twin()
            status, said = asked(twin, one)
            if status == 200 and said.get("ok") != "again":
                rest = self.order(twin, at, [other for other in left if other is not one])
                if rest is not None:
                    return [one, *rest]
        self.fail(at, f"no command without an answer can have the count {at}; there are {len(left)}")
        return None


def audit(office: Soaked, sent: list[Sent], folder: Path) -> Audit:
    """Whether the file holds what the answers since this office said; the office of the result is the one that stands
    then."""
    rows = Rows(folder)
    found = Audit(office.twin(), list(rows.faults))
    try:
        history = History(sent, rows)
        commands = history.order(office.twin(), office.accepted, history.doubtful)
        if commands is None:
            raise Wrong(history.why)
        found.stood = sum(one.is_doubtful for one in commands)
        lost = [one for one in history.doubtful if one.must_stand and not any(one is other for other in commands)]
        found.faults += [f"it does not stand, though its answer began with status 200: {one}" for one in lost]
        found.faults += check_others(
            found.office, commands, [one for one in sent if not one.is_doubtful and one.accepted is None]
        )
        found.faults += losses(office.records, office.handed, commands, {row[:2] for row in rows.records})
    except (Wrong, Refused) as why:
        found.faults.append(str(why))
    if found.faults:
        found.office = rows.office()
    return found


def losses(before: Keys, handed: int, commands: list[Sent], after: Keys) -> list[str]:
    """The records that are gone though none of these commands removed them, and the take numbers that these gave twice,
    or that were given before."""
    bodies = [(one.name, one.body) for one in commands if isinstance(one.body, dict)]
    archs = {body["name"] for name, body in bodies if name == "remove-arch"}
    archs |= {part["arch"] for name, body in bodies if name == "merge" for part in body["parts"]}
    forgotten = {(body["arch"], body["source"]) for name, body in bodies if name == "forget"}
    gone = sorted(key for key in set(before) - set(after) - forgotten if key[0] not in archs)
    given = [one.said["take"] for one in commands if one.said and "take" in one.said]
    twice = [take for at, take in enumerate(given) if take <= handed or take in given[:at]]
    return [f"{key} is gone, and no command removed it" for key in gone] + [f"take {one} came twice" for one in twice]


def removals(sent: list[Sent]) -> Counter[tuple[str, str]]:
    """How many of each command that removes were accepted, refused since something is held, and refused otherwise."""
    answered = [(one.name, one.said.get("refused")) for one in sent if one.name in REMOVED and one.said]
    words = {None: "accepted", "StillHeld": "StillHeld"}
    return Counter((name, words.get(refused, "refused otherwise")) for name, refused in answered)


def check_others(office: Soaked, commands: list[Sent], others: list[Sent]) -> list[str]:
    """Carries out the commands, and finds for each refusal, each repeated assignment and each answer to a query a count
    at which the model gives it."""
    open_ones = sorted((one for one in others if is_judged(one)), key=lambda one: one.after)
    waiting: list[Sent] = []
    faults: list[str] = []
    for at in range(len(commands) + 1):
        while open_ones and open_ones[0].after <= office.accepted:
            waiting.append(open_ones.pop(0))
        waiting = [one for one in waiting if would_answer(office, one) != (one.status, one.said)]
        late = [one for one in waiting if one.before is not None and one.before <= office.accepted]
        faults += [f"at no count from {one.after} to {one.before}: {one}" for one in late]
        waiting = [one for one in waiting if one not in late]
        if at < len(commands):
            asked(office, commands[at])
    return faults + [f"at no count from {one.after} on: {one}" for one in [*waiting, *open_ones]]


def is_judged(one: Sent) -> bool:
    """Whether an answer says something of the state: not that memory ran out, or that the office is closed."""
    return one.said is not None and one.said.get("refused") not in ("Memory", "Closed", "Store")


# ---- the file


class Rows:
    """The rows of a copy of both files, as sqlite3 reads them."""

    def __init__(self, folder: Path) -> None:
        self.faults: list[str] = []
        with copied_database(folder) as database:
            for pragma, wanted in (("integrity_check", [("ok",)]), ("foreign_key_check", [])):
                met = database.execute(f"PRAGMA {pragma}").fetchall()
                if met != wanted:
                    self.faults.append(f"PRAGMA {pragma} finds {met[:3]}")
            self.office_rows = database.execute("SELECT id, format, handed, accepted FROM office").fetchall()
            self.records = database.execute(
                f"SELECT {', '.join(COLUMNS)} FROM source_record ORDER BY arch, source"
            ).fetchall()
            twice = database.execute(
                "SELECT take FROM source_record WHERE take IS NOT NULL GROUP BY take HAVING count(*) > 1"
            ).fetchall()
            without = (
                "SELECT source FROM source_record WHERE (holder IS NULL) <> (take IS NULL) OR (state IN (1, 2, 3)) = "
                "(take IS NULL)"
            )
            self.archs = database.execute("SELECT name, os, cpu FROM arch ORDER BY name").fetchall()
            self.pairs = database.execute("SELECT name, arch FROM builder ORDER BY name, arch").fetchall()
            scratch = [
                database.execute(f"SELECT count(*) FROM {name}").fetchone()[0]
                for name in ("scratch_source", "scratch_binary")
            ]
            self.faults += [f"take {take} is held twice" for (take,) in twice]
            self.faults += [
                f"{source} has a holder without a take number, or is held in no such state"
                for (source,) in database.execute(without)
            ]
        if len(self.office_rows) != 1 or scratch != [0, 0]:
            self.faults.append(f"office {self.office_rows}, scratch rows {scratch}")
        self.handed, self.accepted = self.office_rows[0][2:] if self.office_rows else (0, 0)

    def differences(self, office: Soaked) -> list[str]:
        """What differs between the rows and an office."""
        found = []
        if (self.handed, self.accepted) != (office.handed, office.accepted):
            found.append(
                f"the file counts {self.handed} and {self.accepted}, and the model {office.handed} and "
                f"{office.accepted}"
            )
        pairs = sorted((name, arch) for name, archs in office.builders.items() for arch in archs)
        for met_rows, wanted_rows in ((self.archs, sorted(office.archs.values())), (self.pairs, pairs)):
            if met_rows != wanted_rows:
                found.append(f"the file has {met_rows}, and the model {wanted_rows}")
        wanted = {(one.arch, one.source): tuple(row_of(one)) for one in office.records.values()}
        met = {row[:2]: row for row in self.records}
        for key in sorted(wanted.keys() | met.keys()):
            if wanted.get(key) != met.get(key):
                found.append(f"{key}: the file has {met.get(key)}, and the model {wanted.get(key)}")
        return found

    def office(self) -> Soaked:
        """The office that these rows are, from which a trial goes on after something was amiss."""
        office = Soaked()
        office.handed, office.accepted = self.handed, self.accepted
        office.archs, office.builders = {arch: (arch, os, cpu) for arch, os, cpu in self.archs}, {}
        for name, arch in self.pairs:
            office.builders.setdefault(name, set()).add(arch)
        for row in self.records:
            fields = dict(zip(COLUMNS, row, strict=True))
            fields["state"], fields["was_built"] = CODE_OF_STATE[fields["state"]], bool(fields.pop("earlier"))
            del fields["rank"]
            office.records[row[:2]] = Kept(**fields)
        return office

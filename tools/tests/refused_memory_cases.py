"""Cases of tools/tests/test_refused_memory.py: what a program is asked while a request for memory is refused, and what
it answers with ample memory. Everything is stated here by hand, after docs/PROTOCOL.md and docs/HTTP.md.

LINES are lines of a run and, by the same text, the words of a single command; REQUESTS are requests over HTTP; OPENINGS
are starts of a run over files of a kind. `rows` of a case are those before and after, as SQLite gives them with the
name of the table first; None where they are only compared with those of the same program with ample memory.
"""
import json
from dataclasses import dataclass, field

# The commands that the office of most cases begins with. On amd64 tar comes before hello in the queue.
OFFICE = [
    "add-arch amd64 linux amd64",
    "add-arch arm64 linux arm64",
    "add-builder b1 amd64",
    "add-builder b2 arm64",
    "enter amd64 hello 1.0 optional devel",
    "enter amd64 tar 1.30 required admin",
    "enter arm64 hello 1.0 optional devel",
]
HELD = OFFICE + ["next amd64 b1"]

STATES = (
    "Needs-Build Building Built Uploaded Installed Dep-Wait BD-Uninstallable Failed Not-For-Us Build-Attempted".split()
)
PRIORITIES = "required important standard optional extra".split()
SECTIONS = {"libs": 0, "devel": 2, "admin": 7}


@dataclass(frozen=True)
class Line:
    """A line, what it is answered, what the same line is answered after it, and a query with its answers before and
    after."""

    line: str
    before: list  # the lines that the office has carried out before
    first: str
    second: str
    query: str
    asked: tuple
    rows: tuple | None = None
    files: dict = field(default_factory=dict)  # the texts of the files that are named
    is_refused: bool = (
        True  # whether some request that is refused is answered so: it is not where all that is asked for is a message
    )

    @property
    def is_command(self):
        """Whether it is accepted."""
        return '"ok":' in self.first and '"ok":"again"' not in self.first


@dataclass(frozen=True)
class Request:
    """A request over HTTP, with the status and the object of the answer to it and to the same request after it."""

    request: str
    before: list
    first: tuple
    second: tuple
    rows: tuple | None = None
    takes: bool = True
    lists: dict = field(default_factory=dict)  # what stands in the folder of the lists, if there is one

    @property
    def is_command(self):
        """Whether it is accepted and changes something."""
        return self.first != self.second or "report" in self.first[1]


# ---- rows


def rank(build_priority, earlier, priority, section):
    """The number by which the records of an architecture are ordered: 348 places for each step of build priority, of
    which those that were built earlier have the first 174, and 29 sections for each of six priorities."""
    return (1000 - build_priority) * 348 + (0 if earlier else 174) + PRIORITIES.index(priority) * 29 + SECTIONS[section]


def record(arch, source, version, priority, section, state="Needs-Build", earlier=0, number=0, **more):
    """The row of a record; no record here needs anything to be built."""
    found = dict(holder=None, take=None, waits="", note="", message="", build_priority=0) | more
    holder, take, waits, note, message, build_priority = found.values()
    place = rank(build_priority, earlier, priority, section)
    first = ("source_record", arch, source, STATES.index(state), version, priority, section, earlier, number)
    return (*first, holder, take, waits, "", note, message, build_priority, place)


ARCHS = ["amd64", "arm64"]
BUILDERS = [("b1", "amd64"), ("b2", "arm64")]


def rows(handed, accepted, *records, archs=ARCHS, builders=BUILDERS):
    """The rows of the office with these records, architectures and builders."""
    others = [("arch", name, "linux", name) for name in archs] + [("builder", name, arch) for name, arch in builders]
    return [("office", 1, 2, handed, accepted), *others, *records]


def changes(before, after):
    """What differs between the rows of two offices, as a line of a journal has it, by architectures."""
    old, new = ({row[1:3]: row for row in rows if row[0] == "source_record"} for rows in (before, after))
    found = {}
    for arch, source in sorted({*old, *new}):
        was, now = old.get((arch, source)), new.get((arch, source))
        if was != now:
            states = [row and STATES[row[3]] for row in (was, now)]
            found.setdefault(arch, []).append([source, *states, now and now[4]])
    return found


HELLO = ("amd64", "hello", "1.0", "optional", "devel")
TAR = ("amd64", "tar", "1.30", "required", "admin")
OTHER = ("arm64", "hello", "1.0", "optional", "devel")
ZLIB = ("amd64", "zlib", "1:1.2", "optional", "libs")
TAKEN = {"state": "Building", "holder": "b1", "take": 1}

EMPTY = [("office", 1, 2, 0, 0)]
BEGUN = rows(0, 7, record(*HELLO), record(*TAR), record(*OTHER))
HANDED = rows(1, 8, record(*HELLO), record(*TAR, **TAKEN), record(*OTHER))


# ---- answers


def as_json(**keys):
    return json.dumps(keys, separators=(",", ":"), sort_keys=True)


def refusal(code, name, **more):
    return as_json(code=code, refused=name, **more)


def accepted(count, name, **more):
    return as_json(accepted=count, ok=name, **more)


def job(count, take, arch, source, version, name="next"):
    return accepted(
        count, name, arch=arch, build=version, message="", number=0, source=source, take=take, version=version
    )


def item(arch, source, version, priority, section, state="Needs-Build", earlier=0, number=0, **more):
    """A record as a query shows it."""
    build = f"{version}+b{number}" if number else version
    found = dict(
        arch=arch, source=source, version=version, build=build, priority=priority, section=section, state=state
    )
    found |= dict(
        earlier=bool(earlier), number=number, holder=None, take=None, waits="", note="", message="", build_priority=0
    )
    return found | more


def shown(*record, **more):
    return as_json(**item(*record, **more))


def summary(count, arch="amd64", **counts):
    """The answer to `summary`, with the counts that are not 0; an underscore stands for a hyphen."""
    return as_json(
        accepted=count, arch=arch, counts={state: counts.get(state.replace("-", "_"), 0) for state in STATES}
    )


MEMORY = refusal(20, "Memory")
CLOSED = refusal(19, "Closed")
IN_DOUBT = refusal(21, "Store", store="Device")
NOT_HELD = refusal(8, "NotHeld")
UNKNOWN_SOURCE = refusal(4, "UnknownSource")
ALREADY_THERE = refusal(10, "AlreadyThere")
LINE_FAULT = as_json(fault="line")
FILE_FAULT = as_json(fault="file")
MEMORY_FAULT = as_json(fault="store", store="Memory")


def wrong_state(state):
    return refusal(6, "WrongState", state=state)


# ---- commands: one of each kind, with its rows

MINE = as_json(builder="b1", records=[])
MINE_OF_TAR = as_json(builder="b1", records=[item(*TAR, **TAKEN)])
MISSING = {"state": "BD-Uninstallable", "note": "libx is missing"}
RECORDS = [record(*HELLO), record(*TAR), record(*OTHER)]


def on_tar(line, second, after):
    """A command to the package that a builder holds, after which its record has these fields."""
    found = (HANDED, rows(1, 9, record(*HELLO), record(*TAR, **after), record(*OTHER)))
    return Line(
        line,
        HELD,
        accepted(9, line.split()[0]),
        second,
        "item amd64 tar",
        (shown(*TAR, **TAKEN), shown(*TAR, **after)),
        found,
    )


def on_hello(line, first, second, handed, after):
    """A command to a package that waits, after which its record has these fields."""
    found = (BEGUN, rows(handed, 8, record(*HELLO, **after), record(*TAR), record(*OTHER)))
    return Line(line, OFFICE, first, second, "item amd64 hello", (shown(*HELLO), shown(*HELLO, **after)), found)


LISTS = {
    "sources": "".join(
        f"Package: {name}\nVersion: {version}\nArchitecture: any\nPriority: optional\nSection: {section}\n\n"
        for name, version, section in [("hello", "1.1", "devel"), ("new", "2.0", "libs"), ("tar", "1.30", "admin")]
    ),
    "packages": "Package: tar\nVersion: 1.30\nArchitecture: amd64\n",
    "none": "",
}


def merged(count, *parts):
    """The answer to a merge: of each part the architecture, and how many records are added, changed, kept and
    removed."""
    parts = [
        dict(arch=arch, added=added, changed=changed, kept=kept, removed=removed)
        for arch, added, changed, kept, removed in parts
    ]
    return accepted(count, "merge", parts=parts)


def of_list(arch, name, version, section, **more):
    return record(arch, name, version, "optional", section, **more)


AFTER_MERGE = rows(
    0,
    8,
    of_list("amd64", "hello", "1.1", "devel"),
    of_list("amd64", "new", "2.0", "libs"),
    of_list("amd64", "tar", "1.30", "admin", state="Installed", earlier=1),
    of_list("arm64", "hello", "1.1", "devel"),
    of_list("arm64", "new", "2.0", "libs"),
    of_list("arm64", "tar", "1.30", "admin"),
)

# On amd64 tar is built once the lists were merged.
MERGE = "merge sources amd64=packages arm64=none"
LISTED = ("amd64", "tar", "1.30", "optional", "admin")
REBUILT = {"earlier": 1, "number": 1, "message": "against libx"}

COMMANDS = {
    "add-arch": Line(
        "add-arch riscv64 linux riscv64",
        OFFICE,
        accepted(8, "add-arch"),
        ALREADY_THERE,
        "summary riscv64",
        (refusal(1, "UnknownArch"), summary(8, "riscv64")),
        (BEGUN, rows(0, 8, *RECORDS, archs=[*ARCHS, "riscv64"])),
    ),
    "add-builder": Line(
        "add-builder b1 arm64",
        OFFICE,
        accepted(8, "add-builder"),
        ALREADY_THERE,
        "mine b1",
        (MINE, MINE),
        (BEGUN, rows(0, 8, *RECORDS, builders=[BUILDERS[0], ("b1", "arm64"), BUILDERS[1]])),
    ),
    "remove-arch": Line(
        "remove-arch arm64",
        OFFICE,
        accepted(8, "remove-arch"),
        refusal(1, "UnknownArch"),
        "summary arm64",
        (summary(7, "arm64", Needs_Build=1), refusal(1, "UnknownArch")),
        (BEGUN, rows(0, 8, record(*HELLO), record(*TAR), archs=ARCHS[:1], builders=BUILDERS[:1])),
    ),
    "remove-builder": Line(
        "remove-builder b1 amd64",
        OFFICE,
        accepted(8, "remove-builder"),
        refusal(2, "UnknownBuilder"),
        "mine b1",
        (MINE, refusal(2, "UnknownBuilder")),
        (BEGUN, rows(0, 8, *RECORDS, builders=BUILDERS[1:])),
    ),
    "enter": Line(
        "enter amd64 zlib 1:1.2 optional libs",
        OFFICE,
        accepted(8, "enter"),
        ALREADY_THERE,
        "item amd64 zlib",
        (UNKNOWN_SOURCE, shown(*ZLIB)),
        (BEGUN, rows(0, 8, record(*HELLO), record(*TAR), record(*ZLIB), record(*OTHER))),
    ),
    "next": Line(
        "next amd64 b1",
        OFFICE,
        job(8, 1, "amd64", "tar", "1.30"),
        job(9, 2, "amd64", "hello", "1.0"),
        "mine b1",
        (MINE, MINE_OF_TAR),
        (BEGUN, HANDED),
    ),
    "take": on_hello(
        "take amd64 b1 hello 1.0", job(8, 1, "amd64", "hello", "1.0", "take"), wrong_state("Building"), 1, TAKEN
    ),
    "built": on_tar("built 1", wrong_state("Built"), TAKEN | {"state": "Built"}),
    "uploaded": on_tar("uploaded 1", wrong_state("Uploaded"), TAKEN | {"state": "Uploaded"}),
    "waits": on_tar("waits 1 libx-dev (>= 2)", NOT_HELD, {"state": "Dep-Wait", "waits": "libx-dev (>= 2)"}),
    "put-back": on_tar("put-back 1", NOT_HELD, {}),
    "attempted": on_tar("attempted 1 cc died", NOT_HELD, {"state": "Build-Attempted", "note": "cc died"}),
    "give-back": on_tar("give-back amd64 tar 1.30", wrong_state("Needs-Build"), {}),
    "dep-wait": on_tar(
        "dep-wait amd64 tar 1.30 libx-dev (>= 2)",
        wrong_state("Dep-Wait"),
        {"state": "Dep-Wait", "waits": "libx-dev (>= 2)"},
    ),
    "not-for-us": on_tar(
        "not-for-us amd64 tar 1.30 needs x86", wrong_state("Not-For-Us"), {"state": "Not-For-Us", "note": "needs x86"}
    ),
    "rebuild": Line(
        "rebuild amd64 tar 1.30 1 against libx",
        [*OFFICE, MERGE],
        accepted(9, "rebuild"),
        wrong_state("Needs-Build"),
        "item amd64 tar",
        (shown(*LISTED, state="Installed", earlier=1), shown(*LISTED, **REBUILT)),
        (AFTER_MERGE, [("office", 1, 2, 0, 9), *AFTER_MERGE[1:7], record(*LISTED, **REBUILT), *AFTER_MERGE[8:]]),
        LISTS,
    ),
    "fail": on_tar("fail amd64 tar 1.30 no space", wrong_state("Failed"), {"state": "Failed", "note": "no space"}),
    "build-priority": on_hello(
        "build-priority amd64 hello 1.0 7",
        accepted(8, "build-priority"),
        accepted(9, "build-priority"),
        0,
        {"build_priority": 7},
    ),
    "forget": Line(
        "forget amd64 hello 1.0",
        OFFICE,
        accepted(8, "forget"),
        UNKNOWN_SOURCE,
        "item amd64 hello",
        (shown(*HELLO), UNKNOWN_SOURCE),
        (BEGUN, rows(0, 8, record(*TAR), record(*OTHER))),
    ),
    "merge": Line(
        MERGE,
        OFFICE,
        merged(8, ("amd64", 1, 2, 0, 0), ("arm64", 2, 1, 0, 0)),
        merged(9, ("amd64", 0, 0, 3, 0), ("arm64", 0, 0, 3, 0)),
        "summary amd64",
        (summary(7, Needs_Build=2), summary(8, Needs_Build=2, Installed=1)),
        (BEGUN, AFTER_MERGE),
        LISTS,
    ),
    "report": Line(
        "report amd64 report",
        OFFICE,
        accepted(8, "report", changed=1),
        accepted(9, "report", changed=0),
        "item amd64 hello",
        (shown(*HELLO), shown(*HELLO, **MISSING)),
        (BEGUN, rows(0, 8, record(*HELLO, **MISSING), record(*TAR), record(*OTHER))),
        {"report": "hello 1.0 uninstallable libx is missing\n"},
    ),
}


# ---- lines whose texts, lists or reports take memory below the store


def refused(line, answer, before=HELD, query="item amd64 tar", asked=shown(*TAR, **TAKEN), files=None, **others):
    """A line that changes nothing."""
    return Line(line, before, answer, answer, query, (asked, asked), None, files or {}, **others)


RELATIONS = "libx-dev (>= 2), foo [!amd64] | bar <!nocheck>, baz <stage1>,"
REDUCED = "libx-dev (>= 2), bar"
# A version that reads as its text says, with an epoch, a tilde and a revision (Debian Policy 5.6.12).
GCC = ("amd64", "gcc-12", "2:12.1~rc1-3+b1", "extra", "devel")
# A paragraph with a field folded into lines, and with many fields (Debian Policy 5.1).
FOLDED = (
    "\n\nPackage: bash\nVersion: 2.0-1\nArchitecture: any\nPriority: required\nSection: shells\n"
    "Build-Depends: libx-dev (>= 2),\n \tfoo [!amd64],\n\tbar\n"
    + "".join(f"Field-{number}: {number}\n" for number in range(40))
)
BASH = dict(
    arch="amd64",
    source="bash",
    version="2.0-1",
    build="2.0-1",
    priority="required",
    section="shells",
    state="Installed",
    earlier=True,
)
BASH |= dict(number=0, holder=None, take=None, waits="", note="", message="", build_priority=0)
NEEDS = "libx-dev (>= 2), bar"
REBUILT_BASH = "Package: bash\nSource: bash (2.0-1)\nVersion: 2.0-1+b2\nArchitecture: amd64\n"
BASE = OFFICE[:1] + OFFICE[2:3]  # amd64 and its builder b1
MANY = "".join(f"Package: lib{number}-dev\nVersion: 1.0\nArchitecture: amd64\n\n" for number in range(40))


def merging(line, before, first, second, query, asked, **files):
    return Line(line, before, first, second, query, asked, None, files)


WAITING = BASE + ["enter amd64 bash 2.0-1 required shells", "dep-wait amd64 bash 2.0-1 libx-dev (>= 2)"]
WAITS = dict(BASH, state="Dep-Wait", earlier=False, waits="libx-dev (>= 2)")
OLDER = BASE + ["enter amd64 bash 1.0-1 required shells", "next amd64 b1"]
OLDER_BASH = dict(BASH, state="Building", earlier=False, holder="b1", take=1, version="1.0-1", build="1.0-1")
TO_BUILD = dict(BASH, state="Needs-Build", earlier=False)
ENTERED = ["enter amd64 bash 1.0-1 required shells"]

TEXTS = {
    "version-of-all-parts": Line(
        "enter amd64 gcc-12 2:12.1~rc1-3+b1 extra devel",
        OFFICE,
        accepted(8, "enter"),
        ALREADY_THERE,
        "item amd64 gcc-12",
        (UNKNOWN_SOURCE, shown(*GCC)),
        (BEGUN, rows(0, 8, record(*GCC), *RECORDS)),
    ),
    "version-with-a-fault": refused(
        "enter amd64 aa 1.0- optional devel", refusal(12, "BadVersion", fault="RevisionEmpty")
    ),
    "name-with-a-fault": refused("enter amd64 Aa 1.0 optional devel", refusal(11, "BadName")),
    "relations-of-each-kind": Line(
        f"dep-wait amd64 hello 1.0 {RELATIONS}",
        OFFICE,
        accepted(8, "dep-wait"),
        wrong_state("Dep-Wait"),
        "item amd64 hello",
        (shown(*HELLO), shown(*HELLO, state="Dep-Wait", waits=REDUCED)),
        (BEGUN, rows(0, 8, record(*HELLO, state="Dep-Wait", waits=REDUCED), record(*TAR), record(*OTHER))),
    ),
    "relations-with-a-qualifier": Line(
        "waits 1 aa:any (> 1)|bb",
        HELD,
        accepted(9, "waits"),
        NOT_HELD,
        "item amd64 tar",
        (shown(*TAR, **TAKEN), shown(*TAR, state="Dep-Wait", waits="aa:any (>= 1) | bb")),
    ),
    "relations-with-a-fault": refused("waits 1 libx (>= ", refusal(13, "BadRelations", fault="Unclosed")),
    "relations-of-nothing": refused("waits 1 aa [i386]", refusal(13, "BadRelations", fault="Nothing")),
    "next-again": refused("next amd64 b1 --after 0", job(8, 1, "amd64", "tar", "1.30", "again")),
    "another-version": refused(
        "take amd64 b1 hello 2.0", refusal(5, "OtherVersion", have="1.0"), OFFICE, "item amd64 hello", shown(*HELLO)
    ),
    "another-state": refused("take amd64 b1 tar 1.30", wrong_state("Building")),
    "not-held": refused("built 5", NOT_HELD),
    "unknown-builder": refused("next amd64 b9", refusal(2, "UnknownBuilder")),
    "empty-queue": refused(
        "next amd64 b1",
        refusal(7, "QueueEmpty"),
        [*HELD, "next amd64 b1"],
        "item amd64 hello",
        shown(*HELLO, **TAKEN | {"take": 2}),
    ),
    "folded-fields": merging(
        "merge sources amd64=packages",
        BASE,
        merged(3, ("amd64", 1, 0, 0, 0)),
        merged(4, ("amd64", 0, 0, 1, 0)),
        "depends amd64 bash",
        (UNKNOWN_SOURCE, as_json(arch="amd64", depends=NEEDS, source="bash")),
        sources=FOLDED,
        packages=REBUILT_BASH,
    ),
    "rebuilt-package": merging(
        "merge sources amd64=packages",
        BASE,
        merged(3, ("amd64", 1, 0, 0, 0)),
        merged(4, ("amd64", 0, 0, 1, 0)),
        "item amd64 bash",
        (UNKNOWN_SOURCE, as_json(**dict(BASH, number=2, build="2.0-1+b2"))),
        sources=FOLDED,
        packages=REBUILT_BASH,
    ),
    "newer-version": merging(
        "merge sources amd64=packages",
        OLDER,
        merged(5, ("amd64", 0, 1, 0, 0)),
        merged(6, ("amd64", 0, 0, 1, 0)),
        "item amd64 bash",
        (as_json(**OLDER_BASH), as_json(**TO_BUILD)),
        sources=FOLDED,
        packages="",
    ),
    "end-of-a-wait": merging(
        "merge sources amd64=packages",
        WAITING,
        merged(5, ("amd64", 0, 1, 0, 0)),
        merged(6, ("amd64", 0, 0, 1, 0)),
        "item amd64 bash",
        (as_json(**WAITS), as_json(**TO_BUILD)),
        sources=FOLDED,
        packages=MANY
        + "".join(f"Package: libx-dev\nVersion: {version}\nArchitecture: amd64\n\n" for version in ("1.0", "2.0")),
    ),
    "end-of-a-wait-by-a-provided-name": merging(
        "merge sources amd64=packages",
        WAITING,
        merged(5, ("amd64", 0, 1, 0, 0)),
        merged(6, ("amd64", 0, 0, 1, 0)),
        "item amd64 bash",
        (as_json(**WAITS), as_json(**TO_BUILD)),
        sources=FOLDED,
        packages="Package: libx3\nVersion: 3\nArchitecture: all\nProvides: liby-dev, libx-dev (= 1), libx-dev (= 3)\n",
    ),
    "not-listed-any-more": merging(
        "merge sources amd64=packages",
        BASE + ENTERED + ["enter amd64 gone 1 extra libs"],
        merged(5, ("amd64", 0, 1, 0, 1)),
        merged(6, ("amd64", 0, 0, 1, 0)),
        "summary amd64",
        (summary(4, Needs_Build=2), summary(5, Needs_Build=1)),
        sources=FOLDED,
        packages="",
    ),
    "one-part-refused": merging(
        "merge sources amd64=packages arm64=packages",
        BASE,
        accepted(
            3,
            "merge",
            parts=[
                dict(arch="amd64", added=1, changed=0, kept=0, removed=0),
                dict(arch="arm64", code=1, refused="UnknownArch"),
            ],
        ),
        accepted(
            4,
            "merge",
            parts=[
                dict(arch="amd64", added=0, changed=0, kept=1, removed=0),
                dict(arch="arm64", code=1, refused="UnknownArch"),
            ],
        ),
        "summary amd64",
        (summary(2), summary(3, Needs_Build=1)),
        sources=FOLDED,
        packages="",
    ),
    "list-with-a-fault": refused(
        "merge sources amd64=packages",
        refusal(15, "BadListing", fault="Missing", field="Version", paragraph=2, which="Sources"),
        files={"sources": FOLDED + "\nPackage: aa\nArchitecture: any\n", "packages": ""},
    ),
    "packages-with-a-fault": refused(
        "merge sources amd64=packages",
        refusal(15, "BadListing", fault="NoColon", paragraph=1, which="Packages"),
        files={"sources": FOLDED, "packages": "Package\n"},
    ),
    "package-of-another-architecture-with-a-fault": refused(
        "merge sources amd64=packages",
        refusal(15, "BadListing", fault="BadValue", field="Source", paragraph=1, which="Packages"),
        files={"sources": FOLDED, "packages": "Package: foo\nSource: Foo\nVersion: 1.0-1\nArchitecture: arm64\n"},
    ),
    "list-that-is-not-there": refused("merge sources amd64=packages", FILE_FAULT, files={"sources": FOLDED}),
    "report-of-blank-lines": Line(
        "report amd64 report",
        OFFICE,
        accepted(8, "report", changed=0),
        accepted(9, "report", changed=0),
        "item amd64 hello",
        (shown(*HELLO), shown(*HELLO)),
        None,
        {"report": " \t\n\n"},
    ),
    "report-of-two": Line(
        "report amd64 report",
        OFFICE,
        accepted(8, "report", changed=1),
        accepted(9, "report", changed=0),
        "item amd64 hello",
        (shown(*HELLO), shown(*HELLO, **MISSING)),
        None,
        {"report": "zlib 1:1.2-1 installable\n\n hello\t1.0 uninstallable  libx is missing \ntar 1.30 installable\n"},
    ),
    "report-with-a-line-twice": refused(
        "report amd64 report",
        refusal(16, "BadReport", line=3),
        files={"report": "hello 1.0 installable\n\nhello 2.0 installable\n"},
    ),
    "report-that-is-not-there": refused("report amd64 report", FILE_FAULT),
    "report-of-another-version": Line(
        "report amd64 report",
        OFFICE,
        accepted(8, "report", changed=0),
        accepted(9, "report", changed=0),
        "item amd64 hello",
        (shown(*HELLO), shown(*HELLO)),
        None,
        {"report": "hello 2.0 uninstallable x\n"},
    ),
    "no-command": refused("built x", LINE_FAULT),
    "a-number-with-a-point": refused("built 1.5", LINE_FAULT),
    "unknown-word": refused("frob", LINE_FAULT, is_refused=False),
}


# ---- queries


def query(line, answer):
    return refused(line, answer)


KNOWN_ARCHS = as_json(accepted=8, archs=[dict(arch=name, cpu=name, os="linux") for name in ARCHS])
KNOWN_BUILDERS = as_json(accepted=8, builders=[dict(arch=arch, builder=name) for name, arch in BUILDERS])

QUERIES = {
    "item": query("item amd64 tar", shown(*TAR, **TAKEN)),
    "mine": query("mine b1", MINE_OF_TAR),
    "queue": query("queue arm64", as_json(arch="arm64", queue=[{"build": "1.0", "source": "hello"}])),
    "by-state": query("by-state amd64 Needs-Build", as_json(arch="amd64", records=[item(*HELLO)], state="Needs-Build")),
    "depends": query("depends amd64 tar", as_json(arch="amd64", depends="", source="tar")),
    "summary": query("summary amd64", summary(8, Building=1, Needs_Build=1)),
    "office": query("office", as_json(accepted=8, handed=1)),
    "archs": query("archs", KNOWN_ARCHS),
    "builders": query("builders", KNOWN_BUILDERS),
    "unknown-source": query("item amd64 zlib", UNKNOWN_SOURCE),
}

LINES = COMMANDS | TEXTS | QUERIES

# Those that are also given as the words of a single command, as the first line of a program, with a journal, and over
# tables in memory.
WORDS = [
    "enter",
    "next",
    "rebuild",
    "merge",
    "report",
    "another-version",
    "list-with-a-fault",
    "a-number-with-a-point",
    "item",
    "queue",
]
COLD = ["next", "enter", "item"]
JOURNALED = ["next", "enter", "waits", "build-priority", "rebuild", "merge", "report", "next-again", "not-held", "item"]
IN_MEMORY = ["next", "enter", "report", "item"]


# ---- requests


def post(name, /, **keys):
    """The request for a command."""
    body = as_json(**keys)
    return f"POST /v1/{name} HTTP/1.1\r\nHost: localhost\r\nContent-Length: {len(body)}\r\n\r\n{body}"


def get(path):
    return f"GET /v1/{path} HTTP/1.1\r\nHost: localhost\r\n\r\n"


def asking(path, answer, status=200, takes=True):
    """A request that changes nothing."""
    return Request(get(path), HELD, (status, answer), (status, answer), (HANDED, HANDED), takes)


def refusing(request, status, answer, before=HELD, found=(HANDED, HANDED), lists=None):
    return Request(request, before, (status, answer), (status, answer), found, lists=lists or {})


def merge_of(**packages):
    """The request for a merge of a list for each architecture."""
    parts = [{"arch": arch, "packages": name} for arch, name in packages.items()]
    return post("merge", parts=parts, sources="sources")


ESCAPED = '{"take":1,"reason":"a \\u0074est"}'
AGAIN = job(8, 1, "amd64", "tar", "1.30", "again")
NEXT_TAR, NEXT_HELLO = job(8, 1, "amd64", "tar", "1.30"), job(9, 2, "amd64", "hello", "1.0")
REQUESTS = {
    "post-next": Request(
        post("next", arch="amd64", builder="b1"), OFFICE, (200, NEXT_TAR), (200, NEXT_HELLO), (BEGUN, HANDED)
    ),
    "post-add-arch": Request(
        post("add-arch", name="riscv64", os="linux", cpu="riscv64"),
        OFFICE,
        (200, accepted(8, "add-arch")),
        (409, ALREADY_THERE),
        COMMANDS["add-arch"].rows,
    ),
    "post-enter": Request(
        post("enter", arch="amd64", source="zlib", version="1:1.2", priority="optional", section="libs"),
        OFFICE,
        (200, accepted(8, "enter")),
        (409, ALREADY_THERE),
        COMMANDS["enter"].rows,
    ),
    # An assignment that is repeated accepts nothing, so an answer says that there is no memory for the reply, too.
    "post-again": refusing(post("next", arch="amd64", builder="b1", after=0), 200, AGAIN),
    "post-attempted": Request(
        f"POST /v1/attempted HTTP/1.1\r\nContent-Length: {len(ESCAPED)}\r\n\r\n{ESCAPED}",
        HELD,
        (200, accepted(9, "attempted")),
        (409, NOT_HELD),
        (HANDED, rows(1, 9, record(*HELLO), record(*TAR, state="Build-Attempted", note="a test"), record(*OTHER))),
    ),
    "post-waits": Request(
        post("waits", take=1, relations="libx-dev (>= 2)"),
        HELD,
        (200, accepted(9, "waits")),
        (409, NOT_HELD),
        (HANDED, COMMANDS["waits"].rows[1]),
    ),
    "post-report": Request(
        post("report", arch="amd64", text="hello 1.0 uninstallable libx is missing\n"),
        OFFICE,
        (200, accepted(8, "report", changed=1)),
        (200, accepted(9, "report", changed=0)),
        COMMANDS["report"].rows,
    ),
    "post-merge": Request(
        merge_of(amd64="packages", arm64="none"),
        OFFICE,
        (200, COMMANDS["merge"].first),
        (200, COMMANDS["merge"].second),
        COMMANDS["merge"].rows,
        lists=LISTS,
    ),
    "post-merge-of-no-list": refusing(
        merge_of(amd64="packages", arm64="nothing"), 404, as_json(http="NoList"), lists=LISTS
    ),
    "post-of-another-state": refusing(
        post("take", arch="amd64", builder="b1", source="tar", version="1.30"), 409, wrong_state("Building")
    ),
    "post-of-another-version": refusing(
        post("take", arch="amd64", builder="b1", source="hello", version="2.0"),
        409,
        refusal(5, "OtherVersion", have="1.0"),
    ),
    "post-of-a-bad-body": refusing(post("take", arch="amd64"), 400, as_json(http="BadBody")),
    "get-mine": asking("mine/b1", MINE_OF_TAR),
    "get-item": asking("item/amd64/t%61r", shown(*TAR, **TAKEN)),
    "get-queue": asking("queue/arm64", as_json(arch="arm64", queue=[{"build": "1.0", "source": "hello"}])),
    "get-archs": asking("archs", KNOWN_ARCHS),
    "get-builders": asking("builders", KNOWN_BUILDERS),
    "get-no-source": asking("item/amd64/g%2b%2b", UNKNOWN_SOURCE, 404),
    "get-no-route": asking("frob", as_json(http="NoRoute"), 404, takes=False),
}

PHRASES = {200: "OK", 400: "Bad Request", 404: "Not Found", 409: "Conflict", 503: "Service Unavailable"}


def answered(status, body):
    """The bytes of an answer."""
    head = f"HTTP/1.1 {status} {PHRASES[status]}\r\nContent-Type: application/json\r\n"
    head += f"Content-Length: {len(body)}\r\nConnection: close\r\n\r\n"
    return (head + body).encode()


# ---- starts and ends: the lines before, the SQL of a file that was there, and the rows before and after

OPENINGS = {
    "first-opening": ([], None, [], EMPTY),
    "opening": (HELD, None, HANDED, HANDED),
    "opening-after-a-merge": ([*OFFICE, MERGE], None, AFTER_MERGE, AFTER_MERGE),
    "upgrade": ([], "format-1.sql", None, [
        ("office", 1, 2, 1, 4),
        ("arch", "amd64", "linux", "amd64"),
        ("builder", "b1", "amd64"),
        ("source_record", "amd64", "hello", 1, "1.0", "optional", "devel", 0, 0, "b1", 1, "", "", "", "", 0, 348263),
    ]),
    "opening-of-format-2": ([], "format-2.sql", None, None),
}  # fmt: skip

"""Cases of tools/tests/test_refused_memory.py for the program of crates/trials: openings, closings, a session and two
lives over files in memory, with what they show with ample memory and for each way to say that memory ran out.
Everything is stated here by hand.
"""
from dataclasses import dataclass

from refused_memory_cases import EMPTY, HANDED, HELD, HELLO, MEMORY, OFFICE, OTHER, TAR, ZLIB
from refused_memory_cases import accepted, job, record, refusal, rows

# ---- sessions and lives

# Commands of which none plays a part in what another does, but for the two counts. The last is refused.
DAY = ["next amd64 b1", "next arm64 b2", "enter amd64 zlib 1:1.2 optional libs", "take amd64 b9 hello 1.0"]


def day(skipped):
    """What the commands of a day are answered, and the rows after it, if for one of them, perhaps, memory runs out."""
    handed, count, answers, changes = 0, 7, [], {}
    for at, (line, name) in enumerate(zip(DAY, ["tar", "other", "zlib", "unknown"])):
        if at == skipped:
            answers.append(MEMORY)
        elif name == "unknown":
            answers.append(refusal(2, "UnknownBuilder"))
        else:
            count += 1
            handed += line.startswith("next")
            changes[name] = (
                {"state": "Building", "holder": "b1" if name == "tar" else "b2", "take": handed}
                if line.startswith("next")
                else {}
            )
            words = {"tar": TAR, "other": OTHER}.get(name)
            answers.append(job(count, handed, *words[:3]) if words else accepted(count, "enter"))
    zlib = [record(*ZLIB)] if "zlib" in changes else []
    tar, other = (record(*words, **changes.get(name, {})) for name, words in [("tar", TAR), ("other", OTHER)])
    return answers, [as_line(row) for row in rows(handed, count, record(*HELLO), tar, *zlib, other)]


def as_line(row):
    """A row as the program of crates/trials writes it."""
    values = ("null" if value is None else f'"{value}"' if isinstance(value, str) else str(value) for value in row[1:])
    return " ".join([row[0], *values])


@dataclass(frozen=True)
class Trial:
    """A trial of the program of crates/trials: its line, what it shows with ample memory, and for each way to say that
    memory ran out what it shows then; `closed` are ways that need not come."""

    line: str
    ample: list
    refused: list
    closed: list
    files: dict
    kept: str | None = None  # a line before, whose files are kept
    sql: str | None = None  # what makes the file `database`, of tools/tests/stores


NEVER = 2**64 - 1
FAULT, GONE = "fault Memory", "gone"
DAY_DONE = day(None)
DAY_WHOLE = [*DAY_DONE[0], *DAY_DONE[1]]


def session():
    """A session with a day's commands: an opening, the commands and a closing."""
    ways = [[FAULT, GONE], *([*answers, *found] for answers, found in map(day, range(len(DAY))))]
    files = {"day": "".join(f"{line}\n" for line in DAY), "office": "".join(f"{line}\n" for line in OFFICE)}
    kept = f"run office {NEVER} {NEVER} kept kept keep"
    return Trial(f"session day {NEVER} {NEVER} kept kept", DAY_WHOLE, ways, [[*DAY_DONE[0], GONE]], files, kept)


# Lives of which no command plays a part in what another does, but for the count.
LIVES = [["amd64", "arm64"], ["i386", "s390x"]]


def lives(skipped):
    """What two lives show, if for one of their commands, perhaps, memory runs out."""
    count, said, cuts, names = 0, [], [], []
    for at, life in enumerate(LIVES):
        said.append(f"opened {count} {1 + len(names)}")
        for name in life:
            if len(names) + sum(line == MEMORY for line in said) == skipped:
                said.append(MEMORY)
            else:
                count += 1
                names.append(name)
                said.append(accepted(count, "add-arch"))
        cuts.append(f"cut {count}")
    rest = [*cuts, "left 0", *(as_line(row) for row in rows(0, count, archs=sorted(names), builders=[]))]
    return [*said, *rest]


def two_lives():
    """Two lives of two commands each, over new files. The files come back also of a life that is refused, or that is
    not closed."""
    files = {f"life-{at}": "".join(f"add-arch {name} linux {name}\n" for name in life) for at, life in enumerate(LIVES)}
    first = [as_line(row) for row in rows(0, len(LIVES[0]), archs=sorted(LIVES[0]), builders=[])]
    begun = lives(None)[:3]
    refused = [
        [FAULT],
        [FAULT, "cut 0", "left 1", *map(as_line, EMPTY)],
        [*begun, FAULT, "cut 2", "cut 2", "left 0", *first],
    ]
    unclosed = [[*begun, "cut 2", "left 1", *first]]
    return Trial(
        f"lives {NEVER} {NEVER} life-0 life-1", lives(None), refused + [lives(at) for at in range(4)], unclosed, files
    )


def over(work, before, ample, refused):
    """An opening, or an opening and a closing, that shows what is found then."""
    files = {"lines": "".join(f"{line}\n" for line in before)}
    kept = f"run lines {NEVER} {NEVER} kept kept keep" if before else None
    ample, *refused = ([as_line(row) for row in found] for found in [ample, *refused])
    return Trial(f"{work} {NEVER} {NEVER} kept kept", ample, [[FAULT, *found] for found in refused], [], files, kept)


def upgrade():
    """An opening of a file of format 1, with the tables of both formats as they stand then."""
    both = ['arch "amd64" "linux" "amd64"', 'builder "b1" "amd64"']
    hello = '"amd64" "hello" 1 "1.0" "optional" "devel" 0 0 "b1" 1 "" "" "" ""'
    before = ["office 1 1 1 4", *both, "none source_record", f"source_state {hello} 263"]
    after = ["office 1 2 1 4", *both, f"source_record {hello} 0 348263"]
    line = f"open {NEVER} {NEVER} kept kept unopened"
    return Trial(line, after, [[FAULT, *before]], [[FAULT, *after]], {}, "begin database", "format-1.sql")


TRIALS = {
    "session": session(),
    "lives": two_lives(),
    "first-opening": over("open", [], EMPTY, [EMPTY]),
    "opening": over("open", HELD, HANDED, [HANDED]),
    "upgrade": upgrade(),
    "opening-and-closing": over("close", HELD, HANDED, [HANDED]),
}

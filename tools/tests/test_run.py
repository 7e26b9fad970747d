#!/usr/bin/env python3
"""Tests of `wb run` where its answers alone do not show what is wanted, each in a folder of its own: what is kept of a
source package after lines in a row, read by sqlite3; an office whose counts are at their limit; a run whose reads or
writes fail in the middle; what the program is started for, and what is said of a malformed argument; queries and
reports, as lines and as words of the program itself.

    tools/tests/test_run.py [NAME..]     these tests, or all

From the environment: WB is the program, ./wb of this repository where it is not set. All that is wanted was written by
hand from docs/PROTOCOL.md, none by the program.
"""
import contextlib
import fcntl
import os
import shutil
import signal
import socket
import struct
import subprocess
import sys
import termios
import time
from pathlib import Path

import query_cases
from harness import ROOT, WAIT, WB, answers_of, expect, limit_files, main, run
from store_runs import edit, rows_of

# ---- what is kept

STATES = (
    "Needs-Build Building Built Uploaded Installed Dep-Wait BD-Uninstallable Failed Not-For-Us Build-Attempted".split()
)
FIELDS = (
    "arch source state version priority section earlier number holder take waits depends note message build_priority"
).split()

# The lists that the lines name.
LISTS = {
    "sources": "Package: ss\nVersion: 1.0\nArchitecture: any\nPriority: extra\nSection: net\n"
    "Build-Depends: debhelper-compat (= 13), libx-dev (>= 2) [linux-any],\n"
    " libz-dev [arm64] | libz2-dev [arm64], gcc:native <!nocheck>,"
    " doxygen <doc>\n"
    "Build-Depends-Arch: liby-dev\n",
    "newer": "Package: ss\nVersion: 1.1\nArchitecture: any\n",
    "broken": "Package: ss\nVersion: 1.2\nArchitecture: any\nBuild-Depends: aa (1)\n",
    "before": "Package: libx-dev\nVersion: 2~rc1\nArchitecture: amd64\n",
    "packages": "Package: libx-dev\nVersion: 2\nArchitecture: all\n",
    "built": "Package: ss\nVersion: 1.0\nArchitecture: amd64\n",
    "newly-built": "Package: ss\nVersion: 1.1\nArchitecture: amd64\n",
    "rebuilt": "Package: ss-bin\nSource: ss (1.0)\nVersion: 1.0+b3\nArchitecture: amd64\n",
}

# What is kept of a source package that waits for a builder as the list `newer` has it, and as `sources` has it.
BARE = {
    "arch": "amd64", "source": "ss", "state": "Needs-Build", "version": "1.1", "priority": "", "section": "",
    "earlier": 0, "number": 0,
}
BARE |= {"holder": None, "take": None, "waits": "", "depends": "", "note": "", "message": "", "build_priority": 0}
LISTED = {**BARE, "version": "1.0", "priority": "extra", "section": "net"}
LISTED |= {"depends": "debhelper-compat (= 13), libx-dev (>= 2), gcc:native, liby-dev"}

BEGIN = ["add-arch amd64 linux amd64", "add-builder b1 amd64"]

# Lines in a row, and what is kept of `ss` after them.
WAITS = [
    (
        [
            *BEGIN, "enter amd64 ss 1.0 optional devel", "next amd64 b1",
            "waits 1 libx-dev (>= 2) [any], libw-dev [i386]",
        ],
        {
            **BARE, "state": "Dep-Wait", "version": "1.0", "priority": "optional", "section": "devel",
            "waits": "libx-dev (>= 2)",
        },
    ),
    (["merge sources amd64=before"], {**LISTED, "state": "Dep-Wait", "waits": "libx-dev (>= 2)"}),
    (["merge sources amd64=packages"], LISTED),
    (["fail amd64 ss 1.0 no space"], {**LISTED, "state": "Failed", "note": "no space"}),
    (["merge sources amd64=packages"], {**LISTED, "state": "Failed", "note": "no space"}),
    (["dep-wait amd64 ss 1.0 libx-dev"], {**LISTED, "state": "Dep-Wait", "waits": "libx-dev"}),
    (["not-for-us amd64 ss 1.0 x86 only"], {**LISTED, "state": "Not-For-Us", "note": "x86 only"}),
    (["merge newer amd64=packages"], {**BARE, "state": "Not-For-Us", "note": "x86 only"}),
    (["give-back amd64 ss 1.1"], BARE),
]

# The same of a source package that is built, rebuilt and superseded.
REASON = "against the new libbar"
REBUILDS = [
    ([*BEGIN, "merge sources amd64=built"], {**LISTED, "state": "Installed", "earlier": 1}),
    ([f"rebuild amd64 ss 1.0 2 {REASON}"], {**LISTED, "earlier": 1, "number": 2, "message": REASON}),
    (
        ["next amd64 b1", "put-back 1", "merge sources amd64=built"],
        {**LISTED, "earlier": 1, "number": 2, "message": REASON},
    ),
    (["merge sources amd64=rebuilt"], {**LISTED, "state": "Installed", "earlier": 1, "number": 3, "message": REASON}),
    (["merge sources amd64=before"], {**LISTED, "earlier": 1, "number": 3, "message": REASON}),
    (["merge newer amd64=built"], {**BARE, "earlier": 1}),
    (["merge broken amd64=before"], {**BARE, "version": "1.2", "earlier": 1, "depends": None}),
    (["merge sources amd64=before"], {**BARE, "version": "1.2", "earlier": 1, "depends": None}),
]

# The same of one whose build fails, and which is given build priorities.
ATTEMPTS = [
    (
        [*BEGIN, "merge sources amd64=before", "next amd64 b1", "attempted 1 cc died"],
        {**LISTED, "state": "Build-Attempted", "note": "cc died"},
    ),
    (
        ["merge sources amd64=before", "build-priority amd64 ss 1.0-0 -- -1000"],
        {**LISTED, "state": "Build-Attempted", "note": "cc died", "build_priority": -1000},
    ),
    (["merge newer amd64=before"], {**BARE, "build_priority": -1000}),
    (
        ["build-priority amd64 ss 1.1 1000", "next amd64 b1", "attempted 2"],
        {**BARE, "state": "Build-Attempted", "build_priority": 1000},
    ),
    (["merge newer amd64=newly-built"], {**BARE, "state": "Installed", "earlier": 1, "build_priority": 1000}),
    (["rebuild amd64 ss 1.1 1 again"], {**BARE, "earlier": 1, "number": 1, "message": "again", "build_priority": 1000}),
    (
        ["build-priority amd64 ss 1.1 +0", "merge newer amd64=before"],
        {**BARE, "earlier": 1, "number": 1, "message": "again"},
    ),
]


def in_a_row(folder, cases):
    """Runs the lines of each case over one store, and reads after each which records there are."""
    for name, text in LISTS.items():
        (folder / name).write_text(text)
    for lines, wanted in cases:
        status, said = run(folder, lines)
        expect(status == 0, f"{lines}: status {status} with {said}")
        rows = rows_of(folder, f"SELECT {', '.join(FIELDS)} FROM source_record")
        met = [{**dict(zip(FIELDS, row)), "state": STATES[row[2]]} for row in rows]
        expect(met == [wanted], f"{lines}: kept is {met} in place of {wanted}")
    return f"{len(cases)} cases"


def keeps_waits_and_notes(folder):
    return in_a_row(folder, WAITS)


def keeps_rebuilds(folder):
    return in_a_row(folder, REBUILDS)


def keeps_attempts_and_priorities(folder):
    return in_a_row(folder, ATTEMPTS)


# ---- counts at their limit

LIMIT = 1000000000000

# The lines after which b1 builds `held`, under one take number more, and `waiting` waits: five are accepted.
SETUP = [
    *BEGIN, "enter amd64 held 1.0 optional devel", "enter amd64 waiting 1.0 optional devel", "take amd64 b1 held 1.0",
]

SPENT = '{"code":18,"refused":"Spent"}'
AGAIN = (
    '{"accepted":1000000000000,"arch":"amd64","build":"1.0","message":"","number":0,"ok":"again","source":"held",'
    '"take":1000000000000,'
)
AGAIN += '"version":"1.0"}'

# Lines to an office of which both counts are at their limit, and what each is answered.
AT_LIMIT = [
    ("add-arch arm64 linux arm64", SPENT),
    ("add-builder b2 amd64", SPENT),
    ("enter amd64 hello 1.0 optional devel", SPENT),
    ("next amd64 b1", SPENT),
    ("next amd64 b1 --after 0", AGAIN),
    ("next amd64 b1 --after 1000000000000", SPENT),
    ("take amd64 b1 waiting 1.0", SPENT),
    ("built 1000000000000", SPENT),
    ("uploaded 1000000000000", SPENT),
    ("waits 1000000000000 libx-dev", SPENT),
    ("put-back 1000000000000", SPENT),
    ("give-back amd64 held 1.0", SPENT),
    ("dep-wait amd64 held 1.0 libx-dev", SPENT),
    ("fail amd64 held 1.0", SPENT),
    ("not-for-us amd64 held 1.0", SPENT),
    ("merge sources amd64=packages", SPENT),
    ("rebuild amd64 held 1.0 1", '{"code":6,"refused":"WrongState","state":"Building"}'),
]

# Lines in a row to an office that has given all take numbers, and what each is answered.
TAKES_AT_LIMIT = [
    ("next amd64 b1", SPENT),
    ("take amd64 b1 waiting 1.0", SPENT),
    ("built 1000000000000", '{"accepted":6,"ok":"built"}'),
    ("next amd64 b1 --after 1000000000001", '{"code":9,"handed":1000000000000,"refused":"AfterAhead"}'),
]


def at_limit(folder, accepted, cases):
    """What an office answers that has given all take numbers but one and accepted as many commands, after the lines of
    the setup."""
    (folder / "sources").write_text("Package: held\nVersion: 1.0\nArchitecture: any\n")
    (folder / "packages").write_text("")
    expect(answers_of(folder, []) == [], "answers to nothing")
    edit(folder / "store", f"UPDATE office SET handed = {LIMIT - 1}, accepted = {accepted}")
    counts = [answer.get("accepted") for answer in answers_of(folder, SETUP)]
    expect(counts == [accepted + count for count in (1, 2, 3, 4, 5)], f"the setup is answered {counts}")
    answers = run(folder, [line for line, _ in cases])[1].decode().splitlines()
    met = dict(zip((line for line, _ in cases), answers))
    differ = [f"{line}: {met.get(line)} in place of {wanted}" for line, wanted in cases if met.get(line) != wanted]
    expect(len(answers) == len(cases) and not differ, f"{len(answers)} answers; {'; '.join(differ)}")


def refuses_at_the_limit_of_counts(folder):
    at_limit(folder, LIMIT - 5, AT_LIMIT)


def refuses_at_the_limit_of_take_numbers(folder):
    at_limit(folder, 0, TAKES_AT_LIMIT)


# ---- names, ranks, and waits that are met

# Names of each form, which are accepted, and names of none, which are not. A name with a blank or a leading hyphen is
# no word of a line.
GOOD_NAMES = {
    "arch": ["s390x", "kfreebsd-i386", "any-any", "x", "a" * 40],
    "word": ["linux", "hurd", "a1", "a" * 20],
    "builder": ["buildd_x86-01.debian.org", "B1", "b" * 64],
    "source": ["hello", "0ad", "libsigc++-2.0", "ab", "s" * 200],
    "label": ["non-free/libs", "optional", "!", "~", "l" * 64],
}
BAD_NAMES = {
    "arch": ["all", "any", "source", "AMD64", "amd_64", "a" * 41],
    "word": ["any", "gnu-linux", "Linux", "a" * 21],
    "builder": ["_b", ".b", "b/1", "b" * 65],
    "source": ["a", "+ab", ".ab", "Hello", "a_b", "s" * 201],
    "label": ["\u00e9", "\u007f", "l" * 65],
}

# For each form the lines that have a name of it, with a number that no other line has.
NAMED = {
    "arch": ["add-arch {name} linux amd64"],
    "word": ["add-arch new{at} {name} amd64", "add-arch new{at} linux {name}"],
    "builder": ["add-builder {name} amd64"],
    "source": ["enter amd64 {name} 1.0 optional devel"],
    "label": ["enter amd64 new{at} 1.0 {name} devel", "enter amd64 new{at} 1.0 optional {name}"],
}


def named(names):
    """The lines with names of each form."""
    cases = [(pattern, name) for form, patterns in NAMED.items() for pattern in patterns for name in names[form]]
    return [pattern.format(name=name, at=at) for at, (pattern, name) in enumerate(cases)]


def refuses_malformed_names(folder):
    """Names of each form at their limits are accepted, and all others refused."""
    good, bad = named(GOOD_NAMES), named(BAD_NAMES)
    answers = answers_of(folder, [BEGIN[0], *good, *bad], None)[1:]
    for line, answer in zip(good + bad, answers):
        met = answer.get("ok", answer)
        wanted = line.split()[0] if line in good else {"code": 11, "refused": "BadName"}
        expect(met == wanted, f"{line}: {answer} in place of {wanted}")
    return f"{len(good)} good lines and {len(bad)} bad ones"


# Build priorities, whether a package was built earlier, priorities and sections, and the ranks of records that have
# them.
RANKS = [
    (0, 1, "optional", "libs", 348087),
    (0, 1, "optional", "devel", 348089),
    (0, 1, "optional", "non-free/devel", 348089),
    (0, 1, "extra", "games", 348143),
    (0, 0, "required", "libs", 348174),
    (5, 1, "optional", "devel", 346349),
    (-5, 1, "optional", "devel", 349829),
    (-1000, 0, "required", "libs", 696174),
    (1000, 1, "required", "libs", 0),
    (-1000, 0, "", "", 696347),
]


def keeps_ranks(folder):
    """A record that sqlite3 gives a rank is taken with the rank of its priorities, and with no other."""
    answers_of(folder, [*BEGIN, "enter amd64 aa 1.0 optional devel"])
    fields = "build_priority = {}, earlier = {}, priority = '{}', section = '{}', rank = {}"
    for *values, rank in RANKS:
        for other in (rank, rank + 1):
            edit(folder / "store", f"UPDATE source_record SET {fields.format(*values, other)}")
            status, said = run(folder, [])
            wanted = (0, b"") if other == rank else (3, b'{"fault":"store","store":"Damaged"}\n')
            expect((status, said) == wanted, f"{values} with the rank {other}: status {status}, {said}")
    return f"{len(RANKS)} ranks"


# Lines in a row over the lists of an example, a word of the answer to the last of them, and the queue after it, with
# the rank of each record.
EARLIER = [("nn", 348087), ("mm", 348089), ("zz", 348143)]
IN_RANKS = [
    ([*BEGIN, "merge sources amd64=packages"], "merge", [*EARLIER, ("aa", 348174)]),
    (["build-priority amd64 aa 2.0 5"], "build-priority", [("aa", 346434), *EARLIER]),
    (["build-priority amd64 aa 2.0 1001"], "BadNumber", [("aa", 346434), *EARLIER]),
    (["build-priority amd64 aa 2.0 -- -1000"], "build-priority", [*EARLIER, ("aa", 696174)]),
    (["merge sources-3 amd64=packages"], "merge", [*EARLIER, ("aa", 696174)]),
]


def ranks_follow_build_priorities(folder):
    """The table and the queue have the records of a merge in the order of their ranks, and so it is after each build
    priority."""
    for name in ("sources", "sources-3", "packages"):
        shutil.copy(ROOT / "examples/build-priorities" / name, folder)
    for lines, wanted, ranks in IN_RANKS:
        *_, last, asked = answers_of(folder, [*lines, "queue amd64"])
        expect(wanted in last.values(), f"{lines}: the last is answered {last}")
        rows = rows_of(folder, "SELECT source, rank FROM source_record ORDER BY rank")
        expect(rows == ranks, f"{lines}: the ranks are {rows}")
        queue = [entry["source"] for entry in asked["queue"]]
        expect(queue == [name for name, _ in ranks], f"{lines}: the queue is {queue}")
    return f"{len(IN_RANKS)} queues"


# What is available, and relations with what a merge makes of a package that waits for them.
AVAILABLE = (
    "Package: libx-dev\nVersion: 2~rc1\nArchitecture: amd64\n\nPackage: foo\nVersion: 1.0-1\nArchitecture: all\n\n"
)
AVAILABLE += "Package: libx-dev\nVersion: 1\nArchitecture: amd64\n"
LISTED_AS = "Version: 1.0\nArchitecture: any\nPriority: optional\nSection: devel\n"
MET = [
    "libx-dev", "libx-dev (<= 1)", "foo (= 1.0-1), libx-dev (>> 1)", "bar | foo", "foo:any [amd64] <!x>",
    "libx-dev (<< 2)",
]
UNMET = ["libx-dev (>= 2)", "libx-dev (<< 1)", "foo (>> 1.0-1)", "foo, bar", "bar", "libx-dev (= 2)"]


def ends_waits_that_are_met(folder):
    """A merge puts a package back that waits for what is available, and no other."""
    texts = MET + UNMET
    names = [f"s{at:02}" for at in range(len(texts))]
    (folder / "sources").write_text("\n".join(f"Package: {name}\n{LISTED_AS}" for name in names))
    (folder / "packages").write_text(AVAILABLE)
    lines = [f"enter amd64 {name} 1.0 optional devel" for name in names]
    lines += [f"dep-wait amd64 {name} 1.0 {text}" for name, text in zip(names, texts)]
    answers = answers_of(folder, [*BEGIN, *lines, "merge sources amd64=packages"])
    part = {"added": 0, "arch": "amd64", "changed": len(MET), "kept": len(UNMET), "removed": 0}
    expect(answers[-1].get("parts") == [part], f"the merge is answered {answers[-1]}")
    rows = rows_of(folder, "SELECT source, state FROM source_record ORDER BY source")
    wanted = [(name, STATES.index("Needs-Build" if text in MET else "Dep-Wait")) for name, text in zip(names, texts)]
    expect(rows == wanted, f"{rows} in place of {wanted}")
    return f"{len(texts)} relations"


# ---- reads and writes that fail

LINES = b"add-arch amd64 linux amd64\nadd-builder b1 amd64\n\nnext amd64 b1"
REPLIES = [
    b'{"accepted":1,"ok":"add-arch"}\n', b'{"accepted":2,"ok":"add-builder"}\n', b'{"code":7,"refused":"QueueEmpty"}\n',
]
LARGE = 1 << 26  # bytes, far more than a store of this size has
STORED = [WB, "--store", "store", "run"]


def accepted_in(folder):
    return rows_of(folder, "SELECT accepted FROM office")[0][0]


def wait_until(holds, process, what):
    """Waits until it holds, or until the process has ended."""
    end = time.monotonic() + WAIT
    while process.poll() is None and not holds():
        expect(time.monotonic() < end, f"no {what} in {WAIT} seconds")
        time.sleep(0.0002)


def waiting(file, what):
    """How many bytes wait in a pipe to be read (FIONREAD), or were sent to a socket and are not read yet (TIOCOUTQ)."""
    return struct.unpack("i", fcntl.ioctl(file, what, bytes(4)))[0]


def read_by_bytes(folder, data, fails):
    """The status and the answers of a run of which each read gives the next byte of these, and the read after them
    fails or is at the end."""
    ours, theirs = socket.socketpair()
    with contextlib.ExitStack() as stack:
        stack.enter_context(ours)
        if fails:
            theirs.send(b"x")  # what is closed with a byte unread fails the other end's next read
        with theirs:
            process = subprocess.Popen(STORED, cwd=folder, stdin=theirs, stdout=subprocess.PIPE, stderr=subprocess.PIPE)
        stack.enter_context(process)
        stack.callback(process.kill)
        for at in range(len(data)):
            ours.send(data[at : at + 1])
            wait_until(lambda: waiting(ours, termios.TIOCOUTQ) == 0, process, "read")
        ours.close()
        said, _ = process.communicate(timeout=WAIT)
        return process.returncode, said


def stops_at_each_read_that_fails(folder):
    """The run stops with 3, and the lines before the one that is cut off were answered and stand."""
    for count in range(len(LINES) + 1):
        (folder / str(count)).mkdir()
        status, said = read_by_bytes(folder / str(count), LINES[:count], True)
        ended = min(LINES[:count].count(b"\n"), 2)
        met = (status, said, accepted_in(folder / str(count)))
        expect(met == (3, b"".join(REPLIES[:ended]), ended), f"after {count} bytes: {met}")
    met = (*read_by_bytes(folder, LINES, False), accepted_in(folder))
    expect(met == (1, b"".join(REPLIES), 2), f"no failure: {met}")
    return f"{len(LINES) + 1} reads"


def stops_at_each_write_that_fails(folder):
    """On a disk that is full after so many bytes the run stops with 3, these bytes were written, and the line at work
    stands."""
    whole = b"".join(REPLIES)
    for room in range(len(whole) + 1):
        (folder / str(room)).mkdir()
        with open(folder / str(room) / "said", "w+b") as said:
            said.truncate(LARGE - room)  # a file with a hole, which may grow by the room
            said.seek(LARGE - room)
            limit, pipe = limit_files(LARGE), subprocess.PIPE
            words = {
                "input": LINES, "stdout": said, "stderr": pipe, "timeout": WAIT, "preexec_fn": limit, "check": False,
            }
            done = subprocess.run(STORED, cwd=folder / str(room), **words)
            said.seek(LARGE - room)
            met = (done.returncode, said.read(), accepted_in(folder / str(room)))
        wanted = (1 if room == len(whole) else 3, whole[:room], 1 if room < len(REPLIES[0]) else 2)
        expect(met == wanted, f"with room for {room}: {met} in place of {wanted}")
    return f"{len(whole)} writes"


def stops_at_files_that_cannot_be_used(folder):
    """An input that is a folder or cannot be read, and an output that is full, cannot be written or has no reader."""
    (folder / "lines").write_bytes(LINES)
    reading, writing = os.pipe()
    os.close(reading)
    with contextlib.ExitStack() as stack:
        here = os.open(folder, os.O_RDONLY)
        only_written = os.open(folder / "only-written", os.O_WRONLY | os.O_CREAT)
        full = os.open("/dev/full", os.O_WRONLY)
        for number in (here, only_written, full, writing):
            stack.callback(os.close, number)
        inputs = [("a folder as input", here, None), ("an input that cannot be read", only_written, None)]
        outputs = [
            ("a full disk", None, full), ("an output that cannot be written", None, here),
            ("an output without reader", None, writing),
        ]
        for what, given, taken in inputs + outputs:
            for name in folder.glob("store*"):
                name.unlink()
            with open(folder / "lines", "rb") as lines:
                done = subprocess.run(
                    STORED,
                    cwd=folder,
                    stdin=lines if given is None else given,
                    stdout=subprocess.PIPE if taken is None else taken,
                    stderr=subprocess.PIPE,
                    timeout=WAIT,
                    restore_signals=False,  # a write without reader fails and is no signal
                    check=False,
                )
            met = (done.returncode, done.stdout or b"", accepted_in(folder))
            expect(met == (3, b"", 0 if taken is None else 1), f"{what}: {met}")


def state_of(process):
    """The state of a process as the system shows it: S where it waits for something, T where it was stopped."""
    return Path(f"/proc/{process.pid}/stat").read_text(encoding="ascii").rpartition(")")[2].split()[0]


def goes_on_after_short_writes(folder):
    """Answers to a pipe with room for 4 KB, the last of them of 11 KB. The program is stopped for a moment wherever it
    waits for room, which ends the write with the bytes that were taken: all is written nevertheless."""
    names = [f"arch{at:03}" for at in range(170)]
    lines = [f"add-arch {name} linux {name}" for name in names] + [
        "merge none " + " ".join(f"{name}=none" for name in names)
    ]
    (folder / "lines").write_text("".join(f"{line}\n" for line in lines))
    (folder / "none").write_text("")
    front = "".join(f'{{"accepted":{at + 1},"ok":"add-arch"}}\n' for at in range(170))
    parts = ",".join(f'{{"added":0,"arch":"{name}","changed":0,"kept":0,"removed":0}}' for name in names)
    wanted = f'{front}{{"accepted":171,"ok":"merge","parts":[{parts}]}}\n'
    reading, writing = os.pipe()
    fcntl.fcntl(writing, 1031, 4096)  # F_SETPIPE_SZ, which Python 3.9 does not name
    said, cuts = b"", 0
    with open(reading, "rb", buffering=0) as answers, open(
        folder / "lines", "rb"
    ) as given, contextlib.ExitStack() as stack:
        process = stack.enter_context(
            subprocess.Popen([WB, "run"], cwd=folder, stdin=given, stdout=writing, stderr=subprocess.DEVNULL)
        )
        stack.callback(process.kill)
        os.close(writing)
        while True:
            wait_until(lambda: state_of(process) in "SZ", process, "wait for room")
            if process.poll() is None:
                cuts += len(said) + waiting(answers, termios.FIONREAD) > len(front)
                process.send_signal(signal.SIGSTOP)
                wait_until(lambda: state_of(process) in "TZ", process, "stop")
                process.send_signal(signal.SIGCONT)
            part = answers.read(65536)
            if not part:
                break
            said += part
        status = process.wait(timeout=WAIT)
    expect(
        (status, said) == (0, wanted.encode()),
        f"status {status}, {len(said)} bytes in place of {len(wanted)}: {said[-200:]}",
    )
    expect(cuts > 0, "no write was cut")
    return f"{cuts} writes of one answer were cut"


# ---- words

# Lines of which one argument is malformed, and what is said of it on standard error.
MALFORMED = [
    ("next amd64 b1 --after x", "N of --after is x, and has to be a whole number from 0 to 18446744073709551615"),
    ("built 1.5", "TAKE is 1.5, and has to be a whole number from 0 to 18446744073709551615"),
    (
        "waits 18446744073709551616 libfoo",
        "TAKE is 18446744073709551616, and has to be a whole number from 0 to 18446744073709551615",
    ),
    ("put-back -- -1", "TAKE is -1, and has to be a whole number from 0 to 18446744073709551615"),
    (
        "rebuild amd64 hello 1.0 one new libc",
        "NUMBER is one, and has to be a whole number from 0 to 18446744073709551615",
    ),
    (
        "build-priority amd64 hello 1.0 five",
        "VALUE is five, and has to be an integer from -9223372036854775808 to 9223372036854775807",
    ),
    (
        "build-priority amd64 hello 1.0 -9223372036854775809",
        "VALUE is -9223372036854775809, and has to be an integer from -9223372036854775808 to 9223372036854775807",
    ),
    ("merge Sources amd64", "PART is amd64, and has to be ARCH=PACKAGESFILE"),
    ("merge Sources amd64=Packages i386 arm64", "PART is i386, and has to be ARCH=PACKAGESFILE"),
]


def started(folder, *words, lines=""):
    """The status, standard output and standard error of the program with these words."""
    done = subprocess.run(
        [WB, *words], cwd=folder, input=lines.encode(), capture_output=True, timeout=WAIT, check=False
    )
    return done.returncode, done.stdout.decode(), done.stderr.decode()


def names_malformed_arguments(folder):
    """Each malformed argument is named with its line; of other words `clap` says what is wrong."""
    wanted = "".join(f"wb: line {at + 1}: {said}\n" for at, (_, said) in enumerate(MALFORMED))
    met = started(folder, "run", lines="".join(f"{line}\n" for line, _ in MALFORMED))
    expect(met == (2, len(MALFORMED) * '{"fault":"line"}\n', wanted), f"{met} in place of {wanted!r}")
    options = ("build-priority amd64 -5 1.0 5", "build-priority amd64 hello 1.0 -5x", "rebuild amd64 hello 1.0 -1")
    for line in ("-- built 1", "built", "built 1 2", "buil 1", *options):
        status, answer, said = started(folder, "run", lines=line)
        expect(
            (status, answer) == (2, '{"fault":"line"}\n') and said.startswith("wb: line 1: error: "),
            f"{line}: {status}, {answer!r}, {said!r}",
        )


def starts_by_its_words(folder):
    """A run in memory, a run over a file, help in three forms, and words that start nothing."""
    expect(started(folder, "run", lines=BEGIN[0]) == (0, REPLIES[0].decode(), ""), "run")
    expect(list(folder.iterdir()) == [], "a run in memory makes a file")
    begins = "wb: office.db was empty or not there: a new office begins in it\n"
    expect(
        started(folder, "--store", "office.db", "run", lines=BEGIN[0]) == (0, REPLIES[0].decode(), begins),
        "run over a new file",
    )
    expect((folder / "office.db").stat().st_size > 0, "the run over a file makes none")
    met = started(folder, "--store", "office.db", "run", lines=BEGIN[1])
    expect(met == (0, REPLIES[1].decode(), ""), f"run over the file again: {met}")
    helps = {started(folder, word) for word in ("help", "--help", "-h")}
    status, said, more = helps.pop()
    expect(not helps and (status, more) == (0, "") and "\nUsage:\n" in said, f"help: {status}, {said!r}, {more!r}")
    for words in (["serve"], ["--store"]):
        status, said, more = started(folder, *words)
        expect(
            (status, said) == (2, '{"fault":"line"}\n') and more.startswith("error: "),
            f"{words}: {status}, {said!r}, {more!r}",
        )


# ---- queries and reports

NEW = "wb: store was empty or not there: a new office begins in it\n"


def files_of(folder):
    """The bytes of the store and its log, and when they were written."""
    return {
        path.name: (path.read_bytes(), path.stat().st_mtime_ns)
        for path in folder.glob("store*")
        if path.suffix != ".lock"
    }


def answers_queries(folder):
    """Each query, as a line of a run and as words of the program, is answered the same bytes, and no byte of a file is
    written."""
    (folder / "lines").mkdir()
    status, said = run(folder / "lines", query_cases.FIVE + [line for line, _, _, _ in query_cases.QUERIES])
    answers = said.decode().splitlines()[len(query_cases.FIVE) :]
    for (line, _, _, wanted), met in zip(query_cases.QUERIES, answers, strict=True):
        expect(met == wanted, f"{line}: {met} in place of {wanted}")
    expect(status == 1, f"status {status}")
    run(folder, query_cases.FIVE)
    run(folder, [])  # which puts the log into the file
    before = files_of(folder)
    for line, _, kind, wanted in query_cases.QUERIES:
        met = started(folder, "--store", "store", *line.split())
        expect(met == (0 if kind == 200 else 1, f"{wanted}\n", ""), f"words {line}: {met} in place of {wanted}")
        expect(files_of(folder) == before, f"words {line}: a file is another")
    return f"{len(answers)} queries"


def answers_build_dependencies(folder):
    (folder / "sources").write_text(query_cases.SOURCES)
    (folder / "none").write_text("")
    answers_of(folder, [*BEGIN, "merge sources amd64=none"])
    for line, _, wanted in query_cases.DEPENDS:
        met = started(folder, "--store", "store", *line.split())
        expect(met == (0, f"{wanted}\n", ""), f"{line}: {met} in place of {wanted}")


def takes_reports(folder):
    """Each report, as a line of a run and as words of the program, is answered the same bytes, and the record is the
    same then."""
    lines, wanted = query_cases.FIVE[:3], []
    for at, (arch, text, _, answer, item) in enumerate(query_cases.REPORTS):
        (folder / f"report-{at}").write_bytes(text.encode())
        lines = [*lines, f"report {arch} report-{at}", "item amd64 hello"]
        wanted += [answer, item]
    status, said = run(folder, [*lines, "summary amd64"], None)
    met = said.decode().splitlines()[3:]
    differ = [f"{line}: {one} in place of {other}" for line, one, other in zip(lines[3:], met, wanted) if one != other]
    expect(
        status == 1 and len(met) == len(wanted) + 1 and not differ,
        f"status {status}, {len(met)} answers; {'; '.join(differ)}",
    )
    expect(met[-1] == query_cases.COUNTED, f"summary: {met[-1]}")
    begins = [NEW] + [""] * len(lines)
    for line, answer, message in zip(lines, [None, None, None, *wanted], begins):
        words = started(folder, "--store", "store", *line.split())
        met = (0 if '"code"' not in words[1] else 1, f"{answer}\n" if answer else words[1], message)
        expect(words == met, f"words {line}: {words} in place of {met}")
    return f"{len(query_cases.REPORTS)} reports"


def refuses_reports_that_cannot_be_read(folder):
    """A report that is not there, is a folder or is not UTF-8 is a file fault, found before the office is asked, and
    the run goes on."""
    (folder / "folder").mkdir()
    (folder / "latin").write_bytes(b"hello 1.0 uninstallable gr\xf6\xdfer\n")
    (folder / "good").write_bytes(b"hello 1.0 uninstallable x\n")
    names = ["nowhere", "folder", "latin"]
    lines = [*query_cases.FIVE[:3], *[f"report AMD64 {name}" for name in names], "report amd64 good"]
    status, said = run(folder, lines)
    met = said.decode().splitlines()[3:]
    expect(
        (status, met) == (3, ['{"fault":"file"}'] * 3 + ['{"accepted":4,"changed":1,"ok":"report"}']),
        f"status {status}: {met}",
    )
    for name in names:
        status, said, more = started(folder, "--store", "store", "report", "amd64", name)
        expect(
            (status, said) == (3, '{"fault":"file"}\n') and more.startswith(f"wb: {name}: "),
            f"{name}: {status}, {said!r}, {more!r}",
        )


def asks_with_the_words_of_each_query(folder):
    """A query with a word less or more is a line fault, as a line and as words; words of the program are taken as they
    are."""
    answers_of(folder, query_cases.FIVE)
    for line in [query for query, _, status, _ in query_cases.QUERIES if status == 200] + ["report amd64 none"]:
        given = line.split()
        fewer = [given[:-1], [*given[:-1], "-x"]] if len(given) > 1 else [[*given, "-x"]]
        for words in ([*given, "more"], *fewer):
            status, said = run(folder, [" ".join(words)])
            expect((status, said) == (2, b'{"fault":"line"}\n'), f"{words}: {status}, {said}")
            status, said, more = started(folder, "--store", "store", *words)
            expect(
                (status, said) == (2, '{"fault":"line"}\n') and "error: " in more,
                f"words {words}: {status}, {said!r}, {more!r}",
            )
    for words in (
        ["queue", ""], ["by-state", "amd64", "Needs Build"], ["by-state", "amd64", ""], ["mine", "b 1"],
        ["item", "amd64", "--", "-x"],
    ):
        met = started(folder, "--store", "store", *words)
        expect(met == (1, f"{query_cases.BAD_NAME}\n", ""), f"words {words}: {met}")
    expect(started(folder, "--store", "store", "mine", "--", "b1")[0] == 0, "a word after --")


TESTS = [
    keeps_waits_and_notes, keeps_rebuilds, keeps_attempts_and_priorities, refuses_at_the_limit_of_counts,
    refuses_at_the_limit_of_take_numbers,
]
TESTS += [
    stops_at_each_read_that_fails, stops_at_each_write_that_fails, stops_at_files_that_cannot_be_used,
    goes_on_after_short_writes,
]
TESTS += [
    refuses_malformed_names, keeps_ranks, ranks_follow_build_priorities, ends_waits_that_are_met,
    names_malformed_arguments, starts_by_its_words,
]
TESTS += [
    answers_queries, answers_build_dependencies, takes_reports, refuses_reports_that_cannot_be_read,
    asks_with_the_words_of_each_query,
]
if __name__ == "__main__":
    sys.exit(main(TESTS))
